/* 01, Commands: 02. Byte i goes to offset (a + i) mod 256 of the page; at the end the last one there counts. */
#include "jig.h"
#include "rules.h"

#include <string.h>

/* The page after the program, by 01's words: lay the bytes one by one, then AND what was reached. */
static void want_program(uint32_t address, const uint8_t *sent, size_t n, int erased)
{
    uint32_t page = address / PAGE * PAGE, a = address % PAGE, k;
    uint8_t last[PAGE], reached[PAGE];
    int past_the_end = 0;
    size_t i;

    memset(reached, 0, sizeof reached);
    for (i = 0; i < n; i++) {
        last[(a + i) % PAGE] = sent[i];
        reached[(a + i) % PAGE] = 1;
        past_the_end |= a + i >= PAGE;
    }
    want_fold(past_the_end);
    for (k = 0; k < PAGE; k++)
        if (reached[k])
            want_cells(page + k, 1, (uint8_t)((erased ? 0xFF : cell(page + k)) & last[k]));
}

/* Bytes that differ from those 255, 256 and 257 places on. */
static uint8_t sent_byte(size_t i)
{
    return (uint8_t)(i * 3 + (i >> 8) * 17 + (i >> 4) * 29 + 0x41);
}

static void program_at(uint32_t model, uint32_t address, size_t n, int erased)
{
    struct condition busy = enabled;
    uint32_t inside = address % size_of(model);
    const char *label = named("model %lu: 02 at %06lX, %lu data bytes, %s page", (unsigned long)model,
                              (unsigned long)address, (unsigned long)n, erased ? "erased" : "written");
    size_t i;

    busy.busy_us = bench(model).page_us;
    jig_model(model);
    jig_state(enabled);
    jig_addressed(0x02, address, n, 0);
    for (i = 0; i < n; i++)
        given.frame[4 + i] = sent_byte(i);
    if (erased)
        jig_cells(inside / PAGE * PAGE, PAGE, 0xFF);
    want_program(inside, given.frame + 4, n, erased);
    want_state(busy);
    frame_gives(0, label);
    completes(power_on, label);
}

/* Up to the page's end, one byte past it, once and twice around, and the longest. */
static void lengths_at(uint32_t model, uint32_t address)
{
    static const size_t lengths[] = {1, 2, 3, 255, 256, 257, 258, 296, 511, 512, 513, 4096, 65535, 65536, 65537};
    size_t to_end = PAGE - address % PAGE, i;

    for (i = 0; i < sizeof lengths / sizeof lengths[0]; i++) {
        program_at(model, address, lengths[i], 0);
        program_at(model, address, lengths[i], 1);
    }
    program_at(model, address, to_end, 0);
    program_at(model, address, to_end + 1, 0);
    program_at(model, address, to_end + PAGE, 1);
    program_at(model, address, to_end + PAGE + 1, 1);
}

/* First, inner and last pages of sectors, blocks and the array, and images above it. */
static void places(uint32_t model)
{
    static const uint32_t pages[] = {0x000000, 0x000F00, 0x001000, 0x00FF00, 0x010000, 0x02FF00, 0x03FF00,
                                     0x040000, 0x800000, 0xFFFF00};
    static const uint32_t offsets[] = {0, 1, 128, 254, 255};
    size_t i, k;

    for (i = 0; i < sizeof pages / sizeof pages[0]; i++)
        for (k = 0; k < sizeof offsets / sizeof offsets[0]; k++)
            lengths_at(model, pages[i] + offsets[k]);
}

static void every_offset(uint32_t model)
{
    uint32_t a;

    for (a = 0; a < PAGE; a++) {
        program_at(model, 0x3300 + a, PAGE - a, 1);
        program_at(model, 0x3300 + a, PAGE - a + 1, 1);
        program_at(model, 0x3300 + a, PAGE + 1, 1);
    }
}

/* New cell = old AND data, for every old and every data byte. */
static void every_pair(uint32_t model)
{
    struct condition busy = enabled;
    uint32_t old, k;

    busy.busy_us = bench(model).page_us;
    for (old = 0; old < 256; old++) {
        jig_model(model);
        jig_state(enabled);
        jig_cells(0x4500, PAGE, (uint8_t)old);
        jig_addressed(0x02, 0x4500, PAGE, 0);
        for (k = 0; k < PAGE; k++) {
            given.frame[4 + k] = (uint8_t)k;
            want_cells(0x4500 + k, 1, (uint8_t)(old & k));
        }
        want_state(busy);
        frame_gives(0, named("02 on cells %02lX", (unsigned long)old));
        completes(power_on, named("the end of 02 on cells %02lX", (unsigned long)old));
    }
}

void programming(void)
{
    uint32_t model;

    for (model = 1; model <= MODELS; model++) {
        places(model);
        every_offset(model);
        every_pair(model);
    }
}
