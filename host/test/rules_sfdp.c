/*
 * 02, Req 12: 5A on model 2. Three address bytes, one dummy, the table of the sheet (002 L530-534) from position 5; FF past
 * its end; the address as it was sent. On models 1 and 3 the byte is unknown.
 */
#include "jig.h"
#include "jig_sfdp.h"
#include "rules.h"

enum { TAILS = 8 };

static const char *labelled(const char *what, uint32_t address, size_t count, uint32_t tail)
{
    return named("%s: 5A at %06lX, %lu bytes, tail %lu", what, (unsigned long)address, (unsigned long)count,
                 (unsigned long)tail);
}

/* The dummy byte and those after it are fill, which does not matter. */
static void read_at(uint32_t address, size_t count, uint32_t tail, uint8_t fill)
{
    jig_model(2);
    jig_addressed(0x5A, address, 1 + count, fill);
    given.tail = tail;
    want_table(5, address);
    frame_gives(0, labelled("SFDP", address, count, tail));
}

/* From every place in the table and from some past it: up to its end, across it, and no byte at all. */
static void every_place(void)
{
    static const size_t counts[] = {0, 1, 2, 3, 8, 16, 64, 111, 112, 113, 255, 256, 257, 300};
    uint32_t address;
    size_t i;

    for (address = 0; address < SHEET_TABLE + 16; address++) {
        for (i = 0; i < sizeof counts / sizeof counts[0]; i++)
            read_at(address, counts[i], (uint32_t)(address + i) % TAILS, (uint8_t)(address * 3 + i));
        if (address <= SHEET_TABLE)
            read_at(address, SHEET_TABLE - address, 0, 0);
        read_at(address, 1, address % TAILS, 0xFF);
    }
}

/*
 * Nothing but FF from addresses that hold the table modulo the array, a page, a sector or a power of two; and beyond the
 * last address it does not begin again.
 */
static void far_places(void)
{
    static const uint32_t addresses[] = {
        0x000070, 0x0000FF, 0x000FFF, 0x00FFFF, 0x03FFFF, 0x040030, 0x07FFFF, 0x123456, 0x7FFFFF, 0xC00034, 0xFFFF00,
        0xFFFF90, 0xFFFFF0, 0xFFFFFD, 0xFFFFFE, 0xFFFFFF};
    static const size_t counts[] = {0, 1, 2, 3, 4, 112, 128, 300, 4096};
    size_t i, k;
    unsigned bit;

    for (i = 0; i < sizeof addresses / sizeof addresses[0]; i++)
        for (k = 0; k < sizeof counts / sizeof counts[0]; k++)
            read_at(addresses[i], counts[k], (uint32_t)(i + k) % TAILS, (uint8_t)(i * 17 + k));
    for (bit = 7; bit < 24; bit++)
        for (k = 0; k < SHEET_TABLE; k++)
            read_at((uint32_t)(1ul << bit | k), 4, (uint32_t)k % TAILS, 0);
}

static void longest_reads(void)
{
    static const uint32_t addresses[] = {0, 1, 0x30, 0x6F, 0x70, 0x040000, 0xFF0000, 0xFFFF90, 0xFFFFFF};
    size_t i;

    for (i = 0; i < sizeof addresses / sizeof addresses[0]; i++) {
        read_at(addresses[i], LONGEST_FRAME - 5, (uint32_t)i % TAILS, (uint8_t)i);
        read_at(addresses[i], 65535, 0, 0xFF);
    }
}

/* Under five bytes 14, with any tail; exactly five drive nothing; six one byte; 117 the whole table. */
static void lengths(void)
{
    static const size_t accepted[] = {5, 6, 7, 8, 116, 117, 118};
    uint32_t tail;
    size_t n, i;

    for (tail = 0; tail < TAILS; tail++) {
        for (n = 1; n < 5; n++) {
            jig_model(2);
            jig_state(n % 2 ? power_on : enabled);
            jig_filled(0x5A, n, (uint8_t)tail);
            given.tail = tail;
            frame_gives(14, labelled("too short", 0, n, tail));
        }
        for (i = 0; i < sizeof accepted / sizeof accepted[0]; i++)
            read_at(0, accepted[i] - 5, tail, (uint8_t)(i * 31));
    }
}

/* Whatever the status, WP#, the setting and the counts are: no WEL is needed, and nothing changes. */
static void any_state(void)
{
    unsigned k;

    for (k = 0; k < 128; k++) {
        const struct condition c = {k % 2, k / 4 % 4, k / 2 % 2, 0, 0, 0, 0};

        jig_model(2);
        jig_state(c);
        jig_wear(0, (uint32_t)given.wear_len, k / 64 ? GWO_WEAR_TOP : k);
        jig_addressed(0x5A, k, 1 + k, (uint8_t)k);
        given.tail = k % TAILS;
        given.wp = k / 16 % 2;
        given.strict = k / 32 % 2;
        want_table(5, k);
        frame_gives(0, labelled("any state", k, k, k % TAILS));
    }
}

/* A chip that settles, is busy or asleep, on each model: before 13 and 14; the same chip awake: 13 on models 1 and 3. */
static void refused(uint32_t model)
{
    static const struct condition settling = {0, 1, 1, 0, 0, 0, 3}, dozing = {0, 0, 0, 1, 0, 0, 10},
                                  busy = {0, 0, 1, 0, 7, 0, 0}, asleep = {1, 3, 1, 1, 0, 0, 0};
    static const size_t lengths[] = {1, 2, 3, 4, 5, 6, 117, 300};
    size_t i;
    unsigned k;

    for (i = 0; i < sizeof lengths / sizeof lengths[0]; i++)
        for (k = 0; k < 5; k++) {
            static const uint32_t numbers[5] = {22, 22, 11, 12, 13};
            const struct condition conditions[5] = {settling, dozing, busy, asleep, i % 2 ? power_on : enabled};

            if (k == 4 && model == 2)
                continue;
            jig_model(model);
            jig_state(conditions[k]);
            if (k == 2)
                jig_busy(busy, (unsigned)i % operations_of(model), 0x1234);
            jig_filled(0x5A, lengths[i], 0);
            given.tail = (uint32_t)(i + k) % TAILS;
            frame_gives(numbers[k], named("model %lu: 5A of %lu bytes, wanted %lu", (unsigned long)model,
                                          (unsigned long)lengths[i], (unsigned long)numbers[k]));
        }
}

/* The refusals that come before the command, of a read that would be taken; a longer output keeps what is past the frame. */
static void refused_before(void)
{
    static const uint32_t numbers[] = {1, 2, 24, 3, 4, 5, 0};
    size_t i;

    for (i = 0; i < sizeof numbers / sizeof numbers[0]; i++) {
        jig_model(2);
        jig_addressed(0x5A, 0, 1 + SHEET_TABLE, 0);
        switch (numbers[i]) {
        case 1: given.record.half_us = 1; break;
        case 2: given.array_len = 65536; break;
        case 24: given.wear_len = 16; break;
        case 3: given.state[3] = 1; jig_packed(given.state, GWO_STATE_LENGTH); break;
        case 4: given.tail = 8; break;
        case 5: given.out_len -= 1; break;
        default: given.out_len += 64; want_table(5, 0); break;
        }
        frame_gives(numbers[i], named("a read of the whole table, wanted %lu", (unsigned long)numbers[i]));
    }
    jig_model(2);
    jig_addressed(0x5A, 0, LONGEST_FRAME - 3, 0);
    frame_gives(4, "5A of 65,542 bytes");
}

/* 3B, which the table names, is no command of the model. */
static void not_3b(void)
{
    uint32_t model;

    for (model = 1; model <= MODELS; model++) {
        jig_model(model);
        jig_addressed(0x3B, 0, 1 + 16, 0);
        frame_gives(13, named("model %lu: 3B", (unsigned long)model));
    }
}

void sfdp_reads(void)
{
    uint32_t model;

    every_place();
    far_places();
    longest_reads();
    lengths();
    any_state();
    for (model = 1; model <= MODELS; model++)
        refused(model);
    refused_before();
    not_3b();
}
