/*
 * 02, Req 08: with strict on a program is refused, 19, exactly when some cell that it reaches would not end up holding
 * the byte that counts for it. Off, and for every other command, all is as without the setting.
 */
#include "jig.h"
#include "rules.h"

#include <string.h>

/* Whether every reached cell would hold its byte, by 02's words: lay the bytes one by one, then look at each offset. */
static int all_will_hold(uint32_t address, const uint8_t *sent, size_t n)
{
    uint32_t page = address / PAGE * PAGE, a = address % PAGE, k;
    uint8_t last[PAGE], reached[PAGE];
    size_t i;

    memset(reached, 0, sizeof reached);
    for (i = 0; i < n; i++) {
        last[(a + i) % PAGE] = sent[i];
        reached[(a + i) % PAGE] = 1;
    }
    for (k = 0; k < PAGE; k++)
        if (reached[k] && (wanted_cell(page + k) & last[k]) != last[k])
            return 0;
    return 1;
}

/* The given program, strict by a number: 19 and nothing changes, on model 3 too WEL stays; or it is taken. */
static void program_gives(uint32_t strict, uint32_t number, const char *label)
{
    struct condition busy = enabled;

    jig_state(enabled);
    given.strict = strict;
    busy.busy_us = given.record.page_us;
    if (number == 0) {
        want_state(busy);
        want_fold(given.frame[3] + given.frame_len - 4 > PAGE);
    }
    frame_gives(number, label);
}

/* After the end every byte that counts is in its cell, one by one. */
static void holds_at_the_end(uint32_t address, const char *label)
{
    uint32_t page = address / PAGE * PAGE, a = address % PAGE, k;
    size_t n = given.frame_len - 4, i;
    uint8_t bytes[PAGE];

    for (k = 0; k < PAGE; k++)
        bytes[k] = wanted_cell(page + k);
    for (i = 0; i < n; i++)
        bytes[(a + i) % PAGE] = given.frame[4 + i];
    want_bytes(page, bytes, PAGE);
    completes(power_on, label);
}

/* The given program at an address: not strict it is taken always; strict if all cells will hold, and to its end. */
static void program_at(uint32_t model, uint32_t address, int holds, const char *what)
{
    const char *label = named("model %lu: 02 at %06lX, %lu data bytes, %s", (unsigned long)model,
                              (unsigned long)address, (unsigned long)given.frame_len - 4, what);

    program_gives(0, 0, label);
    jig_state(enabled);
    want_fold(0);
    program_gives(1, holds ? 0 : 19, label);
    if (holds)
        holds_at_the_end(address % size_of(model), label);
}

/* Every old cell and every byte: 19 exactly when a bit is 0 in the cell and 1 in the byte. */
static void every_pair(uint32_t model, unsigned step)
{
    unsigned old, byte;

    for (old = 0; old < 256; old += step) {
        jig_model(model);
        jig_cells(0x4500, PAGE, (uint8_t)old);
        for (byte = 0; byte < 256; byte++) {
            jig_addressed(0x02, 0x4500 + byte, 1, (uint8_t)byte);
            want_fold(0);
            program_gives(1, (byte & ~old) != 0 ? 19 : 0, named("02 of %02X on a cell of %02X", byte, old));
            want_fold(0);
        }
    }
}

/* A page, all 3C; the given number of bytes from an offset on, all 18, which these cells can hold. */
static void fitting(uint32_t model, uint32_t address, size_t n)
{
    jig_model(model);
    jig_cells(address % size_of(model) / PAGE * PAGE, PAGE, 0x3C);
    jig_addressed(0x02, address, n, 0x18);
}

enum { WRONG = 0x81, EMPTIED = 0x00 };

/* One byte among n cannot be held: 19 where it counts, and not where a later one goes to the same offset. */
static void wrong_byte(uint32_t model, uint32_t address, size_t n, size_t at)
{
    int counts = at + PAGE >= n;

    fitting(model, address, n);
    given.frame[4 + at] = WRONG;
    program_gives(1, counts ? 19 : 0, named("02 at %06lX of %lu bytes, number %lu wrong", (unsigned long)address,
                                            (unsigned long)n, (unsigned long)at));
    if (!counts)
        holds_at_the_end(address % size_of(model), "its end");
}

/* Bytes for one offset: the first and the last of them, and both. */
static void first_and_last(uint32_t model, uint32_t address)
{
    fitting(model, address, PAGE + 1);
    program_at(model, address, 1, "both right");
    fitting(model, address, PAGE + 1);
    given.frame[4] = WRONG;
    program_at(model, address, 1, "the first wrong, the last right");
    fitting(model, address, PAGE + 1);
    given.frame[4 + PAGE] = WRONG;
    program_at(model, address, 0, "the first right, the last wrong");
}

/* A cell that cannot hold its byte: 19 where it is reached, whether by folding or not; the others are not looked at. */
static void emptied_cell(uint32_t model, uint32_t address, size_t n, uint32_t offset)
{
    uint32_t inside = address % size_of(model), page = inside / PAGE * PAGE;
    int reached = (offset + PAGE - inside % PAGE) % PAGE < n;

    fitting(model, address, n);
    jig_cells(page + offset, 1, EMPTIED);
    program_gives(1, reached ? 19 : 0, named("02 at %06lX of %lu bytes, cell %lu of the page empty",
                                             (unsigned long)address, (unsigned long)n, (unsigned long)offset));
}

/* All cells around those that are reached are 00, in the page and in its neighbours. */
static void all_others_emptied(uint32_t model, uint32_t address, size_t n)
{
    uint32_t size = size_of(model), page = address % size / PAGE * PAGE, a = address % PAGE;
    size_t i;

    jig_model(model);
    jig_cells(page, PAGE, EMPTIED);
    if (page >= PAGE)
        jig_cells(page - PAGE, PAGE, EMPTIED);
    if (page + PAGE < size)
        jig_cells(page + PAGE, PAGE, EMPTIED);
    for (i = 0; i < n; i++)
        jig_cells(page + (uint32_t)(a + i) % PAGE, 1, 0xFF);
    jig_addressed(0x02, address, n, 0xFF);
    program_at(model, address, 1, "all others 00");
}

static void at_address(uint32_t model, uint32_t address)
{
    static const size_t lengths[] = {1, 2, 3, 100, 255, 256, 257, 300, 512, 513};
    size_t i, k;

    first_and_last(model, address);
    for (i = 0; i < sizeof lengths / sizeof lengths[0]; i++) {
        size_t n = lengths[i], step = n > 300 ? 7 : n > 3 ? 5 : 1;

        for (k = 0; k < n; k += step)
            wrong_byte(model, address, n, k);
        for (k = n > PAGE ? n - PAGE - 1 : 0; n > PAGE && k <= n - PAGE + 1; k++)
            wrong_byte(model, address, n, k);
        wrong_byte(model, address, n, n - 1);
        for (k = 0; k < PAGE; k += n > 3 ? 11 : 1)
            emptied_cell(model, address, n, (uint32_t)k);
        all_others_emptied(model, address, n);
    }
}

/* Up to the longest: what counts are its last 256 bytes. */
static void longest_program(uint32_t model)
{
    static const size_t at[] = {0, 1, 255, 256, 30000, 65279, 65280, 65281, 65282, 65400, 65536};
    size_t i;

    for (i = 0; i < sizeof at / sizeof at[0]; i++)
        wrong_byte(model, 0x0012FE, LONGEST_FRAME - 4, at[i]);
}

/* On cells as any test has them: bytes that they hold already, fewer bits of them, others, FF and 00. */
static void written_page(uint32_t model, uint32_t address, size_t n)
{
    static const char *const names[] = {"what the cells hold", "less of it", "other bytes", "FF", "00"};
    uint32_t inside = address % size_of(model), page = inside / PAGE * PAGE;
    int kind;

    for (kind = 0; kind < 5; kind++) {
        size_t i;

        jig_model(model);
        jig_addressed(0x02, address, n, kind == 3 ? 0xFF : 0x00);
        for (i = 0; i < n && kind < 3; i++) {
            uint8_t old = wanted_cell(page + (uint32_t)(inside + i) % PAGE);

            given.frame[4 + i] = (uint8_t)(kind == 0 ? old : kind == 1 ? old & (i * 37 + 5) : old ^ (i % 3 == 2));
        }
        program_at(model, address, all_will_hold(inside, given.frame + 4, n), names[kind]);
    }
}

static void places(uint32_t model)
{
    static const uint32_t addresses[] = {0x000000, 0x0000FF, 0x001201, 0x00FF80, 0x0100FE, 0x03FFFF, 0x040000,
                                         0xFFFFFF};
    static const size_t lengths[] = {1, 2, 17, 128, 256, 257, 300};
    size_t i, k;

    for (i = 0; i < sizeof addresses / sizeof addresses[0]; i++)
        for (k = 0; k < sizeof lengths / sizeof lengths[0]; k++)
            written_page(model, addresses[i], lengths[k]);
}

/* 0 is off, any other number on. */
static void settings(uint32_t model)
{
    static const uint32_t numbers[] = {0, 1, 2, 3, 255, 256, 65536, 0x80000000, 0xFFFFFFFE, 0xFFFFFFFF};
    size_t i;

    for (i = 0; i < sizeof numbers / sizeof numbers[0]; i++) {
        fitting(model, 0x003377, 5);
        given.frame[6] = WRONG;
        program_gives(numbers[i], numbers[i] == 0 ? 0 : 19, named("strict %lu", (unsigned long)numbers[i]));
    }
}

/* No other command heeds it, on cells of 00: an erase is there to make them FF. The last is model 3's. */
static void other_commands(uint32_t model)
{
    static const struct { const char *frame; unsigned wel, asleep; int settles; } rows[] = {
        {"06", 1, 0, 0}, {"04", 0, 0, 0}, {"B9", 1, 1, 1}, {"AB", 1, 0, 0}, {"05", 1, 0, 0}, {"9F", 1, 0, 0},
        {"03000000", 1, 0, 0}, {"0B00000000", 1, 0, 0}, {"90000000", 1, 0, 0}, {"01FF", 1, 0, 0}, {"20000000", 1, 0, 0},
        {"D8000000", 1, 0, 0}, {"60", 1, 0, 0}, {"C7", 1, 0, 0}, {"52000000", 1, 0, 0}};
    size_t i;

    for (i = 0; i < sizeof rows / sizeof rows[0] - (model == 3 ? 0 : 1); i++) {
        struct condition after = {0, 0, rows[i].wel, rows[i].asleep, 0, 0, 0};

        jig_model(model);
        jig_cells(0, PAGE, EMPTIED);
        jig_state(enabled);
        jig_frame(rows[i].frame);
        given.strict = 1;
        after.busy_us = us_of(&given.record, given.frame[0]);
        after.settling_us = rows[i].settles ? given.record.sleep_us : 0;
        want_state(after);
        frame_gives(0, named("model %lu: %s, strict", (unsigned long)model, rows[i].frame));
    }
}

/* 15 and 17 come first; 17 clears WEL on model 3 as ever. */
static void refused_before(uint32_t model)
{
    const struct condition locked = {0, part_of(model)->highest_bp, 1, 0, 0, 0, 0};

    fitting(model, 0x003377, 5);
    given.frame[6] = WRONG;
    given.strict = 1;
    jig_state(power_on);
    frame_gives(15, "a wrong byte with WEL 0, strict");
    jig_state(locked);
    want_state(after_17(model, locked));
    frame_gives(17, "a wrong byte on a protected page, strict");
}

void strict_programs(void)
{
    static const uint32_t addresses[] = {0x001200, 0x0012FF, 0x00FE7F, 0xFFFFFE};
    uint32_t model;
    size_t i;

    for (model = 1; model <= MODELS; model++) {
        every_pair(model, model == 1 ? 1 : 51);
        for (i = 0; i < sizeof addresses / sizeof addresses[0]; i++)
            at_address(model, addresses[i]);
        longest_program(model);
        places(model);
        settings(model);
        other_commands(model);
        refused_before(model);
    }
}
