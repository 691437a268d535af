/*
 * 02, Req 06: an erase that is taken counts each sector that it covers, once and at once. It is refused, 25, where one
 * of these counts is at its highest; and every frame, 24, whose table has another length than the chip has sectors.
 */
#include "jig.h"
#include "rules.h"

#include <string.h>

enum { ANY = 0, ZEROS, BELOW_TOP, KINDS_OF_TABLES };

/* The erases, with the sectors that each covers. */
static const struct erase {
    uint32_t model;
    const char *frame;
    uint32_t first, n;
} erases[] = {
    {1, "20000000", 0, 1}, {1, "20000FFF", 0, 1}, {1, "20001000", 1, 1}, {1, "2000FFFF", 15, 1},
    {1, "2001F000", 15, 1}, {1, "D8000000", 0, 16}, {1, "D800FFFF", 0, 16}, {1, "D8001234", 0, 16},
    {1, "D8FFFFFF", 0, 16}, {1, "60", 0, 16}, {1, "C7", 0, 16},
    {2, "20000000", 0, 1}, {2, "2001FFFF", 31, 1}, {2, "2003FFFF", 63, 1}, {2, "20040000", 0, 1},
    {2, "D8008000", 0, 16}, {2, "D801FFFF", 16, 16}, {2, "D8FF0000", 48, 16}, {2, "D8020000", 32, 16},
    {2, "D803FFFF", 48, 16}, {2, "60", 0, 64}, {2, "C7", 0, 64},
    {3, "20000000", 0, 1}, {3, "20001FFF", 1, 1}, {3, "20800000", 2048, 1}, {3, "20FFFFFF", 4095, 1},
    {3, "52000000", 0, 8}, {3, "52007FFF", 0, 8}, {3, "52008000", 8, 8}, {3, "527FFFFF", 2040, 8},
    {3, "52FFFFFF", 4088, 8}, {3, "D8008000", 0, 16}, {3, "D8010000", 16, 16}, {3, "D8FFFFFF", 4080, 16},
    {3, "60", 0, 4096}, {3, "C7", 0, 4096},
};
enum { ERASES = sizeof erases / sizeof erases[0] };

/* The erase, on an enabled chip with a table of one of the kinds. */
static void erase_on(const struct erase *e, int table)
{
    jig_model(e->model);
    if (table != ANY)
        jig_wear(0, (uint32_t)given.wear_len, table == ZEROS ? 0 : GWO_WEAR_TOP - 1);
    jig_state(enabled);
    jig_frame(e->frame);
}

static void taken(const char *label)
{
    struct condition busy = enabled;

    busy.busy_us = us_of(&given.record, given.frame[0]);
    want_state(busy);
    frame_gives(0, label);
}

/* Each lent count, one by one. */
static void counts_are(const struct erase *e, const uint32_t *before, const char *label)
{
    uint32_t sectors = size_of(e->model) / SECTOR, i;

    for (i = 0; i < sectors; i++)
        if (lent_count(i) - before[i] != (i >= e->first && i < e->first + e->n ? 1u : 0u))
            fail("%s: the count of sector %lu was %lu and is %lu", label, (unsigned long)i, (unsigned long)before[i],
                 (unsigned long)lent_count(i));
}

/* Counted at acceptance; not again, nor taken back, by 05, by a wait to the end, or by a cut. */
static void counted_at_once(const struct erase *e, int table, int cut)
{
    static uint32_t before[4096];
    uint32_t i;
    const char *label = named("model %lu: %s", (unsigned long)e->model, e->frame);

    erase_on(e, table);
    for (i = 0; i < given.wear_len; i++)
        before[i] = lent_count(i);
    taken(label);
    counts_are(e, before, label);
    jig_next();
    jig_frame("0500");
    want_hex(1, "03");
    frame_gives(0, "05 while it is busy");
    jig_next();
    want_state(power_on);
    if (cut) {
        memset(jig_pattern(e->n * SECTOR), 0xFF, e->n * SECTOR);
        want_cells(e->first * SECTOR, e->n * SECTOR, 0xFF);
        cut_gives(0, "a cut");
    } else {
        want_cells(e->first * SECTOR, e->n * SECTOR, 0xFF);
        wait_gives(0xFFFFFFFF, 0, "its end");
    }
    counts_are(e, before, label);
}

/* An erase that comes again while the first is running is refused, 11, and not counted; after its end it is. */
static void again(const struct erase *e)
{
    erase_on(e, ZEROS);
    taken(e->frame);
    jig_next();
    jig_frame(e->frame);
    frame_gives(11, "the same erase again");
    if (e->n == 4096)
        return; /* 16 MiB at a time take theirs */
    want_cells(e->first * SECTOR, e->n * SECTOR, 0xFF);
    completes(power_on, "its end");
    jig_next();
    jig_state(enabled);
    jig_frame(e->frame);
    taken("the same erase after its end");
    if (lent_count(e->first) != 2 || lent_count(e->first + e->n - 1) != 2)
        fail("%s twice: the counts are %lu and %lu", e->frame, (unsigned long)lent_count(e->first),
             (unsigned long)lent_count(e->first + e->n - 1));
}

/* One sector of those covered is at its highest: 25, and on model 3 too WEL stays. One lower, the frame is taken. */
static void full_at(const struct erase *e, uint32_t sector)
{
    erase_on(e, ANY);
    jig_wear(sector, 1, GWO_WEAR_TOP);
    frame_gives(25, named("model %lu: %s, sector %lu full", (unsigned long)e->model, e->frame, (unsigned long)sector));
    jig_wear(sector, 1, GWO_WEAR_TOP - 1);
    taken(named("model %lu: %s, sector %lu one below", (unsigned long)e->model, e->frame, (unsigned long)sector));
}

/* Each of them, of 4,096 those at the ends of blocks. */
static void full(const struct erase *e)
{
    uint32_t i;

    for (i = 0; i < e->n; i++)
        if (e->n <= 64 || i % 16 == 0 || i % 16 == 15)
            full_at(e, e->first + i);
}

/* All the others are at their highest, those beside it first of all: it is counted as ever. */
static void full_beside(const struct erase *e)
{
    erase_on(e, BELOW_TOP);
    jig_wear(0, e->first, GWO_WEAR_TOP);
    jig_wear(e->first + e->n, (uint32_t)given.wear_len - e->first - e->n, GWO_WEAR_TOP);
    taken(named("model %lu: %s, all others full", (unsigned long)e->model, e->frame));
    jig_next();
    jig_state(enabled);
    jig_frame(e->frame);
    frame_gives(25, named("model %lu: %s, all full", (unsigned long)e->model, e->frame));
}

/* 17 comes first, and clears WEL on model 3; 15 and 12 come before it. */
static void full_and(const struct erase *e)
{
    const struct condition locked = {0, part_of(e->model)->highest_bp, 1, 0, 0, 0, 0}, asleep = {0, 0, 1, 1, 0, 0, 0};

    erase_on(e, ANY);
    jig_wear(e->first, e->n, GWO_WEAR_TOP);
    jig_state(power_on);
    frame_gives(15, named("%s with WEL 0, all full", e->frame));
    jig_state(asleep);
    frame_gives(12, named("%s asleep, all full", e->frame));
    jig_state(locked);
    want_state(after_17(e->model, locked));
    frame_gives(17, named("model %lu: %s protected, all full", (unsigned long)e->model, e->frame));
}

/* No other frame looks at the counts: with all of them at their highest it is taken. */
static void others_with_full_counts(uint32_t model)
{
    static const struct { const char *frame; unsigned wel, asleep; int settles; } rows[] = {
        {"06", 1, 0, 0}, {"04", 0, 0, 0}, {"B9", 1, 1, 1}, {"AB", 1, 0, 0}, {"05", 1, 0, 0}, {"9F", 1, 0, 0},
        {"03000000", 1, 0, 0}, {"0B00000000", 1, 0, 0}, {"90000000", 1, 0, 0}, {"0100", 1, 0, 0},
        {"02000000FF", 1, 0, 0}};
    size_t i;

    for (i = 0; i < sizeof rows / sizeof rows[0]; i++) {
        struct condition after = {0, 0, rows[i].wel, rows[i].asleep, 0, 0, 0};

        jig_model(model);
        jig_wear(0, (uint32_t)given.wear_len, GWO_WEAR_TOP);
        jig_state(enabled);
        jig_frame(rows[i].frame);
        after.busy_us = us_of(&given.record, given.frame[0]);
        after.settling_us = rows[i].settles ? given.record.sleep_us : 0;
        want_state(after);
        frame_gives(0, named("model %lu: %s, all counts full", (unsigned long)model, rows[i].frame));
    }
}

/* 52 on models 1 and 2 covers no sector: with all counts at their highest, or at none, it is withdrawn. */
static void withdrawn_with_counts(uint32_t model)
{
    static const uint32_t counts[] = {0, 1, GWO_WEAR_TOP - 1, GWO_WEAR_TOP};
    size_t i;

    for (i = 0; i < sizeof counts / sizeof counts[0]; i++) {
        jig_model(model);
        jig_wear(0, (uint32_t)given.wear_len, counts[i]);
        jig_state(enabled);
        jig_frame("52001234");
        frame_gives(21, named("model %lu: 52, all counts %lu", (unsigned long)model, (unsigned long)counts[i]));
    }
}

/* As many counts as a chip has sectors, for every frame, known or not, taken or not. */
static void number_24(uint32_t model)
{
    static const size_t lengths[] = {0, 1, 2, 8, 15, 16, 17, 32, 63, 64, 65, 256, 1024, 4095, 4096, 4097, WEAR_ROOM};
    static const char *const frames[] = {"", "06", "0500", "0300000000", "0200000000", "20000000", "D8000000", "C7",
                                         "5A00", "200000", "9F00000000", "AB", "52000000"};
    size_t i, k;

    for (i = 0; i < sizeof lengths / sizeof lengths[0]; i++)
        for (k = 0; k < sizeof frames / sizeof frames[0]; k++) {
            if (lengths[i] == size_of(model) / SECTOR)
                continue;
            jig_model(model);
            jig_state(k % 2 ? enabled : power_on);
            given.wear_len = lengths[i];
            jig_frame(frames[k]);
            frame_gives(24, named("model %lu: %s with %lu counts", (unsigned long)model, frames[k],
                                  (unsigned long)lengths[i]));
        }
}

/* 1, 2, 24, 3 in this order, where the state bytes are no packing: of another length, or with other content. */
static void before_the_state(uint32_t model)
{
    static const size_t lengths[] = {0, 8, 271, 272, 273};
    uint8_t bytes[STATE_ROOM];
    size_t i;

    memset(bytes, 0xA5, sizeof bytes);
    for (i = 0; i < sizeof lengths / sizeof lengths[0]; i++) {
        jig_model(model);
        jig_frame("20000000");
        jig_packed(bytes, lengths[i]);
        frame_gives(3, named("a state of %lu bytes", (unsigned long)lengths[i]));
        given.wear_len -= 1;
        frame_gives(24, named("a state of %lu bytes, a count short", (unsigned long)lengths[i]));
        given.array_len -= 1;
        frame_gives(2, "and a cell short");
        given.record.page_us = 0;
        frame_gives(1, "and a bad record");
    }
}

void wear_counts(void)
{
    uint32_t model;
    int i;

    for (i = 0; i < ERASES; i++) {
        const struct erase *e = &erases[i];
        int long_one = e->n == 4096;

        counted_at_once(e, ANY, 0);
        counted_at_once(e, ZEROS, !long_one);
        if (!long_one)
            counted_at_once(e, BELOW_TOP, 0);
        again(e);
        full(e);
        full_beside(e);
        full_and(e);
    }
    for (model = 1; model <= MODELS; model++) {
        others_with_full_counts(model);
        if (model != 3)
            withdrawn_with_counts(model);
        number_24(model);
        before_the_state(model);
    }
}
