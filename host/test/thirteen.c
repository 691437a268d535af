/*
 * 01, "The twelve calls", and the wait after AB: on the three models, from every kind of valid state, with every
 * operation running, at the ends of pages, sectors, blocks and arrays. Every call is answered 0, the last drives the
 * data, the rest of the sector is FF and the rest of the array as it was after the first wait; the count of the sector
 * rises by one, and no other moves. Each frame is strict or not. Then each of the five waits is one microsecond
 * shorter; the count is at its highest, and the erase is refused; and at last the power is cut before the calls. With
 * the argument `first` it stops at a failure.
 */
#include "thirteen.h"

#include <stdio.h>
#include <string.h>

/* The next of the places: page offset a and n data bytes with a + n at most 256. */
static void place(struct run *r, unsigned turn)
{
    static const uint32_t addresses[] = {0x000000, 0x0000FF, 0x000100, 0x000F80, 0x001001, 0x00FF00, 0x00FFFF,
                                         0x010000, 0x01F0AA, 0x020000, 0x02FFFF, 0x030000, 0x03FF01, 0x03FFFF,
                                         0x040000, 0x123456, 0x7FFFFF, 0x800000, 0xFEFF00, 0xFF0000, 0xFFFF80,
                                         0xFFFFFF};
    static uint8_t bytes[256];
    size_t room, i;

    r->address = addresses[turn % (sizeof addresses / sizeof addresses[0])];
    room = 256 - r->address % 256;
    r->n = turn % 3 == 0 ? room : turn % 3 == 1 ? 1 : 1 + turn % room;
    for (i = 0; i < r->n; i++)
        bytes[i] = (uint8_t)(i * 5 + turn * 31 + 0x80);
    r->bytes = bytes;
}

static unsigned turn;

/* A register for model 3, by turns. */
static unsigned any_register(uint32_t model)
{
    static const unsigned registers[] = {0x00, 0x08, 0xD3, 0xDB, 0x41};

    return model == 3 ? registers[turn % 5] : 0;
}

static void from_state(const struct gwo_record *record, unsigned status, unsigned asleep, uint32_t settling)
{
    struct run r;

    r.record = *record;
    put_state(r.before, status, asleep, any_register(record->model), 0, settling);
    place(&r, turn++);
    run_all_ways(r);
}

/* Where an operation works, by turns: in the calls' page, in its sector or the next, anywhere. */
static uint32_t near(const struct run *r, struct dice *dice)
{
    uint32_t at = turn % 3 == 0 ? r->address : turn % 3 == 1 ? r->address + 0x800 : below(dice, 0x1000000);

    return at % (uint32_t)gwo_array_length(r->record.model);
}

/* Busy with an operation; of a status write the count of its data bytes is given. Its data are any. */
static void from_work(const struct gwo_record *record, unsigned status, uint8_t command, uint32_t count, uint32_t busy)
{
    static struct dice dice = {13};
    int whole = command == 0x60 || command == 0xC7;
    struct run r;

    r.record = *record;
    place(&r, turn++);
    put_state(r.before, status + 2, 0, any_register(record->model), busy, 0);
    put_operation(r.before, command, count > 0 ? count : whole ? NOWHERE : near(&r, &dice));
    if (command == 0x01 || command == 0x02)
        scatter(&dice, r.before + DATA_AT, count > 0 ? count : 256);
    run_all_ways(r);
}

/* SRWD and BP: all of models 1 and 2; of model 3's 32 eight others with every record. */
static unsigned kept_bits(uint32_t model, unsigned kept)
{
    static unsigned step;

    return kept / 4 * 128 + (model == 3 ? (5 * kept + step++ / 8) % 16 : kept % 4) * 4;
}

/* 16 MiB at a time take theirs: of model 3's chip erases there are few, the first under the bench record. */
static int too_many(const struct gwo_record *r, uint8_t command)
{
    static unsigned chip_erases;

    return r->model == 3 && (command == 0x60 || command == 0xC7) && chip_erases++ % 113 != 0;
}

/* Busy with each of the operations, the last two model 3's: its last microsecond, and all of its time or one less. */
static void busy_states(const struct gwo_record *r, unsigned status)
{
    static const struct { uint8_t command; uint32_t count; } kinds[] = {
        {0x01, 1}, {0x02, 0}, {0x20, 0}, {0xD8, 0}, {0x60, 0}, {0xC7, 0}, {0x52, 0}, {0x01, 2}};
    size_t i, n = r->model == 3 ? 8 : 6;

    for (i = 0; i < n; i++) {
        uint32_t us = us_of(r, kinds[i].command);

        if (too_many(r, kinds[i].command))
            continue;
        from_work(r, status, kinds[i].command, kinds[i].count, us);
        if (turn % 2 == 0)
            from_work(r, status, kinds[i].command, kinds[i].count, us > 1 ? us - 1 : 1);
        else
            from_work(r, status, kinds[i].command, kinds[i].count, 1);
    }
}

/* Settling with each of the record's three times and one less, awake and asleep, WEL 0 and 1. */
static void settling_states(const struct gwo_record *r, unsigned status)
{
    const uint32_t settling[] = {1, r->sleep_us - 1, r->sleep_us, r->wake_us - 1, r->wake_us, r->sign_us - 1,
                                 r->sign_us};
    unsigned i, asleep;

    for (i = 0; i < sizeof settling / sizeof settling[0]; i++)
        for (asleep = 0; asleep < 2 && settling[i] > 0; asleep++)
            from_state(r, status + turn / 2 % 2 * 2, asleep, settling[i]);
}

/* Every idle state, busy ones and settling ones. */
static void every_state(const struct gwo_record *r)
{
    unsigned kept, low;

    for (kept = 0; kept < 8; kept++) {
        unsigned status = kept_bits(r->model, kept);

        for (low = 0; low < 4; low++)
            from_state(r, status + low / 2 * 2, low % 2, 0);
        busy_states(r, status);
        settling_states(r, status);
    }
}

/* The bench record, all times the shortest, all the longest, each of those that count the longest, and others. */
static void every_record(const struct gwo_record *bench)
{
    enum { MOST = 1000000000 };
    static const uint32_t times[][9] = {
        {1, 1, 1, 1, 1, 1, 1, 1, 1}, {MOST, MOST, MOST, MOST, MOST, MOST, MOST, MOST, MOST},
        {90, 10, 20, 30, 40, 50, 60, 70, 80}, {80, 90, 10, 20, 30, 40, 50, 60, 70},
        {70, 80, 90, 10, 20, 30, 40, 50, 60}, {60, 70, 80, 90, 10, 20, 30, 40, 50},
        {50, 60, 70, 80, 90, 10, 20, 30, 40}, {40, 50, 60, 70, 80, 90, 10, 20, 30},
        {30, 40, 50, 60, 70, 80, 90, 10, 20}, {20, 30, 40, 50, 60, 70, 80, 90, 10},
        {10, 20, 30, 40, 50, 60, 70, 80, 90}, {1, 2, MOST, 3, 4, 5, 6, 7, 8}, {1, 2, 3, 4, 5, 6, 7, MOST, 8}};
    size_t i;

    lend_array(bench->model);
    every_state(bench);
    for (i = 0; i < sizeof times / sizeof times[0]; i++) {
        const uint32_t *t = times[i];
        const struct gwo_record r = {bench->model, t[0], t[1], t[2], t[3], t[4], bench->model == 3 ? t[5] : 0,
                                     t[6], t[7], t[8]};

        every_state(&r);
    }
    all_put_back(bench->model);
}

int main(int argc, char **argv)
{
    rig_begin("thirteen");
    if (argc > 1 && strcmp(argv[1], "first") == 0)
        rig_stop_at_first();
    every_record(&gwo_bench_model_1);
    every_record(&gwo_bench_model_2);
    every_record(&gwo_bench_model_3);
    printf("  %lu runs\n", runs);
    return rig_end();
}
