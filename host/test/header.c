/* The header as C and as C++: included twice, every inline used once through the archive. */
#include "gwo.h"
#include "gwo.h"

#include <stdio.h>
#include <string.h>

static int failed;
static const char *program = "header";
static uint8_t array[GWO_MODEL_3_LENGTH], state[GWO_STATE_LENGTH];
static uint32_t wear[GWO_MODEL_3_SECTORS];

static void check(int ok, const char *what)
{
    if (ok)
        return;
    printf("%s: FAIL: %s\n", program, what);
    failed = 1;
}

/* Each number has a text of its own; any other has the one for no number. */
static void texts(void)
{
    static const uint32_t numbers[] = {0, 1, 2, 24, 3, 4, 5, 10, 22, 11, 12, 13, 21, 14, 15, 16, 17, 19, 25,
                                       30, 31, 32, 33, 23, 20, 34, 6};
    const size_t n = sizeof numbers / sizeof numbers[0];
    size_t i, k;

    for (i = 0; i < n; i++) {
        check(strlen(gwo_text(numbers[i])) > 0, "a number without a text");
        for (k = 0; k < i; k++)
            check(strcmp(gwo_text(numbers[i]), gwo_text(numbers[k])) != 0, "two numbers with one text");
    }
    check(strcmp(gwo_text(6), gwo_text(0xFFFFFFFFu)) == 0, "two texts for no number");
    check(GWO_SETTLING == 22, "the number of a chip that settles");
    check(GWO_BAD_PATTERN == 23, "the number of a pattern of another length");
    check(GWO_BAD_WEAR == 24 && GWO_WEAR_FULL == 25, "the numbers of a table and of a count");
    check(GWO_NOT_ERASED == 19, "the number of a cell that is not erased");
    check(GWO_WITHDRAWN == 21, "the number of a command that is withdrawn");
    check(GWO_NO_SFDP == 30 && GWO_SFDP_SHORT == 31 && GWO_SFDP_POINTER == 32, "the numbers of an SFDP table");
    check(GWO_SFDP_RECORD == 33 && GWO_SFDP_LENGTH == 112, "the number of an SFDP record, and a table's length");
    check(GWO_IN_HOLD == 34, "the number of a frame that ends in a hold");
}

static void lengths(void)
{
    check(gwo_array_length(1) == 65536 && gwo_array_length(2) == 262144, "array lengths");
    check(gwo_array_length(3) == 16777216 && GWO_MODEL_3_LENGTH == 256 * GWO_BLOCK_LENGTH, "array length of model 3");
    check(gwo_array_length(0) == 0 && gwo_array_length(4) == 0, "array lengths of no model");
    check(GWO_HALF_BLOCK_LENGTH == 32768 && GWO_BLOCK_LENGTH == 65536, "a half block");
    check(gwo_sector_count(1) == 16 && gwo_sector_count(2) == 64 && gwo_sector_count(3) == 4096, "sectors");
    check(gwo_sector_count(0) == 0 && gwo_sector_count(4) == 0, "sectors of no model");
    check(GWO_MODEL_1_SECTORS == 16 && GWO_MODEL_2_SECTORS == 64 && GWO_MODEL_3_SECTORS == 4096, "their names");
    check(GWO_WEAR_TOP == 0xFFFFFFFFu, "the highest count");
}

static int settles_for(const struct gwo_record *r, uint32_t sleep, uint32_t wake, uint32_t sign)
{
    return r->sleep_us == sleep && r->wake_us == wake && r->sign_us == sign;
}

/*
 * The sixth time is model 3's; its six are the maxima of 003 (L2135-2141). The last three are house values on model 1,
 * and otherwise the maxima of 002 (L802-806) and 003 (L2132-2134) in whole microseconds.
 */
static void benches(void)
{
    const struct gwo_record *r = &gwo_bench_model_3;

    check(gwo_bench_model_1.model == 1 && gwo_bench_model_1.half_us == 0, "the bench record of model 1");
    check(gwo_bench_model_2.model == 2 && gwo_bench_model_2.half_us == 0, "the bench record of model 2");
    check(r->model == 3 && r->status_us == 40000 && r->page_us == 750 && r->sector_us == 400000, "that of model 3");
    check(r->block_us == 2000000 && r->chip_us == 100000000 && r->half_us == 1000000, "the times of model 3");
    check(settles_for(&gwo_bench_model_1, 10, 10, 10), "the settling times of model 1");
    check(settles_for(&gwo_bench_model_2, 10, 9, 9), "the settling times of model 2");
    check(settles_for(&gwo_bench_model_3, 10, 30, 30), "the settling times of model 3");
}

/* Whether the state begins so, and from byte 12 on all is FF but as many bytes as are given. */
static int state_is(const uint8_t *first, const uint8_t *operation, size_t n)
{
    uint8_t want[GWO_STATE_LENGTH];

    memset(want, 0xFF, sizeof want);
    memcpy(want, first, 12);
    if (n > 0)
        memcpy(want + 12, operation, n);
    return memcmp(state, want, sizeof want) == 0;
}

/* A chip from the factory at power-on: 272 bytes, and it answers. */
static void factory(void)
{
    static const uint8_t zero[12] = {0, 0, 0, 0, 0, 0, 0, 0, 0, 0, 0, 0};

    check(GWO_STATE_LENGTH == 272 && sizeof state == 272, "the length of a state");
    memset(state, 0x5A, sizeof state);
    gwo_factory_state(state);
    check(state_is(zero, NULL, 0), "a state from the factory");
    check(gwo_record_power_cycle(&gwo_bench_model_1, state, sizeof state) == GWO_DONE, "its first power cycle");
    check(state_is(zero, NULL, 0), "the state after it");
    memset(state, 0, sizeof state);
    check(gwo_record_power_cycle(&gwo_bench_model_1, state, sizeof state) == GWO_BAD_STATE, "a state of zeros");
}

/* A frame of up to 5 bytes. */
static uint32_t frame_on(const struct gwo_record *r, const uint8_t *frame, size_t n)
{
    uint8_t out[5];
    uint32_t from, count;

    return gwo_record_frame(r, state, sizeof state, array, gwo_array_length(r->model), frame, n, 0, 1, out, n,
                            &from, &count);
}

static uint32_t wait_on(const struct gwo_record *r, uint32_t us)
{
    return gwo_record_wait(r, state, sizeof state, array, gwo_array_length(r->model), us);
}

/* 06, 01 00, a wait and a power cycle under each bench record: the calls are taken, the state is packed as said. */
static void calls(const struct gwo_record *r, uint8_t busy_low, uint8_t busy_high)
{
    static const uint8_t write_enable[] = {0x06}, write_status[] = {0x01, 0x00}, running[5] = {0x01, 0, 0, 1, 0x00};
    const uint8_t zero[12] = {0, 0, 0, 0, 0, 0, 0, 0, 0, 0, 0, 0};
    const uint8_t busy[12] = {3, 0, 0, 0, busy_low, busy_high, 0, 0, 0, 0, 0, 0};

    gwo_factory_state(state);
    check(frame_on(r, write_enable, 1) == GWO_DONE, "06");
    check(frame_on(r, write_status, 2) == GWO_DONE, "01 00");
    check(state_is(busy, running, 5), "the state after 01 00");
    check(frame_on(r, write_enable, 1) == GWO_BUSY, "06 while busy");
    check(gwo_record_power_cycle(r, state, sizeof state) == GWO_BUSY, "a power cycle while busy");
    check(gwo_record_wait(r, state, sizeof state, array, 1, 1) == GWO_BAD_ARRAY, "a wait with another array");
    check(state_is(busy, running, 5), "the state after refused calls");
    check(wait_on(r, r->status_us) == GWO_DONE, "wait");
    check(state_is(zero, NULL, 0), "the state after the wait");
    check(gwo_record_power_cycle(r, state, sizeof state - 1) == GWO_BAD_STATE, "power cycle with a short state");
    check(gwo_record_power_cycle(r, state, sizeof state) == GWO_DONE, "power cycle");
}

/* 20, and the power is cut: the pattern is in the sector and nowhere else, and the chip is idle. */
static void cuts(const struct gwo_record *r)
{
    static const uint8_t write_enable[] = {0x06}, sector_erase[] = {0x20, 0x00, 0x20, 0x00};
    static const uint8_t running[4] = {0x20, 0x00, 0x20, 0x00}, zero[12] = {0, 0, 0, 0, 0, 0, 0, 0, 0, 0, 0, 0};
    static uint8_t pattern[GWO_SECTOR_LENGTH + 1];
    const size_t n = gwo_array_length(r->model), s = sizeof state;

    gwo_factory_state(state);
    memset(array, 0x3C, 0x4000);
    memset(pattern, 0xA7, sizeof pattern);
    check(frame_on(r, write_enable, 1) == GWO_DONE && frame_on(r, sector_erase, 4) == GWO_DONE, "20");
    check(memcmp(state + 12, running, 4) == 0 && array[0x2000] == 0x3C, "an erase that has only begun");
    check(gwo_record_cut(r, state, s, array, n, pattern, sizeof pattern) == GWO_BAD_PATTERN, "a pattern too long");
    check(gwo_record_cut(r, state, s, array, n - 1, pattern, 4096) == GWO_BAD_ARRAY, "a cut with another array");
    check(memcmp(state + 12, running, 4) == 0 && array[0x2000] == 0x3C, "what refused cuts leave");
    check(gwo_record_cut(r, state, s, array, n, pattern, 4096) == GWO_DONE, "a cut");
    check(state_is(zero, NULL, 0), "the state after the cut");
    check(memcmp(array + 0x2000, pattern, 4096) == 0, "the pattern in the sector");
    check(array[0x1FFF] == 0x3C && array[0x3000] == 0x3C, "the cells beside the sector");
    check(gwo_record_cut(r, state, s, array, n, NULL, 0) == GWO_DONE, "a cut of an idle chip");
}

/* B9 and both ABs, with times up to 255: asleep or awake at once, and 22 until the time is over. */
static void sleeps(const struct gwo_record *r, uint8_t sleep, uint8_t wake, uint8_t sign)
{
    static const uint8_t power_down[] = {0xB9}, release[] = {0xAB, 0, 0, 0, 0}, status[] = {0x05};
    const uint8_t asleep[12] = {0, 1, 0, 0, 0, 0, 0, 0, 0, 0, 0, 0};
    const uint8_t dozing[12] = {0, 1, 0, 0, 0, 0, 0, 0, sleep, 0, 0, 0};
    const uint8_t waking[12] = {0, 0, 0, 0, 0, 0, 0, 0, wake, 0, 0, 0};
    const uint8_t signing[12] = {0, 0, 0, 0, 0, 0, 0, 0, sign, 0, 0, 0};

    gwo_factory_state(state);
    check(frame_on(r, power_down, 1) == GWO_DONE && state_is(dozing, NULL, 0), "B9");
    check(wait_on(r, sleep - 1u) == GWO_DONE, "a wait");
    check(frame_on(r, status, 1) == GWO_SETTLING, "05 one microsecond early");
    check(wait_on(r, 1) == GWO_DONE, "the last microsecond");
    check(state_is(asleep, NULL, 0), "the state in deep power-down");
    check(frame_on(r, status, 1) == GWO_ASLEEP, "05 in deep power-down");
    check(frame_on(r, release, 1) == GWO_DONE && state_is(waking, NULL, 0), "AB of 1 byte");
    check(frame_on(r, release, 5) == GWO_SETTLING, "AB while settling");
    memcpy(state, asleep, 12);
    check(frame_on(r, release, 5) == GWO_DONE && state_is(signing, NULL, 0), "AB of 5 bytes");
    check(gwo_record_power_cycle(r, state, sizeof state) == GWO_DONE && state[8] == 0, "a power cycle while settling");
}

/* The four calls on a record themselves with these three times. */
static uint32_t calls_give(const struct gwo_record *r, uint32_t sleep, uint32_t wake, uint32_t sign)
{
    const uint8_t write_enable[] = {0x06};
    const size_t n = gwo_array_length(r->model);
    uint8_t out[1];
    uint32_t from, count, fold, number;

    gwo_factory_state(state);
    number = gwo_wait(r->model, r->status_us, r->page_us, r->sector_us, r->block_us, r->chip_us, r->half_us,
                      sleep, wake, sign, state, sizeof state, array, n, 1);
    check(gwo_cut(r->model, r->status_us, r->page_us, r->sector_us, r->block_us, r->chip_us, r->half_us,
                  sleep, wake, sign, state, sizeof state, array, n, NULL, 0) == number, "a cut is answered as a wait");
    check(gwo_power_cycle(r->model, r->status_us, r->page_us, r->sector_us, r->block_us, r->chip_us, r->half_us,
                          sleep, wake, sign, state, sizeof state) == number, "a power cycle is answered as a wait");
    check(gwo_frame(r->model, r->status_us, r->page_us, r->sector_us, r->block_us, r->chip_us, r->half_us,
                    sleep, wake, sign, state, sizeof state, array, n, wear, n / 4096, write_enable, 1, 0, 1, 0,
                    out, 1, &from, &count, &fold) == number, "a frame is answered as a wait");
    return number;
}

/* A settling time of 0 is the bench value for the functions on a record, each by itself, and 1 for the calls. */
static void unnamed_times(const struct gwo_record *bench)
{
    struct gwo_record r = *bench;

    check(calls_give(bench, 1, 2, 3) == GWO_DONE, "the calls with times");
    check(calls_give(bench, 0, 2, 3) == GWO_BAD_RECORD, "the calls with a sleep_us of 0");
    check(calls_give(bench, 1, 0, 3) == GWO_BAD_RECORD, "the calls with a wake_us of 0");
    check(calls_give(bench, 1, 2, 0) == GWO_BAD_RECORD, "the calls with a sign_us of 0");
    r.sleep_us = r.wake_us = r.sign_us = 0;
    sleeps(&r, (uint8_t)bench->sleep_us, (uint8_t)bench->wake_us, (uint8_t)bench->sign_us);
    r.wake_us = 77;
    sleeps(&r, (uint8_t)bench->sleep_us, 77, (uint8_t)bench->sign_us);
    r.sleep_us = 55, r.wake_us = 0, r.sign_us = 99;
    sleeps(&r, 55, (uint8_t)bench->wake_us, 99);
    r.sign_us = 1000000001;
    check(wait_on(&r, 1) == GWO_BAD_RECORD, "a named time that is too long");
    check(gwo_record_cut(&r, state, sizeof state, array, gwo_array_length(r.model), NULL, 0) == GWO_BAD_RECORD,
          "the same in a cut");
}

/* Two bytes from the page's last place fold; a refused program does not, nor does one that ends there. */
static void fold(const struct gwo_record *r)
{
    static const uint8_t two[] = {0x02, 0x00, 0x00, 0xFF, 0xA5, 0x5A};
    const size_t n = gwo_array_length(r->model), s = GWO_STATE_LENGTH;
    uint8_t out[6];
    uint32_t from, count, said = 2;

    gwo_factory_state(state);
    state[0] = 2;
    check(gwo_record_frame_fold(r, state, s, array, n, two, 6, 0, 1, out, 6, &from, &count, &said) == GWO_DONE, "02");
    check(said == 1, "a program past its page's end");
    check(gwo_record_frame_fold(r, state, s, array, n, two, 6, 0, 1, out, 6, &from, &count, &said) == GWO_BUSY, "busy");
    check(said == 0, "a refused program");
    check(wait_on(r, r->page_us) == GWO_DONE, "its wait");
    state[0] = 2;
    check(gwo_record_frame_fold(r, state, s, array, n, two, 5, 0, 1, out, 5, &from, &count, &said) == GWO_DONE, "02");
    check(said == 0, "a program to its page's end");
}

/* 20 of the second sector on an enabled chip, with a table. */
static uint32_t erase_with(const struct gwo_record *r, uint32_t *counts, size_t n)
{
    static const uint8_t sector_erase[] = {0x20, 0x00, 0x1F, 0xFF};
    uint8_t out[4];
    uint32_t from, count, fold;

    gwo_factory_state(state);
    state[0] = 2;
    return gwo_record_frame_wear(r, state, sizeof state, array, gwo_array_length(r->model), counts, n, sector_erase, 4,
                                 0, 1, out, 4, &from, &count, &fold);
}

/* A count rises at once; one that is full stays, and the erase is refused. A table of another length is, too. */
static void wears(const struct gwo_record *r)
{
    const size_t n = gwo_sector_count(r->model);
    uint64_t total = 7;
    uint32_t low, high, sector, mean, rest;

    memset(wear, 0, sizeof wear);
    check(erase_with(r, wear, n) == GWO_DONE && wear[0] == 0 && wear[1] == 1 && wear[2] == 0, "a count");
    wear[1] = GWO_WEAR_TOP;
    check(erase_with(r, wear, n) == GWO_WEAR_FULL && wear[1] == GWO_WEAR_TOP && state[0] == 2, "a full count");
    check(erase_with(r, wear, n - 1) == GWO_BAD_WEAR && erase_with(r, wear, n + 1) == GWO_BAD_WEAR, "another length");
    check(erase_with(r, NULL, 0) == GWO_BAD_WEAR, "no table");
    wear[0] = 5;
    check(gwo_wear_report(wear, n - 1, &total, &low, &high, &sector, &mean, &rest) == GWO_BAD_WEAR, "a bad report");
    check(gwo_wear_report(NULL, 0, &total, &low, &high, &sector, &mean, &rest) == GWO_BAD_WEAR, "a report on nothing");
    check(total == 7, "what a refused report leaves");
    check(gwo_wear_report(wear, n, &total, &low, &high, &sector, &mean, &rest) == GWO_DONE, "a report");
    check(total == (uint64_t)GWO_WEAR_TOP + 5 && low == 0 && high == GWO_WEAR_TOP && sector == 1, "its results");
    check(mean == total / n && rest == 4, "its mean");
}

/* 02 of the byte A5 on a cell, strict or not, on an enabled chip. */
static uint32_t program_over(const struct gwo_record *r, uint8_t cell, uint32_t strict)
{
    static const uint8_t program[] = {0x02, 0x00, 0x12, 0x34, 0xA5};
    uint8_t out[5];
    uint32_t from, count, fold;

    gwo_factory_state(state);
    state[0] = 2;
    memset(array + 0x1200, 0, 256);
    array[0x1234] = cell;
    return gwo_record_frame_strict(r, state, sizeof state, array, gwo_array_length(r->model), wear,
                                   gwo_sector_count(r->model), program, 5, 0, 1, strict, out, 5, &from, &count, &fold);
}

/* Any number but 0 is on; the functions without the setting have it off. */
static void stricts(const struct gwo_record *r)
{
    static const uint8_t program[] = {0x02, 0x00, 0x12, 0x34, 0xA5};

    check(program_over(r, 0xFF, 1) == GWO_DONE && program_over(r, 0xA5, 1) == GWO_DONE, "strict, on cells that fit");
    check(program_over(r, 0xA4, 1) == GWO_NOT_ERASED && state[0] == 2, "strict, on a cell that does not");
    check(program_over(r, 0x00, 256) == GWO_NOT_ERASED && program_over(r, 0x5A, 0x80000000u) == GWO_NOT_ERASED, "on");
    check(program_over(r, 0xA4, 0) == GWO_DONE && program_over(r, 0x00, 0) == GWO_DONE, "not strict");
    gwo_factory_state(state);
    state[0] = 2;
    check(frame_on(r, program, 5) == GWO_DONE, "without the setting");
}

/* A pointer with the length 0 may be null: the call is answered, and the other buffers stay. */
static void nulls(const struct gwo_record *r)
{
    static const uint8_t status[] = {0x05, 0x00};
    const size_t n = gwo_array_length(r->model), s = GWO_STATE_LENGTH;
    uint8_t out[2];
    uint32_t from, count;

    gwo_factory_state(state);
    check(gwo_record_frame(r, NULL, 0, array, n, status, 2, 0, 1, out, 2, &from, &count) == GWO_BAD_STATE, "no state");
    check(gwo_record_frame(r, state, s, NULL, 0, status, 2, 0, 1, out, 2, &from, &count) == GWO_BAD_ARRAY, "no array");
    check(gwo_record_frame(r, state, s, array, n, NULL, 0, 0, 1, out, 2, &from, &count) == GWO_NO_COMMAND, "no frame");
    check(gwo_record_frame(r, state, s, array, n, status, 2, 0, 1, NULL, 0, &from, &count) == GWO_SHORT_OUTPUT, "no output");
    check(gwo_record_frame(r, state, s, array, n, NULL, 0, 0, 1, NULL, 0, &from, &count) == GWO_NO_COMMAND, "neither");
    check(gwo_record_wait(r, NULL, 0, array, n, 1) == GWO_BAD_STATE, "a wait without a state");
    check(gwo_record_wait(r, state, s, NULL, 0, 1) == GWO_BAD_ARRAY, "a wait without an array");
    check(gwo_record_power_cycle(r, NULL, 0) == GWO_BAD_STATE, "a power cycle without a state");
    check(gwo_record_cut(r, NULL, 0, array, n, NULL, 0) == GWO_BAD_STATE, "a cut without a state");
    check(gwo_record_cut(r, state, s, NULL, 0, NULL, 0) == GWO_BAD_ARRAY, "a cut without an array");
}

/* The chip's own record: written, and read again; then refused, each time with results of 0. */
static void sfdp(void)
{
    static const uint32_t erases[4] = {12, 0x20, 16, 0xD8};
    uint8_t table[GWO_SFDP_LENGTH + 1];
    uint32_t a = 9, b = 9, c = 9, d = 9, e = 9;

    memset(table, 0x5A, sizeof table);
    check(gwo_sfdp_write(0x1FFFFF, erases, 4, table, GWO_SFDP_LENGTH - 1) == GWO_SFDP_RECORD, "a short buffer");
    check(gwo_sfdp_write(0x1FFFFF, erases, 3, table, sizeof table) == GWO_SFDP_RECORD, "an exponent alone");
    check(gwo_sfdp_write(0x1FFFFF, NULL, 0, NULL, 0) == GWO_SFDP_RECORD && table[0] == 0x5A, "nothing to write to");
    check(gwo_sfdp_write(0x1FFFFF, erases, 4, table, sizeof table) == GWO_DONE && table[112] == 0x5A, "a table");
    check(gwo_sfdp_read(table, 112, &a, &b, &c) == GWO_DONE && a == 2 && b == 0x1FFFFF && c == 2, "what it says");
    check(gwo_sfdp_revision(table, 112, &a, &b) == GWO_DONE && a == 0 && b == 1, "its revision");
    check(gwo_sfdp_header(table, 112, 1, &a, &b, &c, &d, &e) == GWO_DONE && a == 0xC2 && b == 0, "a header");
    check(c == 1 && d == 4 && e == 0x60, "its table");
    check(gwo_sfdp_erase(table, 112, 2, &a, &b) == GWO_DONE && a == 16 && b == 0xD8, "an erase type");
    check(gwo_sfdp_erase(table, 111, 2, &a, &b) == GWO_SFDP_POINTER && a == 0 && b == 0, "a table that is cut off");
    check(gwo_sfdp_read(table, 23, &a, &b, &c) == GWO_SFDP_SHORT && a == 0 && b == 0 && c == 0, "a header that is");
    a = b = c = 9;
    check(gwo_sfdp_read(NULL, 0, &a, &b, &c) == GWO_NO_SFDP && a == 0 && b == 0 && c == 0, "no bytes");
    check(gwo_sfdp_write(0, NULL, 0, table, 112) == GWO_DONE, "no erase types");
    check(gwo_sfdp_read(table, 112, &a, &b, &c) == GWO_DONE && b == 0 && c == 0, "what that says");
}

int main(int argc, char **argv)
{
    if (argc > 1)
        program = argv[1];
    texts();
    lengths();
    benches();
    factory();
    calls(&gwo_bench_model_1, 15000 & 255, 15000 >> 8);
    calls(&gwo_bench_model_2, 40000 & 255, 40000 >> 8);
    calls(&gwo_bench_model_3, 40000 & 255, 40000 >> 8);
    cuts(&gwo_bench_model_1);
    cuts(&gwo_bench_model_2);
    cuts(&gwo_bench_model_3);
    sleeps(&gwo_bench_model_1, 10, 10, 10);
    sleeps(&gwo_bench_model_2, 10, 9, 9);
    sleeps(&gwo_bench_model_3, 10, 30, 30);
    unnamed_times(&gwo_bench_model_1);
    unnamed_times(&gwo_bench_model_2);
    unnamed_times(&gwo_bench_model_3);
    fold(&gwo_bench_model_1);
    fold(&gwo_bench_model_2);
    fold(&gwo_bench_model_3);
    wears(&gwo_bench_model_1);
    wears(&gwo_bench_model_2);
    wears(&gwo_bench_model_3);
    stricts(&gwo_bench_model_1);
    stricts(&gwo_bench_model_2);
    stricts(&gwo_bench_model_3);
    nulls(&gwo_bench_model_1);
    nulls(&gwo_bench_model_2);
    nulls(&gwo_bench_model_3);
    sfdp();
    printf("%s: %s\n", program, failed ? "failed" : "compiles without a warning, links and runs");
    return failed;
}
