/*
 * Firmware from the time when the state came to remember what the chip is doing. It fills the record by field names,
 * lays its first state with gwo_factory_state and calls through the gwo_record_ functions, and is not to be edited:
 * with a later header it has to compile without a warning and to run as it did. Only its block erase was 52, which has
 * been withdrawn on these chips, and is D8 now.
 */
#include "gwo.h"

#include <stdio.h>
#include <string.h>

static const struct gwo_record kh25l512 = {
    .model = 1, .status_us = 15000, .page_us = 5000, .sector_us = 120000, .block_us = 2000000, .chip_us = 2000000};

/* Typical times in place of the longest. */
static const struct gwo_record kh25l2006e = {
    .model = 2, .chip_us = 2000000, .block_us = 400000, .sector_us = 40000, .page_us = 1400, .status_us = 5000};

static const struct gwo_record *chip;
static uint8_t state[GWO_STATE_LENGTH], array[GWO_MODEL_2_LENGTH], in[16];
static int failed;

static void check(int ok, const char *what)
{
    if (ok)
        return;
    printf("by names: FAIL: model %lu, %s\n", (unsigned long)chip->model, what);
    failed = 1;
}

/* CS# low, n bytes out and in, CS# high. */
static uint32_t transfer(const uint8_t *out, size_t n)
{
    uint32_t from, count;

    return gwo_record_frame(chip, state, sizeof state, array, gwo_array_length(chip->model), out, n, 0, 1, in, n,
                            &from, &count);
}

static void rest(uint32_t us, const char *what)
{
    check(gwo_record_wait(chip, state, sizeof state, array, gwo_array_length(chip->model), us) == GWO_DONE, what);
}

static const uint8_t write_enable[] = {0x06};

/* 06 and the frame; the chip is busy for exactly so long. */
static void write_and_wait(const uint8_t *out, size_t n, uint32_t us, const char *what)
{
    check(transfer(write_enable, 1) == GWO_DONE, "06");
    check(transfer(out, n) == GWO_DONE, what);
    rest(us - 1, "a wait");
    check(transfer(write_enable, 1) == GWO_BUSY, "06 one microsecond early");
    check(gwo_record_power_cycle(chip, state, sizeof state) == GWO_BUSY, "a power cycle one microsecond early");
    rest(1, "the last microsecond");
}

/* The board is pulled half way through an erase of the sector, and put back. */
static void pulled(const struct gwo_record *record)
{
    static const uint8_t sector_erase[] = {0x20, 0x00, 0x20, 0x00}, read[] = {0x03, 0x00, 0x2F, 0xFE, 0, 0, 0, 0};
    static uint8_t pattern[GWO_SECTOR_LENGTH];
    const size_t n = gwo_array_length(record->model);

    memset(pattern, 'p', sizeof pattern);
    check(transfer(write_enable, 1) == GWO_DONE && transfer(sector_erase, 4) == GWO_DONE, "20");
    rest(record->sector_us / 2, "half of its time");
    check(gwo_record_cut(chip, state, sizeof state, array, n, pattern, 0) == GWO_BAD_PATTERN, "a cut, no pattern");
    check(gwo_record_cut(chip, state, sizeof state, array, n, pattern, sizeof pattern) == GWO_DONE, "a cut");
    check(transfer(read, 8) == GWO_DONE && memcmp(in + 4, "pp\xFF\xFF", 4) == 0, "03 after the cut");
}

/* A program that folds: the second byte goes to the start of its page. */
static void folded(const struct gwo_record *record)
{
    static const uint8_t program[] = {0x02, 0x00, 0x41, 0xFF, 'b', 'a'}, read[] = {0x03, 0x00, 0x41, 0x00, 0};
    uint32_t from, count, fold;

    check(transfer(write_enable, 1) == GWO_DONE, "06");
    check(gwo_record_frame_fold(chip, state, sizeof state, array, gwo_array_length(chip->model), program, 6, 0, 1, in,
                                6, &from, &count, &fold) == GWO_DONE && fold == 1, "02 that folds");
    rest(record->page_us, "its wait");
    check(transfer(read, 5) == GWO_DONE && in[4] == 'a', "03 of what was folded");
}

/* Every kind of write, a read, a cut, and a power cycle; the status write protects the chip at the end. */
static void use(const struct gwo_record *record)
{
    static const uint8_t chip_erase[] = {0xC7}, block_erase[] = {0xD8, 0x00, 0x80, 0x00},
                         sector_erase[] = {0x20, 0x00, 0x20, 0x00}, program[] = {0x02, 0x00, 0x20, 0xFE, 'o', 'k'},
                         read[] = {0x03, 0x00, 0x20, 0xFE, 0, 0, 0}, protect[] = {0x01, 0x0C}, status[] = {0x05, 0};

    chip = record;
    gwo_factory_state(state);
    memset(array, 0, sizeof array);
    write_and_wait(chip_erase, 1, record->chip_us, "C7");
    write_and_wait(block_erase, 4, record->block_us, "D8");
    write_and_wait(sector_erase, 4, record->sector_us, "20");
    write_and_wait(program, 6, record->page_us, "02");
    check(transfer(read, 7) == GWO_DONE && memcmp(in + 4, "ok\xFF", 3) == 0, "03");
    folded(record);
    pulled(record);
    write_and_wait(protect, 2, record->status_us, "01");
    check(gwo_record_power_cycle(chip, state, sizeof state) == GWO_DONE, "a power cycle");
    check(transfer(status, 2) == GWO_DONE && in[1] == 0x0C, "05");
}

int main(void)
{
    struct gwo_record slow = gwo_bench_model_1;

    slow.sector_us = 900000;
    use(&kh25l512);
    use(&kh25l2006e);
    use(&gwo_bench_model_2);
    use(&slow);
    printf("by names: firmware with a factory state, waits with the array and a cut %s\n",
           failed ? "failed" : "compiles without a warning and runs");
    return failed;
}
