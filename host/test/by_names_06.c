/*
 * Firmware from the time when erases came to be counted. It fills the record by field names, lends a wear table to
 * every frame through gwo_record_frame_wear, and has it summed up; it is not to be edited: with a later header it has
 * to compile without a warning and to run as it did. Only the 52 that it sent to all of its chips has been withdrawn on
 * models 1 and 2, and is D8 there now.
 */
#include "gwo.h"

#include <stdio.h>
#include <string.h>

static const struct gwo_record kh25l512 = {
    .model = 1, .status_us = 15000, .page_us = 5000, .sector_us = 120000, .block_us = 2000000, .chip_us = 2000000};

static const struct gwo_record kh25l12845g = {
    .model = 3, .chip_us = 50000000, .block_us = 280000, .half_us = 150000, .sector_us = 25000, .page_us = 250,
    .status_us = 40000, .wake_us = 30};

static const struct gwo_record *chip;
static uint8_t state[GWO_STATE_LENGTH], array[GWO_MODEL_3_LENGTH], in[16];
static uint32_t wear[GWO_MODEL_3_SECTORS];
static int failed;

static void check(int ok, const char *what)
{
    if (ok)
        return;
    printf("by names, 06: FAIL: model %lu, %s\n", (unsigned long)chip->model, what);
    failed = 1;
}

/* CS# low, n bytes out and in, CS# high; a program that folds says so. */
static uint32_t transfer(const uint8_t *out, size_t n, uint32_t *fold)
{
    uint32_t from, count;

    return gwo_record_frame_wear(chip, state, sizeof state, array, gwo_array_length(chip->model), wear,
                                 gwo_sector_count(chip->model), out, n, 0, 1, in, n, &from, &count, fold);
}

/* 06 and the frame, and as long as it takes. */
static void write_and_wait(const uint8_t *out, size_t n, uint32_t us, uint32_t number, const char *what)
{
    static const uint8_t write_enable[] = {0x06};
    uint32_t fold;

    check(transfer(write_enable, 1, &fold) == GWO_DONE, "06");
    check(transfer(out, n, &fold) == number && fold == 0, what);
    check(gwo_record_wait(chip, state, sizeof state, array, gwo_array_length(chip->model), us) == GWO_DONE, "a wait");
}

static void report_is(uint32_t all, uint32_t most, uint32_t where, const char *what)
{
    uint64_t total;
    uint32_t smallest, largest, sector, mean, remainder;

    check(gwo_wear_report(wear, gwo_sector_count(chip->model), &total, &smallest, &largest, &sector, &mean,
                          &remainder) == GWO_DONE, "a report");
    check(total == all && largest == most && sector == where, what);
    check(mean == all / gwo_sector_count(chip->model) && remainder == all % gwo_sector_count(chip->model), "the mean");
}

static const uint8_t chip_erase[] = {0xC7}, sector_erase[] = {0x20, 0x00, 0x20, 0x00};

/* Each erase is counted; a full count refuses it, and the firmware reads on. */
static void use(const struct gwo_record *record, uint32_t covered_by_it)
{
    const uint8_t erase[] = {record->model == 3 ? 0x52 : 0xD8, 0x00, 0x00, 0x00};
    static const uint8_t read[] = {0x03, 0x00, 0x20, 0x00, 0};
    uint32_t sectors = (uint32_t)gwo_sector_count(record->model), fold;

    chip = record;
    gwo_factory_state(state);
    memset(array, 0, sizeof array);
    memset(wear, 0, sizeof wear);
    report_is(0, 0, 0, "the report of a new chip");
    write_and_wait(sector_erase, 4, record->sector_us, GWO_DONE, "20");
    report_is(1, 1, 2, "the report after 20");
    write_and_wait(erase, 4, record->model == 3 ? record->half_us : record->block_us, GWO_DONE, "52 or D8");
    report_is(1 + covered_by_it, 2, 2, "the report after 52 or D8");
    write_and_wait(chip_erase, 1, record->chip_us, GWO_DONE, "C7");
    report_is(1 + covered_by_it + sectors, 3, 2, "the report after C7");
    wear[2] = GWO_WEAR_TOP;
    write_and_wait(sector_erase, 4, 0, GWO_WEAR_FULL, "20 of a sector with a full count");
    check(wear[2] == GWO_WEAR_TOP && transfer(read, 5, &fold) == GWO_DONE && in[4] == 0xFF, "03 after it");
}

int main(void)
{
    use(&kh25l512, 16);
    use(&gwo_bench_model_2, 16);
    use(&kh25l12845g, 8);
    printf("by names, 06: firmware with a wear table %s\n", failed ? "failed" : "compiles without a warning and runs");
    return failed;
}
