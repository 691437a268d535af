/*
 * struct gwo_chip as C and as C++: each of its functions, on each model, against what the fixed functions are said to do. It has no name
 * from before the struct.
 */
#define GWO_NO_OLDER_NAMES
#include "gwo.h"

#include <stdio.h>
#include <string.h>

static int failed;
static const char *program = "chip";
static struct gwo_chip chip;
static uint8_t array[GWO_MODEL_3_LENGTH], in[8];
static uint32_t wear[GWO_MODEL_3_SECTORS];

static void check(int ok, const char *what)
{
    if (ok)
        return;
    printf("%s: FAIL: model %lu, %s\n", program, (unsigned long)chip.record.model, what);
    failed = 1;
}

/* A new chip of that model: what lay in the array and in the table is gone. */
static void renew(uint32_t model)
{
    memset(&chip, 0x5A, sizeof chip);
    memset(array, 0x5A, sizeof array);
    memset(wear, 0x5A, sizeof wear);
    check(gwo_chip_init(&chip, gwo_bench(model), array, gwo_array_length(model), wear, gwo_sector_count(model)) ==
              GWO_DONE, "a new chip");
}

/* A frame whose bytes have to be answered so. */
static struct gwo_reply send(const void *tx, size_t n)
{
    memset(in, 0xEE, sizeof in);
    return gwo_chip_send(&chip, tx, in, n, 0);
}

/* 06, the frame, and the time that it is said to take: not a microsecond less. */
static void write_for(const void *tx, size_t n, uint32_t us, const char *what)
{
    check(send("\x06", 1).answer == GWO_DONE && send(tx, n).answer == GWO_DONE, what);
    check(gwo_chip_left(&chip) == us, "the time that is left");
    check(gwo_chip_wait(&chip, us - 1) == GWO_DONE && gwo_chip_left(&chip) == 1, "all of it but one microsecond");
    check(send("\x06", 1).answer == GWO_BUSY && gwo_chip_power_cycle(&chip) == GWO_BUSY, "a chip that is busy");
    check(gwo_chip_finish(&chip) == GWO_DONE && gwo_chip_left(&chip) == 0, "the rest");
    check(gwo_chip_finish(&chip) == GWO_DONE, "nothing is left to wait for");
}

static void new_chips(uint32_t model)
{
    const size_t cells = gwo_array_length(model), sectors = gwo_sector_count(model);
    size_t i;

    renew(model);
    for (i = 0; i < sizeof array && (array[i] == 0xFF) == (i < cells); i++)
        continue;
    check(i == sizeof array, "every cell FF, and none beyond");
    for (i = 0; i < GWO_MODEL_3_SECTORS && (wear[i] == 0) == (i < sectors); i++)
        continue;
    check(i == GWO_MODEL_3_SECTORS, "every count 0, and none beyond");
    check(chip.wp != 0 && chip.strict == 0 && gwo_chip_left(&chip) == 0, "WP# high, strict off, ready");
    check(memcmp(&chip.record, gwo_bench(model), sizeof chip.record) == 0, "the bench record");
}

/* Nothing but the struct changes, and a frame and a wait are answered the same. */
static void refused_chip(const struct gwo_record *r, size_t cells, size_t counts, uint32_t number, const char *what)
{
    memset(array, 0x5A, 16);
    memset(wear, 0x5A, 16);
    check(gwo_chip_init(&chip, r, array, cells, wear, counts) == number, what);
    check(array[0] == 0x5A && wear[0] == 0x5A5A5A5Au && send("\x06", 1).answer == number, "what it leaves");
}

static void refused_chips(uint32_t model)
{
    const size_t cells = gwo_array_length(model), sectors = gwo_sector_count(model);
    struct gwo_record r = *gwo_bench(model);

    refused_chip(NULL, cells, sectors, GWO_BAD_RECORD, "no record");
    refused_chip(&r, cells - 1, sectors, GWO_BAD_ARRAY, "a short array");
    refused_chip(&r, cells, sectors + 1, GWO_BAD_WEAR, "a long table");
    refused_chip(&r, 0, 0, GWO_BAD_ARRAY, "2 before 24");
    r.page_us = 0;
    refused_chip(&r, cells, sectors, GWO_BAD_RECORD, "a time of 0");
    r.page_us = 1, r.sleep_us = r.wake_us = r.sign_us = 0;
    check(gwo_chip_init(&chip, &r, array, cells, wear, sectors) == GWO_DONE, "a record without times of sleep");
    check(chip.record.sleep_us == gwo_bench(model)->sleep_us && chip.record.wake_us == gwo_bench(model)->wake_us &&
              chip.record.sign_us == gwo_bench(model)->sign_us, "its times of sleep");
    check(gwo_bench(0) == NULL && gwo_bench(4) == NULL, "the records of no model");
}

/* A program that folds, read back; one over it; a status write with WP# low; a frame without room for its answer. */
static void frames(uint32_t model)
{
    static const uint8_t fold[] = {0x02, 0x00, 0x12, 0xFF, 0xA5, 0x5A}, over[] = {0x02, 0x00, 0x12, 0xFF, 0x00};
    static const uint8_t read[] = {0x03, 0x00, 0x12, 0xFF, 0x00}, again[] = {0x02, 0x00, 0x12, 0x00, 0x5B};
    struct gwo_reply r;

    renew(model);
    check(send("\x06", 1).answer == GWO_DONE, "06");
    r = send(fold, sizeof fold);
    check(r.answer == GWO_DONE && r.fold == 1 && r.from == 0 && r.count == 0, "02 that folds");
    check(gwo_chip_finish(&chip) == GWO_DONE && array[0x12FF] == 0xA5 && array[0x1200] == 0x5A, "the folded bytes");
    r = send(read, sizeof read);
    check(r.answer == GWO_DONE && r.from == 4 && r.count == 1 && in[4] == 0xA5 && in[3] == 0xEE && r.fold == 0, "03");
    chip.strict = 1;
    check(send("\x06", 1).answer == GWO_DONE && send(again, sizeof again).answer == GWO_NOT_ERASED, "strict");
    check(send(over, sizeof over).answer == GWO_DONE && gwo_chip_finish(&chip) == GWO_DONE, "bits that only fall");
    chip.strict = 0;
    check(send("\x06", 1).answer == GWO_DONE && send(again, sizeof again).answer == GWO_DONE, "not strict");
    check(gwo_chip_send(&chip, "\x05", NULL, 1, 0).answer == GWO_SHORT_OUTPUT, "no room for the answer");
    check(gwo_chip_send(&chip, NULL, NULL, 0, 0).answer == GWO_NO_COMMAND, "no frame");
    check(gwo_chip_send(&chip, "\x05", in, 1, 8).answer == GWO_BAD_FRAME, "a tail of 8 bits");
}

/* SRWD set with WP# high; then WP# low locks the register. A power cycle keeps SRWD and loses WEL. */
static void pins(uint32_t model)
{
    renew(model);
    write_for("\x01\x80", 2, chip.record.status_us, "01 80");
    chip.wp = 0;
    check(send("\x06", 1).answer == GWO_DONE && send("\x01\x00", 2).answer == GWO_STATUS_LOCKED, "WP# low");
    check(gwo_chip_power_cycle(&chip) == GWO_DONE && send("\x05\x00", 2).answer == GWO_DONE && in[1] == 0x80, "power");
    chip.wp = 7;
    write_for("\x01\x00", 2, chip.record.status_us, "WP# high");
    check(send("\xB9", 1).answer == GWO_DONE && gwo_chip_left(&chip) == chip.record.sleep_us, "B9");
    check(send("\xAB", 1).answer == GWO_SETTLING && gwo_chip_finish(&chip) == GWO_DONE, "AB too early");
    check(send("\x05", 1).answer == GWO_ASLEEP && send("\xAB", 1).answer == GWO_DONE, "AB");
    check(gwo_chip_left(&chip) == chip.record.wake_us, "the time of waking");
}

/* An erase, one that is cut, and what the table comes to. */
static void erases(uint32_t model)
{
    static uint8_t pattern[GWO_SECTOR_LENGTH];
    const uint32_t sectors = (uint32_t)gwo_sector_count(model);
    struct gwo_sheet sheet;

    renew(model);
    write_for("\x20\x00\x20\x00", 4, chip.record.sector_us, "20");
    memset(pattern, 0xA7, sizeof pattern);
    check(send("\x06", 1).answer == GWO_DONE && send("\x20\x00\x20\x00", 4).answer == GWO_DONE, "20 again");
    check(gwo_chip_cut(&chip, pattern, sizeof pattern - 1) == GWO_BAD_PATTERN, "a short pattern");
    check(gwo_chip_cut(&chip, pattern, sizeof pattern) == GWO_DONE && gwo_chip_left(&chip) == 0, "a cut");
    check(array[0x2000] == 0xA7 && array[0x2FFF] == 0xA7 && array[0x3000] == 0xFF && array[0x1FFF] == 0xFF, "what it leaves");
    check(gwo_chip_cut(&chip, NULL, 0) == GWO_DONE, "a cut of an idle chip");
    write_for("\xC7", 1, chip.record.chip_us, "C7");
    check(gwo_chip_wear(&chip, &sheet) == GWO_DONE, "the sheet");
    check(sheet.total == (uint64_t)sectors + 2 && sheet.smallest == 1 && sheet.largest == 3 && sheet.sector == 2 &&
              sheet.mean == 1 && sheet.remainder == 2, "its figures");
}

int main(int argc, char **argv)
{
    uint32_t model;

    if (argc > 1)
        program = argv[1];
    check(strlen(GWO_VERSION) > 0 && GWO_VERSION_MAJOR >= 1 && GWO_VERSION_MINOR >= 0, "a version");
    for (model = 1; model <= 3; model++) {
        new_chips(model);
        refused_chips(model);
        frames(model);
        pins(model);
        erases(model);
    }
    if (!failed)
        printf("%s: its functions on each model\n", program);
    return failed;
}
