/*
 * A controller keeps a table of records in its flash chip: 48 bytes each, one after the
 * other from the start of a sector. Six of them are longer than a page of 256 bytes, so
 * the sixth lies across a page end.
 *
 * The chip does not go on to the next page. A page program that runs past the end of
 * its page goes on at the start of the same page, over the first record of the table:
 * it folds, and the model says so with its answer. Run once as the firmware was last
 * spring, and once mended.
 */
#include "flash.h"

#include <stdio.h>
#include <string.h>

enum { RECORD_LENGTH = 48, RECORDS = 6, TABLE = 0x2000 };

static const char *const records[RECORDS] = {
    "shelf 1  lamp oil      price 0450  stock 017  ok",
    "shelf 2  candles       price 0120  stock 240  ok",
    "shelf 3  matches       price 0030  stock 900  ok",
    "shelf 4  torch         price 1250  stock 008  ok",
    "shelf 5  batteries     price 0600  stock 064  ok",
    "shelf 6  spare bulbs   price 0275  stock 031  ok",
};

/* One page program; a fold is said at once. */
static void program(struct flash *f, uint32_t address, const uint8_t *bytes, size_t n)
{
    uint8_t frame[4 + RECORD_LENGTH], in[4 + RECORD_LENGTH];
    size_t at = addressed(frame, 0x02, address);

    memcpy(frame + at, bytes, n);
    write_enable(f);
    if (transfer(f, frame, in, at + n))
        printf("  FOLD: %lu bytes at %04lX run past the page's end, on to the page's start\n", (unsigned long)n,
               (unsigned long)address);
    wait_until_ready(f);
}

/* Last spring: a record is one program, wherever it lies. */
static void write_record_last_spring(struct flash *f, uint32_t address, const uint8_t *bytes)
{
    program(f, address, bytes, RECORD_LENGTH);
}

/* Mended: a program ends where its page ends, and the next one goes on. */
static void write_record_mended(struct flash *f, uint32_t address, const uint8_t *bytes)
{
    size_t room = GWO_PAGE_LENGTH - address % GWO_PAGE_LENGTH;
    size_t n = room < RECORD_LENGTH ? room : RECORD_LENGTH;

    program(f, address, bytes, n);
    if (n < RECORD_LENGTH)
        program(f, address + (uint32_t)n, bytes + n, RECORD_LENGTH - n);
}

typedef void write_record(struct flash *, uint32_t, const uint8_t *);

static void write_table(struct flash *f, write_record *write)
{
    uint32_t i;

    erase_sector(f, TABLE);
    for (i = 0; i < RECORDS; i++)
        write(f, TABLE + i * RECORD_LENGTH, (const uint8_t *)records[i]);
}

/* A byte that is no printable character is shown as a dot. */
static void show_record(uint32_t i, const uint8_t *bytes)
{
    size_t k;

    printf("  %lu  ", (unsigned long)i + 1);
    for (k = 0; k < RECORD_LENGTH; k++)
        putchar(bytes[k] >= 0x20 && bytes[k] < 0x7F ? bytes[k] : '.');
    printf("  %s\n", memcmp(bytes, records[i], RECORD_LENGTH) == 0 ? "as written" : "DAMAGED");
}

static void show_table(struct flash *f)
{
    uint8_t bytes[RECORD_LENGTH];
    uint32_t i;

    for (i = 0; i < RECORDS; i++) {
        read_bytes(f, TABLE + i * RECORD_LENGTH, bytes, RECORD_LENGTH);
        show_record(i, bytes);
    }
}

static void tell(const char *title, write_record *write)
{
    static struct flash flash;

    printf("%s\n", title);
    flash_power_on(&flash);
    write_table(&flash, write);
    show_table(&flash);
}

int main(void)
{
    tell("Last spring's firmware: each record is one program.", write_record_last_spring);
    tell("Mended: a program ends at the page's end.", write_record_mended);
    return all_written();
}
