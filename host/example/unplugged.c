/*
 * A controller keeps a table of records in a sector of its flash chip. It erases the sector to write the table anew,
 * and in the middle of the erase the board is pulled. The sector holds neither the old table nor FF then: every cell
 * has come part of the way. Its neighbours have lost nothing, and thirteen calls win the table back. The wear sheet has
 * both erases: one is counted when the chip takes it, whether or not it comes to its end.
 */
#include "flash.h"

#include <stdio.h>
#include <string.h>

enum { RECORD_LENGTH = 48, RECORDS = 5, LENGTH = RECORDS * RECORD_LENGTH, TABLE = 0x2000 };
enum { SECTOR = GWO_SECTOR_LENGTH };

static const char records[LENGTH + 1] = "shelf 1  lamp oil      price 0450  stock 017  ok"
                                        "shelf 2  candles       price 0120  stock 240  ok"
                                        "shelf 3  matches       price 0030  stock 900  ok"
                                        "shelf 4  torch         price 1250  stock 008  ok"
                                        "shelf 5  batteries     price 0600  stock 064  ok";

static struct flash flash;
static uint8_t before[GWO_MODEL_1_LENGTH]; /* all cells, before the board is pulled */

/* A byte that is no printable character is shown as a dot. */
static void show_table(void)
{
    uint8_t bytes[LENGTH];
    size_t i;

    read_bytes(&flash, TABLE, bytes, LENGTH);
    for (i = 0; i < LENGTH; i++) {
        if (i % RECORD_LENGTH == 0)
            printf("  %lu  ", (unsigned long)(i / RECORD_LENGTH + 1));
        putchar(bytes[i] >= 0x20 && bytes[i] < 0x7F ? bytes[i] : '.');
        if ((i + 1) % RECORD_LENGTH == 0)
            printf("  %s\n", memcmp(bytes + i + 1 - RECORD_LENGTH, records + i + 1 - RECORD_LENGTH, RECORD_LENGTH) == 0
                                 ? "as written" : "DAMAGED");
    }
}

/* How many cells from one address to before another are not as they were. */
static unsigned long changed(size_t from, size_t to)
{
    unsigned long n = 0;

    for (; from < to; from++)
        n += flash.array[from] != before[from];
    return n;
}

static void show_changed(void)
{
    printf("  cells that are not as they were: %lu below the sector, %lu in it, %lu above it\n", changed(0, TABLE),
           changed(TABLE, TABLE + SECTOR), changed(TABLE + SECTOR, sizeof flash.array));
}

/* A page program that stays in its page, and its wait. */
static void program(uint32_t address, const char *bytes, size_t n)
{
    uint8_t frame[4 + GWO_PAGE_LENGTH], in[4 + GWO_PAGE_LENGTH];
    size_t at = addressed(frame, 0x02, address);

    memcpy(frame + at, bytes, n);
    write_enable(&flash);
    transfer(&flash, frame, in, at + n);
    wait_until_ready(&flash);
}

/* The table, and in the sectors beside it something of other firmware. */
static void write_table(void)
{
    flash_power_on(&flash);
    program(TABLE, records, LENGTH);
    program(TABLE - 32, "the sector below ends with this.", 32);
    program(TABLE + SECTOR, "the sector above begins so.", 27);
    memcpy(before, flash.array, sizeof before);
}

/* An erase raises bits from 0 to 1: half way through it some of them are up, whichever they are. */
static void pull_the_board(void)
{
    uint8_t frame[4], in[4], pattern[SECTOR];
    uint32_t noise = 1;
    size_t i;

    write_enable(&flash);
    transfer(&flash, frame, in, addressed(frame, 0x20, TABLE));
    stop_unless_done(gwo_chip_wait(&flash.chip, flash.chip.record.sector_us / 2));
    for (i = 0; i < SECTOR; i++) {
        noise = noise * 1664525u + 1013904223u;
        pattern[i] = (uint8_t)(before[TABLE + i] | (noise >> 24 & noise >> 16));
    }
    stop_unless_done(gwo_chip_cut(&flash.chip, pattern, sizeof pattern));
}

/* One of the thirteen calls, as it is answered. */
static void say(const char *what, uint32_t answer)
{
    static int number;

    printf("  %2d  %-26s %2lu  %s\n", ++number, what, (unsigned long)answer, gwo_text(answer));
}

static void frame_is(const char *what, const uint8_t *frame, size_t n)
{
    uint8_t in[4 + GWO_PAGE_LENGTH];

    say(what, gwo_chip_send(&flash.chip, frame, in, n, 0).answer);
}

static void wait_is(uint32_t us)
{
    char what[40];

    sprintf(what, "wait %lu us", (unsigned long)us);
    say(what, gwo_chip_wait(&flash.chip, us));
}

/* The first wait is for the longest of the record's times; it is the chip erase's. */
static void thirteen_calls(void)
{
    static const uint8_t wake[] = {0xAB}, enable[] = {0x06}, unprotect[] = {0x01, 0x00};
    uint8_t frame[4 + LENGTH];

    wait_is(flash.chip.record.chip_us);
    frame_is("AB", wake, 1);
    wait_is(flash.chip.record.wake_us);
    frame_is("06", enable, 1);
    frame_is("01 00", unprotect, 2);
    wait_is(flash.chip.record.status_us);
    frame_is("06", enable, 1);
    frame_is("20 002000", frame, addressed(frame, 0x20, TABLE));
    wait_is(flash.chip.record.sector_us);
    frame_is("06", enable, 1);
    memcpy(frame + 4, records, LENGTH);
    frame_is("02 002000 and the table", frame, addressed(frame, 0x02, TABLE) + LENGTH);
    wait_is(flash.chip.record.page_us);
    frame_is("03 002000 and 240 bytes", frame, addressed(frame, 0x03, TABLE) + LENGTH);
}

int main(void)
{
    write_table();
    pull_the_board();
    printf("The board was pulled %lu us into the erase of the table's sector.\n",
           (unsigned long)flash.chip.record.sector_us / 2);
    show_table();
    show_changed();
    show_wear(&flash);
    printf("Thirteen calls win the table back.\n");
    thirteen_calls();
    show_table();
    show_changed();
    show_wear(&flash);
    return all_written();
}
