/* Random scripts: scenes that a chip takes, and between them lines that are bad in every way. */
#include "scripts.h"

#include "rig.h"

#include <stdio.h>
#include <string.h>

static struct dice dice;
static const struct gwo_record *chip; /* whose times are waited for */
static unsigned long lines_left;
static int last_newline;

#define ONE_OF(list) ((list)[below(&dice, sizeof(list) / sizeof((list)[0]))])

/* One line of the script; after the last nothing more is written. */
static void put_line(const char *text, size_t n)
{
    if (lines_left == 0)
        return;
    lines_left--;
    fwrite(text, 1, n, stdout);
    if (lines_left > 0 || last_newline)
        putchar('\n');
}

static void put_text(const char *text)
{
    put_line(text, strlen(text));
}

static size_t frame_text(char *text, unsigned wp, unsigned tail, const uint8_t *bytes, size_t n)
{
    size_t at = (size_t)sprintf(text, "F\t%u\t%u\t", wp, tail), i;

    for (i = 0; i < n; i++)
        at += (size_t)sprintf(text + at, "%02X", bytes[i]);
    return at;
}

static void put_frame(unsigned wp, unsigned tail, const uint8_t *bytes, size_t n)
{
    char text[MOST_LINE + 1];

    put_line(text, frame_text(text, wp, tail, bytes, n));
}

static void put_wait(unsigned long us)
{
    char text[40];

    sprintf(text, "W\t%lu", us);
    put_text(text);
}

/* A command with an address near an end of a page, sector or array, and n random bytes. */
static void put_addressed(uint8_t command, uint32_t address, size_t n)
{
    uint8_t bytes[MOST_BYTES];

    scatter(&dice, bytes, sizeof bytes);
    bytes[0] = command;
    bytes[1] = (uint8_t)(address >> 16);
    bytes[2] = (uint8_t)(address >> 8);
    bytes[3] = (uint8_t)address;
    put_frame(1, 0, bytes, 4 + n);
}

static uint32_t any_address(void)
{
    static const uint32_t units[] = {256, 4096, 65536, 0x1000000};
    uint32_t unit = ONE_OF(units);

    return (below(&dice, 0x1000000 / unit) * unit + below(&dice, 9) - 4) & 0xFFFFFF;
}

static void any_frame_scene(void)
{
    static const uint8_t commands[] = {0x01, 0x02, 0x03, 0x04, 0x05, 0x06, 0x0B, 0x15, 0x20,
                                       0x52, 0x5A, 0x60, 0x90, 0x9F, 0xAB, 0xB9, 0xC7, 0xD8};
    uint8_t bytes[MOST_BYTES];
    size_t n = chance(&dice, 90) ? below(&dice, 9) : below(&dice, MOST_BYTES + 1);

    scatter(&dice, bytes, sizeof bytes);
    bytes[0] = chance(&dice, 85) ? ONE_OF(commands) : (uint8_t)roll(&dice);
    put_frame(below(&dice, 2), chance(&dice, 60) ? 0 : below(&dice, 8), bytes, n);
}

/* Waits for a time, or one beside it; or tries something while the chip is busy or settles, a power cycle among it. */
static void put_wait_near(unsigned long us)
{
    if (chance(&dice, 25)) {
        put_wait(us - 1);
        put_text(chance(&dice, 20) ? "P" : "F\t1\t0\t0500");
        any_frame_scene();
        put_wait(1);
        return;
    }
    if (chance(&dice, 10))
        put_text("P");
    if (chance(&dice, 20))
        any_frame_scene();
    put_wait(us + below(&dice, 2));
}

static void program_scene(void)
{
    static const size_t counts[] = {1, 2, 9, 255, 256, 257, 296};
    uint32_t address = any_address() & (chance(&dice, 50) ? 0xFFFFFF : 0x00FFFF);

    put_text("F\t1\t0\t06");
    put_addressed(0x02, address, ONE_OF(counts));
    put_wait_near(chip->page_us);
    put_addressed(0x03, address & 0xFFFF00, 256);
    put_addressed(0x0B, address + 250, 1 + below(&dice, 290));
}

static void erase_scene(void)
{
    static const uint8_t erases[] = {0x20, 0x20, 0x20, 0x20, 0x52, 0xD8, 0x60, 0xC7};
    uint8_t command = ONE_OF(erases);
    uint32_t address = any_address();

    put_text("F\t1\t0\t06");
    if (command == 0x60 || command == 0xC7)
        put_frame(0, 0, &command, 1);
    else
        put_addressed(command, address, 0);
    put_wait_near(us_of(chip, command));
    put_addressed(0x03, address - 20, 40);
}

static void status_scene(void)
{
    uint8_t bytes[3] = {0x01, 0x00, 0x00};
    size_t n = chip->model == 3 && chance(&dice, 30) ? 3 : 2; /* with the configuration register, TB only now and then */

    if (chance(&dice, 50))
        bytes[1] = (uint8_t)roll(&dice);
    if (n == 3)
        bytes[2] = (uint8_t)(roll(&dice) & (chance(&dice, 5) ? 0xFF : 0xF7));
    put_text("F\t1\t0\t06");
    put_frame(chance(&dice, 70), 0, bytes, n);
    put_text("F\t0\t3\t050000");
    put_wait_near(chip->status_us);
    put_text("F\t0\t0\t0500");
}

static void sleep_scene(void)
{
    put_text("F\t1\t0\tB9");
    put_wait_near(chip->sleep_us);
    put_text(chance(&dice, 50) ? "F\t1\t0\t9F000000" : "F\t0\t7\tFF");
    put_text(chance(&dice, 50) ? "F\t1\t0\tAB" : "F\t1\t5\tAB0000000000");
    put_wait_near(chip->wake_us);
    put_text("F\t1\t0\t9000000100000000");
}

static void time_scene(void)
{
    static const unsigned long waits[] = {0, 1, 9, 10, 4999, 5000, 120000, 2000000, 4294967294, 4294967295};

    if (chance(&dice, 20))
        put_text("P");
    else
        put_wait(ONE_OF(waits));
}

/* Lines that are not well formed, by a word each. */
static const char *const bad_lines[] = {
    "", "X", "f\t1\t0\t06", "w\t5", "p", "F", "F\t", "F\t1", "F\t1\t0", "F\t1\t06", "F\t\t0\t06", "F\t1\t\t06",
    "F\t1\t0\t06\t", "F\t1\t0\t06\t0", "\tF\t1\t0\t06", "F 1 0 06", "F\t1\t0\t06 ", " F\t1\t0\t06", "F\t1\t0\t 06",
    "F\t1\t0\t0", "F\t1\t0\t060", "F\t1\t0\tab", "F\t1\t0\t0b", "F\t1\t0\t0G", "F\t1\t0\t0x06", "F\t2\t0\t06",
    "F\t-\t0\t06", "F\t01\t0\t06", "F\tA\t0\t06", "F\t1\t8\t06", "F\t1\t9\t06", "F\t1\t00\t06", "F\t1\t-\t06",
    "F\t1\t0\t-", "F\t1\t0\t06\r", "FF\t1\t0\t06", "W", "W\t", "W5", "W 5", "W\t00", "W\t05", "W\t05000", "W\t-1",
    "W\t+5", "W\t5 ", "W\t 5", "W\t5\t", "W\t5\r", "W\t1F", "W\t0x5", "W\t1.5", "W\t4294967296", "W\t4294967300",
    "W\t9999999999", "W\t10000000000", "W\t18446744073709551616", "W\t18446744073709556616",
    "W\t99999999999999999999999999999999", "WW\t5", "P\t", "P ", "PP", "P\r", "P\t0", " P", "#", "-",
    "\t", "\t\t\t", "line\tanswer\tfrom\tbytes\tnote", "F\t1\t0\t06F\t1\t0\t06", "\xC3\xA9", "\xFF",
    "F\t1\t0\t\xB0\x36"};

/* A frame of 301 bytes, or of any number past it: the digits are good, the length is not. */
static void too_many_bytes(void)
{
    static char text[6 + 2 * 4000];
    size_t n = chance(&dice, 40) ? 301 : 301 + below(&dice, chance(&dice, 50) ? 40 : 3000);

    memcpy(text, "F\t1\t0\t", 6);
    memset(text + 6, '0' + (int)below(&dice, 10), 2 * n);
    put_line(text, 6 + 2 * n);
}

/* Around 640 bytes, and now and then far beyond: one line each. */
static void too_long(void)
{
    static char text[300000];
    size_t n = chance(&dice, 60) ? 636 + below(&dice, 10)
               : chance(&dice, 98) ? 641 + below(&dice, 2000) : 60000 + below(&dice, 240000);

    memset(text, chance(&dice, 50) ? 'P' : '\t', n);
    if (chance(&dice, 30))
        memcpy(text, "W\t5000", 6);
    put_line(text, n);
}

/* Any bytes but newlines, NUL among them. */
static void any_bytes(void)
{
    char text[64];
    size_t n = below(&dice, sizeof text), i;

    for (i = 0; i < n; i++) {
        text[i] = (char)roll(&dice);
        if (text[i] == '\n')
            text[i] = 0;
    }
    put_line(text, n);
}

/* A good line with one byte changed, put in or left out; by chance it may still be good. */
static void slip(void)
{
    char text[40];
    uint8_t bytes[6];
    size_t n, at;

    scatter(&dice, bytes, sizeof bytes);
    n = chance(&dice, 60) ? frame_text(text, below(&dice, 2), below(&dice, 8), bytes, below(&dice, 7))
                          : (size_t)sprintf(text, "W\t%lu", (unsigned long)(roll(&dice) >> 32));
    at = below(&dice, (uint32_t)n);
    switch (below(&dice, 3)) {
    case 0:
        text[at] = (char)(chance(&dice, 50) ? 0x20 + below(&dice, 96) : below(&dice, 10));
        break;
    case 1:
        memmove(text + at + 1, text + at, n - at);
        text[at] = (char)(chance(&dice, 50) ? '0' : '\t');
        n++;
        break;
    default:
        memmove(text + at, text + at + 1, n - at - 1);
        n--;
        break;
    }
    put_line(text, n);
}

static void bad_scene(void)
{
    switch (below(&dice, 16)) {
    case 0: too_many_bytes(); break;
    case 1: too_long(); break;
    case 2: any_bytes(); break;
    case 3: put_line("F\t1\t0\t06\0", 9); break;
    case 4: put_line("P\0", 2); break;
    case 5: case 6: case 7: slip(); break;
    default: put_text(ONE_OF(bad_lines)); break;
    }
}

void generate(uint64_t seed, unsigned long lines, uint32_t model)
{
    static void (*const scenes[])(void) = {program_scene, program_scene, erase_scene, status_scene,
                                           sleep_scene, any_frame_scene, any_frame_scene, any_frame_scene,
                                           time_scene, time_scene};

    dice.at = seed;
    chip = gwo_bench(model);
    last_newline = seed % 2 == 0;
    lines_left = lines;
    while (lines_left > 0) {
        ONE_OF(scenes)();
        if (chance(&dice, 40))
            bad_scene();
    }
}

void generate_bad(uint64_t seed, unsigned long lines)
{
    dice.at = seed;
    last_newline = 1;
    lines_left = lines;
    while (lines_left > 0)
        bad_scene();
}
