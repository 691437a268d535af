/*
 * The independent model's player of script lines (01, Script and log; 02, Req 02): text cut into lines, each line read, played on the
 * model's own frame, wait or power cycle, and its row written.
 */
#include "model.h"

#include <stdbool.h>
#include <string.h>

enum { MOST_LINE = 640, MOST_BYTES = 300, HELD = MOST_LINE + 1, ROW = 670, STATE = 272 };

/* What a call is lent besides the text: the ten numbers of the record, the setting, and the chip. */
struct bench {
    uint32_t r[10];
    uint32_t strict;
    uint8_t *state, *array;
    size_t state_len, array_len;
    uint32_t *wear;
    size_t wear_len;
};

/* What a row says after its number; out has the driven bytes at their positions. */
struct reply {
    uint32_t answer, from, count, fold;
    uint8_t out[MOST_BYTES];
};

/* The first sixteen bytes of a packed state: bit 6 is 0, WIP is as the busy time has it, a flag, and a zero. */
static bool is_packing(const uint8_t *p, size_t n)
{
    if (n != STATE)
        return false;
    return (p[0] & 0x40) == 0 && (p[0] & 1) == ((p[4] | p[5] | p[6] | p[7]) != 0) && p[1] <= 1 && p[3] == 0;
}

/* ---- a line */

static int hex_value(uint8_t c)
{
    if (c >= '0' && c <= '9')
        return c - '0';
    return c >= 'A' && c <= 'F' ? c - 'A' + 10 : -1;
}

/* The bytes of so many pairs of capital digits; false where one is none. */
static bool hex_bytes(const uint8_t *digits, size_t n, uint8_t *bytes)
{
    size_t i;

    for (i = 0; i < n; i++) {
        int high = hex_value(digits[2 * i]), low = hex_value(digits[2 * i + 1]);

        if (high < 0 || low < 0)
            return false;
        bytes[i] = (uint8_t)(high << 4 | low);
    }
    return true;
}

/* F, WP#, tail, bytes: 20 stays where it has another form. */
static void play_frame(const struct bench *b, const uint8_t *line, size_t n, struct reply *to)
{
    uint8_t frame[MOST_BYTES];
    size_t count = (n - 6) / 2;

    if (n < 6 || n % 2 != 0 || count > MOST_BYTES || line[1] != '\t' || line[3] != '\t' || line[5] != '\t')
        return;
    if ((line[2] != '0' && line[2] != '1') || line[4] < '0' || line[4] > '7' || !hex_bytes(line + 6, count, frame))
        return;
    to->answer = ref_frame(b->r[0], b->r[1], b->r[2], b->r[3], b->r[4], b->r[5], b->r[6], b->r[7], b->r[8], b->r[9],
                           b->state, b->state_len, b->array, b->array_len, b->wear, b->wear_len, frame, count,
                           (uint32_t)(line[4] - '0'), line[2] == '1', b->strict, to->out, sizeof to->out, &to->from,
                           &to->count, &to->fold);
}

/* W and microseconds, a number of 32 bits without leading zeros. */
static void play_wait(const struct bench *b, const uint8_t *line, size_t n, struct reply *to)
{
    uint64_t us = 0;
    size_t i;

    if (n < 3 || n > 12 || line[1] != '\t' || (n > 3 && line[2] == '0'))
        return;
    for (i = 2; i < n; i++) {
        if (line[i] < '0' || line[i] > '9')
            return;
        us = 10 * us + (uint64_t)(line[i] - '0');
    }
    if (us > UINT32_MAX)
        return;
    to->answer = ref_wait(b->r[0], b->r[1], b->r[2], b->r[3], b->r[4], b->r[5], b->r[6], b->r[7], b->r[8], b->r[9],
                          b->state, b->state_len, b->array, b->array_len, (uint32_t)us);
}

static void play_power(const struct bench *b, struct reply *to)
{
    to->answer = ref_power_cycle(b->r[0], b->r[1], b->r[2], b->r[3], b->r[4], b->r[5], b->r[6], b->r[7], b->r[8],
                                 b->r[9], b->state, b->state_len);
}

static void play_line(const struct bench *b, const uint8_t *line, size_t n, struct reply *to)
{
    to->answer = 20;
    to->from = to->count = to->fold = 0;
    if (n == 0 || n > MOST_LINE)
        return;
    if (line[0] == 'F')
        play_frame(b, line, n, to);
    else if (line[0] == 'W')
        play_wait(b, line, n, to);
    else if (line[0] == 'P' && n == 1)
        play_power(b, to);
}

/* ---- a row */

static uint8_t *put_number(uint8_t *at, uint64_t number)
{
    uint8_t digits[20];
    size_t n = 0;

    do
        digits[n++] = (uint8_t)('0' + number % 10);
    while ((number /= 10) != 0);
    while (n > 0)
        *at++ = digits[--n];
    return at;
}

static uint8_t *put_text(uint8_t *at, const char *text)
{
    size_t n = strlen(text);

    memcpy(at, text, n);
    return at + n;
}

/* The row of a line; how many bytes it has, at most ROW. */
static size_t put_row(uint8_t *row, uint64_t number, const struct reply *r)
{
    static const char digits[] = "0123456789ABCDEF";
    uint8_t *at = put_number(row, number);
    uint32_t i;

    *at++ = '\t';
    at = put_number(at, r->answer);
    *at++ = '\t';
    if (r->count == 0)
        at = put_text(at, "-\t-");
    else
        at = put_text(put_number(at, r->from), "\t");
    for (i = r->from; i < r->from + r->count; i++) {
        *at++ = (uint8_t)digits[r->out[i] >> 4];
        *at++ = (uint8_t)digits[r->out[i] & 15];
    }
    return (size_t)(put_text(at, r->fold ? "\tfold\n" : "\t-\n") - row);
}

/* ---- blocks of text */

/* A line that goes on in the next block: its first bytes are held, as far as there is room. */
static void hold(uint8_t *held, uint32_t *used, const uint8_t *part, size_t n)
{
    size_t room = HELD - *used;

    if (n > room)
        n = room;
    if (n > 0)
        memcpy(held + *used, part, n);
    *used += (uint32_t)n;
}

/* Plays the line that the newline at `end` closes and writes its row; how long the row is. */
static size_t close_line(const struct bench *b, uint8_t *held, uint32_t *used, uint64_t *line, const uint8_t *part,
                         size_t n, uint8_t *log)
{
    struct reply r;

    if (*used > 0) {
        hold(held, used, part, n);
        part = held;
        n = *used;
    }
    play_line(b, part, n, &r);
    *used = 0;
    return put_row(log, (*line)++, &r);
}

static uint32_t refusal(const struct bench *b, size_t held_len, uint32_t used)
{
    if (!is_packing(b->state, b->state_len))
        return 3;
    return held_len != HELD || used > HELD ? 5 : 0;
}

uint32_t ref_play_lines(uint32_t model, uint32_t status_us, uint32_t page_us, uint32_t sector_us,
                        uint32_t block_us, uint32_t chip_us, uint32_t half_us,
                        uint32_t sleep_us, uint32_t wake_us, uint32_t sign_us, uint32_t strict,
                        uint8_t *state, size_t state_len, uint8_t *array, size_t array_len,
                        uint32_t *wear, size_t wear_len,
                        uint8_t *held, size_t held_len, uint32_t *used, uint64_t *line,
                        const uint8_t *script, size_t script_len, uint8_t *log, size_t log_len,
                        uint64_t *taken, uint64_t *written)
{
    const struct bench b = {{model, status_us, page_us, sector_us, block_us, chip_us, half_us, sleep_us, wake_us, sign_us},
                            strict, state, array, state_len, array_len, wear, wear_len};
    uint32_t number = refusal(&b, held_len, *used);
    size_t at = 0, filled = 0;

    while (number == 0 && at < script_len && log_len - filled >= ROW) {
        const uint8_t *part = script + at, *end = memchr(part, '\n', script_len - at);
        size_t n = end == NULL ? script_len - at : (size_t)(end - part);

        if (end == NULL)
            hold(held, used, part, n);
        else
            filled += close_line(&b, held, used, line, part, n, log + filled);
        at += n + (end != NULL);
    }
    *taken = at;
    *written = filled;
    return number;
}

uint32_t ref_play_last(uint32_t model, uint32_t status_us, uint32_t page_us, uint32_t sector_us,
                       uint32_t block_us, uint32_t chip_us, uint32_t half_us,
                       uint32_t sleep_us, uint32_t wake_us, uint32_t sign_us, uint32_t strict,
                       uint8_t *state, size_t state_len, uint8_t *array, size_t array_len,
                       uint32_t *wear, size_t wear_len,
                       const uint8_t *held, size_t held_len, uint32_t *used, uint64_t *line,
                       uint8_t *log, size_t log_len, uint64_t *written)
{
    const struct bench b = {{model, status_us, page_us, sector_us, block_us, chip_us, half_us, sleep_us, wake_us, sign_us},
                            strict, state, array, state_len, array_len, wear, wear_len};
    uint32_t number = refusal(&b, held_len, *used);
    struct reply r;

    *written = 0;
    if (number == 0 && log_len < ROW)
        number = 5;
    if (number != 0 || *used == 0)
        return number;
    play_line(&b, held, *used, &r);
    *used = 0;
    *written = put_row(log, (*line)++, &r);
    return 0;
}
