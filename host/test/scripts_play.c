/*
 * A line of a script, played by the independent model, and its row. The reading of a line is written from 01, Script and log. An F line
 * has always four fields: an empty frame ends in a tab.
 */
#include "scripts.h"

#include "model.h"

#include <stdio.h>
#include <string.h>

struct step {
    enum { BAD, FRAME, WAIT, POWER_CYCLE } kind;
    uint32_t wp, tail, us;
    uint8_t frame[MOST_BYTES];
    size_t frame_len;
};

/* The value of a capital hex digit, or -1. */
static int hex_digit(char c)
{
    if (c >= '0' && c <= '9')
        return c - '0';
    return c >= 'A' && c <= 'F' ? c - 'A' + 10 : -1;
}

/* F, tab, 0 or 1, tab, 0 to 7, tab, 0 to 300 bytes in capital hex. */
static int read_frame(const char *s, size_t n, struct step *to)
{
    size_t i;

    if (n < 6 || s[1] != '\t' || s[3] != '\t' || s[5] != '\t')
        return 0;
    if (s[2] < '0' || s[2] > '1' || s[4] < '0' || s[4] > '7')
        return 0;
    if ((n - 6) % 2 != 0 || (n - 6) / 2 > MOST_BYTES)
        return 0;
    to->wp = (uint32_t)(s[2] - '0');
    to->tail = (uint32_t)(s[4] - '0');
    to->frame_len = (n - 6) / 2;
    for (i = 0; i < to->frame_len; i++) {
        int high = hex_digit(s[6 + 2 * i]), low = hex_digit(s[7 + 2 * i]);

        if (high < 0 || low < 0)
            return 0;
        to->frame[i] = (uint8_t)(high * 16 + low);
    }
    return 1;
}

/* W, tab, a decimal without leading zeros, at most 4,294,967,295. */
static int read_wait(const char *s, size_t n, struct step *to)
{
    uint64_t us = 0;
    size_t i;

    if (n < 3 || n > 12 || s[1] != '\t' || (s[2] == '0' && n > 3))
        return 0;
    for (i = 2; i < n; i++) {
        if (s[i] < '0' || s[i] > '9')
            return 0;
        us = us * 10 + (uint64_t)(s[i] - '0');
    }
    to->us = (uint32_t)us;
    return us <= UINT64_C(4294967295);
}

static void read_step(const char *line, size_t n, struct step *to)
{
    to->kind = BAD;
    if (n == 0 || n > MOST_LINE)
        return;
    if (line[0] == 'F' && read_frame(line, n, to))
        to->kind = FRAME;
    if (line[0] == 'W' && read_wait(line, n, to))
        to->kind = WAIT;
    if (line[0] == 'P' && n == 1)
        to->kind = POWER_CYCLE;
}

/* What a row of the log says after its number; the driven bytes are in out. */
struct reply {
    uint32_t answer, from, count, fold;
    uint8_t out[MOST_BYTES];
};

static void take_step(const struct stage *on, const struct step *s, struct reply *to)
{
    const struct gwo_record *r = on->record;
    const size_t cells = gwo_array_length(r->model), sectors = gwo_sector_count(r->model);

    to->answer = 20;
    to->from = to->count = to->fold = 0;
    switch (s->kind) {
    case FRAME:
        to->answer = ref_frame(r->model, r->status_us, r->page_us, r->sector_us, r->block_us, r->chip_us, r->half_us,
                               r->sleep_us, r->wake_us, r->sign_us, on->state, GWO_STATE_LENGTH, on->cells, cells,
                               on->wear, sectors, s->frame, s->frame_len, s->tail, s->wp, on->strict, to->out,
                               sizeof to->out, &to->from, &to->count, &to->fold);
        break;
    case WAIT:
        to->answer = ref_wait(r->model, r->status_us, r->page_us, r->sector_us, r->block_us, r->chip_us, r->half_us,
                              r->sleep_us, r->wake_us, r->sign_us, on->state, GWO_STATE_LENGTH, on->cells, cells,
                              s->us);
        break;
    case POWER_CYCLE:
        to->answer = ref_power_cycle(r->model, r->status_us, r->page_us, r->sector_us, r->block_us, r->chip_us,
                                     r->half_us, r->sleep_us, r->wake_us, r->sign_us, on->state, GWO_STATE_LENGTH);
        break;
    default:
        break;
    }
}

size_t play_line(const struct stage *on, unsigned long number, const char *line, size_t n, char *row)
{
    struct step s;
    struct reply r;
    size_t at;
    uint32_t i;

    read_step(line, n, &s);
    take_step(on, &s, &r);
    at = (size_t)sprintf(row, "%lu\t%lu\t", number, (unsigned long)r.answer);
    at += (size_t)(r.count == 0 ? sprintf(row + at, "-\t-") : sprintf(row + at, "%lu\t", (unsigned long)r.from));
    for (i = 0; i < r.count; i++)
        at += (size_t)sprintf(row + at, "%02X", r.out[r.from + i]);
    return at + (size_t)sprintf(row + at, "\t%s\n", r.fold ? "fold" : "-");
}
