#include "capture.h"

#include "say.h"

#include <string.h>

enum { MICRO = 1000000 };

void capture_start(struct capture *c)
{
    memset(&c->counts, 0, sizeof c->counts);
    c->samples = c->fall = c->resting = c->part = 0;
    gwo_first_front(c->front);
    put_text(c->log, c->sent ? "sample\tanswer\tfrom\tbytes\tnote\twp\ttail\tsent\n" : "sample\tanswer\tfrom\tbytes\tnote\n");
}

/* ---- time: each sample with CS# high takes its share of a second, and a frame takes none */

/* The microseconds of so many samples; what is left of one goes to the next gap. */
static uint64_t microseconds(struct capture *c, uint64_t samples)
{
    const uint64_t parts = samples % c->rate * MICRO + c->part;

    c->part = parts % c->rate;
    return samples / c->rate * MICRO + parts / c->rate;
}

/* No operation takes longer than the longest wait. */
static void pass(struct capture *c, uint64_t samples)
{
    const uint64_t us = c->rate == 0 ? 0 : microseconds(c, samples);

    if (us > 0)
        gwo_chip_wait(c->chip, us > UINT32_MAX ? UINT32_MAX : (uint32_t)us);
}

/* ---- rows */

/* WP#, tail and bytes as a script has them; - where there is no byte. */
static void put_sent(struct capture *c, uint32_t bytes, uint32_t tail)
{
    put_text(c->log, c->chip->wp ? "\t1\t" : "\t0\t");
    put_number(c->log, tail);
    put_text(c->log, bytes == 0 ? "\t-" : "\t");
    put_hex(c->log, c->frame, bytes);
}

/* The row of the frame whose end is the last sample taken. */
static void put_row(struct capture *c, const struct gwo_reply *r)
{
    put_number(c->log, c->samples - 1);
    put_text(c->log, "\t");
    put_number(c->log, r->answer);
    if (r->count == 0) {
        put_text(c->log, "\t-\t-");
    } else {
        put_text(c->log, "\t");
        put_number(c->log, r->from);
        put_text(c->log, "\t");
        put_hex(c->log, c->driven + r->from, r->count);
    }
    put_text(c->log, r->fold ? "\tfold" : "\t-");
}

/* ---- frames */

static void handed_over(struct capture *c, uint32_t bytes, uint32_t tail, uint32_t wp)
{
    struct gwo_reply r;

    c->chip->wp = wp;
    r = gwo_chip_send(c->chip, c->frame, c->driven, bytes, tail);
    c->counts.done += r.answer == GWO_DONE;
    c->counts.refused += r.answer != GWO_DONE;
    c->counts.folds += r.fold;
    put_row(c, &r);
    if (c->sent)
        put_sent(c, bytes, tail);
    put_text(c->log, "\n");
}

static void dropped(struct capture *c, uint32_t number)
{
    const struct gwo_reply r = {number, 0, 0, 0};

    c->counts.dropped++;
    put_row(c, &r);
    put_text(c->log, c->sent ? "\t-\t-\t-\n" : "\n");
}

/* ---- samples */

/* How many of the samples have CS# high. */
static uint64_t resting_in(const uint8_t *levels, size_t n)
{
    uint64_t count = 0;
    size_t i;

    for (i = 0; i < n; i++)
        count += levels[i] & GWO_LEVEL_CS;
    return count;
}

/* Where CS# fell, of samples that end with it low; what was known stays where it was low in all of them. */
static void note_fall(struct capture *c, const uint8_t *levels, size_t n)
{
    size_t i = n;

    while (i > 0 && (levels[i - 1] & GWO_LEVEL_CS) == 0)
        i--;
    if (i > 0)
        c->fall = c->samples - n + i;
}

/* Samples up to the end of a frame, or all: how many, 0 where they cannot be played. The sample where CS# rises belongs to the next gap. */
static size_t take_samples(struct capture *c, const uint8_t *levels, size_t n)
{
    uint32_t ready, bytes, tail, wp, number;
    uint64_t used;

    number = gwo_samples(c->front, sizeof c->front, c->frame, sizeof c->frame, levels, n, &used, &ready, &bytes, &tail, &wp);
    if (used == 0 || used > n)
        return 0;
    c->samples += used;
    c->resting += resting_in(levels, (size_t)used);
    if (ready == 0 && number == GWO_DONE) {
        note_fall(c, levels, (size_t)used);
        return (size_t)used;
    }
    pass(c, c->resting - 1);
    c->resting = 1;
    c->counts.frames++;
    if (ready != 0)
        handed_over(c, bytes, tail, wp);
    else
        dropped(c, number);
    return (size_t)used;
}

/* Of some inputs sigrok-cli writes the rate in a line of words before the samples: how long that line is, 0 where there is none. */
static size_t words_before(const struct source *from)
{
    static const char words[] = "META samplerate: ";
    const uint8_t *end;

    if (from->n < sizeof words - 1 || memcmp(from->block, words, sizeof words - 1) != 0)
        return 0;
    end = memchr(from->block, '\n', from->n);
    return end == NULL ? 0 : (size_t)(end - from->block) + 1;
}

/* What stands before the first sample is left out, and what the first sample lacks is said. */
static size_t begin(struct capture *c, const struct source *from)
{
    const size_t words = words_before(from);

    if (words > 0)
        say("the line \"%.*s\" of sigrok-cli is left out", (int)(words < 64 ? words - 1 : 63), (const char *)from->block);
    if (words < from->n && (c->channels.levels[from->block[words]] & GWO_LEVEL_CS) == 0)
        say("the capture begins with CS# low: its first frame may lack its beginning");
    return words;
}

static int play_block(struct capture *c, const struct source *from)
{
    size_t at = c->samples == 0 ? begin(c, from) : 0, n = from->n - at, taken;
    size_t i;

    for (i = 0; i < n; i++)
        c->levels[i] = c->channels.levels[from->block[at + i]];
    for (at = 0; at < n; at += taken) {
        taken = take_samples(c, c->levels + at, n - at);
        if (taken == 0)
            return could_not("the samples from %llu on cannot be played", (unsigned long long)c->samples);
    }
    return WELL;
}

/* Rows are there before the next samples are waited for. */
int capture_play(struct capture *c, struct source *from)
{
    int status;

    do {
        status = source_read(from);
        if (status == WELL)
            status = play_block(c, from);
        if (out_flush(c->log) != WELL)
            status = COULD_NOT;
    } while (status == WELL && from->n > 0);
    return status;
}

void capture_end(struct capture *c)
{
    const uint8_t *f = c->front;
    const unsigned long bytes = f[4] | (unsigned long)f[5] << 8 | (unsigned long)f[6] << 16;

    pass(c, c->resting);
    c->resting = 0;
    if ((f[0] & GWO_LEVEL_CS) == 0)
        say("the capture ends within a frame, which is not played: CS# fell at sample %llu; %lu %s and %u %s", (unsigned long long)c->fall,
            bytes, bytes == 1 ? "byte" : "bytes", f[1], f[1] == 1 ? "bit" : "bits");
}
