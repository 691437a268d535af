/*
 * What is promised of lists of samples: every frame is in reach; held samples taken out change nothing; a run cut anywhere is the same
 * run; dropped is dropped.
 */
#include "pins.h"

#include <stdio.h>
#include <string.h>

enum { MOST_WAVE = 6000, MOST_ENDS = 400, ROOM = 300 };

/* ---- every frame has samples that give it */

/* The frame by that form: handed over as it is. */
static void reached(const uint8_t *bytes, size_t n, unsigned tail, const struct form *f, size_t room)
{
    struct desk d = fresh_desk(room);
    struct wave *w = fresh_wave();
    struct told want = {0, 1, (uint32_t)n, tail, (f->other & WP) != 0, 0}, got;

    put(w, CS | f->other | (f->idle_high ? SCLK : 0u), 1);
    put_frame(w, f, bytes, n, tail);
    want.used = w->n;
    got = run_samples(&d, w->at, w->n);
    if (!same_told(&got, &want))
        fail_told("a frame and its samples", &got, &want);
    if (n > 0)
        same_bytes(d.frame, bytes, 0, n, "frame", "a frame and its samples");
}

static void in_reach(struct dice *d)
{
    static uint8_t bytes[MOST_BYTES + 1];
    unsigned n, tail, turn;

    scatter(d, bytes, sizeof bytes);
    for (n = 0; n <= 300; n++) {
        const struct form f = {HOLD | (chance(d, 50) ? WP : 0u), 2 + below(d, 6), chance(d, 50)};

        scatter(d, bytes, n);
        reached(bytes, n, below(d, 8), &f, chance(d, 50) ? n : MOST_BYTES);
    }
    for (n = 0; n < 3; n++)
        for (tail = 0; tail < 8; tail++)
            for (turn = 0; turn < 4; turn++) {
                const struct form f = {HOLD | (turn & 1 ? WP : 0u), 2, turn >> 1};

                reached(bytes + n, n, tail, &f, n);
            }
    for (tail = 0; tail < 8; tail += 7) {
        const struct form f = {HOLD | (tail ? WP : 0u), 2, tail != 0};

        reached(bytes, MOST_BYTES - 1, tail, &f, MOST_BYTES);
        reached(bytes, MOST_BYTES, tail, &f, MOST_BYTES);
    }
}

/* ---- captures of any kind */

/* Samples by which pins move as they like; CS# seldom, so that there are bytes. */
static size_t any_wave(struct dice *d, uint8_t *levels, unsigned cs_moves, unsigned hold_moves)
{
    const size_t n = 1 + below(d, MOST_WAVE);
    uint8_t last = AT_REST;
    size_t i;

    for (i = 0; i < n; i++) {
        last ^= (uint8_t)((chance(d, cs_moves) ? CS : 0) | (chance(d, 70) ? SCLK : 0) | (chance(d, 50) ? SI : 0) |
                          (chance(d, 10) ? WP : 0) | (chance(d, hold_moves) ? HOLD : 0));
        levels[i] = last;
    }
    return n;
}

/* The ends of frames: where, and what was told; the bytes go one after the other. */
struct ends {
    struct told told[MOST_ENDS];
    size_t at[MOST_ENDS], n, filled;
    uint8_t bytes[MOST_WAVE];
    uint8_t front[FRONT];
};

static void note_end(struct ends *e, const struct desk *k, const struct told *t, size_t at)
{
    if ((t->answer == 0 && t->ready == 0) || e->n == MOST_ENDS)
        return;
    e->told[e->n] = *t;
    e->told[e->n].used = 0;
    e->at[e->n++] = at;
    if (t->bytes > 0)
        memcpy(e->bytes + e->filled, k->frame, t->bytes);
    e->filled += t->bytes;
}

enum cut { WHOLE, SINGLY, ANYWHERE };

/* All of it, cut so. */
static void play_all(struct dice *d, const uint8_t *levels, size_t n, enum cut cut, size_t room, struct ends *e)
{
    struct desk k = fresh_desk(room);
    size_t at = 0;

    memset(e, 0, sizeof *e);
    while (at < n) {
        const size_t part = cut == WHOLE ? n - at : cut == SINGLY ? 1 : below(d, (uint32_t)(n - at < 90 ? n - at : 90) + 1);
        const struct told t = cut == SINGLY ? one_sample(&k, levels[at]) : run_samples(&k, levels + at, part);

        if (t.answer == 3)
            fail("a front that a call has left is answered 3");
        if (t.answer == 3)
            return;
        at += (size_t)t.used;
        note_end(e, &k, &t, at);
    }
    memcpy(e->front, k.front, FRONT);
}

static void same_ends(const struct ends *a, const struct ends *b, const char *what, int places)
{
    size_t i;

    if (a->n != b->n || a->filled != b->filled)
        fail("%s: %lu ends of frames and %lu bytes, want %lu and %lu", what, (unsigned long)a->n, (unsigned long)a->filled,
             (unsigned long)b->n, (unsigned long)b->filled);
    for (i = 0; i < a->n && i < b->n; i++)
        if (!same_told(&a->told[i], &b->told[i]))
            fail_told(what, &a->told[i], &b->told[i]);
        else if (places && a->at[i] != b->at[i])
            fail("%s: a frame ends after %lu samples, want %lu", what, (unsigned long)a->at[i], (unsigned long)b->at[i]);
    if (memcmp(a->bytes, b->bytes, a->filled < b->filled ? a->filled : b->filled) != 0)
        fail("%s: the bytes differ", what);
    same_bytes(a->front, b->front, 0, FRONT, "front", what);
}

static void cut_anywhere(struct dice *d)
{
    static uint8_t levels[MOST_WAVE];
    static struct ends whole, other;
    unsigned i;

    for (i = 0; i < 60; i++) {
        const size_t n = any_wave(d, levels, 1 + below(d, 4), below(d, 10)), room = chance(d, 50) ? ROOM : below(d, 6);

        play_all(d, levels, n, WHOLE, room, &whole);
        play_all(d, levels, n, SINGLY, room, &other);
        same_ends(&other, &whole, "by single samples", 1);
        play_all(d, levels, n, ANYWHERE, room, &other);
        same_ends(&other, &whole, "cut anywhere", 1);
    }
}

/* ---- held samples taken out */

/* A frame by samples of any kind: the fall's own sample and the one before the rise are not held. */
static size_t frame_with_holds(struct dice *d, uint8_t *levels)
{
    const size_t n = any_wave(d, levels + 1, 0, 3 + below(d, 20)) + 1;
    size_t i;

    levels[0] = AT_REST;
    for (i = 1; i < n; i++)
        levels[i] &= (uint8_t)~CS;
    levels[1] |= HOLD;
    levels[n] = SELECTED;
    levels[n + 1] = AT_REST;
    return n + 2;
}

static size_t without_held(const uint8_t *levels, size_t n, uint8_t *rest)
{
    static uint8_t held[MOST_WAVE + 8];
    size_t i, left = 0;

    held_samples(levels, n, held);
    for (i = 0; i < n; i++)
        if (!held[i])
            rest[left++] = levels[i];
    return left;
}

static void taken_out(struct dice *d)
{
    static uint8_t levels[MOST_WAVE + 8], rest[MOST_WAVE + 8];
    static struct ends with, without;
    unsigned i, fewer = 0;

    for (i = 0; i < 200; i++) {
        const size_t n = frame_with_holds(d, levels), left = without_held(levels, n, rest), room = chance(d, 70) ? ROOM : below(d, 6);

        play_all(d, levels, n, WHOLE, room, &with);
        play_all(d, rest, left, WHOLE, room, &without);
        same_ends(&with, &without, "held samples taken out", 0);
        if (with.n != 1 || with.told[0].answer == 34)
            fail("a frame with holds that are over has %lu ends, the first answered %lu", (unsigned long)with.n,
                 (unsigned long)with.told[0].answer);
        fewer += left < n;
    }
    if (fewer < 100)
        fail("%u of 200 frames had a held sample", fewer);
}

/* ---- dropped is dropped */

/* After 34 and 4: the front of the last sample's levels and whether it was held, and the next frame is as any. */
static void dropped_front(const struct desk *k, const uint8_t *levels, size_t n)
{
    static uint8_t held[MOST_WAVE];
    uint8_t want[FRONT] = {0, 0, 0, 0, 0, 0, 0, 0};

    held_samples(levels, n, held);
    want[0] = (uint8_t)(CS | (levels[n - 1] & SCLK) | (held[n - 1] ? 4 : 0));
    same_bytes(k->front, want, 0, FRONT, "front", "dropped is dropped");
}

static void dropped_is_dropped(struct dice *d)
{
    static const uint8_t status[] = {0x05, 0xA7};
    static uint8_t levels[MOST_WAVE];
    const struct form f = {SELECTED, 2, 0};
    unsigned i, drops = 0;

    for (i = 0; i < 300; i++) {
        const size_t n = any_wave(d, levels, 2, 5 + below(d, 30)), room = chance(d, 50) ? ROOM : below(d, 3);
        struct desk k = fresh_desk(room);
        struct told t = run_samples(&k, levels, n);
        struct wave *w = fresh_wave();

        if (t.answer == 0)
            continue;
        drops++;
        dropped_front(&k, levels, (size_t)t.used);
        lend_room(&k, ROOM);
        put(w, AT_REST, 1);
        put_frame(w, &f, status, 2, 0);
        t = run_samples(&k, w->at, w->n);
        if (t.answer != 0 || t.ready != 1 || t.bytes != 2 || t.tail != 0 || memcmp(k.frame, status, 2) != 0)
            fail("the frame after one that was dropped: answer %lu, %lu bytes", (unsigned long)t.answer, (unsigned long)t.bytes);
    }
    if (drops < 50)
        fail("only %u of 300 frames were dropped", drops);
}

void promises(struct dice *d)
{
    in_reach(d);
    cut_anywhere(d);
    taken_out(d);
    dropped_is_dropped(d);
}
