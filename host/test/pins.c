/*
 * The front: gwo_sample and gwo_samples.
 *   pins [first] [GROUP [SEED [CALLS]]]
 * GROUP is steps, rises, packed, promises or random; without it all of them. `first` ends at the first failure.
 */
#include "pins.h"

#include <stdio.h>
#include <stdlib.h>
#include <string.h>

static struct lent lent_front, lent_frame, lent_levels;
static struct dice meaningless = {7};

/* ---- what is lent */

enum { MARKED = 16, MARK = 0x6B };

/* The bytes before the front and before the buffer are marked, and stay so. */
static void mark(const struct desk *d)
{
    memset(lent_front.end - FRONT - MARKED, MARK, MARKED);
    memset(lent_frame.end - d->frame_len - MARKED, MARK, MARKED);
}

static void marks_stay(const struct desk *d)
{
    const uint8_t *const before[] = {lent_front.end - FRONT - MARKED, lent_frame.end - d->frame_len - MARKED};
    size_t i, k;

    for (k = 0; k < 2; k++)
        for (i = 0; i < MARKED; i++)
            if (before[k][i] != MARK && d->front_len <= FRONT)
                fail("a byte before the %s is written", k == 0 ? "front" : "buffer");
}

struct desk fresh_desk(size_t room)
{
    struct desk d;

    d.front = last_of(&lent_front, FRONT);
    d.front_len = FRONT;
    gwo_first_front(d.front);
    d.frame_len = room;
    d.frame = room == 0 ? NULL : last_of(&lent_frame, room);
    scatter(&meaningless, d.frame, room < 400 ? room : 400);
    mark(&d);
    return d;
}

void lend_room(struct desk *d, size_t room)
{
    uint8_t *to = room == 0 ? NULL : last_of(&lent_frame, room);
    const size_t n = room < d->frame_len ? room : d->frame_len;

    if (n > 0)
        memmove(to, d->frame, n);
    d->frame = to;
    d->frame_len = room;
    mark(d);
}

/* ---- the calls */

int same_told(const struct told *a, const struct told *b)
{
    return a->answer == b->answer && a->ready == b->ready && a->bytes == b->bytes && a->tail == b->tail && a->wp == b->wp &&
           a->used == b->used;
}

void fail_told(const char *name, const struct told *got, const struct told *want)
{
    fail("%s: answer %lu, ready %lu, %lu bytes, tail %lu, WP# %lu, used %lu; want %lu, %lu, %lu, %lu, %lu, %lu", name,
         (unsigned long)got->answer, (unsigned long)got->ready, (unsigned long)got->bytes, (unsigned long)got->tail,
         (unsigned long)got->wp, (unsigned long)got->used, (unsigned long)want->answer, (unsigned long)want->ready,
         (unsigned long)want->bytes, (unsigned long)want->tail, (unsigned long)want->wp, (unsigned long)want->used);
}

/* Results of no meaning before each call: it has to write them all. */
static struct told unwritten(void)
{
    const struct told t = {0x5A5A5A5Au, 0x5A5A5A5Au, 0x5A5A5A5Au, 0x5A5A5A5Au, 0x5A5A5A5Au, 0x5A5A5A5A5A5A5A5Au};

    return t;
}

static void results_in_order(const struct told *t, const char *what)
{
    if (t->ready > 1 || t->wp > 1 || t->tail > 7 || t->bytes > MOST_BYTES)
        fail("%s: ready %lu, WP# %lu, tail %lu, bytes %lu", what, (unsigned long)t->ready, (unsigned long)t->wp, (unsigned long)t->tail,
             (unsigned long)t->bytes);
    if (t->ready == 0 && (t->bytes != 0 || t->tail != 0 || t->wp != 0))
        fail("%s: no frame, and %lu bytes, tail %lu, WP# %lu", what, (unsigned long)t->bytes, (unsigned long)t->tail, (unsigned long)t->wp);
    if (t->ready == 1 && t->answer != 0)
        fail("%s: a frame, and the answer %lu", what, (unsigned long)t->answer);
    if (t->answer != 0 && t->answer != 3 && t->answer != 34 && t->answer != 4)
        fail("%s: the answer %lu", what, (unsigned long)t->answer);
}

/* How many bytes of the buffer a sample may change: one at the end of a byte; none where CS# rises, and at 3. */
static void one_byte_at_most(const struct desk *d, const uint8_t *before, const struct told *t)
{
    size_t i, changed = 0;

    for (i = 0; i < d->frame_len; i++)
        changed += d->frame[i] != before[i];
    if (changed > (t->answer == 0 && t->ready == 0))
        fail("a sample answered %lu changed %lu bytes", (unsigned long)t->answer, (unsigned long)changed);
}

struct told one_sample(struct desk *d, uint32_t levels)
{
    static uint8_t kept[512], front[16];
    const int looked_at = d->frame_len <= sizeof kept;
    struct told t = unwritten();

    if (looked_at && d->frame_len > 0)
        memcpy(kept, d->frame, d->frame_len);
    if (d->front_len > 0)
        memcpy(front, d->front, d->front_len);
    t.answer = gwo_sample(d->front, d->front_len, d->frame, d->frame_len, levels, &t.ready, &t.bytes, &t.tail, &t.wp);
    t.used = t.answer != 3;
    rig_calls++;
    results_in_order(&t, "a sample");
    marks_stay(d);
    if (looked_at)
        one_byte_at_most(d, kept, &t);
    if (t.answer == 3 && d->front_len > 0 && memcmp(front, d->front, d->front_len) != 0)
        fail("a sample answered 3 has changed the front");
    return t;
}

struct told run_samples(struct desk *d, const uint8_t *levels, size_t n)
{
    uint8_t *lent = last_of(&lent_levels, n), front[16];
    struct told t = unwritten();

    memcpy(lent, levels, n);
    if (d->front_len > 0)
        memcpy(front, d->front, d->front_len);
    t.answer = gwo_samples(d->front, d->front_len, d->frame, d->frame_len, n == 0 ? NULL : lent, n, &t.used, &t.ready, &t.bytes,
                           &t.tail, &t.wp);
    rig_calls++;
    results_in_order(&t, "a run");
    marks_stay(d);
    if (t.used > n || (t.answer == 3 && t.used != 0))
        fail("a run of %lu samples answered %lu has used %lu", (unsigned long)n, (unsigned long)t.answer, (unsigned long)t.used);
    if (t.answer == 3 && d->front_len > 0 && memcmp(front, d->front, d->front_len) != 0)
        fail("a run answered 3 has changed the front");
    if (t.answer == 0 && t.ready == 0 && t.used != n)
        fail("a run without an end has used %lu of %lu samples", (unsigned long)t.used, (unsigned long)n);
    return t;
}

struct told run_singly(struct desk *d, const uint8_t *levels, size_t n)
{
    struct told t = {0, 0, 0, 0, 0, 0};
    size_t i = 0;

    while (i < n && t.answer == 0 && t.ready == 0)
        t = one_sample(d, levels[i++]);
    t.used = i;
    return t;
}

/* ---- waves */

struct wave *fresh_wave(void)
{
    static uint8_t room[LONG_WAVE];
    static struct wave w;

    w.at = room;
    w.n = 0;
    return &w;
}

void put(struct wave *w, uint32_t levels, size_t times)
{
    for (; times > 0 && w->n < LONG_WAVE; times--)
        w->at[w->n++] = (uint8_t)levels;
}

/* The clock is low in the first half of a bit, with SI already there, and high in the second. */
void put_bits(struct wave *w, const struct form *f, const uint8_t *bytes, size_t bits)
{
    size_t i;

    for (i = 0; i < bits; i++) {
        const uint32_t levels = f->other | (bytes[i / 8] >> (7 - i % 8) & 1 ? SI : 0u);

        put(w, levels, f->per / 2);
        put(w, levels | SCLK, f->per - f->per / 2);
    }
}

void put_frame(struct wave *w, const struct form *f, const uint8_t *bytes, size_t n, unsigned tail)
{
    const uint32_t idle = f->other | (f->idle_high ? SCLK : 0u);

    put(w, idle, 1);
    put_bits(w, f, bytes, 8 * n + tail);
    put(w, idle, f->idle_high ? 0 : 1);
    put(w, idle | CS, 1);
}

void held_samples(const uint8_t *levels, size_t n, uint8_t *held)
{
    uint8_t last = 0;
    size_t i;

    for (i = 0; i < n; i++) {
        if ((levels[i] & SCLK) == 0)
            last = (levels[i] & HOLD) == 0;
        held[i] = last;
    }
}

/* ---- the program */

static int wanted(const char *group, const char *name)
{
    return group == NULL || strcmp(group, name) == 0;
}

int main(int argc, char **argv)
{
    const char *group;
    struct dice d = {1};
    unsigned long calls;

    rig_begin("pins");
    if (argc > 1 && strcmp(argv[1], "first") == 0) {
        rig_stop_at_first();
        argc--;
        argv++;
    }
    group = argc > 1 ? argv[1] : NULL;
    d.at = argc > 2 ? strtoull(argv[2], NULL, 10) : 1;
    calls = argc > 3 ? strtoul(argv[3], NULL, 10) : 20000;
    lent_front = lend(64);
    lent_frame = lend(MOST_BYTES + 64);
    lent_levels = lend(LONG_WAVE);
    if (wanted(group, "steps"))
        steps();
    if (wanted(group, "rises"))
        rises();
    if (wanted(group, "packed"))
        packed_fronts();
    if (wanted(group, "promises"))
        promises(&d);
    if (wanted(group, "random"))
        random_runs(&d, calls);
    if (rig_calls == 0)
        fail("there is no group %s", group);
    return rig_end();
}
