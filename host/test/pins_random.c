/* Random samples against the independent front: after each call everything that was lent is as that has it. */
#include "pins.h"

#include <stdio.h>
#include <string.h>

enum { MOST_RUN = 400, MOST_ROOM = 300 };

/* How often each pin moves, in percent, by the pin's place in a sample. */
struct habit {
    unsigned moves[5];
};

static struct habit any_habit(struct dice *d)
{
    static const struct habit habits[] = {{{2, 50, 50, 20, 5}}, {{1, 100, 50, 5, 0}}, {{10, 50, 50, 50, 20}},
                                          {{50, 50, 50, 50, 50}}, {{1, 90, 30, 5, 2}},  {{5, 30, 30, 30, 40}}};

    return habits[below(d, sizeof habits / sizeof habits[0])];
}

static uint8_t next_levels(struct dice *d, const struct habit *h, uint8_t last)
{
    int pin;

    for (pin = 0; pin < 5; pin++)
        if (chance(d, h->moves[pin]))
            last ^= (uint8_t)(1 << pin);
    return last;
}

/* A front of any kind: mostly a packing, else a byte of one spoilt, or a length. */
static void any_front(struct dice *d, struct desk *k)
{
    const uint8_t flags = (uint8_t)below(d, 32), bits = (uint8_t)below(d, 8);

    gwo_first_front(k->front);
    if ((flags & CS) != 0)
        k->front[0] = flags & 7;
    else if ((flags & 16) != 0)
        k->front[0] = flags;
    else {
        k->front[0] = flags;
        k->front[1] = bits;
        k->front[2] = (uint8_t)below(d, 1u << bits);
        put_us(k->front + 4, chance(d, 90) ? below(d, 5) : MOST_BYTES - below(d, 3));
    }
    if (chance(d, 40))
        k->front[below(d, FRONT)] ^= (uint8_t)(1u << below(d, 8));
    if (chance(d, 10)) {
        k->front_len = below(d, FRONT);
        k->front += FRONT - k->front_len;
    }
}

static void compare(const struct told *got, const struct told *want, const struct desk *k, const uint8_t *front, const uint8_t *frame)
{
    if (!same_told(got, want))
        fail_told("a random call", got, want);
    same_bytes(k->front, front, 0, k->front_len, "front", "a random call");
    if (k->frame_len > 0)
        same_bytes(k->frame, frame, 0, k->frame_len, "buffer", "a random call");
}

/* One call by both, of one sample or a run; how many samples it took. */
static uint64_t call_both(struct desk *k, const uint8_t *levels, size_t n, int single)
{
    uint8_t front[FRONT], frame[MOST_ROOM + 1];
    struct told want = {0, 0, 0, 0, 0, 1}, got;

    memcpy(front, k->front, k->front_len);
    if (k->frame_len > 0)
        memcpy(frame, k->frame, k->frame_len);
    if (single) {
        want.answer = ref_sample(front, k->front_len, frame, k->frame_len, levels[0], &want.ready, &want.bytes, &want.tail, &want.wp);
        want.used = want.answer != 3;
        got = one_sample(k, levels[0] | 0xABCDE000u);
    } else {
        want.answer = ref_samples(front, k->front_len, frame, k->frame_len, levels, n, &want.used, &want.ready, &want.bytes, &want.tail,
                                  &want.wp);
        got = run_samples(k, levels, n);
    }
    compare(&got, &want, k, front, frame);
    return got.used;
}

/* The answers that were met: a test that never meets one would not try it. */
static unsigned long met[5];

static void count(const struct desk *k, const uint8_t *levels, size_t n)
{
    uint8_t front[FRONT], frame[MOST_ROOM + 1];
    uint32_t ready, bytes, tail, wp, answer;
    uint64_t used;

    memcpy(front, k->front, k->front_len);
    answer = ref_samples(front, k->front_len, frame, k->frame_len, levels, n, &used, &ready, &bytes, &tail, &wp);
    met[answer == 3 ? 1 : answer == 34 ? 2 : answer == 4 ? 3 : ready ? 4 : 0]++;
}

/* A capture of a front from its first sample on, now and then with a front of another kind in between. */
static void one_capture(struct dice *d)
{
    static const size_t rooms[] = {0, 1, 2, 3, 4, 8, 40, MOST_ROOM, MOST_ROOM};
    const struct habit h = any_habit(d);
    struct desk k = fresh_desk(rooms[below(d, sizeof rooms / sizeof rooms[0])]);
    uint8_t levels[MOST_RUN], last = (uint8_t)below(d, 32);
    size_t n = below(d, MOST_RUN), i, at = 0;

    if (chance(d, 30))
        any_front(d, &k);
    for (i = 0; i < n; i++)
        levels[i] = last = (uint8_t)(next_levels(d, &h, last) | (chance(d, 2) ? 0xE0 : 0));
    while (at < n && k.front_len == FRONT) {
        const size_t part = 1 + below(d, (uint32_t)(n - at));
        const int single = (int)chance(d, 50);
        uint64_t used;

        count(&k, levels + at, part);
        used = call_both(&k, levels + at, part, single);
        if (used == 0)
            return; /* 3 */
        at += (size_t)used;
        if (chance(d, 5))
            lend_room(&k, rooms[below(d, sizeof rooms / sizeof rooms[0])]);
    }
    if (at == 0)
        call_both(&k, levels, n, n > 0 && chance(d, 50));
}

void random_runs(struct dice *d, unsigned long n)
{
    static const char *const names[] = {"no end", "3", "34", "4", "a frame"};
    const unsigned long start = rig_calls;
    size_t i;

    while (rig_calls - start < n)
        one_capture(d);
    for (i = 0; i < 5; i++)
        if (met[i] == 0)
            fail("random runs never met %s", names[i]);
    printf("random runs: %lu without an end, %lu answered 3, %lu 34, %lu 4, %lu frames\n", met[0], met[1], met[2], met[3], met[4]);
}
