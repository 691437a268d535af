/* A front with a mistake, from 201 on; without one it is right. It works on the eight bytes as they are. */
#include "gwo.h"

#include <stdlib.h>

enum {
    FALLING_CLOCK = 201, /* bits */
    LOW_BIT_FIRST, BIT_AT_FALL, BIT_AT_RISE, SI_BEFORE, CLOCK_STAYS,
    BITS_IN_HOLD, /* holds */
    HOLD_WITH_CLOCK_HIGH, HOLD_AT_ONCE, HOLD_WITHIN_FRAMES, FIRST_BIT_LOST, BYTE_LOST_IN_HOLD, HOLD_STARTS_NO_FRAME,
    RISE_LOOKS_AT_ITSELF, HOLD_FORGOTTEN_AT_34,
    FOUR_FIRST, /* the rise */
    NEVER_34, NEVER_4, TAIL_LOST, TAIL_NEEDS_ROOM, ROOM_AT_RISE, WP_AT_RISE, WP_AT_LAST, WP_HIGH, BITS_STAY, CLOCK_FORGOTTEN,
    ONE_MORE_FITS, /* room */
    ONE_LESS_FITS, OUTGROWN_COUNTS_ON, OUTGROWN_WITHOUT_WP, WRITES_PAST_ROOM,
    ANY_FLAGS, /* the packing */
    ANY_VALUE, ANY_COUNT, IDLE_WITH_BYTES, ANY_LENGTH, REFUSED_CHANGES, REFUSED_TELLS,
    RUNS_ON, /* runs */
    LAST_NOT_COUNTED, EMPTY_RUN_DONE, LOOKS_TOO_FAR, OLD_RESULTS, HIGHER_BITS
};

enum { CS = 1, SCLK = 2, HELD = 4, FALL_WP = 8, OUTGROWN = 16 };

static int mistake(void)
{
    static int number = -1;
    const char *text = number >= 0 ? NULL : getenv("GWO_FAULT");

    if (number < 0)
        number = text == NULL ? 0 : atoi(text);
    return number;
}

static int has(int number)
{
    return mistake() == number;
}

/* A number in its parts: the results of a call, and the buffer. */
struct desk {
    uint8_t *front, *frame;
    size_t room;
    uint32_t *ready, *bytes, *tail, *wp;
};

static uint32_t whole(const uint8_t *front)
{
    return front[4] | (uint32_t)front[5] << 8 | (uint32_t)front[6] << 16 | (uint32_t)front[7] << 24;
}

static void set_whole(uint8_t *front, uint32_t n)
{
    front[4] = (uint8_t)n;
    front[5] = (uint8_t)(n >> 8);
    front[6] = (uint8_t)(n >> 16);
    front[7] = (uint8_t)(n >> 24);
}

static int is_front(const uint8_t *front, size_t n)
{
    const int begun = n == GWO_FRONT_LENGTH && (front[1] | front[2] | front[4] | front[5] | front[6] | front[7]) != 0;

    if (n != GWO_FRONT_LENGTH)
        return has(ANY_LENGTH) && n > GWO_FRONT_LENGTH;
    if ((front[0] >> 5 != 0 && !has(ANY_FLAGS)) || front[1] > 7 || front[3] != 0)
        return 0;
    if ((front[2] >> front[1] != 0 && !has(ANY_VALUE)) || (whole(front) > GWO_FRAME_LIMIT && !has(ANY_COUNT)))
        return 0;
    if (front[0] & CS)
        return (front[0] & (FALL_WP | OUTGROWN)) == 0 && (!begun || has(IDLE_WITH_BYTES));
    return (front[0] & OUTGROWN) == 0 || !begun;
}

/* ---- a sample */

static int is_held(const uint8_t *front, uint32_t levels)
{
    const int low = (levels & GWO_LEVEL_HOLD) == 0, last = (front[0] & HELD) != 0, high = (levels & GWO_LEVEL_SCLK) != 0;

    if (has(HOLD_WITHIN_FRAMES) && (levels & GWO_LEVEL_CS) != 0)
        return 0;
    if (has(HOLD_AT_ONCE))
        return low;
    return (has(HOLD_WITH_CLOCK_HIGH) ? high : !high) ? low : last;
}

static void clear_frame(uint8_t *front)
{
    int i;

    for (i = 1; i < 8; i++)
        front[i] = 0;
}

static int fits(const struct desk *d, uint32_t n)
{
    const size_t room = d->room + has(WRITES_PAST_ROOM) - (has(ONE_LESS_FITS) && d->room > 0);

    return n < GWO_FRAME_LIMIT + (uint32_t)has(ONE_MORE_FITS) - (uint32_t)has(ONE_LESS_FITS) && n < room;
}

static void end_byte(const struct desk *d)
{
    const uint32_t n = whole(d->front);
    const uint8_t byte = d->front[2];

    d->front[1] = d->front[2] = 0;
    if (fits(d, n)) {
        d->frame[n] = byte;
        set_whole(d->front, n + 1);
        return;
    }
    d->front[0] |= has(NEVER_4) ? 0 : OUTGROWN;
    d->front[0] &= (uint8_t)(has(OUTGROWN_WITHOUT_WP) ? ~FALL_WP : 0xFF);
    if (!has(NEVER_4))
        clear_frame(d->front);
}

static void take_bit(const struct desk *d, uint32_t si)
{
    uint8_t *f = d->front;

    if ((f[0] & OUTGROWN) != 0 && !has(OUTGROWN_COUNTS_ON))
        return;
    f[2] = (uint8_t)(has(LOW_BIT_FIRST) ? f[2] | si << f[1] : f[2] << 1 | si);
    f[1]++;
    if (f[1] == 8)
        end_byte(d);
}

static uint32_t rise(const struct desk *d, uint32_t levels, int held)
{
    const uint8_t *f = d->front;
    const int in_hold = has(RISE_LOOKS_AT_ITSELF) ? held : (f[0] & HELD) != 0;
    const int outgrown = (f[0] & OUTGROWN) != 0 || (whole(f) > d->room && !has(ROOM_AT_RISE)) ||
                         (has(TAIL_NEEDS_ROOM) && f[1] > 0 && whole(f) == d->room);

    if (outgrown && has(FOUR_FIRST))
        return 4;
    if (in_hold && !has(NEVER_34))
        return 34;
    if (outgrown)
        return 4;
    *d->ready = 1;
    *d->bytes = whole(f);
    *d->tail = has(TAIL_LOST) ? 0 : f[1];
    *d->wp = (f[0] & FALL_WP) != 0 || has(WP_HIGH);
    if (has(WP_AT_RISE))
        *d->wp = (levels & GWO_LEVEL_WP) != 0;
    return 0;
}

/* Whether this sample of a frame takes a bit. */
static int takes(const uint8_t *f, uint32_t levels, int held)
{
    const int up = (levels & GWO_LEVEL_SCLK) != 0, was_up = (f[0] & SCLK) != 0;
    const int edge = has(FALLING_CLOCK) ? was_up && !up : has(CLOCK_STAYS) ? up : !was_up && up;

    return edge && (!held || has(BITS_IN_HOLD));
}

/* The first bit after a hold, which this fault loses. */
static int after_hold(const uint8_t *f, int taken, int held)
{
    static int lost;

    if (held || (f[0] & HELD) != 0)
        lost = 1;
    else if (taken && lost) {
        lost = 0;
        return has(FIRST_BIT_LOST);
    }
    return 0;
}

static void within(const struct desk *d, uint32_t levels, int held)
{
    static uint32_t si_before;
    const uint32_t si = (levels & GWO_LEVEL_SI) != 0;
    const int taken = takes(d->front, levels, held);

    if (has(BYTE_LOST_IN_HOLD) && held)
        d->front[1] = d->front[2] = 0;
    if (has(WP_AT_LAST))
        d->front[0] = (uint8_t)((d->front[0] & ~FALL_WP) | (levels & GWO_LEVEL_WP ? FALL_WP : 0));
    if (!after_hold(d->front, taken, held) && taken)
        take_bit(d, has(SI_BEFORE) ? si_before : si);
    si_before = si;
}

static void fall(const struct desk *d, uint32_t levels, int held)
{
    d->front[0] = (uint8_t)((d->front[0] & ~(FALL_WP | OUTGROWN)) | (levels & GWO_LEVEL_WP ? FALL_WP : 0));
    clear_frame(d->front);
    if (has(BIT_AT_FALL) && takes(d->front, levels, held))
        take_bit(d, (levels & GWO_LEVEL_SI) != 0);
}

static uint32_t step(const struct desk *d, uint32_t levels)
{
    uint8_t *f = d->front;
    const int held = is_held(f, levels), was_high = (f[0] & CS) != 0;
    int high = (levels & GWO_LEVEL_CS) != 0;
    uint32_t number = 0, keeps = FALL_WP | OUTGROWN;

    if (has(HOLD_STARTS_NO_FRAME) && was_high && held)
        high = 1;
    if (was_high && !high)
        fall(d, levels, held);
    else if (!was_high && !high)
        within(d, levels, held);
    else if (!was_high) {
        if (has(BIT_AT_RISE) && takes(f, levels, held))
            take_bit(d, (levels & GWO_LEVEL_SI) != 0);
        number = rise(d, levels, held);
        keeps = 0;
        if (!has(BITS_STAY) || number == 0)
            clear_frame(f);
    }
    f[0] = (uint8_t)((f[0] & keeps) | (high ? CS : 0) | (levels & GWO_LEVEL_SCLK ? SCLK : 0) | (held ? HELD : 0));
    if (has(CLOCK_FORGOTTEN) && number != 0)
        f[0] &= (uint8_t)~SCLK;
    if (has(HOLD_FORGOTTEN_AT_34) && number == 34)
        f[0] &= (uint8_t)~HELD;
    return number;
}

/* ---- the two calls */

static void no_results(const struct desk *d)
{
    if (has(OLD_RESULTS)) {
        *d->ready = 0;
        return;
    }
    *d->ready = *d->bytes = *d->tail = *d->wp = 0;
}

static uint32_t refused(const struct desk *d, size_t front_len)
{
    if (has(REFUSED_CHANGES) && front_len == GWO_FRONT_LENGTH)
        gwo_first_front(d->front);
    if (has(REFUSED_TELLS))
        *d->bytes = 1;
    return 3;
}

uint32_t gwo_sample(uint8_t *front, size_t front_len, uint8_t *frame, size_t frame_len, uint32_t levels,
                    uint32_t *ready, uint32_t *bytes, uint32_t *tail, uint32_t *wp)
{
    const struct desk d = {front, frame, frame_len, ready, bytes, tail, wp};

    no_results(&d);
    if (!is_front(front, front_len))
        return refused(&d, front_len);
    if (has(HIGHER_BITS) && levels > 31)
        return 0;
    return step(&d, levels);
}

uint32_t gwo_samples(uint8_t *front, size_t front_len, uint8_t *frame, size_t frame_len,
                     const uint8_t *levels, size_t levels_len,
                     uint64_t *used, uint32_t *ready, uint32_t *bytes, uint32_t *tail, uint32_t *wp)
{
    const struct desk d = {front, frame, frame_len, ready, bytes, tail, wp};
    volatile uint8_t seen = 0;
    uint32_t number = 0;
    size_t i = 0;

    *used = 0;
    no_results(&d);
    if (levels_len == 0 && has(EMPTY_RUN_DONE))
        return 0;
    if (!is_front(front, front_len))
        return refused(&d, front_len);
    if (levels_len > 0 && has(LOOKS_TOO_FAR))
        seen = levels[levels_len];
    while (i < levels_len && number == 0 && (*ready == 0 || has(RUNS_ON))) {
        no_results(&d);
        number = step(&d, levels[i++]);
    }
    (void)seen;
    *used = i - (has(LAST_NOT_COUNTED) && i > 0 && (number != 0 || *ready != 0));
    return number;
}
