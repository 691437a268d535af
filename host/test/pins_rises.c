/* What is handed over when CS# rises, and what is dropped: 34, then 4; the room of the buffer; what a run takes. */
#include "pins.h"

#include <string.h>

static const struct form two = {SELECTED, 2, 0};

/* The front after a rise: the levels, and whether the sample was held. */
static void is_idle(const struct desk *d, const char *name)
{
    const uint8_t want[FRONT] = {(uint8_t)((d->front[0] & (SCLK | 4)) | CS), 0, 0, 0, 0, 0, 0, 0};

    same_bytes(d->front, want, 0, FRONT, "front", name);
}

/* One frame from rest, in a run; what comes of it in a buffer of that room, and the first bytes there. */
static void gives_in_a_run(const char *name, const struct wave *w, size_t room, struct told want, const uint8_t *bytes, size_t n)
{
    struct desk d = fresh_desk(room);
    struct told got = run_samples(&d, w->at, w->n);

    want.used = w->n;
    if (!same_told(&got, &want))
        fail_told(name, &got, &want);
    if (n > 0)
        same_bytes(d.frame, bytes, 0, n, "frame", name);
    is_idle(&d, name);
}

/* The same, and by single samples. */
static void gives(const char *name, const struct wave *w, size_t room, struct told want, const uint8_t *bytes, size_t n)
{
    struct desk d = fresh_desk(room);
    struct told got = run_singly(&d, w->at, w->n);

    want.used = w->n;
    if (!same_told(&got, &want))
        fail_told(name, &got, &want);
    if (n > 0)
        same_bytes(d.frame, bytes, 0, n, "frame", name);
    is_idle(&d, name);
    gives_in_a_run(name, w, room, want, bytes, n);
}

static struct told ready(uint32_t bytes, uint32_t tail, uint32_t wp)
{
    const struct told t = {0, 1, bytes, tail, wp, 0};

    return t;
}

static struct told dropped(uint32_t answer)
{
    const struct told t = {answer, 0, 0, 0, 0, 0};

    return t;
}

static struct wave *at_rest(void)
{
    struct wave *w = fresh_wave();

    put(w, AT_REST, 2);
    return w;
}

/* ---- the page's cases */

static void short_frames(void)
{
    static const uint8_t enable[] = {0x06, 0x80}, read[] = {0x03, 0x12, 0x34, 0x56, 0xFE};
    const struct form wp_low = {HOLD, 2, 0}, seven = {SELECTED, 7, 1};
    struct wave *w = at_rest();

    put_frame(w, &two, enable, 1, 0);
    gives("06 at two samples a bit", w, MOST_BYTES, ready(1, 0, 1), enable, 1);
    put_frame(w = at_rest(), &seven, enable, 1, 0);
    gives("06 at seven samples a bit, the clock idle high", w, 1, ready(1, 0, 1), enable, 1);
    put_frame(w = at_rest(), &wp_low, enable, 1, 0);
    gives("06 with WP# low", w, 300, ready(1, 0, 0), enable, 1);
    put_frame(w = at_rest(), &two, enable, 1, 1);
    gives("nine bits", w, 300, ready(1, 1, 1), enable, 1);
    put_frame(w = at_rest(), &two, read, 4, 7);
    gives("four bytes and seven bits", w, 300, ready(4, 7, 1), read, 4);
    put(w = at_rest(), SELECTED, 1);
    put(w, AT_REST, 1);
    gives("CS# falls and rises at once", w, 300, ready(0, 0, 1), enable, 0);
    put(w = at_rest(), SELECTED, 2);
    put(w, AT_REST | SCLK | SI, 1);
    gives("SCLK rises where CS# does", w, 300, ready(0, 0, 1), enable, 0);
    put(w = at_rest(), HOLD | SCLK | SI, 1);
    put(w, AT_REST | SCLK, 1);
    gives("the same, WP# low at the fall, SCLK with both", w, 300, ready(0, 0, 0), enable, 0);
}

/* Pulses of the clock that a hold covers, in the middle of 9F. */
static void holds(void)
{
    static const uint8_t identify[] = {0x9F}, first[] = {0x90}, second[] = {0xF0}, other[] = {0x60};
    const struct form held = {WP, 2, 0};
    struct wave *w = at_rest();

    put(w, SELECTED, 1);
    put_bits(w, &two, first, 4);
    put(w, SELECTED, 1);
    put_bits(w, &held, other, 4);
    put(w, SELECTED, 1);
    put_bits(w, &two, second, 4);
    put(w, SELECTED, 1);
    put(w, AT_REST, 1);
    gives("a hold over four pulses in the middle of a byte", w, 300, ready(1, 0, 1), identify, 1);
    put(w = at_rest(), SELECTED, 1);
    put_bits(w, &held, other, 7);
    put(w, SELECTED, 2);
    put(w, AT_REST, 1);
    gives("a hold over all pulses", w, 300, ready(0, 0, 1), identify, 0);
}

static void rises_in_holds(void)
{
    static const uint8_t enable[] = {0x06};
    struct wave *w = at_rest();

    put(w, SELECTED, 1);
    put_bits(w, &two, enable, 8);
    put(w, WP, 2);
    put(w, AT_REST, 1);
    gives("CS# and HOLD# rise in one sample", w, 300, dropped(34), enable, 1);
    w->at[w->n - 1] = CS | WP;
    gives("CS# rises, HOLD# stays low", w, 300, dropped(34), enable, 1);
    put(w = at_rest(), SELECTED, 1);
    put_bits(w, &two, enable, 8);
    put(w, SELECTED, 1);
    put(w, CS | WP, 1);
    gives("HOLD# falls where CS# rises", w, 300, ready(1, 0, 1), enable, 1);
    put(w = at_rest(), SELECTED, 1);
    put_bits(w, &two, enable, 8);
    put(w, WP | SCLK, 1);
    put(w, AT_REST, 1);
    gives("HOLD# low while SCLK is high, until the rise", w, 300, ready(1, 0, 1), enable, 1);
    put(w = at_rest(), SELECTED, 1);
    put_bits(w, &two, enable, 8);
    put(w, WP, 1);
    put(w, SELECTED | SCLK, 3);
    put(w, AT_REST | SCLK, 1);
    gives("HOLD# high again, SCLK not low since", w, 300, dropped(34), enable, 1);
}

/* A hold begun while CS# was high lasts while SCLK stays high: 34 though HOLD# is high, and again at the next pulse of CS#. */
static void old_hold(void)
{
    static const uint8_t before[] = {CS | WP, AT_REST | SCLK, SELECTED | SCLK, AT_REST | SCLK};
    static const uint8_t again[] = {SELECTED | SCLK, AT_REST | SCLK}, after[] = {AT_REST, SELECTED, AT_REST};
    const struct told want = {34, 0, 0, 0, 0, 4}, next = {34, 0, 0, 0, 0, 2}, over = {0, 1, 0, 0, 1, 3};
    struct desk d = fresh_desk(4);
    struct told got = run_samples(&d, before, 4);

    if (!same_told(&got, &want))
        fail_told("a hold begun while CS# was high", &got, &want);
    got = run_samples(&d, again, 2);
    if (!same_told(&got, &next))
        fail_told("the next pulse of CS# in the same hold", &got, &next);
    got = run_samples(&d, after, 3);
    if (!same_told(&got, &over))
        fail_told("the hold is over with SCLK low", &got, &over);
}

/* ---- room */

static void room_of_three(void)
{
    static const uint8_t five[] = {0x02, 0x11, 0x22, 0x33, 0x44};
    struct wave *w = at_rest();
    unsigned tail;

    for (tail = 0; tail < 8; tail++) {
        put_frame(w = at_rest(), &two, five, 3, tail);
        gives("a buffer of 3, 3 bytes and tail bits", w, 3, ready(3, tail, 1), five, 3);
        put_frame(w = at_rest(), &two, five, 4, tail);
        gives("a buffer of 3, 4 bytes and tail bits", w, 3, dropped(4), five, 3);
    }
    put_frame(w = at_rest(), &two, five, 0, 7);
    gives("no buffer, tail bits", w, 0, ready(0, 7, 1), five, 0);
    put_frame(w = at_rest(), &two, five, 1, 0);
    gives("no buffer, a byte", w, 0, dropped(4), five, 0);
    put_frame(w = at_rest(), &two, five, 5, 0);
    w->at[w->n - 2] = WP;
    gives("outgrown and held at the rise", w, 3, dropped(34), five, 3);
}

/* The longest frame, one byte more, and bits in the place of that byte; single samples only once, for there are a million. */
static void longest_frames(void)
{
    static uint8_t bytes[MOST_BYTES + 2];
    struct wave *w;
    size_t i;

    for (i = 0; i < sizeof bytes; i++)
        bytes[i] = (uint8_t)(i * 151 + i / 256);
    put_frame(w = at_rest(), &two, bytes, MOST_BYTES, 0);
    gives_in_a_run("65,541 bytes", w, MOST_BYTES, ready(MOST_BYTES, 0, 1), bytes, MOST_BYTES);
    put_frame(w = at_rest(), &two, bytes, MOST_BYTES, 7);
    gives_in_a_run("65,541 bytes and seven bits", w, MOST_BYTES + 3, ready(MOST_BYTES, 7, 1), bytes, MOST_BYTES);
    put_frame(w = at_rest(), &two, bytes, MOST_BYTES + 1, 0);
    gives("65,542 bytes", w, MOST_BYTES + 3, dropped(4), bytes, MOST_BYTES);
    w->at[w->n - 2] = WP;
    gives_in_a_run("65,542 bytes, held at the rise", w, MOST_BYTES + 3, dropped(34), bytes, MOST_BYTES);
    put_frame(w = at_rest(), &two, bytes, MOST_BYTES - 1, 7);
    gives_in_a_run("65,540 bytes and seven bits", w, MOST_BYTES - 1, ready(MOST_BYTES - 1, 7, 1), bytes, MOST_BYTES - 1);
}

/* The byte past the longest frame's end stays, though the buffer has it. */
static void place_of_65542(void)
{
    static uint8_t bytes[MOST_BYTES + 2];
    struct desk d = fresh_desk(MOST_BYTES + 3);
    struct wave *w = at_rest();

    memset(d.frame + MOST_BYTES, 0xC3, 3);
    put_frame(w, &two, bytes, MOST_BYTES + 2, 0);
    run_samples(&d, w->at, w->n);
    if (d.frame[MOST_BYTES] != 0xC3 || d.frame[MOST_BYTES + 1] != 0xC3)
        fail("a frame of 65,543 bytes: byte 65,541 of the buffer is written");
}

/* A buffer of another length at the rise: 4 where it is shorter than the bytes collected; a longer one takes no outgrowing back. */
static void other_room_at_the_rise(void)
{
    static const uint8_t four[] = {0x20, 0x00, 0x10, 0x00};
    static const uint8_t end[] = {SELECTED, AT_REST};
    const struct told want[] = {{4, 0, 0, 0, 0, 2}, {0, 1, 4, 0, 1, 2}, {0, 1, 4, 0, 1, 2}, {4, 0, 0, 0, 0, 2}};
    static const size_t rooms[][2] = {{8, 3}, {8, 4}, {4, 9}, {3, 9}};
    size_t i;

    for (i = 0; i < 4; i++) {
        struct desk d = fresh_desk(rooms[i][0]);
        struct wave *w = at_rest();
        struct told got;

        put(w, SELECTED, 1);
        put_bits(w, &two, four, 32);
        run_samples(&d, w->at, w->n);
        lend_room(&d, rooms[i][1]);
        got = run_samples(&d, end, 2);
        if (!same_told(&got, &want[i]))
            fail_told("another room at the rise", &got, &want[i]);
    }
}

/* Outgrown: that and WP# is all that is kept, and further bits change nothing. */
static void outgrown_front(void)
{
    static const uint8_t bytes[] = {0xA5, 0xC3, 0xFF};
    const struct form wp_low = {HOLD, 2, 0};
    const struct form *const forms[] = {&two, &wp_low};
    size_t i, bits;

    for (i = 0; i < 2; i++)
        for (bits = 16; bits <= 24; bits++) {
            struct desk d = fresh_desk(1);
            struct wave *w = at_rest();
            const uint8_t want[FRONT] = {(uint8_t)(i == 0 ? 0x18 : 0x10), 0, 0, 0, 0, 0, 0, 0};

            put(w, forms[i]->other, 1);
            put_bits(w, forms[i], bytes, bits);
            put(w, forms[i]->other, 1);
            run_samples(&d, w->at, w->n);
            same_bytes(d.front, want, 0, FRONT, "front", "outgrown");
        }
}

/* ---- runs */

/* A run ends with the sample that hands a frame over; the next one goes on from there. */
static void two_frames_in_a_run(void)
{
    static const uint8_t bytes[] = {0x06, 0x05, 0x00};
    const struct told first = {0, 1, 1, 0, 1, 2 + 1 + 16 + 1 + 1}, second = {0, 1, 2, 0, 1, 1 + 32 + 1 + 1};
    struct desk d = fresh_desk(8);
    struct wave *w = at_rest();
    struct told got;

    put_frame(w, &two, bytes, 1, 0);
    put_frame(w, &two, bytes + 1, 2, 0);
    put(w, AT_REST, 5);
    got = run_samples(&d, w->at, w->n);
    if (!same_told(&got, &first))
        fail_told("the first of two frames", &got, &first);
    got = run_samples(&d, w->at + first.used, w->n - first.used);
    if (!same_told(&got, &second))
        fail_told("the second of two frames", &got, &second);
    same_bytes(d.frame, bytes + 1, 0, 2, "frame", "the second of two frames");
}

void rises(void)
{
    short_frames();
    holds();
    rises_in_holds();
    old_hold();
    room_of_three();
    longest_frames();
    place_of_65542();
    other_room_at_the_rise();
    outgrown_front();
    two_frames_in_a_run();
}
