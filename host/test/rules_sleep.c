/*
 * B9 and AB take effect at once, and then the chip settles: how long, to the microsecond, and what it answers
 * until then and from then on. Only time, a power cycle and a cut end it.
 */
#include "jig.h"
#include "rules.h"

/* The three ways to begin: the frame, the time that follows, and whether the chip was asleep before and is after. */
static const struct start { const char *frame; int time; unsigned before, after; } starts[] = {
    {"B9", SLEEP, 0, 1}, {"AB", WAKE, 1, 0}, {"AB00000000", SIGN, 1, 0}, {"ABFFFFFFFFFF", SIGN, 1, 0}};
enum { STARTS = sizeof starts / sizeof starts[0] };

/* Times with all of their four bytes in use. */
static const uint32_t long_times[3] = {0x11223344, 0x2A3B4C5D, 0x35798642};

static void settling_times(const uint32_t us[3])
{
    given.record.sleep_us = us[0];
    given.record.wake_us = us[1];
    given.record.sign_us = us[2];
}

/* The frame on a chip in a condition, which becomes the one after it. */
static void begin(uint32_t model, const struct start *from, const uint32_t us[3], struct condition *c)
{
    jig_model(model);
    settling_times(us);
    c->asleep = from->before;
    jig_state(*c);
    jig_frame(from->frame);
    c->asleep = from->after;
    c->settling_us = *time_field(from->time);
    want_state(*c);
    if (given.frame_len > 4)
        want_repeated(4, part_of(model)->signature);
    frame_gives(0, named("model %lu: %s, then %lu us", (unsigned long)model, from->frame,
                         (unsigned long)c->settling_us));
}

/* A wait on the chip as it is. */
static void rest(struct condition *c, uint32_t us)
{
    jig_next();
    c->settling_us -= us;
    want_state(*c);
    wait_gives(us, 0, named("%lu us, %lu are left", (unsigned long)us, (unsigned long)c->settling_us));
}

/* While it settles: 22 for each of these, and nothing starts again; 10 for a frame without a byte. */
static void refuses_all(const char *after)
{
    static const char *const frames[] = {"05", "0500", "1500", "06", "04", "B9", "AB", "AB00", "AB00000000", "9F00",
                                         "0300000000", "0100", "0200000000", "20000000", "C7", "FF", "06FF"};
    size_t i;

    for (i = 0; i < sizeof frames / sizeof frames[0]; i++) {
        jig_next();
        jig_frame(frames[i]);
        frame_gives(22, named("%s while settling after %s", frames[i], after));
    }
    jig_next();
    given.tail = 7;
    frame_gives(10, named("an empty frame while settling after %s", after));
}

/* Settled: asleep it hears AB alone, awake every command. */
static void hears(uint32_t model, struct condition c, const char *after)
{
    jig_next();
    jig_frame("9F000000");
    if (!c.asleep)
        want_hex(1, part_of(model)->id);
    frame_gives(c.asleep ? 12 : 0, named("9F after %s and its time", after));
    jig_next();
    jig_frame("06");
    if (!c.asleep) {
        c.wel = 1;
        want_state(c);
    }
    frame_gives(c.asleep ? 12 : 0, named("06 after %s and its time", after));
}

/* To the last microsecond: in waits that add up, and in one. */
static void ends_exactly(uint32_t model, const struct start *from, const uint32_t us[3], struct condition c)
{
    struct condition now = c;
    uint32_t whole;

    begin(model, from, us, &now);
    refuses_all(from->frame);
    whole = now.settling_us;
    if (whole > 3) {
        rest(&now, 1);
        rest(&now, whole / 2);
        refuses_all(from->frame);
    }
    rest(&now, now.settling_us - 1);
    refuses_all(from->frame);
    rest(&now, 1);
    hears(model, now, from->frame);
    now = c;
    begin(model, from, us, &now);
    rest(&now, whole);
    hears(model, now, from->frame);
}

/* Each way has its own time of the record. */
static void each_time(uint32_t model)
{
    const struct gwo_record b = bench(model);
    const uint32_t times[][3] = {{b.sleep_us, b.wake_us, b.sign_us}, {1, 1, 1}, {2, 3, 4}, {4, 3, 2},
                                 {1000000000, 1000000000, 1000000000}, {1000000000, 1, 2}, {1, 1000000000, 2},
                                 {1, 2, 1000000000}, {long_times[0], long_times[1], long_times[2]}};
    unsigned i, k;

    for (i = 0; i < STARTS; i++)
        for (k = 0; k < sizeof times / sizeof times[0]; k++) {
            const struct condition c = {k % 2, i % 4, (i + k / 2) % 2, 0, 0, 0, 0};

            ends_exactly(model, &starts[i], times[k], c);
        }
}

/* AB of a chip that is awake, and again right after: it answers at once. */
static void awake_already(uint32_t model)
{
    size_t i;

    for (i = 1; i < STARTS; i++) {
        jig_model(model);
        settling_times(long_times);
        jig_state(enabled);
        jig_frame(starts[i].frame);
        if (given.frame_len > 4)
            want_repeated(4, part_of(model)->signature);
        frame_gives(0, named("%s of a chip that is awake", starts[i].frame));
        jig_next();
        jig_frame("0500");
        want_hex(1, "02");
        frame_gives(0, named("05 right after %s of a chip that is awake", starts[i].frame));
    }
}

/* Asleep, AB of another form is 14, and neither wakes nor settles: the next call is heard at once, and is 12. */
static void malformed(uint32_t model)
{
    static const struct { const char *frame; uint32_t tail; } forms[] = {
        {"AB", 1}, {"AB", 7}, {"AB00", 0}, {"AB0000", 0}, {"AB000000", 0}, {"AB000000", 5}};
    static const struct condition asleep = {0, 1, 1, 1, 0, 0, 0};
    size_t i;

    for (i = 0; i < sizeof forms / sizeof forms[0]; i++) {
        jig_model(model);
        jig_state(asleep);
        jig_frame(forms[i].frame);
        given.tail = forms[i].tail;
        frame_gives(14, named("%s asleep, tail %lu", forms[i].frame, (unsigned long)forms[i].tail));
        jig_next();
        jig_frame("0500");
        frame_gives(12, named("05 after %s asleep", forms[i].frame));
    }
}

/* A power cycle or a cut while it settles: awake and settled, so that 05 is answered. */
static void power_cycled(uint32_t model)
{
    struct condition c;
    size_t i;

    for (i = 0; i < 2 * STARTS; i++) {
        const struct start *from = &starts[i / 2];

        c = enabled;
        begin(model, from, long_times, &c);
        jig_next();
        want_state(power_on);
        if (i % 2 == 0)
            power_cycle_gives(0, named("a power cycle after %s", from->frame));
        else
            cut_gives(0, named("a cut after %s", from->frame));
        jig_next();
        jig_frame("0500");
        want_hex(1, "00");
        frame_gives(0, named("05 after %s and a power cycle or a cut", from->frame));
    }
}

void falling_asleep_and_waking(void)
{
    uint32_t model;

    for (model = 1; model <= MODELS; model++) {
        each_time(model);
        awake_already(model);
        malformed(model);
        power_cycled(model);
    }
}
