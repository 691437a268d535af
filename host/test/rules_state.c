/* 01, Commands: 06, 04, B9, AB, 05 and 01, from every idle state. */
#include "jig.h"
#include "rules.h"

#include <stdio.h>

/* The idle states by number; model 3 has each with two registers. */
static unsigned idle_states(uint32_t model)
{
    return 8 * (part_of(model)->highest_bp + 1) * (model == 3 ? 2 : 1);
}

static struct condition idle(uint32_t model, unsigned k)
{
    unsigned levels = part_of(model)->highest_bp + 1;
    struct condition c = power_on;

    c.asleep = k % 2;
    c.wel = k / 2 % 2;
    c.srwd = k / 4 % 2;
    c.bp = k / 8 % levels;
    c.config = k / 8 / levels * 0xDB;
    return c;
}

static const char *from_state(const char *frame, struct condition c)
{
    return named("%s from SRWD %u BP %u WEL %u asleep %u register %02X", frame, c.srwd, c.bp, c.wel, c.asleep,
                 c.config);
}

/* A frame that takes an awake chip from one state to another; asleep it is refused. */
static void awake_goes(uint32_t model, const char *frame, struct condition before, struct condition after)
{
    jig_model(model);
    jig_state(before);
    jig_frame(frame);
    given.wp = before.bp % 2;
    if (before.asleep == 0)
        want_state(after);
    frame_gives(before.asleep ? 12 : 0, from_state(frame, before));
}

/* 06 sets WEL, 04 clears it, B9 enters deep power-down and settles: nothing else changes. */
static void latch_and_sleep(uint32_t model, struct condition before)
{
    struct condition set = before, cleared = before, asleep = before;

    set.wel = 1;
    cleared.wel = 0;
    asleep.asleep = 1;
    asleep.settling_us = bench(model).sleep_us;
    awake_goes(model, "06", before, set);
    awake_goes(model, "04", before, cleared);
    awake_goes(model, "B9", before, asleep);
}

/*
 * AB wakes and leaves WEL, and a chip that was asleep settles; the long one drives the signature too, in that very
 * frame; other forms neither wake nor settle.
 */
static void waking(uint32_t model, struct condition before)
{
    static const struct { const char *frame; uint32_t tail, number; } forms[] = {
        {"AB", 0, 0}, {"AB", 1, 14}, {"AB", 7, 14}, {"AB00", 0, 14}, {"AB0000", 0, 14},
        {"AB000000", 0, 14}, {"AB000000", 7, 14}, {"AB00000000", 0, 0}, {"ABFFFFFFFF", 5, 0},
        {"AB123456789A", 7, 0}};
    struct condition awake = before;
    size_t i;

    awake.asleep = 0;
    for (i = 0; i < sizeof forms / sizeof forms[0]; i++) {
        jig_model(model);
        jig_state(before);
        jig_frame(forms[i].frame);
        given.tail = forms[i].tail;
        if (before.asleep)
            awake.settling_us = given.frame_len == 1 ? given.record.wake_us : given.record.sign_us;
        if (forms[i].number == 0)
            want_state(awake);
        if (given.frame_len >= 5)
            want_repeated(4, part_of(model)->signature);
        frame_gives(forms[i].number, from_state(forms[i].frame, before));
    }
}

/* 05: 128 SRWD + 4 BP + 2 WEL + WIP, from position 1 on, idle and busy. */
static void status_read(uint32_t model, struct condition c)
{
    char byte[3];
    size_t length;

    snprintf(byte, sizeof byte, "%02X", 128 * c.srwd + 4 * c.bp + 2 * c.wel + (c.busy_us > 0 ? 1 : 0));
    for (length = 1; length <= 6; length++) {
        jig_model(model);
        jig_state(c);
        jig_filled(0x05, length, (uint8_t)(length * 37));
        given.tail = (uint32_t)length;
        if (length > 1)
            want_repeated(1, byte);
        frame_gives(0, from_state("05", c));
    }
}

static void status_reads(uint32_t model)
{
    unsigned k;

    for (k = 0; k < idle_states(model); k++) {
        struct condition c = idle(model, k);

        if (c.asleep)
            continue;
        status_read(model, c);
        c.busy_us = c.wel ? 1 + k : 0;
        status_read(model, c);
        c.busy_us = c.wel ? longest_busy(&given.record) : 0;
        status_read(model, c);
    }
}

/*
 * 01 takes SRWD and BP from bits 7, 3 and 2, on model 3 from 7 and 5 to 2, and ignores the rest: they change, and WEL
 * clears, when its time has run out.
 */
static void status_write(uint32_t model, unsigned value)
{
    const struct condition before = {value % 2, value / 2 % 4, 1, 0, 0, 0, 0};
    const struct condition after = {value >> 7, (value & (model == 3 ? 0x3C : 0x0C)) / 4, 0, 0, 0, 0, 0};
    struct condition busy = before;

    jig_model(model);
    jig_state(before);
    jig_filled(0x01, 2, (uint8_t)value);
    busy.busy_us = bench(model).status_us;
    want_state(busy);
    frame_gives(0, named("01 %02X", value));
    completes(after, named("the end of 01 %02X", value));
}

void state_commands(void)
{
    uint32_t model;
    unsigned k;

    for (model = 1; model <= MODELS; model++) {
        for (k = 0; k < idle_states(model); k++) {
            latch_and_sleep(model, idle(model, k));
            waking(model, idle(model, k));
        }
        jig_model(model);
        status_reads(model);
        for (k = 0; k < 256; k++)
            status_write(model, k);
    }
}
