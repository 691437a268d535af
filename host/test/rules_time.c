/*
 * 01: a wait lowers the time left, never below 0; a power cycle keeps SRWD and BP, on model 3 TB too, and is refused
 * while busy.
 */
#include "jig.h"
#include "rules.h"

/* An idle state is left as it is by any wait, WEL and deep power-down included. */
static void waits_of_idle(uint32_t model, struct condition c)
{
    static const uint32_t waits[] = {0, 1, 5000, 1000000000, 0x80000000, 0xFFFFFFFF};
    size_t i;

    for (i = 0; i < sizeof waits / sizeof waits[0]; i++) {
        jig_model(model);
        jig_state(c);
        wait_gives(waits[i], 0, named("wait %lu while idle", (unsigned long)waits[i]));
    }
}

/* A chip that is busy with an operation, under a record of times that are as long as those below. */
static void busy_chip(uint32_t model, struct condition c, unsigned operation)
{
    int which;

    jig_model(model);
    for (which = 0; which <= HALF; which++)
        if (time_counts(model, which))
            *time_field(which) = 2000000;
    jig_busy(c, operation, c.busy_us * 513);
}

/* Less by the wait; at 0 the operation is done and WEL clears, and not before. */
static void wait_of_busy(uint32_t model, struct condition c, unsigned operation, uint32_t us)
{
    struct condition after = c;

    busy_chip(model, c, operation);
    if (us < c.busy_us) {
        after.busy_us -= us;
        want_state(after);
    } else {
        want_finished(model, c);
    }
    wait_gives(us, 0, named("operation %u: wait %lu with %lu left", operation, (unsigned long)us,
                            (unsigned long)c.busy_us));
}

static void waits_of_busy(uint32_t model, struct condition c, unsigned operation)
{
    wait_of_busy(model, c, operation, 0);
    wait_of_busy(model, c, operation, c.busy_us > 1 ? 1 : 0);
    wait_of_busy(model, c, operation, c.busy_us / 2);
    wait_of_busy(model, c, operation, c.busy_us - 1);
    if (takes_long(model, operation))
        return;
    wait_of_busy(model, c, operation, c.busy_us);
    wait_of_busy(model, c, operation, c.busy_us + 1);
    wait_of_busy(model, c, operation, 1000000000);
    wait_of_busy(model, c, operation, 0xFFFFFFFF);
}

/* Nothing changes, and the operation goes on. */
static void power_cycle_of_busy(uint32_t model, struct condition c, unsigned operation)
{
    busy_chip(model, c, operation);
    power_cycle_gives(11, named("power cycle, busy with operation %u, %lu left", operation, (unsigned long)c.busy_us));
}

/* A settling one: less by the wait; WEL and deep power-down stay. */
static void wait_of_settling(uint32_t model, struct condition c, uint32_t us)
{
    struct condition after = c;

    jig_model(model);
    given.record.wake_us = 1000000000;
    jig_state(c);
    after.settling_us = us < c.settling_us ? c.settling_us - us : 0;
    want_state(after);
    wait_gives(us, 0, named("wait %lu with %lu to settle", (unsigned long)us, (unsigned long)c.settling_us));
}

static void waits_of_settling(uint32_t model, struct condition c)
{
    wait_of_settling(model, c, 0);
    wait_of_settling(model, c, 1);
    wait_of_settling(model, c, c.settling_us / 2);
    wait_of_settling(model, c, c.settling_us - 1);
    wait_of_settling(model, c, c.settling_us);
    wait_of_settling(model, c, c.settling_us + 1);
    wait_of_settling(model, c, 1000000000);
    wait_of_settling(model, c, 0xFFFFFFFF);
}

static void power_cycle_of(uint32_t model, struct condition c)
{
    struct condition after = power_on;

    jig_model(model);
    given.record.sign_us = 1000000000;
    jig_state(c);
    after.srwd = c.srwd;
    after.bp = c.bp;
    after.config = c.config & TB;
    want_state(after);
    power_cycle_gives(0, named("power cycle from SRWD %u BP %u WEL %u asleep %u register %02X settling %lu",
                               c.srwd, c.bp, c.wel, c.asleep, c.config, (unsigned long)c.settling_us));
}

/* A register for model 3, by turns. */
static unsigned any_register(uint32_t model, unsigned turn)
{
    static const unsigned registers[] = {0x00, TB, 0xD3, 0xDB, 0x41};

    return model == 3 ? registers[turn % 5] : 0;
}

static void of_idle(uint32_t model)
{
    unsigned k;

    for (k = 0; k < 8 * (part_of(model)->highest_bp + 1); k++) {
        const struct condition c = {k / 4 % 2, k / 8, k / 2 % 2, k % 2, 0, any_register(model, k), 0};

        waits_of_idle(model, c);
        power_cycle_of(model, c);
    }
}

static void of_busy(uint32_t model)
{
    static const uint32_t left[] = {1, 2, 255, 256, 4999, 5000, 65535, 65536, 119999, 120000, 1999999, 2000000};
    unsigned k;
    size_t i;

    for (k = 0; k < 8; k++) {
        for (i = 0; i < sizeof left / sizeof left[0]; i++) {
            unsigned bp = model == 3 ? (k + (unsigned)i) % 16 : k % 4;
            const struct condition c = {k / 4, bp, 1, 0, left[i], any_register(model, k), 0};
            unsigned operation = (k + (unsigned)i) % operations_of(model);

            waits_of_busy(model, c, operation);
            power_cycle_of_busy(model, c, operation);
        }
    }
}

static void of_settling(uint32_t model)
{
    static const uint32_t left[] = {1, 2, 10, 255, 256, 65535, 65536, 16777216, 999999999, 1000000000};
    unsigned k;
    size_t i;

    for (k = 0; k < 8; k++) {
        for (i = 0; i < sizeof left / sizeof left[0]; i++) {
            unsigned bp = model == 3 ? (k + (unsigned)i) % 16 : k % 4;
            const struct condition c = {k / 4, bp, k / 2 % 2, k % 2, 0, any_register(model, k), left[i]};

            waits_of_settling(model, c);
            power_cycle_of(model, c);
        }
    }
}

/* The longest time that a record can have. */
static void longest_time(uint32_t model)
{
    static const uint32_t waits[] = {999999999, 1000000000, 1000000001};
    size_t i;

    for (i = 0; i < sizeof waits / sizeof waits[0]; i++) {
        struct condition c = enabled;

        jig_model(model);
        given.record.sector_us = 1000000000;
        c.busy_us = 1000000000;
        jig_busy(c, 2, 0x3000);
        if (waits[i] < 1000000000) {
            c.busy_us = 1;
            want_state(c);
        } else {
            want_finished(model, c);
        }
        wait_gives(waits[i], 0, named("wait %lu of 1,000,000,000", (unsigned long)waits[i]));
    }
}

/* Each command has its own time of the record, in all its four bytes; the last is model 3's. */
static void each_time(uint32_t model)
{
    const struct gwo_record r = {model, 0x11223344, 0x2A3B4C5D, 0x35798642, 0x18273645, 0x3A4F5E6D,
                                 model == 3 ? 0x2C4E6A81 : 0, 10, 10, 10};
    static const char *const frames[] = {"0100", "0200000000", "20000000", "D8000000", "60", "C7", "52000000"};
    size_t i;

    for (i = 0; i < sizeof frames / sizeof frames[0] - (model == 3 ? 0 : 1); i++) {
        struct condition busy = enabled;

        jig_model(model);
        given.record = r;
        jig_state(enabled);
        jig_frame(frames[i]);
        busy.busy_us = us_of(&r, given.frame[0]);
        want_state(busy);
        frame_gives(0, named("model %lu: %s under a record of long times", (unsigned long)model, frames[i]));
        jig_next();
        busy.busy_us -= 0x01020304;
        want_state(busy);
        wait_gives(0x01020304, 0, named("a wait after %s", frames[i]));
        jig_next();
        want_finished(model, busy);
        wait_gives(busy.busy_us, 0, named("the rest of the time after %s", frames[i]));
    }
}

void time_and_power(void)
{
    uint32_t model;

    for (model = 1; model <= MODELS; model++) {
        of_idle(model);
        of_busy(model);
        of_settling(model);
        longest_time(model);
        each_time(model);
    }
}
