/* 01, Numbers returned: 3. Which 272 bytes are the packing of a valid state of the model. */
#include "jig.h"
#include "rules.h"

#include <string.h>

enum { STATE = GWO_STATE_LENGTH };

/* The bits that are 0 in the status byte and in the configuration register: 01, and 003 for model 3. */
static int bits_fit(uint32_t model, uint8_t status, uint8_t config)
{
    return model == 3 ? (status & 0x40) == 0 && (config & 0x24) == 0 : (status & 0x70) == 0 && config == 0;
}

/* How many of the page data an operation uses; -1 where it cannot have this place. */
static int data_used(uint32_t model, uint8_t command, uint32_t place)
{
    switch (command) {
    case 0x01: return place == 1 || (place == 2 && model == 3) ? (int)place : -1;
    case 0x02: return place < size_of(model) ? PAGE : -1;
    case 0x20: case 0x52: case 0xD8: return place < size_of(model) ? 0 : -1;
    default: return place == NOWHERE ? 0 : -1;
    }
}

/* FF exactly when idle; otherwise an operation with that much time. */
static int operation_fits(uint32_t model, const uint8_t *p)
{
    uint32_t busy = get_us(p + BUSY_AT);
    int i = data_used(model, p[COMMAND_AT], get_place(p));

    if (i < 0 || (busy == 0) != (p[COMMAND_AT] == NO_COMMAND))
        return 0;
    for (; i < PAGE; i++)
        if (p[DATA_AT + i] != 0xFF)
            return 0;
    return busy <= us_of(&given.record, p[COMMAND_AT]);
}

static int valid(uint32_t model, const uint8_t *p)
{
    uint32_t busy = get_us(p + BUSY_AT), settling = get_us(p + SETTLING_AT);
    int wip = p[0] & 1, wel = p[0] >> 1 & 1;

    if (!bits_fit(model, p[0], p[2]) || p[1] > 1 || p[3] != 0)
        return 0;
    if (wip != (busy > 0) || !operation_fits(model, p) || settling > longest_settling(&given.record))
        return 0;
    return busy == 0 || (wel == 1 && p[1] == 0 && settling == 0);
}

/* After a power cycle: SRWD, BP and TB stay. */
static struct condition kept(const uint8_t *p)
{
    struct condition c = power_on;

    c.srwd = p[0] >> 7;
    c.bp = p[0] >> 2 & 15;
    c.config = p[2] & TB;
    return c;
}

/*
 * A wait of 0, an empty frame, a cut with a pattern of no operation's length and a power cycle while busy leave the
 * state as it is; a power cycle of an idle chip keeps what it keeps.
 */
static void packing(uint32_t model, const uint8_t *p)
{
    const char *label = named("model %lu, state %02X %02X %02X %02X busy %lu settling %lu command %02X at %06lX",
                              (unsigned long)model, p[0], p[1], p[2], p[3], (unsigned long)get_us(p + BUSY_AT),
                              (unsigned long)get_us(p + SETTLING_AT), p[COMMAND_AT], (unsigned long)get_place(p));
    int ok = valid(model, p), busy = get_us(p + BUSY_AT) > 0;

    jig_packed(p, STATE);
    wait_gives(0, ok ? 0 : 3, label);
    jig_frame("");
    frame_gives(ok ? 10 : 3, label);
    jig_pattern(3);
    cut_gives(ok ? 23 : 3, label);
    if (ok && !busy)
        want_state(kept(p));
    power_cycle_gives(!ok ? 3 : busy ? 11 : 0, label);
}

/* A chip that is busy erases itself. */
static void by_times(uint32_t model, unsigned status, unsigned flag, unsigned config, uint32_t busy, uint32_t settling)
{
    uint8_t p[STATE] = {(uint8_t)status, (uint8_t)flag, (uint8_t)config};

    put_us(p + BUSY_AT, busy);
    put_us(p + SETTLING_AT, settling);
    put_operation(p, busy > 0 ? 0xC7 : NO_COMMAND, NOWHERE);
    packing(model, p);
}

/* Every status byte, with flags and busy times around their limits; the register 0, on model 3 also as full as can be. */
static void by_status(uint32_t model)
{
    static const unsigned flags[] = {0, 1, 2, 128, 255};
    const uint32_t most = given.record.chip_us, busy[] = {0, 1, 256, most - 1, most, most + 1, 0xFFFFFFFF};
    unsigned status, f, b;

    for (status = 0; status < 256; status++)
        for (f = 0; f < 5; f++)
            for (b = 0; b < 7; b++) {
                jig_model(model);
                by_times(model, status, flags[f], model == 3 && b % 2 ? 0xDB : 0, busy[b], 0);
            }
}

/* Settling times around their limit with every status byte, idle and busy, awake and asleep; and each of their bits. */
static void by_settling(uint32_t model)
{
    const uint32_t most = longest_settling(&given.record), settling[] = {1, most - 1, most, most + 1, 0xFFFFFFFF};
    unsigned status, flag, i;

    for (status = 0; status < 256; status++)
        for (flag = 0; flag < 3; flag++)
            for (i = 0; i < 5; i++) {
                jig_model(model);
                by_times(model, status, flag, 0, status % 2, settling[i]);
            }
    for (i = 0; i < 32; i++) {
        jig_model(model);
        by_times(model, 0x02, i % 2, 0, 0, (uint32_t)1 << i);
    }
}

/* Every third byte, idle, asleep and busy; every bit of the fourth. */
static void by_register(uint32_t model)
{
    unsigned config, bit;

    for (config = 0; config < 256; config++) {
        jig_model(model);
        by_times(model, 0x02, 0, config, 0, 0);
        jig_model(model);
        by_times(model, 0x8C, 1, config, 0, config % 2);
        jig_model(model);
        by_times(model, 0x03, 0, config, 1, 0);
    }
    for (bit = 0; bit < 8; bit++) {
        uint8_t p[STATE] = {0x02, 0, 0, (uint8_t)(1u << bit)};

        put_operation(p, NO_COMMAND, NOWHERE);
        jig_model(model);
        packing(model, p);
    }
}

static void by_length(uint32_t model)
{
    static const size_t lengths[] = {0, 1, 4, 8, 11, 12, 13, 15, 16, 256, 260, 270, 271, 272, 273, 274, 280};
    uint8_t p[STATE_ROOM];
    size_t i;

    memset(p, 0xFF, sizeof p);
    memset(p, 0, COMMAND_AT);
    for (i = 0; i < sizeof lengths / sizeof lengths[0]; i++) {
        uint32_t number = lengths[i] == STATE ? 0 : 3;
        const char *label = named("state of %lu bytes", (unsigned long)lengths[i]);

        jig_model(model);
        jig_packed(p, lengths[i]);
        power_cycle_gives(number, label);
        wait_gives(1, number, label);
        cut_gives(number, label);
        jig_frame("0500");
        if (number == 0)
            want_hex(1, "00");
        frame_gives(number, label);
    }
}

/* A record whose times differ and are short, but for one; the sixth is 0 where it does not count. */
static void one_long_time(uint32_t model, int which, uint32_t us)
{
    int k;

    jig_model(model);
    for (k = 0; k < TIMES; k++)
        *time_field(k) = time_counts(model, k) ? 1000 + (uint32_t)k : 0;
    *time_field(which) = us;
}

/* A running operation with so much time left, and no page data but what a status write has. */
static void running(uint32_t model, uint8_t command, uint32_t place, uint32_t busy)
{
    uint8_t p[STATE] = {(uint8_t)(busy > 0 ? 0x07 : 0x06)};

    put_us(p + BUSY_AT, busy);
    put_operation(p, command, place);
    packing(model, p);
}

/*
 * Each time by turns is the longest: it bounds the operations that it is the time of, and the others have their own;
 * the longest of the three settling times bounds the settling time.
 */
static void by_longest(uint32_t model)
{
    static const struct { uint8_t command; uint32_t place; } kinds[] = {
        {0x01, 1}, {0x02, 0}, {0x20, 0}, {0x52, 0}, {0xD8, 0}, {0x60, NOWHERE}, {0xC7, NOWHERE}};
    static const uint32_t left[] = {999, 1000, 1001, 1002, 1003, 1004, 1005, 1006, 69999, 70000, 70001};
    int which;
    size_t i, k;

    for (which = 0; which < TIMES; which++)
        for (i = 0; i < sizeof left / sizeof left[0] && time_counts(model, which); i++) {
            for (k = 0; k < sizeof kinds / sizeof kinds[0]; k++) {
                one_long_time(model, which, 70000);
                running(model, kinds[k].command, kinds[k].place, left[i]);
            }
            one_long_time(model, which, 70000);
            by_times(model, 0x02, (unsigned)i % 2, 0, 0, left[i]);
        }
}

/* Every command byte, idle and busy, with places that some operation can have. */
static void by_command(uint32_t model)
{
    static const uint32_t places[] = {NOWHERE, 0, 1, 2};
    unsigned command, i;

    for (command = 0; command < 256; command++)
        for (i = 0; i < 4; i++) {
            jig_model(model);
            running(model, (uint8_t)command, places[i], 1);
            jig_model(model);
            running(model, (uint8_t)command, places[i], 0);
        }
}

/* Places around every limit, counts with a byte before them, and each of the bits. */
static void by_place(uint32_t model)
{
    static const uint8_t commands[] = {0x01, 0x02, 0x20, 0x52, 0xD8, 0x60, 0xC7, NO_COMMAND};
    const uint32_t size = size_of(model), limits[] = {0, 1, 2, 3, 255, 256, 257, 258, 0x010001, 0x010002, 0xFF0001,
                                                      size - 1, size, size + 1, 2 * size - 1, NOWHERE - 1, NOWHERE};
    size_t i, k;

    for (i = 0; i < sizeof commands; i++) {
        for (k = 0; k < sizeof limits / sizeof limits[0]; k++) {
            jig_model(model);
            running(model, commands[i], limits[k] & 0xFFFFFF, commands[i] == NO_COMMAND ? 0 : 1);
        }
        for (k = 0; k < 24; k++) {
            jig_model(model);
            running(model, commands[i], (uint32_t)1 << k, commands[i] == NO_COMMAND ? 0 : 1);
            jig_model(model);
            running(model, commands[i], NOWHERE ^ (uint32_t)1 << k, commands[i] == NO_COMMAND ? 0 : 1);
        }
    }
}

/* Each of the page data alone is not FF, under every operation and none; and all of them. */
static void by_data(uint32_t model)
{
    static const struct { uint8_t command; uint32_t place; } kinds[] = {
        {0x01, 1}, {0x01, 2}, {0x02, 0x1234}, {0x20, 0}, {0x52, 0}, {0xD8, 0}, {0x60, NOWHERE}, {0xC7, NOWHERE},
        {NO_COMMAND, NOWHERE}};
    size_t i, k;

    for (i = 0; i < sizeof kinds / sizeof kinds[0]; i++)
        for (k = 0; k <= PAGE; k++) {
            int busy = kinds[i].command != NO_COMMAND;
            uint8_t p[STATE] = {(uint8_t)(2 + busy)};

            put_us(p + BUSY_AT, (uint32_t)busy);
            put_operation(p, kinds[i].command, kinds[i].place);
            if (k < PAGE)
                p[DATA_AT + k] ^= (uint8_t)(1u << k % 8);
            else
                memset(p + DATA_AT, 0, PAGE);
            jig_model(model);
            packing(model, p);
        }
}

void packed_states(void)
{
    uint32_t model;

    for (model = 1; model <= MODELS; model++) {
        jig_model(model);
        by_status(model);
        by_settling(model);
        by_register(model);
        by_length(model);
        by_longest(model);
        by_command(model);
        by_place(model);
        by_data(model);
    }
}
