/*
 * 003: the configuration register of model 3. 15 reads it, the second data byte of 01 writes it when its time has run
 * out, a power cycle clears all of it but TB, and nothing clears TB. Models 1 and 2 have none of this.
 */
#include "jig.h"
#include "rules.h"

#include <stdio.h>

/* The 64 registers that model 3 can have: bits 5 and 2 are 0. */
static unsigned register_of(unsigned k)
{
    return k % 4 + k / 4 % 4 * 8 + k / 16 * 64;
}

/* After a second data byte, bit by bit: 5 and 2 are reserved, 3 (TB) is set once, the others are replaced. */
static unsigned written(unsigned before, unsigned data)
{
    unsigned bit, after = 0;

    for (bit = 0; bit < 8; bit++)
        if (bit != 5 && bit != 2)
            after |= (bit == 3 ? before | data : data) & 1u << bit;
    return after;
}

/* 15: the register from position 1 on, idle and busy, any tail, and nothing changes. */
static void read_register(struct condition c)
{
    char hex[3];
    size_t length;

    snprintf(hex, sizeof hex, "%02X", c.config);
    for (length = 1; length <= 6; length++) {
        jig_model(3);
        jig_state(c);
        jig_filled(0x15, length, (uint8_t)(length * 37));
        given.tail = (uint32_t)length;
        given.wp = length % 2;
        if (length > 1)
            want_repeated(1, hex);
        frame_gives(0, named("15 of %lu bytes, register %02X, busy %lu", (unsigned long)length, c.config,
                             (unsigned long)c.busy_us));
    }
}

static void reads(void)
{
    unsigned k;

    for (k = 0; k < 64; k++) {
        struct condition c = {k % 2, k % 16, k / 2 % 2, 0, 0, register_of(k), 0};

        read_register(c);
        c.wel = 1;
        c.busy_us = 1 + k;
        read_register(c);
        c.busy_us = bench(3).chip_us;
        read_register(c);
    }
}

/* DC, PBE and ODS are stored and change no answer: 0B has one dummy byte, and nothing is driven during it (house). */
static void fast_reads(void)
{
    unsigned k;

    for (k = 0; k < 64; k++) {
        const struct condition c = {0, 0, 0, 0, 0, register_of(k), 0};

        jig_model(3);
        jig_state(c);
        jig_addressed(0x0B, 0xFEFFF0 + k, 40, 0x00);
        want_cells_driven(5, 0xFEFFF0 + k);
        frame_gives(0, named("0B with register %02X", c.config));
    }
}

/* 15 on a chip in each condition: asleep it is 12 everywhere, settling 22; only model 3 knows it. */
static void reads_refused(uint32_t model)
{
    static const struct condition asleep = {0, 1, 1, 1, 0, 0, 0}, busy = {0, 1, 1, 0, 5, 0, 0},
                                  settling = {0, 1, 1, 0, 0, 0, 5};
    size_t length;

    for (length = 1; length <= 6; length++) {
        jig_model(model);
        jig_state(asleep);
        jig_filled(0x15, length, 0);
        frame_gives(12, named("model %lu: 15 asleep", (unsigned long)model));
        jig_state(settling);
        frame_gives(22, named("model %lu: 15 while settling", (unsigned long)model));
        if (model == 3)
            continue;
        jig_state(busy);
        frame_gives(11, named("model %lu: 15 while busy", (unsigned long)model));
        jig_state(enabled);
        frame_gives(13, named("model %lu: 15", (unsigned long)model));
    }
}

/* 01 with so many data bytes, accepted by model 3. */
static void write_gives(struct condition before, size_t n, unsigned status, unsigned config)
{
    struct condition busy = before, after = {status >> 7, status >> 2 & 15, 0, 0, 0, before.config, 0};
    const char *label = named("01 %02X with %lu data bytes, the second %02X, register %02X", status, (unsigned long)n,
                              config, before.config);

    if (n == 2)
        after.config = written(before.config, config);
    jig_model(3);
    jig_state(before);
    jig_filled(0x01, 1 + n, (uint8_t)status);
    if (n == 2)
        given.frame[2] = (uint8_t)config;
    busy.busy_us = bench(3).status_us;
    want_state(busy);
    frame_gives(0, label);
    completes(after, label);
}

/* Every other byte on every register: alone, which leaves the register, and as the second data byte. */
static void writes(void)
{
    unsigned k, byte;

    for (k = 0; k < 64; k++) {
        const struct condition before = {k / 32, k % 16, 1, 0, 0, register_of(k), 0};

        for (byte = k % 2; byte < 256; byte += 2) {
            write_gives(before, 1, byte, 0);
            write_gives(before, 2, 255 - byte, byte);
        }
        write_gives(before, 2, 0xFF, 0x00);
        write_gives(before, 2, 0x00, 0xFF);
    }
}

/* No data byte, three, or a tail: 14. On models 1 and 2 two as well. */
static void write_lengths(uint32_t model)
{
    static const struct { const char *frame; uint32_t tail; } wrong[] = {
        {"01", 0}, {"01", 7}, {"0100", 1}, {"01FFFFFF", 0}, {"0100000000", 0}, {"010000", 1}, {"01FF08", 7},
        {"01FF08", 0}};
    const struct condition before = {0, 2, 1, 0, 0, model == 3 ? 0x41 : 0, 0};
    size_t i, n = sizeof wrong / sizeof wrong[0] - (model == 3 ? 1 : 0);

    for (i = 0; i < n; i++) {
        jig_model(model);
        jig_state(before);
        jig_frame(wrong[i].frame);
        given.tail = wrong[i].tail;
        frame_gives(14, named("model %lu: %s, tail %lu", (unsigned long)model, wrong[i].frame,
                              (unsigned long)wrong[i].tail));
    }
}

/* SRWD, BP and TB stay; while busy all of it. */
static void power_cycles(void)
{
    unsigned k, busy;

    for (k = 0; k < 64; k++) {
        for (busy = 0; busy < 2; busy++) {
            const struct condition c = {k % 2, k % 16, 1, 0, busy * (1 + k), register_of(k), 0};
            struct condition after = power_on;

            after.srwd = c.srwd;
            after.bp = c.bp;
            after.config = c.config & TB;
            jig_model(3);
            jig_state(c);
            if (!busy)
                want_state(after);
            power_cycle_gives(busy ? 11 : 0, named("power cycle, register %02X, busy %lu", c.config,
                                                   (unsigned long)c.busy_us));
        }
    }
}

/* The next status write of a chip that goes on: 06, 01, its wait, 15. */
static void next_write(struct condition *c, const char *frame, unsigned bp, unsigned config, const char *driven)
{
    jig_next();
    jig_frame("06");
    c->wel = 1;
    want_state(*c);
    frame_gives(0, named("06 before %s", frame));
    jig_next();
    jig_frame(frame);
    c->busy_us = 40000;
    want_state(*c);
    frame_gives(0, frame);
    jig_next();
    c->bp = bp;
    c->config = config;
    c->wel = 0;
    c->busy_us = 0;
    want_state(*c);
    wait_gives(40000, 0, named("the wait after %s", frame));
    jig_next();
    jig_frame("1500");
    want_hex(1, driven);
    frame_gives(0, named("15 after %s", frame));
}

/* TB is set once; writes of either length, power cycles, waits and cuts leave it. */
static void never_cleared(void)
{
    struct condition c = power_on;

    jig_model(3);
    next_write(&c, "010000", 0, 0x00, "00");
    next_write(&c, "010083", 0, 0x83, "83");
    next_write(&c, "01040C", 1, 0x08, "08");
    next_write(&c, "010400", 1, 0x08, "08");
    next_write(&c, "0100", 0, 0x08, "08");
    next_write(&c, "0100D3", 0, 0xDB, "DB");
    next_write(&c, "0108", 2, 0xDB, "DB");
    jig_next();
    c.config = TB;
    want_state(c);
    power_cycle_gives(0, "a power cycle leaves TB");
    next_write(&c, "013C00", 15, 0x08, "08");
    jig_next();
    cut_gives(0, "a cut leaves TB");
    next_write(&c, "010041", 0, 0x49, "49");
}

void configuration(void)
{
    uint32_t model;

    reads();
    fast_reads();
    writes();
    power_cycles();
    never_cleared();
    for (model = 1; model <= MODELS; model++) {
        reads_refused(model);
        write_lengths(model);
    }
}
