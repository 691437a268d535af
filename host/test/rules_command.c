/* 01, Numbers returned: 22, 11 to 13, 21 and 15 to 17; and what model 3 changes of them. */
#include "jig.h"
#include "rules.h"

#include <string.h>

/*
 * The sixteen commands of 01's list, 52 also where it is withdrawn, on model 3 the configuration read, and on model 2 the
 * read of the SFDP table; 3B is on no model among them.
 */
static int known(uint32_t model, unsigned command)
{
    static const uint8_t list[] = {0x01, 0x02, 0x03, 0x04, 0x05, 0x06, 0x0B, 0x20,
                                   0x52, 0x60, 0x90, 0x9F, 0xAB, 0xB9, 0xC7, 0xD8};

    return memchr(list, (int)command, sizeof list) != NULL || (model == 3 && command == 0x15) ||
           (model == 2 && command == 0x5A);
}

static const char *byte_of(const char *what, uint32_t model, unsigned command, size_t length, uint32_t tail)
{
    return named("%s, model %lu: %02X, %lu bytes, tail %lu", what, (unsigned long)model, command, (unsigned long)length,
                 (unsigned long)tail);
}

/* Settling: every command, 05, 15 and AB among them, known or not, whatever its length and tail, awake and asleep. */
static void number_22(uint32_t model)
{
    const struct condition waking = {0, 0, 1, 0, 0, 0, 1}, dozing = {1, 3, 0, 1, 0, 0, longest_settling(&given.record)};
    unsigned command, k;
    size_t length;

    for (command = 0; command < 256; command++) {
        for (length = 1; length <= 6; length++) {
            for (k = 0; k < 4; k++) {
                jig_model(model);
                jig_state(k % 2 == 0 ? waking : dozing);
                jig_filled((uint8_t)command, length, 0);
                given.tail = k / 2 * (uint32_t)(command + length) % 8;
                given.wp = command % 2;
                frame_gives(22, byte_of("settling", model, command, length, given.tail));
            }
        }
    }
}

/* Busy: every command but 05, and on model 3 15, known or not, whatever its length and tail and whatever is running. */
static void number_11(uint32_t model)
{
    const struct condition busy = {0, 0, 1, 0, 1, 0, 0}, locked = {1, 3, 1, 0, longest_busy(&given.record), 0, 0};
    unsigned command;
    size_t length;

    for (command = 0; command < 256; command++) {
        if (command == 0x05 || (command == 0x15 && model == 3))
            continue;
        for (length = 1; length <= 6; length++) {
            jig_model(model);
            if (length % 2 == 0)
                jig_busy(busy, (command + (unsigned)length / 2) % operations_of(model), command * 257);
            else
                jig_state(locked);
            jig_filled((uint8_t)command, length, 0);
            given.tail = (uint32_t)(command + length) % 8;
            given.wp = command % 2;
            frame_gives(11, byte_of("busy", model, command, length, given.tail));
        }
    }
}

static void status_while_busy(uint32_t model)
{
    static const struct condition c = {1, 2, 1, 0, 77, 0, 0};
    unsigned operation;

    for (operation = 0; operation < operations_of(model); operation++) {
        jig_model(model);
        jig_busy(c, operation, 0x1234);
        jig_frame("0500FF");
        given.tail = 3;
        want_hex(1, "8B8B");
        frame_gives(0, named("05 while busy with operation %u", operation));
    }
}

/* Asleep: every command but AB, 15 among them; an unknown one too, and it wakes nothing. */
static void number_12(uint32_t model)
{
    static const struct condition asleep = {0, 0, 0, 1, 0, 0, 0}, enabled_asleep = {1, 1, 1, 1, 0, 0, 0};
    unsigned command;
    size_t length;

    for (command = 0; command < 256; command++) {
        for (length = 1; length <= 6 && command != 0xAB; length++) {
            jig_model(model);
            jig_state(length % 2 == 0 ? asleep : enabled_asleep);
            jig_filled((uint8_t)command, length, 0);
            given.tail = (uint32_t)(command + length) % 8;
            frame_gives(12, byte_of("asleep", model, command, length, given.tail));
        }
    }
}

static void number_13(uint32_t model)
{
    static const size_t lengths[] = {1, 2, 3, 4, 5, 6, 300};
    unsigned command;
    size_t i;

    for (command = 0; command < 256; command++) {
        for (i = 0; i < sizeof lengths / sizeof lengths[0] && !known(model, command); i++) {
            jig_model(model);
            jig_state(i % 2 == 0 ? enabled : power_on);
            jig_filled((uint8_t)command, lengths[i], 0);
            given.tail = (uint32_t)(command + i) % 8;
            frame_gives(13, byte_of("unknown", model, command, lengths[i], given.tail));
        }
    }
}

/* 52 on models 1 and 2: whatever its length and tail, the latch, SRWD, WP# and BP, the setting and the counts. */
static void number_21(uint32_t model)
{
    static const size_t lengths[] = {1, 2, 3, 4, 5, 6, 260, LONGEST_FRAME};
    unsigned k;
    size_t i;

    for (i = 0; i < sizeof lengths / sizeof lengths[0]; i++) {
        for (k = 0; k < 256; k++) {
            const struct condition c = {k % 2, k / 4 % 4, k / 2 % 2, 0, 0, 0, 0};

            jig_model(model);
            jig_state(c);
            jig_filled(0x52, lengths[i], (uint8_t)(k * 37));
            jig_wear(0, (uint32_t)given.wear_len, k / 16 % 2 ? GWO_WEAR_TOP : k);
            given.tail = k / 32;
            given.wp = (k + k / 2) % 2;
            given.strict = k / 16 % 2;
            frame_gives(21, byte_of("withdrawn", model, 0x52, lengths[i], given.tail));
        }
    }
}

/* WEL 0: the seven commands, whatever SRWD, WP# and BP are; the last two frames are model 3's. */
static void number_15(uint32_t model)
{
    static const char *const frames[] = {"0100", "01FF", "0200000000", "02FFFFFF0102", "20000000", "20FFFFFF",
                                         "D8000000", "60", "C7", "52000000", "01FFFF"};
    size_t i, n = sizeof frames / sizeof frames[0] - (model == 3 ? 0 : 2);
    unsigned k;

    for (i = 0; i < n; i++) {
        for (k = 0; k < 4 * (part_of(model)->highest_bp + 1); k++) {
            const struct condition c = {k % 2, k / 4, 0, 0, 0, 0, 0};

            jig_model(model);
            jig_state(c);
            jig_frame(frames[i]);
            given.wp = k / 2 % 2;
            frame_gives(15, named("%s with WEL 0, SRWD %u, BP %u, WP# %u", frames[i], c.srwd, c.bp, k / 2 % 2));
        }
    }
}

/* 16 exactly when SRWD is 1 and WP# is low: WP# low alone blocks nothing. */
static void number_16_at(uint32_t model, const char *frame, struct condition c, uint32_t level, struct condition after)
{
    int locked = c.srwd == 1 && level == 0;
    struct condition busy = c;
    const char *label = named("%s with SRWD %u, BP %u, WP# level %lu", frame, c.srwd, c.bp, (unsigned long)level);

    jig_model(model);
    jig_state(c);
    jig_frame(frame);
    given.wp = level;
    busy.busy_us = bench(model).status_us;
    if (!locked)
        want_state(busy);
    frame_gives(locked ? 16 : 0, label);
    if (!locked)
        completes(after, label);
}

static void number_16(uint32_t model, const char *frame, struct condition after)
{
    static const uint32_t levels[] = {0, 1, 2, 256, 0x80000000, 0xFFFFFFFF};
    struct condition c = enabled;
    size_t i;

    for (c.srwd = 0; c.srwd < 2; c.srwd++)
        for (c.bp = 0; c.bp <= part_of(model)->highest_bp; c.bp++)
            for (i = 0; i < sizeof levels / sizeof levels[0]; i++)
                number_16_at(model, frame, c, levels[i], after);
}

/* 17 does not depend on WP# or SRWD. It leaves WEL 1 on models 1 and 2, and clears it on model 3. */
static void number_17(uint32_t model, unsigned config, const char *const frames[8])
{
    size_t i;
    unsigned k;

    for (i = 0; i < (model == 3 ? 8 : 7); i++) {
        for (k = 0; k < 4 * part_of(model)->highest_bp; k++) {
            const struct condition c = {k % 2, 1 + k / 4, 1, 0, 0, config, 0};

            jig_model(model);
            jig_state(c);
            jig_frame(frames[i]);
            given.wp = k / 2 % 2;
            want_state(after_17(model, c));
            frame_gives(17, named("model %lu: %s with SRWD %u, BP %u, register %02X, WP# %lu", (unsigned long)model,
                                  frames[i], c.srwd, c.bp, config, (unsigned long)given.wp));
        }
    }
}

/* The highest block is protected by every BP but 0; with TB it is the lowest. The last frame is model 3's. */
static const char *const at_the_top[8] = {"02FF000000", "02FFFFFF0102", "20FF0000", "20FFFFFF", "D8FFFFFF", "60", "C7",
                                          "52FF0000"};
static const char *const at_the_bottom[8] = {"0200000000", "0200FFFF0102", "20000000", "2000FFFF", "D8000000", "60",
                                             "C7", "5200FFFF"};

void refused_by_command(void)
{
    static const struct condition bp_1 = {0, 1, 0, 0, 0, 0, 0}, bp_1_config_53 = {0, 1, 0, 0, 0, 0x53, 0};
    uint32_t model;

    for (model = 1; model <= MODELS; model++) {
        jig_model(model);
        number_22(model);
        number_11(model);
        status_while_busy(model);
        number_12(model);
        number_13(model);
        if (model != 3)
            number_21(model);
        number_15(model);
        number_16(model, "0104", bp_1);
        number_17(model, 0, at_the_top);
    }
    number_16(3, "010453", bp_1_config_53);
    number_17(3, 0xD3, at_the_top);
    number_17(3, TB, at_the_bottom);
    number_17(3, 0xDB, at_the_bottom);
}
