/* 01, Numbers returned: of several that apply, the first is given. */
#include "jig.h"
#include "rules.h"

#include <string.h>

/* What makes a number apply, one bit each; a call is refused by the first that applies. */
enum {
    RECORD = 1, ARRAY = 2, WEAR = 4, STATE = 8, FRAME = 16, OUTPUT = 32, EMPTY = 64, SETTLING = 128, BUSY = 256,
    ASLEEP = 512, UNKNOWN = 1024, WITHDRAWN = 2048, LENGTH = 4096, NOT_ENABLED = 8192, LOCKED = 16384, LAST = 32768,
    EVERY = 65535
};

/* What a cut looks at besides: its pattern's length. */
enum { PATTERN = 65536 };

/* LOCKED and LAST have the command's own numbers: 19 and 25 come last, and no command can be answered both. */
static const struct rung { unsigned fault; uint32_t number; } ladder[] = {
    {RECORD, 1}, {ARRAY, 2}, {WEAR, 24}, {STATE, 3}, {FRAME, 4}, {OUTPUT, 5}, {EMPTY, 10}, {SETTLING, 22},
    {BUSY, 11}, {ASLEEP, 12}, {UNKNOWN, 13}, {WITHDRAWN, 21}, {LENGTH, 14}, {NOT_ENABLED, 15}, {LOCKED, 0}, {LAST, 0},
    {0, 0}};

/* The same for the calls without a frame. */
static const struct rung of_waits[] = {{RECORD, 1}, {ARRAY, 2}, {STATE, 3}, {0, 0}},
                         of_cuts[] = {{RECORD, 1}, {ARRAY, 2}, {STATE, 3}, {PATTERN, 23}, {0, 0}},
                         of_power_cycles[] = {{RECORD, 1}, {STATE, 3}, {BUSY, 11}, {0, 0}};

/*
 * Faults that no call has together: a busy chip is enabled, awake and settled, or else the state is no valid one; an
 * unknown command is not withdrawn.
 */
static int together(unsigned faults)
{
    return !((faults & BUSY) && (faults & (SETTLING | ASLEEP | NOT_ENABLED))) &&
           (faults & (UNKNOWN | WITHDRAWN)) != (UNKNOWN | WITHDRAWN);
}

/* The commands that can be locked: last of all a program may find cells that are not erased, an erase a full count. */
struct lockable {
    const char *frame;
    uint32_t when_locked, at_last;
};
static const struct lockable lockable[] = {{"0100", 16, 0}, {"02000000FF", 17, 19}, {"20000000", 17, 25},
                                           {"D8000000", 17, 25}, {"60", 17, 25}, {"C7", 17, 25}, {"52000000", 17, 25}};
enum { COMMANDS = sizeof lockable / sizeof lockable[0], ERASE_52 = COMMANDS - 1 };

/* The models by turns; 52 can be locked on model 3 alone, and is withdrawn on the others alone. */
static uint32_t model_for(size_t command, unsigned faults)
{
    uint32_t turn = faults / 4 + (uint32_t)command / 2;

    return command == ERASE_52 ? 3 : 1 + turn % (faults & WITHDRAWN ? 2 : MODELS);
}

/* The number: of the first fault; 16, 17, 19 or 25, by the command, when there is none before LOCKED and LAST. */
static uint32_t first_of(const struct rung *rung, unsigned faults, const struct lockable *command)
{
    for (; rung->fault != 0; rung++)
        if (faults & rung->fault)
            return rung->fault == LOCKED ? command->when_locked
                   : rung->fault == LAST ? command->at_last : rung->number;
    return 0;
}

/* Whether number 4 is by length, not by tail: only where it is the first, for a long frame takes time. */
static int too_long(unsigned faults, unsigned variant)
{
    return (faults & FRAME) && (faults & (RECORD | ARRAY | WEAR | STATE)) == 0 && variant % 2 == 0;
}

/* 5A is unknown on models 1 and 3, and what lies beside it on model 2. */
static void spoil_frame(unsigned faults, unsigned variant)
{
    if (faults & UNKNOWN)
        given.frame[0] = variant % 2 ? 0x3B : given.record.model == 2 ? 0x5B : 0x5A;
    if (faults & WITHDRAWN)
        given.frame[0] = 0x52;
    if (faults & LENGTH) {
        if (variant % 2)
            given.tail = 1;
        else
            given.frame_len = given.out_len = given.frame[0] == 0x01 ? 4 : 3;
    }
    if (faults & EMPTY)
        given.frame_len = given.out_len = 0;
    if (faults & FRAME) {
        if (too_long(faults, variant))
            given.frame_len = given.out_len = LONGEST_FRAME + 1;
        else
            given.tail = 8;
    }
    if (faults & OUTPUT)
        given.out_len = given.frame_len - 1;
}

/* Locked: SRWD 1 and WP# low; all blocks protected. */
static struct condition faulty(uint32_t model, unsigned faults)
{
    const struct condition c = {faults & LOCKED ? 1 : 0, faults & LOCKED ? part_of(model)->highest_bp : 0,
                                faults & NOT_ENABLED ? 0 : 1, faults & ASLEEP ? 1 : 0, faults & BUSY ? 1 : 0, 0,
                                faults & SETTLING ? 1 : 0};

    return c;
}

static void spoil_lent(uint32_t model, unsigned faults, unsigned variant)
{
    jig_state(faulty(model, faults));
    if (faults & STATE)
        given.state[variant % 2 ? 0 : 3] |= 0x40;
    jig_packed(given.state, GWO_STATE_LENGTH);
    if (faults & RECORD)
        *(variant % 2 ? &given.record.chip_us : &given.record.half_us) = variant % 2 ? 0 : 1000000001;
    if (faults & ARRAY)
        given.array_len = variant % 2 ? 65537 : 4096;
    if (faults & LAST) {
        given.strict = 1;
        jig_cells(0, 1, 0x7F);
        jig_wear(0, 1, GWO_WEAR_TOP);
    }
    if (faults & WEAR)
        given.wear_len = variant % 2 ? given.wear_len + 1 : given.wear_len / 2;
    if (faults & LOCKED)
        given.wp = 0;
}

/* An empty frame has no output that is too short; a frame that is too long is not empty. */
static int possible(size_t command, unsigned faults, unsigned variant)
{
    int empty = (faults & EMPTY) != 0 && !too_long(faults, variant);

    return together(faults) && !(empty && (faults & OUTPUT)) && !(command == ERASE_52 && (faults & WITHDRAWN));
}

static void refused(uint32_t model, size_t command, unsigned faults, unsigned variant)
{
    uint32_t number = first_of(ladder, faults, &lockable[command]);

    if (number == 0)
        return;
    jig_model(model);
    jig_frame(lockable[command].frame);
    spoil_lent(model, faults, variant);
    spoil_frame(faults, variant);
    if (number == 17)
        want_state(after_17(model, faulty(model, faults)));
    frame_gives(number, named("model %lu: %s with faults %04X", (unsigned long)model, lockable[command].frame, faults));
}

/* The last microsecond of a chip erase, or an idle chip. */
static void wait_refused(uint32_t model, unsigned faults, unsigned variant)
{
    uint32_t number = first_of(of_waits, faults, NULL);

    jig_model(model);
    spoil_lent(model, faults, variant);
    if (number == 0 && (faults & BUSY)) {
        want_cells(0, size_of(model), 0xFF);
        want_state(power_on);
    }
    wait_gives(1, number, named("model %lu: a wait with faults %04X", (unsigned long)model, faults));
}

static void cut_refused(uint32_t model, unsigned faults, unsigned variant)
{
    uint32_t number = first_of(of_cuts, faults, NULL);
    size_t n = (faults & BUSY ? size_of(model) : 0) + (faults & PATTERN ? 1 + variant : 0);
    uint8_t *pattern;

    jig_model(model);
    spoil_lent(model, faults, variant);
    pattern = jig_pattern(n);
    if (number == 0) {
        memset(pattern, 0x5B, n);
        want_bytes(0, pattern, (uint32_t)n);
        want_state(power_on);
    }
    cut_gives(number, named("model %lu: a cut with faults %04X", (unsigned long)model, faults));
}

static void power_cycle_refused(uint32_t model, unsigned faults, unsigned variant)
{
    uint32_t number = first_of(of_power_cycles, faults, NULL);

    jig_model(model);
    spoil_lent(model, faults, variant);
    if (number == 0)
        want_state(power_on);
    power_cycle_gives(number, named("model %lu: a power cycle with faults %04X", (unsigned long)model, faults));
}

/* Every set of the faults that a call without a frame can have. */
static void without_a_frame(uint32_t model)
{
    static const unsigned kinds[] = {RECORD, ARRAY, STATE, BUSY, PATTERN};
    unsigned set, variant, i;

    for (set = 0; set < 32; set++)
        for (variant = 0; variant < 2; variant++) {
            unsigned faults = 0;

            for (i = 0; i < 5; i++)
                faults |= set >> i & 1 ? kinds[i] : 0;
            wait_refused(model, faults, variant);
            cut_refused(model, faults, variant);
            power_cycle_refused(model, faults, variant);
        }
}

/* Every set of faults that a call can have, on each of the seven commands, each on its models by turns. */
void refused_in_order(void)
{
    unsigned faults;
    uint32_t model;
    size_t i;

    for (model = 1; model <= MODELS; model++)
        without_a_frame(model);
    for (i = 0; i < COMMANDS; i++) {
        for (faults = 1; faults <= EVERY; faults++)
            if (possible(i, faults, (unsigned)i % 2))
                refused(model_for(i, faults), i, faults, (unsigned)i % 2);
        for (model = i == ERASE_52 ? 3 : 1; model <= MODELS; model++) {
            refused(model, i, LOCKED, 0);
            refused(model, i, LAST, 0);
            refused(model, i, LOCKED | LAST, 0);
        }
    }
}
