/*
 * A cut: what the pattern leaves of each operation, in its unit and nowhere else, and of a chip that runs none. Then
 * the chip is as after a power cycle.
 */
#include "jig.h"
#include "rules.h"

#include <string.h>

/* Bit by bit: one that was to change takes the pattern's. */
static uint8_t left_of(unsigned old, unsigned new, unsigned pattern)
{
    unsigned bit, left = 0;

    for (bit = 1; bit < 256; bit *= 2)
        left |= ((old & bit) == (new & bit) ? old : pattern) & bit;
    return (uint8_t)left;
}

static struct condition without_power(struct condition c)
{
    struct condition after = power_on;

    after.srwd = c.srwd;
    after.bp = c.bp;
    after.config = c.config & TB;
    return after;
}

static unsigned kept_bits(struct condition c)
{
    return 128 * c.srwd + 4 * c.bp;
}

/* Of a status write: SRWD and BP; TB only where there is a second byte. */
static struct condition status_left(uint32_t model, struct condition c, const uint8_t *pattern)
{
    const uint8_t *data = given.state + DATA_AT;
    struct condition new = c, left = c;
    unsigned bits;

    new.srwd = data[0] >> 7;
    new.bp = (data[0] & (model == 3 ? 0x3C : 0x0C)) / 4;
    bits = left_of(kept_bits(c), kept_bits(new), pattern[0]);
    left.srwd = bits >> 7;
    left.bp = bits >> 2 & 15;
    if (get_place(given.state) == 2)
        left.config = left_of(c.config & TB, (c.config | data[1]) & TB, pattern[1]);
    return left;
}

/* What the given pattern leaves of the running operation; the condition after the cut. */
static struct condition want_left(uint32_t model, struct condition c, const uint8_t *pattern)
{
    const uint8_t *data = given.state + DATA_AT;
    uint8_t command = given.state[COMMAND_AT], page[PAGE];
    uint32_t start = unit_start(model, command, get_place(given.state)), k;

    if (command == 0x01) {
        c = status_left(model, c, pattern);
    } else if (command == 0x02) {
        for (k = 0; k < PAGE; k++)
            page[k] = left_of(wanted_cell(start + k), wanted_cell(start + k) & data[k], pattern[k]);
        want_bytes(start, page, PAGE);
    } else {
        want_bytes(start, pattern, unit_of(model, command));
    }
    want_state(without_power(c));
    return without_power(c);
}

/* As long as the pattern has to be for the given state. */
static size_t right_length(uint32_t model)
{
    return given.state[COMMAND_AT] == 0x01 ? get_place(given.state) : unit_of(model, given.state[COMMAND_AT]);
}

/* The kinds of pattern: all bits 0, all 1, two of any bits. */
enum { ZEROS, ONES, ANY, OTHER, PATTERNS };

static const uint8_t *lay(size_t n, unsigned kind, uint32_t turn)
{
    struct dice dice = {turn * 4 + kind};
    uint8_t *pattern = jig_pattern(n);

    if (kind == ZEROS || kind == ONES)
        memset(pattern, kind == ONES ? 0xFF : 0x00, n);
    else
        scatter(&dice, pattern, n);
    return pattern;
}

static const char *cut_of(uint32_t model, unsigned operation, uint32_t address, unsigned kind)
{
    return named("model %lu, operation %u at %06lX cut, pattern %u", (unsigned long)model, operation,
                 (unsigned long)address, kind);
}

/* The cut, and the chip after it: it answers at once, and has forgotten what it did. */
static void cut_at(uint32_t model, struct condition c, unsigned operation, uint32_t address, unsigned kind)
{
    const char *label = cut_of(model, operation, address, kind);

    jig_model(model);
    jig_busy(c, operation, address);
    c = want_left(model, c, lay(right_length(model), kind, address));
    cut_gives(0, label);
    jig_next();
    wait_gives(0xFFFFFFFF, 0, label);
    jig_next();
    jig_frame("06");
    c.wel = 1;
    want_state(c);
    frame_gives(0, label);
}

/* Ends of pages, sectors, half blocks, blocks and arrays. */
static const uint32_t addresses[] = {0x000000, 0x0000FF, 0x000100, 0x000FFF, 0x001000, 0x007FFF, 0x008000, 0x00FFFF,
                                     0x010000, 0x02FFFF, 0x03FF00, 0x03FFFF, 0x7FFFFF, 0x800000, 0xFFFF00, 0xFFFFFF};
enum { ADDRESSES = sizeof addresses / sizeof addresses[0] };

/* At its start, on its way and in its last microsecond; protected blocks are not looked at. */
static void every_operation(uint32_t model)
{
    unsigned operation, i, kind;

    for (operation = 0; operation < operations_of(model); operation++)
        for (i = 0; i < ADDRESSES && !takes_long(model, operation); i++)
            for (kind = 0; kind < PATTERNS; kind++) {
                const uint32_t left[] = {1, 700, 2};
                const struct condition c = {i % 2, (i + kind) % (part_of(model)->highest_bp + 1), 1, 0, left[i % 3],
                                            model == 3 ? (i * 29 + kind * 8) & 0xDB : 0, 0};

                cut_at(model, c, operation, addresses[i], kind);
            }
}

static void whole_chip_of_model_3(void)
{
    const struct condition c = {1, 15, 1, 0, bench(3).chip_us, TB, 0};

    cut_at(3, c, CHIP_60, 0, ANY);
    cut_at(3, c, CHIP_C7, 0, OTHER);
}

/* A pattern of the old cells, the same as no operation; one of the new cells, the same as the finished one. */
static void old_and_new(uint32_t model, unsigned operation, uint32_t address)
{
    const struct condition c = {0, 1, 1, 0, 5, 0, 0};
    uint8_t *pattern, command;
    uint32_t start, k;
    size_t n;

    jig_model(model);
    jig_busy(c, operation, address);
    command = given.state[COMMAND_AT];
    start = unit_start(model, command, get_place(given.state));
    n = right_length(model);
    pattern = jig_pattern(n);
    for (k = 0; k < n; k++)
        pattern[k] = command == 0x01 ? (uint8_t)(k == 0 ? kept_bits(c) : 0) : wanted_cell(start + k);
    want_state(without_power(c));
    cut_gives(0, named("operation %u at %06lX cut, the pattern is the old", operation, (unsigned long)address));
    jig_model(model);
    jig_busy(c, operation, address);
    want_state(without_power(want_finished(model, c)));
    pattern = jig_pattern(n);
    for (k = 0; k < n; k++)
        pattern[k] = command == 0x01 ? given.state[DATA_AT + k] : wanted_cell(start + k);
    cut_gives(0, named("operation %u at %06lX cut, the pattern is the new", operation, (unsigned long)address));
}

/* Every pattern byte on status writes that change no bit, each bit alone, or all. */
static void status_patterns(uint32_t model)
{
    static const uint8_t data[][2] = {{0x00, 0x00}, {0xFF, 0xFF}, {0x80, 0x08}, {0x04, 0xF7}, {0x08, 0x08},
                                      {0x10, 0x0C}, {0x20, 0x00}, {0x43, 0xFF}, {0x3C, 0x08}};
    unsigned i, k;
    size_t n;

    for (i = 0; i < sizeof data / sizeof data[0]; i++)
        for (k = 0; k < 256; k++)
            for (n = 1; n <= (model == 3 ? 2 : 1); n++) {
                const struct condition c = {k / 4 % 2, k % (part_of(model)->highest_bp + 1), 1, 0, 9,
                                            model == 3 ? k * 13 & 0xDB : 0, 0};
                uint8_t *pattern;

                jig_model(model);
                jig_state(c);
                jig_runs(0x01, (uint32_t)n, data[i], n);
                pattern = jig_pattern(n);
                memset(pattern, (int)(255 - k), n);
                pattern[0] = (uint8_t)k;
                want_left(model, c, pattern);
                cut_gives(0, named("model %lu: 01 %02X cut, %lu data bytes, pattern %02X", (unsigned long)model,
                                   data[i][0], (unsigned long)n, k));
            }
}

/* A program of every data byte on every cell, with patterns that have each bit on both. */
static void program_patterns(uint32_t model)
{
    static const struct condition c = {0, 0, 1, 0, 3, 0, 0};
    uint8_t data[PAGE], *pattern;
    unsigned old, k, turn;

    for (k = 0; k < PAGE; k++)
        data[k] = (uint8_t)k;
    for (old = 0; old < 256; old += model == 1 ? 1 : 17)
        for (turn = 0; turn < 4; turn++) {
            jig_model(model);
            jig_cells(0x8800, PAGE, (uint8_t)old);
            jig_state(c);
            jig_runs(0x02, 0x8800 + old, data, PAGE);
            pattern = jig_pattern(PAGE);
            for (k = 0; k < PAGE; k++)
                pattern[k] = (uint8_t)(turn == 0 ? 255 - k : turn == 1 ? k * 3 + old : turn == 2 ? old : 255 - old);
            want_left(model, c, pattern);
            cut_gives(0, named("02 on cells %02X cut, pattern %u", old, turn));
        }
}

/* Nothing runs: as a power cycle, whether it sleeps, settles or neither; and it takes no pattern. */
static void nothing_running(uint32_t model)
{
    static const uint32_t settling[] = {0, 1, 9};
    static const size_t lengths[] = {1, 2, 256, 4096, 65536};
    unsigned k, i;

    for (k = 0; k < 8 * (part_of(model)->highest_bp + 1); k++)
        for (i = 0; i < 3; i++) {
            const struct condition c = {k / 4 % 2, k / 8, k / 2 % 2, k % 2, 0, model == 3 ? k * 11 & 0xDB : 0,
                                        settling[i]};

            jig_model(model);
            jig_state(c);
            jig_pattern(lengths[k % 5]);
            cut_gives(23, named("a pattern of %lu, nothing runs", (unsigned long)lengths[k % 5]));
            jig_pattern(0);
            want_state(without_power(c));
            cut_gives(0, named("a cut, nothing runs, settling %lu", (unsigned long)settling[i]));
        }
}

/* Patterns of every length that another operation has, and of one byte more and less. */
static void wrong_lengths(uint32_t model, unsigned operation)
{
    const size_t size = size_of(model);
    const size_t lengths[] = {0, 1, 2, 3, 255, 256, 257, 4095, 4096, 4097, 32767, 32768, 32769, 65535, 65536, 65537,
                              262144, size - 1, size, size + 1};
    const struct condition c = {1, 2, 1, 0, 1, 0, 0};
    size_t i;

    for (i = 0; i < sizeof lengths / sizeof lengths[0]; i++) {
        jig_model(model);
        jig_busy(c, operation, 0x5678);
        if (lengths[i] == right_length(model))
            continue;
        jig_pattern(lengths[i]);
        cut_gives(23, named("model %lu, operation %u cut, a pattern of %lu", (unsigned long)model, operation,
                            (unsigned long)lengths[i]));
    }
}

void cuts(void)
{
    uint32_t model;
    unsigned operation, i;

    for (model = 1; model <= MODELS; model++) {
        every_operation(model);
        for (operation = 0; operation < operations_of(model); operation++) {
            wrong_lengths(model, operation);
            for (i = 0; i < ADDRESSES && !takes_long(model, operation); i += 3)
                old_and_new(model, operation, addresses[i]);
        }
        status_patterns(model);
        program_patterns(model);
        nothing_running(model);
    }
    whole_chip_of_model_3();
}
