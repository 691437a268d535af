/*
 * 01, 02, 20, D8, 60 and C7, and 52 of model 3, from their frame to their end: what the state remembers of each, that
 * nothing is changed or shown before the last microsecond, and that nothing is remembered after it.
 */
#include "jig.h"
#include "rules.h"

#include <stdio.h>
#include <string.h>

static const uint8_t commands[OPERATIONS] = {0x01, 0x02, 0x20, 0xD8, 0x60, 0xC7, 0x52, 0x01};

unsigned operations_of(uint32_t model)
{
    return model == 3 ? OPERATIONS : HALF_BLOCK_52;
}

int takes_long(uint32_t model, unsigned operation)
{
    return model == 3 && (operation == CHIP_60 || operation == CHIP_C7);
}

/* Data bytes by the turn: of a status write two that have every bit at times, of a program any. */
static uint8_t data_byte(uint32_t turn, uint32_t i)
{
    return (uint8_t)(turn * 89 + (turn >> 8) * 31 + i * 173 + (i >> 3) * 7 + 0x5A);
}

void jig_busy(struct condition c, unsigned operation, uint32_t address)
{
    uint32_t inside = address % size_of(given.record.model), i;
    uint8_t command = commands[operation], data[PAGE];

    for (i = 0; i < PAGE; i++)
        data[i] = data_byte(address, i);
    jig_state(c);
    if (command == 0x01)
        jig_runs(command, operation == TWO_BYTES ? 2 : 1, data, operation == TWO_BYTES ? 2 : 1);
    else if (command == 0x02)
        jig_runs(command, inside, data, PAGE);
    else
        jig_runs(command, operation == CHIP_60 || operation == CHIP_C7 ? NOWHERE : inside, NULL, 0);
}

void completes(struct condition after, const char *label)
{
    jig_next();
    want_state(after);
    wait_gives(get_us(given.state + BUSY_AT), 0, label);
}

/* SRWD and BP from the first data byte; the register from the second, TB set only. */
static struct condition written(uint32_t model, struct condition c, const uint8_t *data, size_t n)
{
    c.srwd = data[0] >> 7;
    c.bp = (data[0] & (model == 3 ? 0x3C : 0x0C)) / 4;
    if (n == 2)
        c.config = (data[1] & 0xD3) | ((c.config | data[1]) & TB);
    return c;
}

struct condition want_finished(uint32_t model, struct condition c)
{
    const uint8_t *data = given.state + DATA_AT;
    uint8_t command = given.state[COMMAND_AT], page[PAGE];
    uint32_t start = unit_start(model, command, get_place(given.state)), k;

    if (command == 0x01) {
        c = written(model, c, data, get_place(given.state));
    } else if (command == 0x02) {
        for (k = 0; k < PAGE; k++)
            page[k] = wanted_cell(start + k) & data[k];
        want_bytes(start, page, PAGE);
    } else {
        want_cells(start, unit_of(model, command), 0xFF);
    }
    c.wel = 0;
    c.busy_us = 0;
    want_state(c);
    return c;
}

/* Its frame, which is taken: the state remembers it, and no bit that is kept has changed. */
static void start(uint32_t model, struct condition *c, unsigned operation, uint32_t address)
{
    uint8_t command = commands[operation];
    uint32_t n = 1 + address % 300, i;

    if (operation == CHIP_60 || operation == CHIP_C7)
        jig_filled(command, 1, 0);
    else if (command == 0x01)
        jig_filled(command, operation == TWO_BYTES ? 3 : 2, 0);
    else
        jig_addressed(command, address, command == 0x02 ? n : 0, 0);
    for (i = command == 0x02 ? 4 : 1; i < given.frame_len && (command == 0x01 || command == 0x02); i++)
        given.frame[i] = data_byte(address, i);
    want_fold(command == 0x02 && address % PAGE + n > PAGE);
    c->busy_us = us_of(&given.record, command);
    want_state(*c);
    frame_gives(0, named("model %lu: %02X at %06lX", (unsigned long)model, command, (unsigned long)address));
}

/* While it runs: the old bits of both registers, and no cell is shown. */
static void looks(uint32_t model, struct condition c, const char *when)
{
    char byte[3];

    jig_next();
    jig_frame("0500");
    snprintf(byte, sizeof byte, "%02X", 128 * c.srwd + 4 * c.bp + 2 * c.wel + (c.busy_us > 0));
    want_hex(1, byte);
    frame_gives(0, named("05 %s", when));
    if (model == 3) {
        jig_next();
        jig_frame("1500");
        snprintf(byte, sizeof byte, "%02X", c.config);
        want_hex(1, byte);
        frame_gives(0, named("15 %s", when));
    }
    if (c.busy_us == 0)
        return;
    jig_next();
    jig_frame("0300000000");
    frame_gives(11, named("03 %s", when));
    jig_next();
    power_cycle_gives(11, named("a power cycle %s", when));
}

/* A wait that does not end it: only the time is less. */
static void goes_on(struct condition *c, uint32_t us)
{
    jig_next();
    c->busy_us -= us;
    want_state(*c);
    wait_gives(us, 0, named("%lu us, %lu are left", (unsigned long)us, (unsigned long)c->busy_us));
}

/* In parts, to the last microsecond. */
static void up_to_the_last(uint32_t model, struct condition *c)
{
    looks(model, *c, "after the frame");
    goes_on(c, 0);
    if (c->busy_us > 3) {
        goes_on(c, 1);
        goes_on(c, c->busy_us / 2);
        looks(model, *c, "half way");
    }
    goes_on(c, c->busy_us - 1);
    looks(model, *c, "a microsecond before the end");
    goes_on(c, 0);
}

/* From the frame to the end, and beyond: what is done is done once. */
static void runs_through(uint32_t model, struct condition c, unsigned operation, uint32_t address, int in_parts)
{
    jig_model(model);
    jig_state(c);
    start(model, &c, operation, address);
    if (in_parts)
        up_to_the_last(model, &c);
    jig_next();
    c = want_finished(model, c);
    wait_gives(in_parts ? 1 : address % 2 ? get_us(given.state + BUSY_AT) : 0xFFFFFFFF, 0, "the end");
    looks(model, c, "after the end");
    jig_next();
    wait_gives(0xFFFFFFFF, 0, "a wait after the end");
    jig_next();
    c.config &= TB;
    want_state(c);
    power_cycle_gives(0, "a power cycle after the end");
}

/* Ends of pages, sectors, half blocks, blocks and arrays, and images above them. */
static const uint32_t addresses[] = {0x000000, 0x0000FF, 0x000100, 0x000FFF, 0x001000, 0x007FFF, 0x008000, 0x00FFFF,
                                     0x010000, 0x02FFFE, 0x03FFFF, 0x040000, 0x7FFFFF, 0x800001, 0xFFFF00, 0xFFFFFF};
enum { ADDRESSES = sizeof addresses / sizeof addresses[0] };

static void every_operation(uint32_t model)
{
    static const unsigned registers[] = {0x00, TB, 0xD3, 0xDB};
    unsigned operation, i, k = 0;

    for (operation = 0; operation < operations_of(model); operation++)
        for (i = 0; i < ADDRESSES && !(takes_long(model, operation) && i > 0); i++, k++) {
            const struct condition c = {k % 2, 0, 1, 0, 0, model == 3 ? registers[k % 4] : 0, 0};

            runs_through(model, c, operation, addresses[i], 1);
            if (!takes_long(model, operation))
                runs_through(model, c, operation, addresses[i], 0);
        }
}

/* Every status and register byte of a status write, by turns with every old register: the state keeps them as sent. */
static void raw_bytes(void)
{
    unsigned k;

    for (k = 0; k < 256; k++) {
        struct condition c = {k / 8 % 2, k % 16, 1, 0, 0, (k * 7) & 0xDB, 0};

        jig_model(3);
        jig_state(c);
        jig_filled(0x01, 3, (uint8_t)k);
        given.frame[2] = (uint8_t)(k * 5 + 1);
        c.busy_us = bench(3).status_us;
        want_state(c);
        frame_gives(0, named("01 %02X %02X", k, given.frame[2]));
        jig_next();
        want_finished(3, c);
        wait_gives(c.busy_us, 0, named("the end of 01 %02X", k));
    }
}

/* From any valid state; protection is not looked at again: here all is protected, and WP# plays no part in a wait. */
static void protected_since(uint32_t model)
{
    unsigned operation, i;

    for (operation = 0; operation < operations_of(model); operation++)
        for (i = 0; i < ADDRESSES && !takes_long(model, operation); i++) {
            const struct condition c = {1, part_of(model)->highest_bp, 1, 0, 1 + i, 0, 0};

            jig_model(model);
            jig_busy(c, operation, addresses[i]);
            want_finished(model, c);
            wait_gives(1 + i, 0, named("model %lu, all protected: the end of operation %u at %06lX",
                                       (unsigned long)model, operation, (unsigned long)addresses[i]));
        }
}

/* What counts is the array that is lent to the wait, not what the frame was lent. */
static void other_cells(uint32_t model)
{
    struct condition c = enabled;

    jig_model(model);
    jig_state(c);
    start(model, &c, 1, 0x4567);
    jig_next();
    jig_cells(0x4500, PAGE, 0x3C);
    want_finished(model, c);
    wait_gives(c.busy_us, 0, "the end of a program whose cells have become others since its frame");
}

/* A program with each data byte at each offset, all of them remembered. */
static void every_data_byte(uint32_t model)
{
    uint32_t k, i;

    for (k = 0; k < 256; k++) {
        struct condition c = enabled;

        jig_model(model);
        jig_state(c);
        jig_addressed(0x02, 0x006600 + k, PAGE, 0);
        for (i = 0; i < PAGE; i++)
            given.frame[4 + i] = (uint8_t)(i + k * 3);
        want_fold(k > 0);
        c.busy_us = bench(model).page_us;
        want_state(c);
        frame_gives(0, named("02 of 256 bytes from offset %lu", (unsigned long)k));
        jig_next();
        want_finished(model, c);
        wait_gives(c.busy_us, 0, named("its end, from offset %lu", (unsigned long)k));
    }
}

void operations(void)
{
    uint32_t model;

    for (model = 1; model <= MODELS; model++) {
        every_operation(model);
        protected_since(model);
        other_cells(model);
        every_data_byte(model);
    }
    raw_bytes();
}
