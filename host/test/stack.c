/*
 * The deepest stack of gwo_frame, gwo_wait, gwo_power_cycle, gwo_cut and gwo_wear_report, over calls of every kind on
 * each model, of the five functions on SFDP tables and of the two on samples.
 *   stack [FRAME WAIT POWER_CYCLE CUT REPORT READ REVISION HEADER ERASE WRITE SAMPLE SAMPLES]
 * A call that takes more bytes than its limit is a failure. The limits are the archive's, or the twelve numbers.
 */
#include "stack.h"

#include "rig.h"

#include <stdio.h>
#include <stdlib.h>
#include <string.h>

static const char *const names[KINDS] = {
    "gwo_frame", "gwo_wait", "gwo_power_cycle", "gwo_cut", "gwo_wear_report", "gwo_sfdp_read", "gwo_sfdp_revision",
    "gwo_sfdp_header", "gwo_sfdp_erase", "gwo_sfdp_write", "gwo_sample", "gwo_samples"};

/* What the archive was measured to take, in bytes; it may take SPARE more. */
static const size_t measured[KINDS] = {304, 160, 67, 94, 40, 48, 32, 64, 40, 48, 168, 216};
enum { SPARE = 16 };

static size_t limits[KINDS], most[KINDS];

static uint8_t array[GWO_MODEL_3_LENGTH], frame[GWO_FRAME_LIMIT], out[GWO_FRAME_LIMIT], pattern[GWO_MODEL_3_LENGTH];
static uint32_t wear[GWO_MODEL_3_SECTORS];

/* On an idle chip with WEL 1 and no other bit set. */
static struct call call_on(uint32_t model, enum kind kind)
{
    static const struct gwo_record *const records[] = {&gwo_bench_model_1, &gwo_bench_model_2, &gwo_bench_model_3};
    struct call c = {.kind = kind, .array = array, .wear = wear, .out = out, .frame = frame, .pattern = pattern,
                     .wp = 1};

    gwo_factory_state(c.state);
    c.state[0] = 2;
    c.record = *records[model - 1];
    c.array_len = gwo_array_length(model);
    c.wear_len = gwo_sector_count(model);
    wear[1] = 0;
    return c;
}

/* Two microseconds before the end of an operation. */
static void works(struct call *c, uint8_t command, uint32_t place)
{
    c->state[0] = 3;
    put_us(c->state + BUSY_AT, 2);
    put_operation(c->state, command, place);
}

/* What makes a call be answered by a number. */
static void spoil(struct call *c, uint32_t number)
{
    switch (number) {
    case 1: c->record.chip_us = 0; break;
    case 2: c->array_len -= 1; break;
    case 24: c->wear_len -= 1; break;
    case 3: c->state[3] = 1; break;
    case 4: c->tail = 8; break;
    case 5: c->out_len -= 1; break;
    case 22: c->state[8] = 2; break; /* settling for two microseconds */
    case 11: works(c, 0xC7, NOWHERE); break;
    case 12: c->state[1] = 1; break;
    case 14: c->tail = 1; break;
    case 15: c->state[0] = 0; break;
    case 16: c->state[0] = 0x82, c->wp = 0; break;
    case 17: c->state[0] = 0x0E; break; /* BP 3 protects the last block */
    case 19: c->strict = 1; frame[c->frame_len - 1] = 0x01; break; /* every cell is 00 */
    case 25: c->wear[1] = GWO_WEAR_TOP; break; /* the sector that holds 001234 */
    }
}

static void measure(const struct call *c, uint32_t answer)
{
    unsigned long model = c->record.model, n = c->frame_len;
    const char *name = names[c->kind];
    uint32_t got;
    size_t takes = stack_of(c, &got);

    rig_calls++;
    if (got != answer)
        fail("%s on model %lu, frame %02X of %lu bytes: the answer is %lu, want %lu", name, model, c->frame[0], n,
             (unsigned long)got, (unsigned long)answer);
    if (takes > limits[c->kind])
        fail("%s on model %lu, frame %02X of %lu bytes: takes %lu bytes of stack, at most %lu", name, model,
             c->frame[0], n, (unsigned long)takes, (unsigned long)limits[c->kind]);
    if (takes > most[c->kind])
        most[c->kind] = takes;
}

/*
 * The command and its address, zeros after them; the models before first_model do not take it, and 21 and 5A are not
 * model 3's.
 */
static const struct {
    uint8_t head[4];
    size_t n;
    uint32_t answer, first_model;
} rows[] = {
    {{0x05}, 2, 0, 1}, {{0x05}, 65541, 0, 1}, {{0x15}, 2, 0, 3}, {{0x15}, 65541, 0, 3},
    {{0x9F}, 4, 0, 1}, {{0x9F}, 65541, 0, 1}, {{0x90}, 6, 0, 1}, {{0x90}, 65541, 0, 1},
    {{0xAB}, 1, 0, 1}, {{0xAB}, 5, 0, 1}, {{0xAB}, 65541, 0, 1},
    {{0x03, 0, 0x12, 0x34}, 20, 0, 1}, {{0x03, 0xFF, 0xFF, 0xFF}, 65541, 0, 1},
    {{0x0B, 0, 0x12, 0x34}, 21, 0, 1}, {{0x0B, 0xFF, 0xFF, 0xFF}, 65541, 0, 1},
    {{0x5A}, 5, 0, 2}, {{0x5A}, 117, 0, 2}, {{0x5A}, 65541, 0, 2}, {{0x5A, 0xFF, 0xFF, 0xFF}, 65541, 0, 2},
    {{0x06}, 1, 0, 1}, {{0x04}, 1, 0, 1}, {{0xB9}, 1, 0, 1}, {{0x01}, 2, 0, 1}, {{0x01}, 3, 0, 3},
    {{0x02, 0, 0x12, 0x34}, 4 + 1, 0, 1}, {{0x02, 0, 0x12, 0xFF}, 4 + 2, 0, 1}, {{0x02, 0, 0x12, 0}, 4 + 256, 0, 1},
    {{0x02, 0, 0x12, 0x34}, 4 + 256, 0, 1}, {{0x02, 0, 0x12, 0}, 4 + 257, 0, 1},
    {{0x02, 0, 0x12, 0xFF}, 4 + 257, 0, 1}, {{0x02, 0, 0x12, 0}, 4 + 65537, 0, 1},
    {{0x02, 0, 0x12, 0x34}, 4 + 65537, 0, 1},
    {{0x20, 0, 0x12, 0x34}, 4, 0, 1}, {{0x52, 0, 0x12, 0x34}, 4, 0, 3}, {{0xD8, 0, 0x12, 0x34}, 4, 0, 1},
    {{0x60}, 1, 0, 1}, {{0xC7}, 1, 0, 1},
    {{0x02}, 261, 1, 1}, {{0x02}, 261, 2, 1}, {{0x02}, 261, 24, 1}, {{0x02}, 261, 3, 1}, {{0x02}, 261, 4, 1},
    {{0x02}, 261, 5, 1}, {{0x02}, 0, 10, 1}, {{0x02}, 261, 22, 1}, {{0x05}, 2, 22, 1}, {{0xAB}, 5, 22, 1},
    {{0x02}, 261, 11, 1},
    {{0x02}, 261, 12, 1}, {{0xFF}, 261, 13, 1}, {{0x52, 0, 0x12, 0x34}, 4, 21, 1}, {{0x52}, 65541, 21, 1},
    {{0x02}, 261, 14, 1}, {{0x02}, 261, 15, 1}, {{0x01}, 2, 16, 1},
    {{0x02, 0xFF, 0xFF, 0xFF}, 261, 17, 1},
    {{0x02, 0, 0x12, 0x34}, 5, 19, 1}, {{0x02, 0, 0x12, 0x34}, 261, 19, 1}, {{0x02, 0, 0x12, 0x34}, 65541, 19, 1},
    {{0x20, 0xFF, 0xFF, 0xFF}, 4, 17, 1}, {{0xC7}, 1, 17, 1}, {{0x20, 0, 0x12, 0x34}, 4, 25, 1},
    {{0x52, 0, 0x12, 0x34}, 4, 25, 3}, {{0xD8, 0, 0x12, 0x34}, 4, 25, 1}, {{0xC7}, 1, 25, 1},
};

static void frames(uint32_t model)
{
    size_t i;

    for (i = 0; i < sizeof rows / sizeof rows[0]; i++) {
        struct call c = call_on(model, FRAME);

        if (model < rows[i].first_model || (model == 3 && (rows[i].answer == 21 || rows[i].head[0] == 0x5A)))
            continue;
        memcpy(frame, rows[i].head, sizeof rows[i].head);
        c.frame_len = c.out_len = rows[i].n;
        spoil(&c, rows[i].answer);
        measure(&c, rows[i].answer);
        c.strict = 1;
        measure(&c, rows[i].answer);
        memset(frame, 0, sizeof frame);
    }
}

/* AB of a chip that is asleep. */
static void wakings(uint32_t model)
{
    static const size_t lengths[] = {1, 5, 65541};
    int i;

    for (i = 0; i < 3; i++) {
        struct call c = call_on(model, FRAME);

        frame[0] = 0xAB;
        c.frame_len = c.out_len = lengths[i];
        spoil(&c, 12);
        measure(&c, 0);
    }
}

/* No operation, the second of them of a chip that settles, and every operation; the last two are model 3's. */
static const struct { uint8_t command; uint32_t place; } chips[] = {
    {NO_COMMAND, 0}, {NO_COMMAND, 1}, {0x01, 1}, {0x02, 0x1234}, {0x20, 0x1234}, {0xD8, 0x1234}, {0x60, NOWHERE},
    {0xC7, NOWHERE}, {0x52, 0x1234}, {0x01, 2}};
enum { CHIPS = sizeof chips / sizeof chips[0] };

/* A call without a frame of such a chip; of a cut the pattern has the right length. */
static struct call call_of(uint32_t model, enum kind kind, int chip)
{
    struct call c = call_on(model, kind);

    if (chips[chip].command != NO_COMMAND)
        works(&c, chips[chip].command, chips[chip].place);
    else if (chips[chip].place > 0)
        spoil(&c, 22);
    if (kind == CUT)
        c.pattern_len = chips[chip].command == 0x01 ? chips[chip].place : unit_of(model, chips[chip].command);
    return c;
}

/* Whether a number can be the answer to the call. */
static int can_be(enum kind kind, uint32_t number, int busy)
{
    switch (number) {
    case 2: return kind != POWER_CYCLE;
    case 11: return kind == POWER_CYCLE && busy;
    case 23: return kind == CUT;
    default: return number != 0 || kind != POWER_CYCLE || !busy;
    }
}

/* Waits, power cycles or cuts: taken, a wait also to its operation's end and beyond it, and refused. */
static void times(uint32_t model, enum kind kind)
{
    static const uint32_t numbers[] = {0, 1, 2, 3, 11, 23};
    int i, k;

    for (k = 0; k < CHIPS - (model == 3 ? 0 : 2); k++)
        for (i = 0; i < 6; i++) {
            struct call c = call_of(model, kind, k);

            if (!can_be(kind, numbers[i], c.state[0] == 3))
                continue;
            if (numbers[i] == 23)
                c.pattern_len += 1;
            else if (numbers[i] != 11)
                spoil(&c, numbers[i]);
            for (c.us = 0; c.us <= (kind == WAIT ? 3 : 0); c.us++)
                measure(&c, numbers[i]);
        }
}

static void reports(uint32_t model)
{
    struct call c = call_on(model, REPORT);

    measure(&c, 0);
    spoil(&c, 24);
    measure(&c, 24);
}

/* The sheet's own table, one of 256 headers, and each refusal. */
static void sfdp(enum kind kind)
{
    static uint8_t table[8 + 8 * 256 + 36];
    static const uint32_t erases[8] = {12, 0x20, 15, 0x52, 16, 0xD8, 8, 0x81};
    struct call c = call_on(2, kind);
    size_t n;

    c.table = table;
    c.which = 1;
    if (gwo_sfdp_write(0x1FFFFF, erases, 8, table, GWO_SFDP_LENGTH) != 0)
        fail("a table was not written");
    for (n = 0; n <= GWO_SFDP_LENGTH; n++) {
        c.table_len = n;
        measure(&c, n < 8 ? 30 : n < 36 ? 31 : n < GWO_SFDP_LENGTH ? 32 : 0);
    }
    memset(table + 16, 0, sizeof table - 16);
    table[6] = 255;
    table[12] = (8 + 8 * 256) & 0xFF;
    table[13] = (8 + 8 * 256) >> 8;
    c.table_len = sizeof table;
    measure(&c, 0);
    c.table_len = 8 + 8 * 256 - 1;
    measure(&c, 31);
}

static void sfdp_writes(void)
{
    static const uint32_t erases[8] = {12, 0x20, 15, 0x52, 16, 0xD8, 0, 0x81};
    struct call c = call_on(2, SFDP_WRITE);

    c.erases = erases;
    c.out_len = GWO_SFDP_LENGTH;
    for (c.erases_len = 0; c.erases_len <= 8; c.erases_len++)
        measure(&c, c.erases_len % 2 == 0 && c.erases_len < 8 ? 0 : 33);
    c.erases_len = 6;
    c.density = UINT64_MAX;
    measure(&c, 33);
    c.density = 0xFFFFFFFF;
    c.out_len -= 1;
    measure(&c, 33);
}

/*
 * At rest; a fall; within a frame a bit, a whole byte, one that does not fit; a rise that hands over, with a tail, that is
 * held, that comes after too many bytes; and a front that is none. Byte 0 of the front is flags, byte 1 the bits begun.
 */
static void samples(enum kind kind)
{
    static const struct { uint8_t flags, bits, levels; size_t room; uint32_t answer; } steps[] = {
        {0x01, 0, 0x19, 4, 0}, {0x01, 0, 0x18, 4, 0}, {0x08, 0, 0x1E, 4, 0}, {0x08, 7, 0x1E, 4, 0},
        {0x08, 7, 0x1E, 0, 0}, {0x08, 0, 0x19, 4, 0}, {0x08, 7, 0x19, 4, 0}, {0x0C, 0, 0x09, 4, 34},
        {0x18, 0, 0x19, 4, 4}, {0x08, 8, 0x19, 4, 3}};
    struct call c = call_on(1, kind);
    size_t i;

    for (i = 0; i < sizeof steps / sizeof steps[0]; i++) {
        gwo_first_front(c.state);
        c.state[0] = steps[i].flags;
        c.state[1] = steps[i].bits;
        c.frame_len = 64;
        memset(frame, steps[i].levels, c.frame_len);
        c.out_len = steps[i].room;
        measure(&c, steps[i].answer);
    }
}

int main(int argc, char **argv)
{
    uint32_t model;
    int k;

    rig_begin("stack");
    if (argc != 1 && argc != 1 + KINDS) {
        printf("usage: stack [FRAME WAIT POWER_CYCLE CUT REPORT READ REVISION HEADER ERASE WRITE SAMPLE SAMPLES]\n");
        return 2;
    }
    for (k = 0; k < KINDS; k++)
        limits[k] = argc > 1 ? strtoul(argv[1 + k], NULL, 10) : measured[k] + SPARE;
    for (model = 1; model <= 3; model++) {
        frames(model);
        wakings(model);
        times(model, WAIT);
        times(model, POWER_CYCLE);
        times(model, CUT);
        reports(model);
    }
    for (k = SFDP_READ; k < SFDP_WRITE; k++)
        sfdp((enum kind)k);
    sfdp_writes();
    samples(SAMPLE);
    samples(SAMPLES);
    for (k = 0; k < KINDS; k++)
        printf("  %-17s %4lu bytes, at most %lu\n", names[k], (unsigned long)most[k], (unsigned long)limits[k]);
    printf("stack: %lu calls, %lu failures; gwo_frame takes %lu bytes, gwo_wait %lu, gwo_power_cycle %lu, "
           "gwo_cut %lu, gwo_wear_report %lu\n", rig_calls, failures(), (unsigned long)most[FRAME],
           (unsigned long)most[WAIT], (unsigned long)most[POWER_CYCLE], (unsigned long)most[CUT],
           (unsigned long)most[REPORT]);
    return failures() == 0 ? 0 : 1;
}
