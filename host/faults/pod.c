/*
 * The pod behind the archive's names. The environment says which fault it has: GWO_FAULT, 0 or nothing for none.
 * The host tests have to catch every one.
 */
#include "pod.h"

#include "model.h"

#include <stdio.h>
#include <stdlib.h>
#include <string.h>

uint32_t right_frame(const struct call *c)
{
    const struct gwo_record *r = &c->record;

    return ref_frame(r->model, r->status_us, r->page_us, r->sector_us, r->block_us, r->chip_us, r->half_us,
                     r->sleep_us, r->wake_us, r->sign_us, c->state, c->state_len, c->array, c->array_len,
                     c->wear, c->wear_len, c->frame, c->frame_len, c->tail, c->wp, c->strict, c->out, c->out_len,
                     c->from, c->count, c->fold);
}

uint32_t right_wait(const struct call *c)
{
    const struct gwo_record *r = &c->record;

    return ref_wait(r->model, r->status_us, r->page_us, r->sector_us, r->block_us, r->chip_us, r->half_us,
                    r->sleep_us, r->wake_us, r->sign_us, c->state, c->state_len, c->array, c->array_len, c->us);
}

uint32_t right_power_cycle(const struct call *c)
{
    const struct gwo_record *r = &c->record;

    return ref_power_cycle(r->model, r->status_us, r->page_us, r->sector_us, r->block_us, r->chip_us, r->half_us,
                           r->sleep_us, r->wake_us, r->sign_us, c->state, c->state_len);
}

uint32_t right_cut(const struct call *c)
{
    const struct gwo_record *r = &c->record;

    return ref_cut(r->model, r->status_us, r->page_us, r->sector_us, r->block_us, r->chip_us, r->half_us,
                   r->sleep_us, r->wake_us, r->sign_us, c->state, c->state_len, c->array, c->array_len, c->pattern,
                   c->pattern_len);
}

uint32_t right_report(const struct call *c)
{
    return ref_wear_report(c->wear, c->wear_len, c->total, c->smallest, c->largest, c->sector, c->mean, c->remainder);
}

uint32_t right_reader(const struct call *c)
{
    uint32_t *const *r = c->results;

    switch (c->reader) {
    case READ: return ref_sfdp_read(c->table, c->table_len, r[0], r[1], r[2]);
    case REVISION: return ref_sfdp_revision(c->table, c->table_len, r[0], r[1]);
    case HEADER: return ref_sfdp_header(c->table, c->table_len, c->which, r[0], r[1], r[2], r[3], r[4]);
    default: return ref_sfdp_erase(c->table, c->table_len, c->which, r[0], r[1]);
    }
}

uint32_t right_write(const struct call *c)
{
    return ref_sfdp_write(c->density, c->erases, c->erases_len, c->out, c->out_len);
}

uint32_t address_in(const struct call *c)
{
    return ((uint32_t)c->frame[1] << 16 | (uint32_t)c->frame[2] << 8 | c->frame[3]) % (uint32_t)c->array_len;
}

static uint32_t busy_in(const struct call *c)
{
    const uint8_t *p = c->state + 4;

    return (uint32_t)p[0] | (uint32_t)p[1] << 8 | (uint32_t)p[2] << 16 | (uint32_t)p[3] << 24;
}

struct operation running(const struct call *c)
{
    struct operation o = {.command = NO_COMMAND};

    if (c->state_len != GWO_STATE_LENGTH || busy_in(c) == 0)
        return o;
    o.command = c->state[COMMAND_AT];
    o.place = (uint32_t)c->state[13] << 16 | (uint32_t)c->state[14] << 8 | c->state[15];
    memcpy(o.data, c->state + DATA_AT, PAGE);
    return o;
}

struct operation ended_by(const struct call *c)
{
    struct operation o = running(c);

    if (o.command != NO_COMMAND && c->us < busy_in(c))
        o.command = NO_COMMAND;
    return o;
}

uint32_t unit_length(const struct call *c, const struct operation *o)
{
    switch (o->command) {
    case 0x02: return PAGE;
    case 0x20: return GWO_SECTOR_LENGTH;
    case 0x52: return c->record.model == 3 ? GWO_HALF_BLOCK_LENGTH : 0;
    case 0xD8: return GWO_BLOCK_LENGTH;
    case 0x60: case 0xC7: return (uint32_t)c->array_len;
    default: return 0;
    }
}

uint8_t *unit_cells(const struct call *c, const struct operation *o)
{
    uint32_t unit = unit_length(c, o);

    return unit == 0 ? c->array : c->array + o->place % (uint32_t)c->array_len / unit * unit;
}

/* The mistakes in the order of their numbers. */
static const struct { const struct pod *pods; int n; } books[] = {
    {mistakes, MISTAKES}, {mistakes_of_model_3, MISTAKES_OF_MODEL_3}, {mistakes_of_fold, MISTAKES_OF_FOLD},
    {mistakes_of_sleep, MISTAKES_OF_SLEEP}, {mistakes_of_cut, MISTAKES_OF_CUT}, {mistakes_of_wear, MISTAKES_OF_WEAR},
    {mistakes_of_strict, MISTAKES_OF_STRICT}, {mistakes_of_withdrawn, MISTAKES_OF_WITHDRAWN},
    {mistakes_of_5a, MISTAKES_OF_5A}, {mistakes_of_reader, MISTAKES_OF_READER},
    {mistakes_of_writer, MISTAKES_OF_WRITER}};

static const struct pod *choose_pod(void)
{
    static const struct pod none;
    const char *text = getenv("GWO_FAULT");
    int fault = text == NULL ? 0 : atoi(text), left = fault;
    size_t i;

    if (fault == 0)
        return &none;
    for (i = 0; i < sizeof books / sizeof books[0] && left > 0; i++) {
        if (left <= books[i].n)
            return &books[i].pods[left - 1];
        left -= books[i].n;
    }
    printf("there is no fault %d\n", fault);
    exit(2);
}

static const struct pod *pod(void)
{
    static const struct pod *chosen;

    if (chosen == NULL)
        chosen = choose_pod();
    return chosen;
}

uint32_t gwo_frame(uint32_t model, uint32_t status_us, uint32_t page_us, uint32_t sector_us,
                   uint32_t block_us, uint32_t chip_us, uint32_t half_us,
                   uint32_t sleep_us, uint32_t wake_us, uint32_t sign_us,
                   uint8_t *state, size_t state_len, const uint8_t *array, size_t array_len,
                   uint32_t *wear, size_t wear_len,
                   const uint8_t *frame, size_t frame_len, uint32_t tail, uint32_t wp, uint32_t strict,
                   uint8_t *out, size_t out_len, uint32_t *from, uint32_t *count, uint32_t *fold)
{
    const struct call c = {.record = {model, status_us, page_us, sector_us, block_us, chip_us, half_us, sleep_us,
                                      wake_us, sign_us},
                           .state = state, .state_len = state_len, .array = (uint8_t *)array, .array_len = array_len,
                           .wear = wear, .wear_len = wear_len, .frame = frame, .frame_len = frame_len, .tail = tail,
                           .wp = wp, .strict = strict, .out = out, .out_len = out_len, .from = from, .count = count,
                           .fold = fold};

    return pod()->frame != NULL ? pod()->frame(&c) : right_frame(&c);
}

uint32_t gwo_wait(uint32_t model, uint32_t status_us, uint32_t page_us, uint32_t sector_us,
                  uint32_t block_us, uint32_t chip_us, uint32_t half_us,
                  uint32_t sleep_us, uint32_t wake_us, uint32_t sign_us,
                  uint8_t *state, size_t state_len, uint8_t *array, size_t array_len, uint32_t us)
{
    const struct call c = {.record = {model, status_us, page_us, sector_us, block_us, chip_us, half_us, sleep_us,
                                      wake_us, sign_us},
                           .state = state, .state_len = state_len, .array = array, .array_len = array_len, .us = us};

    return pod()->wait != NULL ? pod()->wait(&c) : right_wait(&c);
}

uint32_t gwo_power_cycle(uint32_t model, uint32_t status_us, uint32_t page_us, uint32_t sector_us,
                         uint32_t block_us, uint32_t chip_us, uint32_t half_us,
                         uint32_t sleep_us, uint32_t wake_us, uint32_t sign_us,
                         uint8_t *state, size_t state_len)
{
    const struct call c = {.record = {model, status_us, page_us, sector_us, block_us, chip_us, half_us, sleep_us,
                                      wake_us, sign_us},
                           .state = state, .state_len = state_len};

    return pod()->power_cycle != NULL ? pod()->power_cycle(&c) : right_power_cycle(&c);
}

uint32_t gwo_cut(uint32_t model, uint32_t status_us, uint32_t page_us, uint32_t sector_us,
                 uint32_t block_us, uint32_t chip_us, uint32_t half_us,
                 uint32_t sleep_us, uint32_t wake_us, uint32_t sign_us,
                 uint8_t *state, size_t state_len, uint8_t *array, size_t array_len,
                 const uint8_t *pattern, size_t pattern_len)
{
    const struct call c = {.record = {model, status_us, page_us, sector_us, block_us, chip_us, half_us, sleep_us,
                                      wake_us, sign_us},
                           .state = state, .state_len = state_len, .array = array, .array_len = array_len,
                           .pattern = pattern, .pattern_len = pattern_len};

    return pod()->cut != NULL ? pod()->cut(&c) : right_cut(&c);
}

uint32_t gwo_wear_report(const uint32_t *wear, size_t wear_len, uint64_t *total, uint32_t *smallest,
                         uint32_t *largest, uint32_t *sector, uint32_t *mean, uint32_t *remainder)
{
    const struct call c = {.wear = (uint32_t *)wear, .wear_len = wear_len, .total = total, .smallest = smallest,
                           .largest = largest, .sector = sector, .mean = mean, .remainder = remainder};

    return pod()->report != NULL ? pod()->report(&c) : right_report(&c);
}

static uint32_t read_by_pod(const struct call *c)
{
    return pod()->sfdp_reader != NULL ? pod()->sfdp_reader(c) : right_reader(c);
}

uint32_t gwo_sfdp_read(const uint8_t *bytes, size_t len, uint32_t *headers, uint32_t *density, uint32_t *types)
{
    const struct call c = {.reader = READ, .table = bytes, .table_len = len, .results = {headers, density, types}};

    return read_by_pod(&c);
}

uint32_t gwo_sfdp_revision(const uint8_t *bytes, size_t len, uint32_t *minor, uint32_t *major)
{
    const struct call c = {.reader = REVISION, .table = bytes, .table_len = len, .results = {minor, major}};

    return read_by_pod(&c);
}

uint32_t gwo_sfdp_header(const uint8_t *bytes, size_t len, uint32_t index, uint32_t *id, uint32_t *minor, uint32_t *major,
                         uint32_t *words, uint32_t *pointer)
{
    const struct call c = {.reader = HEADER, .table = bytes, .table_len = len, .which = index,
                           .results = {id, minor, major, words, pointer}};

    return read_by_pod(&c);
}

uint32_t gwo_sfdp_erase(const uint8_t *bytes, size_t len, uint32_t slot, uint32_t *exponent, uint32_t *opcode)
{
    const struct call c = {.reader = ERASE, .table = bytes, .table_len = len, .which = slot,
                           .results = {exponent, opcode}};

    return read_by_pod(&c);
}

uint32_t gwo_sfdp_write(uint64_t density, const uint32_t *erases, size_t erases_len, uint8_t *out, size_t out_len)
{
    const struct call c = {.density = density, .erases = erases, .erases_len = erases_len, .out = out,
                           .out_len = out_len};

    return pod()->sfdp_write != NULL ? pod()->sfdp_write(&c) : right_write(&c);
}
