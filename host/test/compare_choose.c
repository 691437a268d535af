/*
 * The choice of calls, leaning towards limits: records and states, valid or nearly so, idle or at work; waits around
 * the time left; patterns of the right length, mostly.
 */
#include "compare.h"

#include <string.h>

enum { LIMIT_US = 1000000000 };

struct dice dice;

static uint32_t any_time(void)
{
    static const uint32_t limits[] = {1, 2, 3, 255, 256, 65535, 65536, LIMIT_US - 1, LIMIT_US};

    return chance(&dice, 50) ? ONE_OF(limits) : 1 + below(&dice, chance(&dice, 50) ? 1000 : LIMIT_US);
}

static uint32_t no_time(void)
{
    static const uint32_t outside[] = {0, LIMIT_US + 1, 0x80000000, 0xFFFFFFFF};

    return ONE_OF(outside);
}

void valid_record(struct gwo_record *r)
{
    static const struct gwo_record *const benches[] = {&gwo_bench_model_1, &gwo_bench_model_1, &gwo_bench_model_2,
                                                       &gwo_bench_model_3, &gwo_bench_model_3};
    uint32_t *const us[9] = {&r->status_us, &r->page_us, &r->sector_us, &r->block_us, &r->chip_us, &r->sleep_us,
                             &r->wake_us, &r->sign_us, &r->half_us};
    int i;

    *r = *ONE_OF(benches);
    if (chance(&dice, 40))
        for (i = 0; i < (r->model == 3 ? 9 : 8); i++)
            *us[i] = any_time();
}

/* A wrong number in one of its places; for the sixth time models 1 and 2 take 0 alone. */
static void spoil_record(struct gwo_record *r)
{
    static const uint32_t no_model[] = {0, 4, 5, 257, 0x80000001, 0xFFFFFFFF};
    uint32_t *const us[8] = {&r->status_us, &r->page_us, &r->sector_us, &r->block_us, &r->chip_us, &r->sleep_us,
                             &r->wake_us, &r->sign_us};

    switch (below(&dice, 4)) {
    case 0: r->model = ONE_OF(no_model); break;
    case 1: r->model = 1 + below(&dice, 3); break;
    case 2: r->half_us = r->model == 3 || chance(&dice, 50) ? no_time() : any_time(); break;
    default: *us[below(&dice, 8)] = no_time(); break;
    }
}

/* The record of the last call or another one, now and then spoilt. */
static void choose_record(struct gwo_record *r)
{
    static struct gwo_record last;

    if (last.model == 0 || chance(&dice, 50))
        valid_record(&last);
    *r = last;
    if (chance(&dice, 5))
        spoil_record(r);
}

/* What is left of a time, now and then one too many. */
static uint32_t any_left(uint32_t most)
{
    switch (below(&dice, 8)) {
    case 0: return 1;
    case 1: return 2;
    case 2: return most;
    case 3: return most - 1;
    case 4: return chance(&dice, 20) ? most + 1 : most;
    default: return most > 0 ? 1 + below(&dice, most) : 1;
    }
}

/*
 * The operations; a chip erase of 16 MiB takes its time, so it comes seldom. 52 is model 3's, and now and then one that
 * an older program has left on another.
 */
static uint8_t any_operation(uint32_t chip)
{
    static const uint8_t commands[] = {0x01, 0x01, 0x02, 0x02, 0x02, 0x20, 0x20, 0x52, 0xD8, 0x60, 0xC7};
    uint8_t command = ONE_OF(commands);

    if (chip != 3 && command == 0x52 && chance(&dice, 70))
        return 0xD8;
    return chip == 3 && (command == 0x60 || command == 0xC7) && chance(&dice, 80) ? 0x02 : command;
}

/* An operation that is running, with all that the state remembers of it; the time may be one too long. */
static void at_work(uint8_t *p, const struct gwo_record *r)
{
    uint8_t command = any_operation(r->model);
    int withdrawn = r->model != 3 && command == 0x52;
    uint32_t size = (uint32_t)gwo_array_length(r->model), busy = any_left(us_of(r, withdrawn ? 0xD8 : command));
    uint32_t place = size == 0 ? 0 : any_address(r->model) % size;

    if (busy == 0)
        return;
    p[0] |= 3;
    p[1] = 0;
    put_us(p + BUSY_AT, busy);
    if (command == 0x01)
        place = r->model == 3 ? 1 + below(&dice, 2) : 1;
    put_operation(p, command, command == 0x60 || command == 0xC7 ? NOWHERE : place);
    if (command == 0x01 || command == 0x02)
        scatter(&dice, p + DATA_AT, command == 0x01 ? place : PAGE);
}

/* A new state, valid but for a time one too long. */
static void fresh_state(uint8_t *p, const struct gwo_record *r, unsigned at_work_percent)
{
    unsigned bp = chance(&dice, 40) ? 0 : below(&dice, r->model == 3 ? 16 : 4);
    unsigned wel = chance(&dice, 80), srwd = chance(&dice, 30);

    memset(p, 0, STATE);
    p[0] = (uint8_t)(128 * srwd + 4 * bp + 2 * wel);
    p[1] = (uint8_t)chance(&dice, 12);
    p[2] = r->model == 3 ? (uint8_t)(roll(&dice) & 0xDB) : 0;
    put_operation(p, NO_COMMAND, NOWHERE);
    if (chance(&dice, at_work_percent))
        at_work(p, r);
    else if (chance(&dice, 10))
        put_us(p + SETTLING_AT, any_left(longest_settling(r)));
}

static void spoil_state(uint8_t *p)
{
    uint8_t *us = p + (chance(&dice, 50) ? BUSY_AT : SETTLING_AT);

    switch (below(&dice, 8)) {
    case 0: p[below(&dice, STATE)] ^= (uint8_t)(1u << below(&dice, 8)); break;
    case 1: p[below(&dice, 4)] = (uint8_t)roll(&dice); break;
    case 2: scatter(&dice, p, STATE); break;
    case 3: put_us(us, 1); break;
    case 4: p[COMMAND_AT] = chance(&dice, 50) ? any_operation(1) : (uint8_t)roll(&dice); break;
    case 5: p[PLACE_AT + (chance(&dice, 50) ? 2 : below(&dice, 3))] = (uint8_t)(roll(&dice) % 4); break;
    case 6: p[DATA_AT + below(&dice, PAGE)] = (uint8_t)roll(&dice); break;
    default: put_us(us, (uint32_t)roll(&dice)); break;
    }
}

/* The state of the call, in both: what the last call left, mostly on the same model; a new one, or a spoilt one. */
static void choose_state(struct call *c)
{
    static const size_t lengths[] = {0, 1, 12, 16, 271, 273, 280};
    static uint32_t last_model;
    uint8_t p[STATE_ROOM];

    memset(p, 0, sizeof p);
    memcpy(p, last_of(&model.state, STATE), STATE);
    if (chance(&dice, c->record.model == last_model ? 40 : 95))
        fresh_state(p, &c->record, c->kind == FRAME ? 20 : 65);
    last_model = c->record.model;
    if (chance(&dice, 6))
        spoil_state(p);
    c->state_len = chance(&dice, 1) ? ONE_OF(lengths) : STATE;
    memcpy(last_of(&model.state, c->state_len), p, c->state_len);
    memcpy(last_of(&ours.state, c->state_len), p, c->state_len);
}

static void choose_wait(struct call *c)
{
    const uint8_t *p = last_of(&model.state, STATE);
    uint32_t left = get_us(p + BUSY_AT) > 0 ? get_us(p + BUSY_AT) : get_us(p + SETTLING_AT);

    switch (below(&dice, 8)) {
    case 0: c->us = 0; break;
    case 1: c->us = 1; break;
    case 2: c->us = left - 1; break;
    case 3: c->us = left; break;
    case 4: c->us = left + 1; break;
    case 5: c->us = 0xFFFFFFFF; break;
    case 6: c->us = any_time(); break;
    default: c->us = (uint32_t)roll(&dice); break;
    }
}

static void choose_array(struct call *c)
{
    static const size_t lengths[] = {0, 1, 65535, 65536, 65537, 262143, 262144, 262145, 327680,
                                     16777215, 16777216, 16777217};

    c->array_len = gwo_array_length(c->record.model);
    if (c->array_len == 0 || chance(&dice, c->kind == FRAME ? 1 : 3))
        c->array_len = ONE_OF(lengths);
}

/* New bytes in both patterns, so many before their end. */
static void fill_pattern(size_t before, size_t n)
{
    guard_lift(&over_pattern);
    scatter(&dice, last_of(&model.pattern, before), n);
    memcpy(last_of(&ours.pattern, before), last_of(&model.pattern, before), n);
}

/* As long as the running operation has it, now and then not; new bytes at its ends and somewhere in it. */
static void choose_pattern(struct call *c)
{
    static const size_t lengths[] = {0, 1, 2, 3, 255, 256, 257, 4096, 32768, 65535, 65536, 262144};
    const uint8_t *p = last_of(&model.state, STATE);
    size_t n = p[COMMAND_AT] == 0x01 ? get_place(p) : unit_of(c->record.model, p[COMMAND_AT]), at;

    if (chance(&dice, 8))
        n = chance(&dice, 50) ? n + 1 : n - (n > 0);
    c->pattern_len = chance(&dice, 4) ? ONE_OF(lengths) : n;
    n = c->pattern_len < PAGE ? c->pattern_len : PAGE;
    at = c->pattern_len == n ? 0 : below(&dice, (uint32_t)(c->pattern_len - n));
    fill_pattern(c->pattern_len, n);
    fill_pattern(c->pattern_len - at, n);
    fill_pattern(n, n);
}

void choose(struct call *c)
{
    static const enum kind others[] = {WAIT, WAIT, WAIT, WAIT, WAIT, WAIT, CUT, CUT, CUT, POWER_CYCLE, POWER_CYCLE,
                                       REPORT};

    memset(c, 0, sizeof *c);
    c->kind = chance(&dice, 78) ? FRAME : ONE_OF(others);
    if (!in_history(c)) {
        choose_record(&c->record);
        choose_state(c);
        choose_array(c);
    }
    if (c->kind == WAIT)
        choose_wait(c);
    if (c->kind == CUT)
        choose_pattern(c);
    if (c->kind == FRAME)
        choose_frame(c);
    else if (c->kind != REPORT && !c->history && chance(&dice, 60))
        refresh_cells(c, get_place(last_of(&model.state, STATE)));
    if ((c->kind == FRAME || c->kind == REPORT) && !c->history)
        choose_wear(c);
}
