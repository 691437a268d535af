/*
 * Random calls to the archive and to the independent model, side by side, single ones and histories: the answer,
 * state, array, counts, output, frame and results must agree after every one; the 16 MiB of model 3 around the
 * addressed block, and whole now and then, after the end of a chip erase and at the end. Only a call that ends a
 * program or an erase can write to the array, and only a frame that starts an erase to the counts. Arguments: how many
 * calls (1,000,000), and the seed. It stops at the first difference.
 */
#include "compare.h"
#include "model.h"

#include <stdio.h>
#include <stdlib.h>
#include <string.h>

struct side ours, model;
struct guard over_array, over_pattern;

enum { LARGE_EVERY = 1024, SMALL_EVERY = 64 }; /* so often all that could be lent as an array is compared */

static void show(const struct call *c, const uint8_t *state, const char *what)
{
    static const char *const kinds[KINDS] = {"frame", "wait", "power cycle", "cut", "report"};
    const struct gwo_record *r = &c->record;
    const uint8_t *frame = last_of(&model.frame, c->frame_len);
    size_t i;

    fail("call %lu: %s differs", rig_calls, what);
    printf("  %s, record %lu %lu %lu %lu %lu %lu %lu %lu %lu %lu, state of %lu:", kinds[c->kind],
           (unsigned long)r->model, (unsigned long)r->status_us, (unsigned long)r->page_us,
           (unsigned long)r->sector_us, (unsigned long)r->block_us, (unsigned long)r->chip_us,
           (unsigned long)r->half_us, (unsigned long)r->sleep_us, (unsigned long)r->wake_us,
           (unsigned long)r->sign_us, (unsigned long)c->state_len);
    for (i = 0; i < c->state_len && i < 24; i++)
        printf(" %02X", state[i]);
    printf("\n  array of %lu, %lu counts, %lu us, pattern of %lu", (unsigned long)c->array_len,
           (unsigned long)c->wear_len, (unsigned long)c->us, (unsigned long)c->pattern_len);
    if (c->kind == FRAME)
        printf(", tail %lu, WP# %lu, strict %lu, output of %lu, frame of %lu:", (unsigned long)c->tail,
               (unsigned long)c->wp, (unsigned long)c->strict, (unsigned long)c->out_len, (unsigned long)c->frame_len);
    for (i = 0; i < c->frame_len && i < 24; i++)
        printf(" %02X", frame[i]);
    printf("\n");
}

/* The last n bytes of both, with a margin before them. */
static int same(const struct lent *a, const struct lent *b, size_t n)
{
    return agree(last_of(a, n + MARGIN), last_of(b, n + MARGIN), n + MARGIN);
}

/* Whether the call may write to the array, by the state before it and its answer. */
static int may_write(const struct call *c, const uint8_t *state, uint32_t number)
{
    return number == 0 && ((c->kind == WAIT && ends_by_wait(state, c->us)) || (c->kind == CUT && ends_by_cut(state)));
}

/* Around what the state before the call was at work on, if the call could write there. */
static int same_array(const struct call *c, const uint8_t *state, uint32_t number)
{
    const uint8_t *a = last_of(&ours.array, c->array_len), *b = last_of(&model.array, c->array_len);
    struct stretch s = around(get_place(state), c->array_len);

    return !may_write(c, state, number) || agree(a + s.low, b + s.low, s.high - s.low);
}

/* What differs after the call, or null. */
static const char *difference(const struct call *c, const uint8_t *state, uint32_t number)
{
    if (!same(&ours.state, &model.state, c->state_len))
        return "the state";
    if (c->kind == REPORT)
        return same(&ours.results, &model.results, sizeof(struct results)) ? NULL : "a result";
    if (c->kind != FRAME)
        return same_array(c, state, number) ? NULL : "the array";
    if (!same(&ours.numbers, &model.numbers, NUMBERS))
        return "the first driven position, the count or the fold";
    if (!same(&ours.out, &model.out, c->out_len))
        return "the output";
    if (has_counted(c, number) && !same_counts())
        return "a count";
    return same(&ours.frame, &model.frame, c->frame_len) ? NULL : "the frame";
}

/* The last bytes of all that could ever be lent as an array, also what this call was not given. */
static int same_cells(size_t n)
{
    if (agree(last_of(&ours.array, n), last_of(&model.array, n), n))
        return 1;
    fail("call %lu: cells that were compared only now differ", rig_calls);
    return 0;
}

static int same_everywhere(const struct call *c, const uint8_t *state, uint32_t number)
{
    int chip_erase = state[COMMAND_AT] == 0x60 || state[COMMAND_AT] == 0xC7;

    if (rig_calls % LARGE_EVERY == 0 || (may_write(c, state, number) && chip_erase && c->array_len > SMALL_ROOM))
        return same_cells(ARRAY_ROOM);
    return rig_calls % SMALL_EVERY != 0 || same_cells(SMALL_ROOM);
}

static uint32_t frame_on(frame_call *f, const struct side *s, const struct call *c)
{
    const struct gwo_record *r = &c->record;
    uint32_t *numbers = (uint32_t *)(void *)last_of(&s->numbers, NUMBERS);

    numbers[0] = numbers[1] = numbers[2] = 0xA5A5A5A5;
    return f(r->model, r->status_us, r->page_us, r->sector_us, r->block_us, r->chip_us, r->half_us,
             r->sleep_us, r->wake_us, r->sign_us, last_of(&s->state, c->state_len), c->state_len,
             last_of(&s->array, c->array_len), c->array_len,
             (uint32_t *)(void *)last_of(&s->wear, c->wear_len * sizeof(uint32_t)), c->wear_len,
             last_of(&s->frame, c->frame_len), c->frame_len, c->tail, c->wp, c->strict,
             last_of(&s->out, c->out_len), c->out_len, &numbers[0], &numbers[1], &numbers[2]);
}

static uint32_t wait_on(wait_call *f, const struct side *s, const struct call *c)
{
    const struct gwo_record *r = &c->record;

    return f(r->model, r->status_us, r->page_us, r->sector_us, r->block_us, r->chip_us, r->half_us,
             r->sleep_us, r->wake_us, r->sign_us, last_of(&s->state, c->state_len), c->state_len,
             last_of(&s->array, c->array_len), c->array_len, c->us);
}

static uint32_t power_cycle_on(power_cycle_call *f, const struct side *s, const struct call *c)
{
    const struct gwo_record *r = &c->record;

    return f(r->model, r->status_us, r->page_us, r->sector_us, r->block_us, r->chip_us, r->half_us,
             r->sleep_us, r->wake_us, r->sign_us, last_of(&s->state, c->state_len), c->state_len);
}

static uint32_t cut_on(cut_call *f, const struct side *s, const struct call *c)
{
    const struct gwo_record *r = &c->record;

    return f(r->model, r->status_us, r->page_us, r->sector_us, r->block_us, r->chip_us, r->half_us,
             r->sleep_us, r->wake_us, r->sign_us, last_of(&s->state, c->state_len), c->state_len,
             last_of(&s->array, c->array_len), c->array_len, last_of(&s->pattern, c->pattern_len), c->pattern_len);
}

static uint32_t report_on(report_call *f, const struct side *s, const struct call *c)
{
    static const struct results unset = {0xA5A5A5A5, 0xA5A5A5A5, 0xA5A5A5A5, 0xA5A5A5A5, 0xA5A5A5A5, 0, 0xA5A5A5A5};
    struct results *r = (struct results *)(void *)last_of(&s->results, sizeof *r);

    *r = unset;
    return f((const uint32_t *)(const void *)last_of(&s->wear, c->wear_len * sizeof(uint32_t)), c->wear_len, &r->total,
             &r->smallest, &r->largest, &r->sector, &r->mean, &r->remainder);
}

/* Whether an operation has begun in this call, or goes on in it. */
static int has_work(const struct call *c, const uint8_t *state, uint32_t number)
{
    if (c->kind != FRAME)
        return get_us(state + BUSY_AT) > 0;
    return number == 0 && us_of(&c->record, *last_of(&model.frame, c->frame_len)) > 0;
}

/* Around what the operation aims at; of the smaller arrays all that could be lent. */
static void guard_cells(const struct call *c, uint32_t address)
{
    uint8_t *array = last_of(&ours.array, c->array_len);
    struct stretch s = around(address, c->array_len);

    if (c->array_len <= SMALL_ROOM)
        guard_over(&over_array, last_of(&ours.array, SMALL_ROOM), ours.array.end);
    else
        guard_over(&over_array, array + s.low, array + s.high);
}

/* Only a call that may write to the array finds it open. To move the guard takes time: without work it stays. */
static void guard_for(const struct call *c, const uint8_t *state, uint32_t number)
{
    if (may_write(c, state, number))
        guard_lift(&over_array);
    else if (has_work(c, state, number))
        guard_cells(c, c->kind == FRAME ? addressed(c) : get_place(state));
    if (has_counted(c, number))
        guard_lift(&over_wear);
    else
        guard_over(&over_wear, ours.wear.start, ours.wear.end);
    guard_over(&over_pattern, last_of(&ours.pattern, c->pattern_len), ours.pattern.end);
}

/* The calls themselves: the functions on a record (gwo.h) put a bench value where a time is 0. */
static uint32_t ours_gives(const struct call *c)
{
    switch (c->kind) {
    case FRAME: return frame_on(gwo_frame, &ours, c);
    case WAIT: return wait_on(gwo_wait, &ours, c);
    case CUT: return cut_on(gwo_cut, &ours, c);
    case REPORT: return report_on(gwo_wear_report, &ours, c);
    default: return power_cycle_on(gwo_power_cycle, &ours, c);
    }
}

static uint32_t model_gives(const struct call *c)
{
    switch (c->kind) {
    case FRAME: return frame_on(ref_frame, &model, c);
    case WAIT: return wait_on(ref_wait, &model, c);
    case CUT: return cut_on(ref_cut, &model, c);
    case REPORT: return report_on(ref_wear_report, &model, c);
    default: return power_cycle_on(ref_power_cycle, &model, c);
    }
}

/* One call on both; false when they differ. */
static int one_call(void)
{
    struct call c;
    uint8_t state[STATE_ROOM];
    uint32_t wanted, got;
    const char *what;

    choose(&c);
    memset(state, 0, sizeof state);
    memcpy(state, last_of(&model.state, c.state_len), c.state_len);
    rig_calls++;
    wanted = model_gives(&c);
    guard_for(&c, state, wanted);
    got = ours_gives(&c);
    if (got != wanted) {
        show(&c, state, "the answer");
        printf("  answered %lu, the model says %lu\n", (unsigned long)got, (unsigned long)wanted);
        return 0;
    }
    note(&c, state, wanted);
    what = difference(&c, state, wanted);
    if (what != NULL)
        show(&c, state, what);
    return what == NULL && same_everywhere(&c, state, wanted);
}

static void lend_side(struct side *s)
{
    s->state = lend(STATE_ROOM + MARGIN);
    s->array = lend(ARRAY_ROOM);
    s->pattern = lend(ARRAY_ROOM);
    s->frame = lend(FRAME_ROOM + MARGIN);
    s->out = lend(OUT_ROOM + MARGIN);
    s->numbers = lend(NUMBERS + MARGIN);
    s->wear = lend(WEAR_ROOM * sizeof(uint32_t));
    s->results = lend(sizeof(struct results) + MARGIN);
}

int main(int argc, char **argv)
{
    static char name[40];
    unsigned long calls = argc > 1 ? strtoul(argv[1], NULL, 10) : 1000000;
    uint64_t seed = argc > 2 ? strtoull(argv[2], NULL, 10) : 20250611;

    dice.at = seed;
    snprintf(name, sizeof name, "compare, seed %llu", (unsigned long long)seed);
    rig_begin(name);
    lend_side(&ours);
    lend_side(&model);
    scatter(&dice, model.pattern.start, ARRAY_ROOM);
    memcpy(ours.pattern.start, model.pattern.start, ARRAY_ROOM);
    fill_cells(0, ARRAY_ROOM);
    fresh_counts();
    while (rig_calls < calls && one_call())
        continue;
    if (failures() == 0 && !same_counts())
        fail("at the end: counts that were compared only now differ");
    if (failures() == 0 && same_cells(ARRAY_ROOM) && calls >= 50000)
        check_variety();
    return rig_end();
}
