/* 01's four worthless programs, the six mistakes that it calls easy, and a pod that looks past a lent buffer. */
#include "pod.h"

#include <string.h>

static uint32_t says(const struct call *c, uint32_t number)
{
    *c->from = 0;
    *c->count = 0;
    *c->fold = 0;
    return number;
}

/* 1: refuses all. */
static uint32_t refuses_all(const struct call *c)
{
    return says(c, 11);
}

static uint32_t refuses_time(const struct call *c)
{
    (void)c;
    return 3;
}

/* 2: answers the same byte each time. */
static uint32_t same_byte(const struct call *c)
{
    uint32_t number = right_frame(c);

    memset(c->out + *c->from, 0x00, *c->count);
    return number;
}

/* 3: changes no cell of the two smaller chips. */
static uint32_t with_old_cells(const struct call *c, answers *right)
{
    static uint8_t kept[GWO_MODEL_2_LENGTH];
    size_t n = c->array_len <= sizeof kept ? c->array_len : 0;
    uint32_t number;

    memcpy(kept, c->array, n);
    number = right(c);
    memcpy(c->array, kept, n);
    return number;
}

static uint32_t waits_without_cells(const struct call *c)
{
    return with_old_cells(c, right_wait);
}

static uint32_t cuts_without_cells(const struct call *c)
{
    return with_old_cells(c, right_cut);
}

/* 4: works on the first frame and afterwards only says 0. */
static int frames;

static uint32_t first_frame_only(const struct call *c)
{
    return frames++ == 0 ? right_frame(c) : says(c, 0);
}

static uint32_t first_wait_only(const struct call *c)
{
    return frames == 0 ? right_wait(c) : 0;
}

static uint32_t first_power_cycle_only(const struct call *c)
{
    return frames == 0 ? right_power_cycle(c) : 0;
}

static uint32_t first_cut_only(const struct call *c)
{
    return frames == 0 ? right_cut(c) : 0;
}

/* A program at its end, laid by another rule: the page is put back and the rule applied to it. */
typedef void rule(const struct call *c, uint8_t *page, const struct operation *o);

static uint32_t programs_by(const struct call *c, rule *lay)
{
    struct operation o = ended_by(c);
    uint8_t kept[PAGE], *page;
    uint32_t number;

    if (o.command != 0x02 || c->array_len != gwo_array_length(c->record.model))
        return right_wait(c);
    page = unit_cells(c, &o);
    memcpy(kept, page, PAGE);
    number = right_wait(c);
    if (number == 0) {
        memcpy(page, kept, PAGE);
        lay(c, page, &o);
    }
    return number;
}

static void on_into_the_next_page(const struct call *c, uint8_t *page, const struct operation *o)
{
    size_t at = (size_t)(page - c->array), k;

    for (k = 0; k < PAGE; k++)
        c->array[(at + k + (k < o->place % PAGE ? PAGE : 0)) % c->array_len] &= o->data[k];
}

static void stored(const struct call *c, uint8_t *page, const struct operation *o)
{
    size_t k;

    (void)c;
    for (k = 0; k < PAGE; k++)
        if (o->data[k] != 0xFF)
            page[k] = o->data[k];
}

/* 5: a program that folds runs into the next page. */
static uint32_t next_page(const struct call *c)
{
    return programs_by(c, on_into_the_next_page);
}

/* 6: the first 256 bytes are kept instead of the last. */
static uint32_t keeps_first(const struct call *c)
{
    uint32_t number = right_frame(c);
    size_t i;

    if (number != 0 || c->frame[0] != 0x02)
        return number;
    memset(c->state + DATA_AT, 0xFF, PAGE);
    for (i = 0; i < c->frame_len - 4 && i < PAGE; i++)
        c->state[DATA_AT + (c->frame[3] + i) % PAGE] = c->frame[4 + i];
    return 0;
}

/* 7: data stored in place of AND. */
static uint32_t stores(const struct call *c)
{
    return programs_by(c, stored);
}

/* 8: WEL is cleared when the operation starts, so that a busy chip has WEL 0. */
static void latch_of_busy(const struct call *c, int set)
{
    if (c->state_len == GWO_STATE_LENGTH && (c->state[0] & 1) != 0)
        c->state[0] = (uint8_t)(set ? c->state[0] | 2 : c->state[0] & ~2);
}

static uint32_t with_early_latch(const struct call *c, answers *right)
{
    uint32_t number;

    latch_of_busy(c, 1);
    number = right(c);
    latch_of_busy(c, 0);
    return number;
}

static uint32_t clears_early(const struct call *c)
{
    return with_early_latch(c, right_frame);
}

static uint32_t waits_early(const struct call *c)
{
    return with_early_latch(c, right_wait);
}

static uint32_t power_cycles_early(const struct call *c)
{
    return with_early_latch(c, right_power_cycle);
}

static uint32_t cuts_early(const struct call *c)
{
    return with_early_latch(c, right_cut);
}

/* 9: WP# low alone blocks 01. */
static uint32_t blocked_by_wp(const struct call *c)
{
    uint8_t kept[GWO_STATE_LENGTH];
    size_t n = c->state_len < sizeof kept ? c->state_len : sizeof kept;
    uint32_t number;

    memcpy(kept, c->state, n);
    number = right_frame(c);
    if (number != 0 || c->frame[0] != 0x01 || c->wp != 0)
        return number;
    memcpy(c->state, kept, n);
    return 16;
}

/* 10: 03 is answered while busy. */
static uint32_t reads_while_busy(const struct call *c)
{
    uint8_t idle[GWO_STATE_LENGTH];
    struct call quiet = *c;
    uint32_t number = right_frame(c);

    if (number != 11 || c->frame[0] != 0x03)
        return number;
    gwo_factory_state(idle);
    quiet.state = idle;
    return right_frame(&quiet);
}

/* 11: looks at the byte after the frame. */
static uint32_t looks_too_far(const struct call *c)
{
    volatile uint8_t seen = c->frame[c->frame_len];

    (void)seen;
    return right_frame(c);
}

const struct pod mistakes[MISTAKES] = {
    {.frame = refuses_all, .wait = refuses_time, .power_cycle = refuses_time, .cut = refuses_time},
    {.frame = same_byte}, {.wait = waits_without_cells, .cut = cuts_without_cells},
    {.frame = first_frame_only, .wait = first_wait_only, .power_cycle = first_power_cycle_only, .cut = first_cut_only},
    {.wait = next_page}, {.frame = keeps_first}, {.wait = stores},
    {.frame = clears_early, .wait = waits_early, .power_cycle = power_cycles_early, .cut = cuts_early},
    {.frame = blocked_by_wp}, {.frame = reads_while_busy}, {.frame = looks_too_far}};
