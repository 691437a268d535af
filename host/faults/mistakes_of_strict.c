/* Mistakes in the strict setting; the numbers go on from 47. */
#include "pod.h"

#include <string.h>

static int is_program(const struct call *c)
{
    return c->frame_len >= 5 && c->frame[0] == 0x02;
}

/* The cell that a data byte goes to, and whether it lacks a bit of the byte. */
static uint8_t cell_of(const struct call *c, size_t i)
{
    return c->array[address_in(c) / PAGE * PAGE + (c->frame[3] + i) % PAGE];
}

static int lacks(uint8_t cell, uint8_t byte)
{
    return (byte & ~cell) != 0;
}

/* How many data bytes there are, and the first that counts. */
static size_t data_length(const struct call *c)
{
    return c->frame_len - 4;
}

static size_t first_that_counts(const struct call *c)
{
    return data_length(c) > PAGE ? data_length(c) - PAGE : 0;
}

/* Whether one of the bytes from one number to before another finds a cell that lacks a bit of it. */
static int any_lacks(const struct call *c, size_t from, size_t to)
{
    size_t i;

    for (i = from; i < to; i++)
        if (lacks(cell_of(c, i), c->frame[4 + i]))
            return 1;
    return 0;
}

/* A strict program that nothing else refuses, refused by another rule. */
typedef int rule(const struct call *c);

static uint32_t by_rule(const struct call *c, rule *refuses)
{
    uint8_t kept[GWO_STATE_LENGTH];
    struct call off = *c;
    uint32_t number;

    if (c->strict == 0 || !is_program(c) || c->state_len != sizeof kept)
        return right_frame(c);
    memcpy(kept, c->state, sizeof kept);
    off.strict = 0;
    number = right_frame(&off);
    if (number != 0 || !refuses(c))
        return number;
    memcpy(c->state, kept, sizeof kept);
    *c->fold = 0;
    return 19;
}

/* 47: of the bytes for one offset the first is looked at. */
static int first_lacks(const struct call *c)
{
    return any_lacks(c, 0, data_length(c) < PAGE ? data_length(c) : PAGE);
}

static uint32_t looks_at_the_first(const struct call *c)
{
    return by_rule(c, first_lacks);
}

/* 48: a cell that holds the byte already is refused as well. */
static int lacks_or_holds(const struct call *c)
{
    size_t i;

    for (i = first_that_counts(c); i < data_length(c); i++)
        if (cell_of(c, i) == c->frame[4 + i])
            return 1;
    return any_lacks(c, first_that_counts(c), data_length(c));
}

static uint32_t wants_a_change(const struct call *c)
{
    return by_rule(c, lacks_or_holds);
}

/* 49: offsets that are not reached are looked at too: FF is in the page data there. */
static int page_lacks(const struct call *c)
{
    uint8_t data[PAGE];
    size_t i;

    memset(data, 0xFF, sizeof data);
    for (i = 0; i < data_length(c); i++)
        data[(c->frame[3] + i) % PAGE] = c->frame[4 + i];
    for (i = 0; i < PAGE; i++)
        if (lacks(c->array[address_in(c) / PAGE * PAGE + i], data[i]))
            return 1;
    return 0;
}

static uint32_t looks_at_the_page(const struct call *c)
{
    return by_rule(c, page_lacks);
}

/* 50: 19 clears WEL on model 3 as 17 does. */
static uint32_t clears_latch(const struct call *c)
{
    uint32_t number = right_frame(c);

    if (number == 19 && c->record.model == 3)
        c->state[0] &= (uint8_t)~2;
    return number;
}

/* 51: every byte that was sent is looked at, also where a later one goes to the same offset. */
static int sent_lacks(const struct call *c)
{
    return any_lacks(c, 0, data_length(c));
}

static uint32_t looks_at_all(const struct call *c)
{
    return by_rule(c, sent_lacks);
}

/* 52: past the page's end the next page is looked at. */
static int straight_lacks(const struct call *c)
{
    size_t i;

    for (i = first_that_counts(c); i < data_length(c); i++)
        if (lacks(c->array[(address_in(c) + i) % c->array_len], c->frame[4 + i]))
            return 1;
    return 0;
}

static uint32_t does_not_fold(const struct call *c)
{
    return by_rule(c, straight_lacks);
}

/* 53: 19 comes before 17. */
static uint32_t before_protected(const struct call *c)
{
    uint8_t latch = c->state_len > 0 ? c->state[0] & 2 : 0;
    uint32_t number = right_frame(c);

    if (number != 17 || c->strict == 0 || !is_program(c) || !any_lacks(c, first_that_counts(c), data_length(c)))
        return number;
    c->state[0] |= latch;
    return 19;
}

/* 54: only 1 is on. */
static uint32_t only_by_1(const struct call *c)
{
    struct call other = *c;

    other.strict = c->strict == 1;
    return right_frame(&other);
}

/* 55: it is never off. */
static uint32_t never_off(const struct call *c)
{
    struct call other = *c;

    other.strict = 1;
    return right_frame(&other);
}

const struct pod mistakes_of_strict[MISTAKES_OF_STRICT] = {
    {.frame = looks_at_the_first}, {.frame = wants_a_change}, {.frame = looks_at_the_page}, {.frame = clears_latch},
    {.frame = looks_at_all}, {.frame = does_not_fold}, {.frame = before_protected}, {.frame = only_by_1},
    {.frame = never_off}};
