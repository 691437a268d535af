/* Mistakes in an operation that takes its time, and in a cut of it; the numbers go on from 31. */
#include "pod.h"

#include <string.h>

/* 31: a cut changes the cell after its unit as well. */
static uint32_t touches_the_neighbour(const struct call *c)
{
    struct operation o = running(c);
    uint32_t number = right_cut(c), unit = unit_length(c, &o);

    if (number == 0 && unit > 0 && unit_cells(c, &o) + unit < c->array + c->array_len)
        unit_cells(c, &o)[unit] = c->pattern[unit - 1];
    return number;
}

/* 32: the cells change when the frame is taken. */
static uint32_t changes_at_once(const struct call *c)
{
    uint32_t number = right_frame(c), i;
    struct operation o = running(c);
    uint8_t *unit;

    if (number != 0 || o.command != c->frame[0])
        return number;
    unit = unit_cells(c, &o);
    for (i = 0; i < unit_length(c, &o); i++)
        unit[i] = o.command == 0x02 ? unit[i] & o.data[i] : 0xFF;
    return 0;
}

/* 33: a cut takes the pattern for every bit of a page or a register, and not only for those that were to change. */
static uint32_t takes_every_bit(const struct call *c)
{
    struct operation o = running(c);
    uint32_t number = right_cut(c);

    if (number != 0)
        return number;
    if (o.command == 0x01)
        c->state[0] = c->pattern[0] & (c->record.model == 3 ? 0xBC : 0x8C);
    if (o.command == 0x01 && o.place == 2)
        c->state[2] = c->pattern[1] & 0x08;
    if (o.command == 0x02)
        memcpy(unit_cells(c, &o), c->pattern, PAGE);
    return 0;
}

/* 34: a power cycle is taken while busy, and the operation given up. */
static uint32_t cycles_while_busy(const struct call *c)
{
    uint8_t kept[3];
    uint32_t number = right_power_cycle(c);

    if (number != 11)
        return number;
    memcpy(kept, c->state, sizeof kept);
    gwo_factory_state(c->state);
    c->state[0] = kept[0] & 0xBC;
    c->state[2] = kept[2] & 0x08;
    return 0;
}

/* 35: what has ended is not forgotten. */
static uint32_t with_its_memory(const struct call *c, answers *right, struct operation o)
{
    uint8_t kept[GWO_STATE_LENGTH - COMMAND_AT];
    uint32_t number;

    if (o.command == NO_COMMAND)
        return right(c);
    memcpy(kept, c->state + COMMAND_AT, sizeof kept);
    number = right(c);
    memcpy(c->state + COMMAND_AT, kept, sizeof kept);
    return number;
}

static uint32_t waits_and_remembers(const struct call *c)
{
    return with_its_memory(c, right_wait, ended_by(c));
}

static uint32_t cuts_and_remembers(const struct call *c)
{
    return with_its_memory(c, right_cut, running(c));
}

const struct pod mistakes_of_cut[MISTAKES_OF_CUT] = {
    {.cut = touches_the_neighbour}, {.frame = changes_at_once}, {.cut = takes_every_bit},
    {.power_cycle = cycles_while_busy}, {.wait = waits_and_remembers, .cut = cuts_and_remembers}};
