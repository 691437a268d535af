/* Mistakes in the withdrawal of 52 on models 1 and 2; the numbers go on from 56. */
#include "pod.h"

#include <string.h>

enum { WITHDRAWN = 0x52, BLOCK_ERASE = 0xD8, NO_SUCH = 0x3B };

static int is_small(const struct call *c)
{
    return c->record.model == 1 || c->record.model == 2;
}

static int is_52(const struct call *c)
{
    return c->frame_len > 0 && c->frame_len <= GWO_FRAME_LIMIT && c->frame[0] == WITHDRAWN;
}

/* The frame with another first byte. */
static uint32_t with_first(const struct call *c, uint8_t first)
{
    static uint8_t frame[GWO_FRAME_LIMIT];
    struct call other = *c;

    memcpy(frame, c->frame, c->frame_len);
    frame[0] = first;
    other.frame = frame;
    return right_frame(&other);
}

/* A call on a chip that runs 52, as if it ran D8; what goes on is 52 again. */
static uint32_t running_as_d8(const struct call *c, answers *right)
{
    int runs = is_small(c) && c->state_len == GWO_STATE_LENGTH && c->state[COMMAND_AT] == WITHDRAWN;
    uint32_t number;

    if (runs)
        c->state[COMMAND_AT] = BLOCK_ERASE;
    number = right(c);
    if (runs && c->state[COMMAND_AT] == BLOCK_ERASE)
        c->state[COMMAND_AT] = WITHDRAWN;
    return number;
}

static uint32_t waits_in_52(const struct call *c)
{
    return running_as_d8(c, right_wait);
}

static uint32_t power_cycles_in_52(const struct call *c)
{
    return running_as_d8(c, right_power_cycle);
}

static uint32_t cuts_in_52(const struct call *c)
{
    return running_as_d8(c, right_cut);
}

/* 56: 52 still erases a block on models 1 and 2, as in older programs. */
static uint32_t erases_by_d8(const struct call *c)
{
    uint32_t number;

    if (!is_small(c) || !is_52(c))
        return right_frame(c);
    number = with_first(c, BLOCK_ERASE);
    if (number == 0)
        c->state[COMMAND_AT] = WITHDRAWN;
    return number;
}

static uint32_t still_erases(const struct call *c)
{
    return running_as_d8(c, erases_by_d8);
}

/* 57: it is 13 there. */
static uint32_t unknown(const struct call *c)
{
    uint32_t number = right_frame(c);

    return number == 21 ? 13 : number;
}

/* 58: it is withdrawn on model 3 too. */
static uint32_t on_every_model(const struct call *c)
{
    uint32_t number = is_52(c) ? with_first(c, NO_SUCH) : right_frame(c);

    return is_52(c) && number == 13 ? 21 : number;
}

/* 59: 21 comes after 14. */
static uint32_t after_the_length(const struct call *c)
{
    uint32_t number = right_frame(c);

    return number == 21 && (c->frame_len != 4 || c->tail != 0) ? 14 : number;
}

/* 60: 21 comes before 12. */
static uint32_t before_asleep(const struct call *c)
{
    uint32_t number = right_frame(c);

    return number == 12 && is_small(c) && is_52(c) ? 21 : number;
}

/* 61 brings a 52 that an older program has started to its end, though it takes none itself. */

/* 62: 21 clears WEL. */
static uint32_t clears_latch(const struct call *c)
{
    uint32_t number = right_frame(c);

    if (number == 21)
        c->state[0] &= (uint8_t)~2;
    return number;
}

const struct pod mistakes_of_withdrawn[MISTAKES_OF_WITHDRAWN] = {
    {.frame = still_erases, .wait = waits_in_52, .power_cycle = power_cycles_in_52, .cut = cuts_in_52},
    {.frame = unknown}, {.frame = on_every_model}, {.frame = after_the_length}, {.frame = before_asleep},
    {.wait = waits_in_52, .power_cycle = power_cycles_in_52, .cut = cuts_in_52}, {.frame = clears_latch}};
