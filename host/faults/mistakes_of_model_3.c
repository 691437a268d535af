/* Mistakes in the rules of the KH25L12845G; the numbers go on from 12. */
#include "pod.h"

#include <string.h>

enum { BLOCK = 65536, BLOCKS = 256, TB = 0x08, BP = 0x3C };

static int is_model_3(const struct call *c)
{
    return c->record.model == 3 && c->state_len == GWO_STATE_LENGTH;
}

/* 12: a second data byte without TB clears it. */
static uint32_t writes_tb(const struct call *c)
{
    struct operation o = ended_by(c);
    uint32_t number = right_wait(c);

    if (number == 0 && is_model_3(c) && o.command == 0x01 && o.place == 2)
        c->state[2] = o.data[1] & 0xDB;
    return number;
}

/* 13: a power cycle clears TB with the rest of the register. */
static uint32_t power_clears_tb(const struct call *c)
{
    uint32_t number = right_power_cycle(c);

    if (number == 0)
        c->state[2] = 0;
    return number;
}

/* 14: 17 leaves WEL on model 3 as on the others. */
static uint32_t keeps_latch(const struct call *c)
{
    uint32_t number = right_frame(c);

    if (number == 17)
        c->state[0] |= 2;
    return number;
}

/* 15: 17 clears WEL on every model. */
static uint32_t clears_latch(const struct call *c)
{
    uint32_t number = right_frame(c);

    if (number == 17)
        c->state[0] &= (uint8_t)~2;
    return number;
}

/* 16: 52 erases 64 KiB on model 3 too. */
static uint32_t erases_a_block(const struct call *c)
{
    struct operation o = ended_by(c);
    uint32_t number = right_wait(c);

    if (number == 0 && is_model_3(c) && o.command == 0x52)
        memset(c->array + o.place / BLOCK * BLOCK, 0xFF, BLOCK);
    return number;
}

/* The frame as it would be with another BP, which is put back. */
static uint32_t with_bp(const struct call *c, unsigned bp)
{
    uint8_t kept = c->state[0] & BP;
    uint32_t number;

    c->state[0] = (uint8_t)((c->state[0] & ~BP) | bp << 2);
    number = right_frame(c);
    c->state[0] = (uint8_t)((c->state[0] & ~BP) | kept);
    return number;
}

/* Whether a frame on model 3 aims at the last block of the protected area (-1), or at the first beyond it (0). */
static int aims_at(const struct call *c, int beyond)
{
    static const uint8_t commands[] = {0x02, 0x20, 0x52, 0xD8};
    uint32_t block, bp;

    if (!is_model_3(c) || c->array_len != GWO_MODEL_3_LENGTH || c->frame_len < 4 ||
        memchr(commands, c->frame[0], sizeof commands) == NULL)
        return 0;
    block = address_in(c) / BLOCK;
    bp = (c->state[0] & BP) >> 2;
    if ((c->state[2] & TB) == 0)
        block = BLOCKS - 1 - block;
    return bp >= 1 && bp <= 8 && (int)block == (1 << (bp - 1)) + beyond;
}

/* 17: the protected area is one block too small. */
static uint32_t small_area(const struct call *c)
{
    return aims_at(c, -1) ? with_bp(c, 0) : right_frame(c);
}

/* 18: the protected area is one block too large. */
static uint32_t large_area(const struct call *c)
{
    return aims_at(c, 0) ? with_bp(c, 15) : right_frame(c);
}

/* 19: the protected area is at the top whatever TB says. */
static uint32_t always_top(const struct call *c)
{
    uint8_t tb = is_model_3(c) ? c->state[2] & TB : 0;
    uint32_t number;

    if (tb == 0 || c->frame_len < 4)
        return right_frame(c);
    c->state[2] &= (uint8_t)~TB;
    number = right_frame(c);
    c->state[2] |= tb;
    return number;
}

/* 20: a sector erase also clears a cell in the other half of the chip. */
static uint32_t strays(const struct call *c)
{
    struct operation o = ended_by(c);
    uint32_t number = right_wait(c);

    if (number == 0 && is_model_3(c) && o.command == 0x20)
        c->array[o.place ^ GWO_MODEL_3_LENGTH / 2] = 0x00;
    return number;
}

const struct pod mistakes_of_model_3[MISTAKES_OF_MODEL_3] = {
    {.wait = writes_tb}, {.power_cycle = power_clears_tb}, {.frame = keeps_latch}, {.frame = clears_latch},
    {.wait = erases_a_block}, {.frame = small_area}, {.frame = large_area}, {.frame = always_top}, {.wait = strays}};
