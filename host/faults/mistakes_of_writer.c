/* Mistakes in the writer of SFDP tables; the numbers go on from 90. */
#include "pod.h"

#include <string.h>

enum { FIRST_WORD = 0x30, SMALL_ERASE = 0x31, TYPES = 0x4C, TYPES_END = 0x54, SMALL = 0x0C, MOST = 64 };

/* The same call with a copy of its list, for a mistake to change. */
static uint32_t list[MOST];

static struct call on_list(const struct call *c)
{
    struct call other = *c;

    if (c->erases_len > 0 && c->erases_len <= MOST)
        memcpy(list, c->erases, c->erases_len * sizeof list[0]);
    other.erases = list;
    return other;
}

/* 90: it writes before it looks at the list. */
static uint32_t writes_first(const struct call *c)
{
    struct call other = *c;

    other.erases_len = 0;
    other.density &= 0xFFFFFFFF;
    right_write(&other);
    return right_write(c);
}

/* 91: the last type of 4 KiB is named, not the first. */
static uint32_t names_the_last(const struct call *c)
{
    uint32_t number = right_write(c);
    size_t i;

    for (i = 0; number == 0 && i < c->erases_len; i += 2)
        if (c->erases[i] == SMALL)
            c->out[SMALL_ERASE] = (uint8_t)c->erases[i + 1];
    return number;
}

/* 92: the 4 KiB erase is always the chip's own. */
static uint32_t always_20(const struct call *c)
{
    uint32_t number = right_write(c);

    if (number == 0) {
        c->out[FIRST_WORD] = 0xE5;
        c->out[SMALL_ERASE] = 0x20;
    }
    return number;
}

/* 93: without a 4 KiB erase its two bits stay. */
static uint32_t bits_stay(const struct call *c)
{
    uint32_t number = right_write(c);

    if (number == 0)
        c->out[FIRST_WORD] = 0xE5;
    return number;
}

/* 94: an empty slot is 00 00. */
static uint32_t empty_slots(const struct call *c)
{
    uint32_t number = right_write(c);
    size_t at;

    for (at = TYPES + c->erases_len; number == 0 && at < TYPES_END; at++)
        c->out[at] = 0x00;
    return number;
}

/* 95: of a density that is too large the low 32 bits are written. */
static uint32_t cuts_density(const struct call *c)
{
    struct call other = *c;

    other.density &= 0xFFFFFFFF;
    return right_write(&other);
}

/* 96: of an exponent that is too large the low byte is written. */
static uint32_t cuts_exponents(const struct call *c)
{
    struct call other = on_list(c);
    size_t i;

    for (i = 0; i < c->erases_len && i < MOST; i += 2)
        list[i] &= 0xFF;
    return right_write(&other);
}

/* 97: an exponent 0 is taken. */
static uint32_t takes_exponent_0(const struct call *c)
{
    struct call other = on_list(c);
    uint32_t number;
    size_t i;

    for (i = 0; i < c->erases_len && i < MOST; i += 2)
        list[i] = list[i] == 0 ? 1 : list[i];
    number = right_write(&other);
    for (i = 0; number == 0 && i < c->erases_len; i += 2)
        c->out[TYPES + i] = (uint8_t)c->erases[i];
    return number;
}

/* 98: of more than four types the first four are written. */
static uint32_t first_four(const struct call *c)
{
    struct call other = *c;

    if (c->erases_len > 8 && c->erases_len % 2 == 0)
        other.erases_len = 8;
    return right_write(&other);
}

/* 99: an exponent without its opcode is left out. */
static uint32_t drops_the_odd(const struct call *c)
{
    struct call other = *c;

    other.erases_len -= c->erases_len % 2;
    return right_write(&other);
}

/* 100: the rest of the buffer becomes FF. */
static uint32_t fills_the_rest(const struct call *c)
{
    uint32_t number = right_write(c);

    if (number == 0)
        memset(c->out + GWO_SFDP_LENGTH, 0xFF, c->out_len - GWO_SFDP_LENGTH);
    return number;
}

const struct pod mistakes_of_writer[MISTAKES_OF_WRITER] = {
    {.sfdp_write = writes_first}, {.sfdp_write = names_the_last}, {.sfdp_write = always_20},
    {.sfdp_write = bits_stay}, {.sfdp_write = empty_slots}, {.sfdp_write = cuts_density},
    {.sfdp_write = cuts_exponents}, {.sfdp_write = takes_exponent_0}, {.sfdp_write = first_four},
    {.sfdp_write = drops_the_odd}, {.sfdp_write = fills_the_rest}};
