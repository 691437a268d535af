/* Mistakes in 5A on model 2; the numbers go on from 63. */
#include "pod.h"

#include <string.h>

enum { READ_SFDP = 0x5A, TABLE = GWO_SFDP_LENGTH, LAST = 0x1000000 };

static int is_5a(const struct call *c)
{
    return c->frame_len > 0 && c->frame_len <= GWO_FRAME_LIMIT && c->frame[0] == READ_SFDP;
}

/* The address as it was sent. */
static uint32_t sent(const struct call *c)
{
    return (uint32_t)c->frame[1] << 16 | (uint32_t)c->frame[2] << 8 | c->frame[3];
}

/* A byte of the chip's table; past it FF. */
static uint8_t table_byte(uint32_t at)
{
    static const uint32_t own[4] = {0x0C, 0x20, 0x10, 0xD8};
    static uint8_t table[TABLE];
    const struct call c = {.density = 0x1FFFFF, .erases = own, .erases_len = 4, .out = table, .out_len = sizeof table};

    if (table[0] == 0)
        right_write(&c);
    return at < TABLE ? table[at] : 0xFF;
}

/* What a 5A that is taken drives, by another rule of the byte that stands so far from the address. */
typedef uint8_t rule(uint32_t address, uint32_t i);

static uint32_t drives_by(const struct call *c, rule *byte, uint32_t first)
{
    uint32_t number = right_frame(c), i;

    if (number != 0 || !is_5a(c) || c->frame_len <= first)
        return number;
    for (i = 0; i < c->frame_len - first; i++)
        c->out[first + i] = byte(sent(c), i);
    *c->from = first;
    *c->count = (uint32_t)c->frame_len - first;
    return 0;
}

static uint8_t modulo(uint32_t address, uint32_t i)
{
    return table_byte(address % GWO_MODEL_2_LENGTH + i);
}

static uint8_t wrapped(uint32_t address, uint32_t i)
{
    return address + i < TABLE || address < TABLE ? table_byte((address + i) % TABLE) : 0xFF;
}

static uint8_t zero_past(uint32_t address, uint32_t i)
{
    return address + i < TABLE ? table_byte(address + i) : 0x00;
}

static uint8_t around(uint32_t address, uint32_t i)
{
    return table_byte((address + i) % LAST);
}

static uint8_t right_byte(uint32_t address, uint32_t i)
{
    return table_byte(address + i);
}

/* 63: the address is taken modulo the array. */
static uint32_t array_address(const struct call *c)
{
    return drives_by(c, modulo, 5);
}

/* 64: past its end the table begins again. */
static uint32_t begins_again(const struct call *c)
{
    return drives_by(c, wrapped, 5);
}

/* 65: past its end all is 00. */
static uint32_t zeros(const struct call *c)
{
    return drives_by(c, zero_past, 5);
}

/* 66: model 3 takes it too. */
static uint32_t on_model_3(const struct call *c)
{
    uint32_t number = right_frame(c), i;

    if (number != 13 || !is_5a(c) || c->record.model != 3)
        return number;
    if (c->frame_len < 5)
        return 14;
    for (i = 5; i < c->frame_len; i++)
        c->out[i] = table_byte(sent(c) + i - 5);
    *c->from = c->frame_len > 5 ? 5 : 0;
    *c->count = (uint32_t)c->frame_len - 5;
    return 0;
}

/* 67: it needs six bytes. */
static uint32_t needs_six(const struct call *c)
{
    uint32_t number = right_frame(c);

    return number == 0 && is_5a(c) && c->frame_len == 5 ? 14 : number;
}

/* 68: it is taken while busy. */
static uint32_t while_busy(const struct call *c)
{
    uint8_t idle[GWO_STATE_LENGTH];
    struct call quiet = *c;
    uint32_t number = right_frame(c);

    if (number != 11 || !is_5a(c))
        return number;
    gwo_factory_state(idle);
    quiet.state = idle;
    return right_frame(&quiet);
}

/* 69: no dummy byte. */
static uint32_t no_dummy(const struct call *c)
{
    return drives_by(c, right_byte, 4);
}

/* 70: it needs the write enable latch. */
static uint32_t needs_latch(const struct call *c)
{
    uint32_t number = right_frame(c);

    if (number != 0 || !is_5a(c) || (c->state[0] & 2) != 0)
        return number;
    *c->from = *c->count = 0;
    return 15;
}

/* 71: after the last address comes the first. */
static uint32_t around_the_last(const struct call *c)
{
    return drives_by(c, around, 5);
}

/* 72: a tail is refused. */
static uint32_t no_tail(const struct call *c)
{
    struct call other = *c;

    if (!is_5a(c) || c->tail == 0 || c->tail > 7)
        return right_frame(c);
    other.frame_len = other.frame_len < 4 ? other.frame_len : 4;
    return right_frame(&other);
}

/* 73: it is still unknown on model 2. */
static uint32_t still_unknown(const struct call *c)
{
    static uint8_t frame[GWO_FRAME_LIMIT];
    struct call other = *c;

    if (!is_5a(c) || c->record.model != 2)
        return right_frame(c);
    memcpy(frame, c->frame, c->frame_len);
    frame[0] = 0x3B;
    other.frame = frame;
    return right_frame(&other);
}

const struct pod mistakes_of_5a[MISTAKES_OF_5A] = {
    {.frame = array_address}, {.frame = begins_again}, {.frame = zeros}, {.frame = on_model_3}, {.frame = needs_six},
    {.frame = while_busy}, {.frame = no_dummy}, {.frame = needs_latch}, {.frame = around_the_last},
    {.frame = no_tail}, {.frame = still_unknown}};
