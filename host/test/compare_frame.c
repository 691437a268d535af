/*
 * The choice of frames, leaning towards limits: ends of pages, sectors, blocks, protected areas and arrays,
 * lengths around every rule, and every kind of refusal.
 */
#include "compare.h"

#include <string.h>

/* The commands; those that change cells, and AB, come more often. */
static const uint8_t drawn[] = {0x01, 0x01, 0x02, 0x02, 0x02, 0x02, 0x02, 0x03, 0x03, 0x04, 0x05, 0x06, 0x0B, 0x15,
                                0x20, 0x20, 0x52, 0x5A, 0x5A, 0x60, 0x90, 0x9F, 0xAB, 0xAB, 0xB9, 0xC7, 0xD8};

/* A chip erase of 16 MiB takes its time, so it comes seldom; a half block erase comes in its place. */
static uint8_t any_command(uint32_t chip)
{
    uint8_t command = chance(&dice, 4) ? (uint8_t)roll(&dice) : ONE_OF(drawn);

    return chip == 3 && (command == 0x60 || command == 0xC7) && chance(&dice, 80) ? 0x52 : command;
}

/* Beside an end of an area that model 3 can protect: 1, 2, 4 .. 128 blocks from the top or the bottom. */
static uint32_t beside_a_protected_area(void)
{
    uint32_t blocks = 1u << below(&dice, 8), half = chance(&dice, 20) ? BLOCK / 2 : 0;

    return ((chance(&dice, 50) ? blocks : 256 - blocks) * BLOCK + half + below(&dice, 5) - 2) & 0xFFFFFF;
}

/* Around the ends of pages, sectors, blocks and arrays, mostly in the first image of the two smaller arrays. */
uint32_t any_address(uint32_t chip)
{
    static const uint32_t units[] = {256, 4096, 32768, 65536, 65536, 262144};
    uint32_t unit = ONE_OF(units), space = chip != 3 && chance(&dice, 70) ? 0x40000 : 0x1000000;

    if (chip == 3 && chance(&dice, 40))
        return beside_a_protected_area();
    if (chance(&dice, 15))
        return (uint32_t)roll(&dice) & 0xFFFFFF;
    return (below(&dice, space / unit) * unit + below(&dice, 5) - 2) & 0xFFFFFF;
}

/* An SFDP address: in the table or just past it, as it is or with a higher bit set, or among the last ones. */
static uint32_t table_address(void)
{
    uint32_t address = below(&dice, 120);

    if (chance(&dice, 70))
        return address;
    return chance(&dice, 50) ? 0xFFFFFF - address : address | 1u << (7 + below(&dice, 17));
}

/* A length around the limits of every rule. */
static size_t any_length(void)
{
    switch (below(&dice, 8)) {
    case 0: return 250 + below(&dice, 16);
    case 1: return chance(&dice, 3) ? 65532 + below(&dice, 12) : below(&dice, 7);
    case 2: return below(&dice, 600);
    default: return below(&dice, 7);
    }
}

static size_t data_length(uint32_t address)
{
    switch (below(&dice, 8)) {
    case 0: return 256 - address % 256 + below(&dice, 3);
    case 1: return 254 + below(&dice, 6);
    case 2: return 510 + below(&dice, 5);
    case 3: return chance(&dice, 3) ? 65530 + below(&dice, 9) : 257;
    default: return 1 + below(&dice, 9);
    }
}

/* 5A: around the table's end, or any; at times no byte, or as many as there can be. */
static size_t table_length(uint32_t address)
{
    switch (below(&dice, 8)) {
    case 0: case 1: return address < 112 ? 5 + 112 - address + below(&dice, 3) - 1 : 5 + below(&dice, 3);
    case 2: return chance(&dice, 90) ? 5 : 65541 - below(&dice, 3);
    default: return 5 + below(&dice, 130);
    }
}

/* A length that the command allows, mostly. */
static size_t fitting_length(uint32_t chip, uint8_t command, uint32_t address)
{
    switch (command) {
    case 0x06: case 0x04: case 0xB9: case 0x60: case 0xC7: return 1;
    case 0x01: return 2 + (chip == 3 && chance(&dice, 60));
    case 0x20: case 0x52: case 0xD8: return 4;
    case 0xAB: return chance(&dice, 50) ? 1 : 4 + below(&dice, 5);
    case 0x05: case 0x15: case 0x9F: return 1 + below(&dice, 8);
    case 0x5A: return table_length(address);
    default: return 4 + data_length(address) - (command == 0x03 && chance(&dice, 10));
    }
}

/* In a history a status write is mostly of zeros, so that what it works at is seldom protected. */
static void choose_bytes(struct call *c)
{
    uint32_t chip = c->record.model, address = c->history ? address_in_history() : any_address(chip);
    uint8_t any = any_command(chip), command = c->history ? command_in_history(any) : any, *frame;

    if (command == 0x5A && chance(&dice, 90))
        address = table_address();
    c->frame_len = chance(&dice, 75) ? fitting_length(chip, command, address) : any_length();
    frame = last_of(&model.frame, c->frame_len);
    scatter(&dice, frame, c->frame_len);
    if (c->frame_len > 0)
        frame[0] = command;
    if (c->frame_len > 1 && c->history && command == 0x01 && chance(&dice, 80))
        memset(frame + 1, 0, c->frame_len - 1);
    if (c->frame_len > 3) {
        frame[1] = (uint8_t)(address >> 16);
        frame[2] = (uint8_t)(address >> 8);
        frame[3] = (uint8_t)address;
    }
    memcpy(last_of(&ours.frame, c->frame_len), frame, c->frame_len);
}

static void choose_pins(struct call *c)
{
    static const uint32_t high[] = {2, 256, 0x80000000, 0xFFFFFFFF};
    static const uint32_t tails[] = {8, 9, 255, 256, 0x80000000, 0xFFFFFFFF};

    c->wp = chance(&dice, 96) ? below(&dice, 2) : ONE_OF(high);
    c->tail = chance(&dice, 80) ? 0 : below(&dice, 8);
    if (chance(&dice, 2))
        c->tail = ONE_OF(tails);
}

static void choose_output(struct call *c)
{
    c->out_len = c->frame_len;
    if (chance(&dice, 15))
        c->out_len += 1 + below(&dice, 16);
    else if (chance(&dice, 3) && c->frame_len > 0)
        c->out_len = chance(&dice, 70) ? c->frame_len - 1 : below(&dice, (uint32_t)c->frame_len);
    scatter(&dice, last_of(&model.out, c->out_len), c->out_len);
    memcpy(last_of(&ours.out, c->out_len), last_of(&model.out, c->out_len), c->out_len);
}

void fill_cells(size_t at, size_t n)
{
    guard_lift(&over_array);
    scatter(&dice, model.array.start + at, n);
    memcpy(ours.array.start + at, model.array.start + at, n);
}

uint32_t addressed(const struct call *c)
{
    const uint8_t *frame = last_of(&model.frame, c->frame_len);

    return c->frame_len < 4 ? 0 : (uint32_t)frame[1] << 16 | (uint32_t)frame[2] << 8 | frame[3];
}

void refresh_cells(const struct call *c, uint32_t address)
{
    size_t around = chance(&dice, 2) ? BLOCK : 0, n = around > 0 ? 3 * BLOCK : PAGE, at;

    if (n > c->array_len)
        n = c->array_len;
    if (n == 0)
        return;
    at = address % c->array_len / PAGE * PAGE;
    at -= at < around ? at : around;
    if (at > c->array_len - n)
        at = c->array_len - n;
    fill_cells(ARRAY_ROOM - c->array_len + at, n);
}

void choose_frame(struct call *c)
{
    choose_bytes(c);
    choose_pins(c);
    choose_output(c);
    if (!c->history && chance(&dice, 5))
        refresh_cells(c, addressed(c));
    choose_strict(c);
}
