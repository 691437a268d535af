/*
 * The choice of tables and records, leaning towards limits: junk, junk behind a good signature, tables that are taken,
 * those with a byte or a length beside the limit, and such with all lengths and pointers at an edge.
 */
#include "tables.h"

#include "jig_sfdp.h"

#include <string.h>

static size_t head(unsigned headers)
{
    return 8 + 8 * (size_t)headers;
}

static void put_pointer(uint8_t *header, uint32_t pointer)
{
    header[4] = (uint8_t)pointer;
    header[5] = (uint8_t)(pointer >> 8);
    header[6] = (uint8_t)(pointer >> 16);
}

static unsigned any_headers(void)
{
    static const unsigned counts[] = {1, 1, 1, 2, 2, 2, 3, 4, 5, 16, 127, 128, 129, 255, 256, 256};

    return chance(&dice, 90) ? ONE_OF(counts) : 1 + below(&dice, 256);
}

/* How many bytes: just those of the headers, some more, or many. */
static size_t any_length(unsigned headers)
{
    size_t least = head(headers) < 36 ? 36 : head(headers);

    switch (below(&dice, 4)) {
    case 0: return least + below(&dice, 3);
    case 1: return least + below(&dice, 128);
    case 2: return least + 1020 + below(&dice, 8);
    default: return least + below(&dice, chance(&dice, 5) ? 65536 : 2048);
    }
}

/* As many double words as fit the bytes, or fewer. */
static unsigned any_words(unsigned least, size_t n)
{
    unsigned most = n / 4 < 255 ? (unsigned)(n / 4) : 255;

    return chance(&dice, 30) ? least : chance(&dice, 30) ? most : least + below(&dice, most - least + 1);
}

/* A table that is taken; each table ends with the bytes, or anywhere in them. */
static size_t good(uint8_t *room)
{
    unsigned headers = any_headers(), i;
    size_t n = any_length(headers);

    scatter(&dice, room, n < 4096 ? n : 4096);
    memcpy(room, "SFDP", 4);
    room[6] = (uint8_t)(headers - 1);
    for (i = 0; i < headers; i++) {
        unsigned words = any_words(i == 0 ? 9 : 0, n);
        size_t last = n - 4 * (size_t)words;

        room[8 + 8 * i + 3] = (uint8_t)words;
        put_pointer(room + 8 + 8 * i, (uint32_t)(chance(&dice, 30) ? last : below(&dice, (uint32_t)last + 1)));
    }
    return n;
}

/* Some erase slots empty; not where the first table lies over the headers, for then it would break them. */
static void empty_slots(uint8_t *room)
{
    uint32_t at = room[12] + 256u * room[13] + 65536u * room[14];
    unsigned i;

    for (i = 0; i < 4 && at >= head(room[6] + 1u); i++)
        if (chance(&dice, 40))
            room[at + 28 + 2 * i] = 0;
}

/* One thing of it is changed, so that it is often refused, and often by a hair's breadth. */
static size_t spoilt(uint8_t *room)
{
    size_t n = good(room);
    unsigned headers = room[6] + 1u, i = chance(&dice, 50) ? 0 : below(&dice, headers);
    uint8_t *header = room + 8 + 8 * i;
    size_t last = n - 4 * (size_t)header[3];

    switch (below(&dice, 8)) {
    case 0: room[below(&dice, 4)] ^= (uint8_t)(1u << below(&dice, 8)); return n;
    case 1: room[6] = (uint8_t)(room[6] + 1); return n;
    case 2: return chance(&dice, 50) ? n - 1 : below(&dice, (uint32_t)n);
    case 3: header[3] = (uint8_t)(header[3] + 1); return n;
    case 4: room[11] = (uint8_t)below(&dice, 10); return n;
    case 5: put_pointer(header, (uint32_t)last + 1); return n;
    case 6: header[6] = (uint8_t)(1u << below(&dice, 8)); return n;
    default: room[below(&dice, (uint32_t)(n < 64 ? n : 64))] = (uint8_t)roll(&dice); return n;
    }
}

/* Two things wrong, in two of the headers: which is said first. */
static size_t twice_spoilt(uint8_t *room)
{
    size_t n = good(room);
    unsigned headers = room[6] + 1u, i = below(&dice, headers), k = below(&dice, headers);

    put_pointer(room + 8 + 8 * i, 0xFFFFFF - below(&dice, 2000));
    if (chance(&dice, 70))
        room[8 + 8 * k + 3] = (uint8_t)(n / 4 < 255 ? n / 4 + 1 : below(&dice, 256));
    if (chance(&dice, 20))
        room[11] = (uint8_t)below(&dice, 9);
    if (chance(&dice, 10))
        room[3] = 0x51;
    return n;
}

static size_t junk(uint8_t *room)
{
    size_t n = chance(&dice, 50) ? below(&dice, 24) : below(&dice, 3000);

    scatter(&dice, room, n);
    if (chance(&dice, 60) && n >= 4)
        memcpy(room, "SFDP", 4);
    if (chance(&dice, 50) && n > 6)
        room[6] = (uint8_t)below(&dice, 3);
    return n;
}

/* The sheet's own, cut off or with a byte changed. */
static size_t sheets(uint8_t *room)
{
    memcpy(room, sheet_table(), SHEET_TABLE);
    memset(room + SHEET_TABLE, 0xFF, 64);
    if (chance(&dice, 60))
        room[below(&dice, SHEET_TABLE)] = (uint8_t)roll(&dice);
    return chance(&dice, 60) ? SHEET_TABLE : below(&dice, SHEET_TABLE + 64);
}

size_t choose_table(uint8_t *room)
{
    size_t n;

    switch (below(&dice, 8)) {
    case 0: return junk(room);
    case 1: return sheets(room);
    case 2: case 3: return spoilt(room);
    case 4: return twice_spoilt(room);
    default:
        n = good(room);
        empty_slots(room);
        return n;
    }
}

uint32_t choose_index(const uint8_t *bytes, size_t n)
{
    uint32_t headers = n > 6 ? bytes[6] + 1u : 1;

    switch (below(&dice, 8)) {
    case 0: return headers;
    case 1: return headers - 1;
    case 2: return (uint32_t)roll(&dice);
    case 3: return (0x20000000u << below(&dice, 3)) + below(&dice, 3);
    default: return below(&dice, headers);
    }
}

uint32_t choose_slot(void)
{
    static const uint32_t others[] = {0, 5, 6, 255, 257, 0x80000000, 0x80000001, 0xFFFFFFFF};

    return chance(&dice, 75) ? 1 + below(&dice, 4) : ONE_OF(others);
}

/* A number that fits a byte, or at times does not, and then often has a low byte that would. */
static uint32_t any_number(uint32_t least)
{
    static const uint32_t edges[] = {0, 255, 256, 257, 0x10C, 65536, 0x8000000C, 0xFFFFFFFF};

    return chance(&dice, 97) ? least + below(&dice, 256 - least) : ONE_OF(edges);
}

void choose_record(struct chosen *r)
{
    static const size_t counts[] = {0, 2, 4, 4, 6, 8, 8, 8};
    size_t i;

    r->density = roll(&dice) >> (chance(&dice, 90) ? 32 : below(&dice, 33));
    r->erases_len = chance(&dice, 90) ? ONE_OF(counts) : below(&dice, MOST_ERASES + 1);
    for (i = 0; i < r->erases_len; i++)
        r->erases[i] = i % 2 == 0 && chance(&dice, 25) ? 0x0C : any_number(i % 2 == 0);
    r->out_len = chance(&dice, 60) ? 112 : chance(&dice, 70) ? 112 + below(&dice, 100) : below(&dice, 112);
}
