/* Mistakes in the readers of SFDP tables; the numbers go on from 74. */
#include "pod.h"

#include <string.h>

/* A table that a reader may be given: a pointer has three bytes, a table up to 255 double words. */
enum { ROOM = 0x1000000 + 4 * 255 + 64, SLOTS = 4 };

static unsigned headers_in(const struct call *c)
{
    return c->table[6] + 1u;
}

static uint32_t words_in(const struct call *c, unsigned i)
{
    return c->table[8 + 8 * i + 3];
}

static uint32_t pointer_in(const struct call *c, unsigned i)
{
    const uint8_t *p = c->table + 8 + 8 * i + 4;

    return (uint32_t)p[0] | (uint32_t)p[1] << 8 | (uint32_t)p[2] << 16;
}

static size_t end_in(const struct call *c, unsigned i)
{
    return pointer_in(c, i) + 4 * (size_t)words_in(c, i);
}

/* How many headers have a table that ends so, where the headers are all there. */
static unsigned ending(const struct call *c, int past)
{
    unsigned i, n = 0;

    if (c->table_len < 8 || 8 + 8 * (size_t)headers_in(c) > c->table_len)
        return 0;
    for (i = 0; i < headers_in(c); i++)
        n += past ? end_in(c, i) > c->table_len : end_in(c, i) == c->table_len;
    return n;
}

static int results_of(const struct call *c)
{
    static const int counts[] = {3, 2, 5, 2};

    return counts[c->reader];
}

static uint32_t refuses(const struct call *c, uint32_t number)
{
    int i;

    for (i = 0; i < results_of(c); i++)
        *c->results[i] = 0;
    return number;
}

/* The same call on a copy of the bytes, with some bytes more, FF. */
static uint8_t copy[ROOM];

static struct call on_copy(const struct call *c, size_t more)
{
    struct call other = *c;

    if (c->table_len > 0)
        memcpy(copy, c->table, c->table_len);
    memset(copy + c->table_len, 0xFF, more);
    other.table = copy;
    other.table_len = c->table_len + more;
    return other;
}

/* 74: a table may end one byte past the bytes. */
static uint32_t one_past(const struct call *c)
{
    uint32_t number = right_reader(c);
    struct call other;

    if (number != 32)
        return number;
    other = on_copy(c, 1);
    return right_reader(&other);
}

/* 75: a table may not end with the last byte. */
static uint32_t one_before(const struct call *c)
{
    uint32_t number = right_reader(c);

    return number == 0 && ending(c, 0) > 0 ? refuses(c, 32) : number;
}

/* 76: erase types are counted up to the first empty slot. */
static uint32_t up_to_the_first(const struct call *c)
{
    uint32_t number = right_reader(c), types = 0;
    const uint8_t *first;

    if (number != 0 || c->reader != READ)
        return number;
    first = c->table + pointer_in(c, 0);
    while (types < SLOTS && first[28 + 2 * types] != 0)
        types++;
    *c->results[2] = types;
    return 0;
}

/* 77: 32 comes before 31. */
static uint32_t pointers_first(const struct call *c)
{
    uint32_t number = right_reader(c);

    return number == 31 && ending(c, 1) > 0 ? 32 : number;
}

/* 78: 31 comes before 30. */
static uint32_t lengths_first(const struct call *c)
{
    uint32_t number = right_reader(c);
    struct call other;

    if (number != 30 || c->table_len < 8)
        return number;
    other = on_copy(c, 0);
    memcpy(copy, "SFDP", 4);
    return refuses(c, right_reader(&other) == 31 ? 31 : 30);
}

/* 79: only the first header is judged. */
static uint32_t first_header_only(const struct call *c)
{
    uint32_t number = right_reader(c);
    struct call other;

    if ((number != 31 && number != 32) || 8 + 8 * (size_t)headers_in(c) > c->table_len)
        return number;
    other = on_copy(c, 0);
    copy[6] = 0;
    number = right_reader(&other);
    if (number == 0 && c->reader == READ)
        *c->results[0] = headers_in(c);
    return number;
}

/* 80: a first table under 36 bytes is taken where its 36 bytes are there. */
static uint32_t short_first(const struct call *c)
{
    uint32_t number = right_reader(c);
    struct call other;

    if (number != 31 || c->table_len < 16 || words_in(c, 0) >= 9)
        return number;
    other = on_copy(c, 0);
    copy[11] = 9;
    return right_reader(&other);
}

/* 81: a refused reader leaves its results as they were. */
static uint32_t leaves_results(const struct call *c)
{
    uint32_t kept[MOST_RESULTS], number;
    int i;

    for (i = 0; i < results_of(c); i++)
        kept[i] = *c->results[i];
    number = right_reader(c);
    for (i = 0; i < results_of(c) && number != 0; i++)
        *c->results[i] = kept[i];
    return number;
}

/* 82: an index past the last header is read on. */
static uint32_t reads_on(const struct call *c)
{
    uint32_t number = right_reader(c), i;
    size_t at = 8 + 8 * (size_t)c->which;

    if (number != 0 || c->reader != HEADER || at + 8 > c->table_len)
        return number;
    for (i = 0; i < 4; i++)
        *c->results[i] = c->table[at + i];
    *c->results[4] = pointer_in(c, c->which);
    return 0;
}

/* 83: slots are counted from 0. */
static uint32_t slots_from_0(const struct call *c)
{
    struct call other = *c;

    if (c->reader == ERASE)
        other.which++;
    return right_reader(&other);
}

/* 84: of a pointer the two low bytes are looked at. */
static uint32_t two_bytes(const struct call *c)
{
    uint32_t number = right_reader(c);
    struct call other;
    unsigned i;

    if ((number != 0 && number != 32) || c->table_len > ROOM)
        return number;
    other = on_copy(c, 0);
    for (i = 0; i < headers_in(c); i++)
        copy[8 + 8 * i + 6] = 0;
    return right_reader(&other);
}

/* 85: the density is read with its high byte first. */
static uint32_t high_byte_first(const struct call *c)
{
    uint32_t number = right_reader(c), d = *c->results[1];

    if (number == 0 && c->reader == READ)
        *c->results[1] = d << 24 | (d & 0xFF00) << 8 | (d >> 8 & 0xFF00) | d >> 24;
    return number;
}

/* 86: looks at the byte after the bytes. */
static uint32_t looks_too_far(const struct call *c)
{
    volatile uint8_t seen = c->table[c->table_len];

    (void)seen;
    return right_reader(c);
}

/* 87: a table of no double words may not start at the end. */
static uint32_t nothing_at_the_end(const struct call *c)
{
    uint32_t number = right_reader(c);
    unsigned i;

    for (i = 0; number == 0 && i < headers_in(c); i++)
        if (words_in(c, i) == 0 && pointer_in(c, i) == c->table_len)
            return refuses(c, 32);
    return number;
}

/* 88: the number of headers has eight bits. */
static uint32_t eight_bits(const struct call *c)
{
    uint32_t number = right_reader(c);

    if (c->reader == READ)
        *c->results[0] &= 0xFF;
    return number;
}

/* 89: the revisions change places. */
static uint32_t swapped(const struct call *c)
{
    uint32_t number = right_reader(c), minor = *c->results[0];

    if (c->reader == REVISION) {
        *c->results[0] = *c->results[1];
        *c->results[1] = minor;
    }
    return number;
}

const struct pod mistakes_of_reader[MISTAKES_OF_READER] = {
    {.sfdp_reader = one_past}, {.sfdp_reader = one_before}, {.sfdp_reader = up_to_the_first},
    {.sfdp_reader = pointers_first}, {.sfdp_reader = lengths_first}, {.sfdp_reader = first_header_only},
    {.sfdp_reader = short_first}, {.sfdp_reader = leaves_results}, {.sfdp_reader = reads_on},
    {.sfdp_reader = slots_from_0}, {.sfdp_reader = two_bytes}, {.sfdp_reader = high_byte_first},
    {.sfdp_reader = looks_too_far}, {.sfdp_reader = nothing_at_the_end}, {.sfdp_reader = eight_bits},
    {.sfdp_reader = swapped}};
