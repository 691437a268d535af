/* Mistakes in the counts of erases and in the report on them; the numbers go on from 36. */
#include "pod.h"

/* The sectors that the call's frame covers if it is an erase and could be taken; n is 0 otherwise. */
struct sectors {
    uint32_t first, n;
};

static struct sectors covered_by(const struct call *c)
{
    struct operation o = {.command = NO_COMMAND};
    struct sectors s = {0, 0};

    if (c->array_len == 0 || c->array_len != gwo_array_length(c->record.model) ||
        c->wear_len != gwo_sector_count(c->record.model) || c->frame_len == 0 || (c->frame_len < 4 && c->frame[0] != 0x60 && c->frame[0] != 0xC7))
        return s;
    o.command = c->frame[0];
    o.place = c->frame_len < 4 ? 0 : address_in(c);
    s.n = unit_length(c, &o) / GWO_SECTOR_LENGTH;
    if (s.n > 0)
        s.first = o.place / GWO_SECTOR_LENGTH / s.n * s.n;
    return s;
}

static void add(uint32_t *wear, struct sectors s, uint32_t n)
{
    uint32_t i;

    for (i = s.first; i < s.first + s.n; i++)
        wear[i] += n;
}

static int any_full(const struct call *c, struct sectors s)
{
    uint32_t i;

    for (i = s.first; i < s.first + s.n; i++)
        if (c->wear[i] == GWO_WEAR_TOP)
            return 1;
    return 0;
}

/* 36: sectors are counted when the erase comes to its end, in the table that its frame was lent. */
static uint32_t *table;
static struct sectors pending;

static uint32_t starts_uncounted(const struct call *c)
{
    uint32_t number = right_frame(c);
    struct sectors s = covered_by(c);

    if (number != 0 || s.n == 0)
        return number;
    add(c->wear, s, (uint32_t)-1);
    table = c->wear;
    pending = s;
    return 0;
}

static uint32_t counts_at_the_end(const struct call *c)
{
    struct operation o = ended_by(c);
    uint32_t number = right_wait(c);

    if (number == 0 && o.command != NO_COMMAND && table != NULL) {
        add(table, pending, 1);
        table = NULL;
    }
    return number;
}

/* 37: a chip erase counts one sector. */
static uint32_t counts_one(const struct call *c)
{
    uint32_t number = right_frame(c);
    struct sectors s = covered_by(c);

    if (number == 0 && (c->frame[0] == 0x60 || c->frame[0] == 0xC7)) {
        s.first = 1;
        s.n--;
        add(c->wear, s, (uint32_t)-1);
    }
    return number;
}

/* 38: 25 comes before 17. */
static uint32_t full_before_protected(const struct call *c)
{
    uint8_t latch = c->state_len > 0 ? c->state[0] & 2 : 0;
    uint32_t number = right_frame(c);

    if (number != 17 || !any_full(c, covered_by(c)))
        return number;
    c->state[0] |= latch;
    return 25;
}

/* 39: 24 comes after 3. */
static uint32_t state_before_table(const struct call *c)
{
    static uint32_t other[GWO_MODEL_3_SECTORS];
    struct call with_a_table = *c;
    uint32_t number = right_frame(c);

    if (number != 24)
        return number;
    with_a_table.wear = other;
    with_a_table.wear_len = gwo_sector_count(c->record.model);
    with_a_table.frame_len = 0;
    with_a_table.tail = 0;
    return right_frame(&with_a_table) == 3 ? 3 : 24;
}

/* The call as it is answered where all of these counts are another, in a table of its own. */
static uint32_t with_counts(const struct call *c, struct sectors s, uint32_t count)
{
    static uint32_t others[GWO_MODEL_3_SECTORS];
    struct call other = *c;
    uint32_t i;

    for (i = s.first; i < s.first + s.n; i++)
        others[i] = count;
    other.wear = others;
    return right_frame(&other);
}

/* 40: an erase is taken, and a full count becomes 0, unless it is the first of the unit. */
static uint32_t looks_at_the_first(const struct call *c)
{
    struct sectors s = covered_by(c);
    uint32_t number = right_frame(c);

    if (number != 25 || c->wear[s.first] == GWO_WEAR_TOP)
        return number;
    number = with_counts(c, s, 0);
    add(c->wear, s, 1);
    return number;
}

/* 41: a full count in the sector after the unit refuses it as well. */
static uint32_t looks_beside(const struct call *c)
{
    struct sectors s = covered_by(c);

    if (s.n == 0 || s.first + s.n >= c->wear_len || c->wear[s.first + s.n] != GWO_WEAR_TOP)
        return right_frame(c);
    return with_counts(c, s, GWO_WEAR_TOP);
}

/* 42: an erase that protection refuses is counted. */
static uint32_t counts_refused(const struct call *c)
{
    uint32_t number = right_frame(c);
    struct sectors s = covered_by(c);

    if (number == 17 && !any_full(c, s))
        add(c->wear, s, 1);
    return number;
}

/* 43: 25 clears WEL on model 3 as 17 does. */
static uint32_t full_clears_latch(const struct call *c)
{
    uint32_t number = right_frame(c);

    if (number == 25 && c->record.model == 3)
        c->state[0] &= (uint8_t)~2;
    return number;
}

/* 44: the report has the last sector with the largest count. */
static uint32_t reports_the_last(const struct call *c)
{
    uint32_t number = right_report(c), i;

    for (i = 0; number == 0 && i < c->wear_len; i++)
        if (c->wear[i] == *c->largest)
            *c->sector = i;
    return number;
}

/* 45: the total has 32 bits. */
static uint32_t reports_32_bits(const struct call *c)
{
    uint32_t number = right_report(c);

    if (number == 0)
        *c->total = (uint32_t)*c->total;
    return number;
}

/* 46: a refused report writes its results. */
static uint32_t reports_refused(const struct call *c)
{
    uint32_t number = right_report(c);

    if (number != 0)
        *c->total = *c->smallest = *c->largest = *c->sector = *c->mean = *c->remainder = 0;
    return number;
}

const struct pod mistakes_of_wear[MISTAKES_OF_WEAR] = {
    {.frame = starts_uncounted, .wait = counts_at_the_end}, {.frame = counts_one}, {.frame = full_before_protected},
    {.frame = state_before_table}, {.frame = looks_at_the_first}, {.frame = looks_beside}, {.frame = counts_refused},
    {.frame = full_clears_latch}, {.report = reports_the_last}, {.report = reports_32_bits},
    {.report = reports_refused}};
