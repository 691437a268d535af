#include "jig_wear.h"

#include "jig.h"

#include <string.h>

enum { UNSET = 0x5A5A5A5A };

static struct lent lent_counts, lent_results;
static struct guard guard;
static uint32_t wanted[WEAR_ROOM];

/* Outside of these places of the room the counts are fresh. */
static size_t low, high = WEAR_ROOM;

static uint32_t *lent_room(void)
{
    if (lent_counts.start == NULL)
        lent_counts = lend(WEAR_ROOM * sizeof(uint32_t));
    return (uint32_t *)(void *)last_of(&lent_counts, WEAR_ROOM * sizeof(uint32_t));
}

uint32_t count_before(uint32_t place)
{
    return place * 2654435u % 100000007u;
}

void wear_fresh(void)
{
    uint32_t *lent = lent_room();
    size_t i;

    if (low >= high)
        return;
    guard_lift(&guard);
    for (i = low; i < high; i++)
        lent[i] = wanted[i] = count_before((uint32_t)i);
    low = WEAR_ROOM;
    high = 0;
}

static void will_change(size_t from, size_t to)
{
    low = from < low ? from : low;
    high = to > high ? to : high;
}

uint32_t *wear_lent(size_t n, int may_count)
{
    uint32_t *room = lent_room();

    if (may_count)
        guard_lift(&guard);
    else
        guard_over(&guard, lent_counts.start, lent_counts.end);
    return room + WEAR_ROOM - n;
}

void wear_set(size_t n, size_t sector, size_t run, uint32_t count)
{
    uint32_t *lent = wear_lent(n, 1);
    size_t first = WEAR_ROOM - n, i;

    for (i = sector; i < sector + run; i++)
        lent[i] = wanted[first + i] = count;
    will_change(first + sector, first + sector + run);
}

void wear_want_counted(size_t n, size_t sector, size_t run)
{
    size_t first = WEAR_ROOM - n, i;

    for (i = sector; i < sector + run; i++)
        wanted[first + i]++;
    will_change(first + sector, first + sector + run);
}

void wear_same(size_t n, const char *label)
{
    const uint32_t *room = lent_room();
    size_t i = 0;

    if (agree((const uint8_t *)room, (const uint8_t *)wanted, sizeof wanted))
        return;
    while (room[i] == wanted[i])
        i++;
    fail("%s: sector %ld has the count %lu, want %lu", label, (long)i - (long)(WEAR_ROOM - n), (unsigned long)room[i],
         (unsigned long)wanted[i]);
    will_change(0, WEAR_ROOM);
}

void jig_wear(uint32_t sector, uint32_t n, uint32_t count)
{
    wear_set(given.wear_len, sector, n, count);
}

uint32_t lent_count(uint32_t sector)
{
    return lent_room()[WEAR_ROOM - given.wear_len + sector];
}

/* The results as they are lent: the last byte of the total is the last of the buffer. */
struct results {
    uint32_t smallest, largest, sector, mean, remainder, unused;
    uint64_t total;
};

static const struct report unset = {UNSET, UNSET, UNSET, UNSET, UNSET, UNSET};

static void same_result(uint64_t got, uint64_t want, const char *what, const char *label)
{
    if (got != want)
        fail("%s: the %s is %llu, want %llu", label, what, (unsigned long long)got, (unsigned long long)want);
}

void report_gives(uint32_t number, struct report want, const char *label)
{
    const struct results before = {UNSET, UNSET, UNSET, UNSET, UNSET, UNSET, UNSET};
    struct results *r;
    uint32_t got;

    if (lent_results.start == NULL)
        lent_results = lend(sizeof *r);
    r = (struct results *)(void *)last_of(&lent_results, sizeof *r);
    *r = before;
    if (number != 0)
        want = unset;
    rig_calls++;
    got = gwo_wear_report(wear_lent(given.wear_len, 0), given.wear_len, &r->total, &r->smallest, &r->largest,
                          &r->sector, &r->mean, &r->remainder);
    same_result(got, number, "answer to a report", label);
    same_result(r->total, want.total, "total", label);
    same_result(r->smallest, want.smallest, "smallest count", label);
    same_result(r->largest, want.largest, "largest count", label);
    same_result(r->sector, want.sector, "sector of the largest", label);
    same_result(r->mean, want.mean, "mean", label);
    same_result(r->remainder, want.remainder, "remainder", label);
    same_result(r->unused, UNSET, "number beside the results", label);
}
