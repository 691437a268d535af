/*
 * The choice of wear tables for frames and reports, leaning towards counts at their highest, beside them and ties; the
 * comparison of them; and what was met of them.
 */
#include "compare.h"

#include <stdio.h>
#include <string.h>

enum { SECTOR = 4096, WINDOW = 48 };

struct guard over_wear;

static uint32_t *counts_of(const struct side *s, size_t n)
{
    return (uint32_t *)(void *)last_of(&s->wear, n * sizeof(uint32_t));
}

static uint32_t any_count(void)
{
    switch (below(&dice, 8)) {
    case 0: return 0;
    case 1: return below(&dice, 4);
    case 2: return 0x7FFFFFFE + below(&dice, 5);
    case 3: case 4: case 5: return GWO_WEAR_TOP - 1 - below(&dice, 3);
    default: return (uint32_t)roll(&dice) / 2;
    }
}

/* In both: n counts of a table of so many from a sector on, all alike or each any. */
static void lay_counts(size_t length, size_t sector, size_t n, int alike)
{
    uint32_t *counts = counts_of(&model, length) + sector, count = any_count();
    size_t i;

    guard_lift(&over_wear);
    for (i = 0; i < n; i++)
        counts[i] = alike ? count : any_count();
    memcpy(counts_of(&ours, length) + sector, counts, n * sizeof(uint32_t));
}

void fresh_counts(void)
{
    lay_counts(WEAR_ROOM, 0, WEAR_ROOM, chance(&dice, 70));
}

void factory_counts(void)
{
    guard_lift(&over_wear);
    memset(counts_of(&model, WEAR_ROOM), 0, WEAR_ROOM * sizeof(uint32_t));
    memset(counts_of(&ours, WEAR_ROOM), 0, WEAR_ROOM * sizeof(uint32_t));
}

/* The sector that a frame aims at, or any. */
static size_t aimed_at(const struct call *c)
{
    return (c->kind == FRAME ? addressed(c) / SECTOR : below(&dice, WEAR_ROOM)) % c->wear_len;
}

/* Some of the counts around a sector. */
static void refresh_counts(const struct call *c, size_t sector)
{
    size_t n = c->wear_len < WINDOW ? c->wear_len : WINDOW, first = sector < WINDOW / 2 ? 0 : sector - WINDOW / 2;

    if (first > c->wear_len - n)
        first = c->wear_len - n;
    lay_counts(c->wear_len, first, n, chance(&dice, 30));
}

/* One count is at its highest: in the block of the sector, beside it, or anywhere. */
static void fill_one(const struct call *c, size_t sector)
{
    size_t block = sector / 16 * 16, at = sector;

    switch (below(&dice, 5)) {
    case 0: at = block + below(&dice, 16); break;
    case 1: at = block + 16; break;
    case 2: at = block == 0 ? 0 : block - 1; break;
    case 3: at = sector / 8 * 8 + 8; break;
    }
    if (at >= c->wear_len || chance(&dice, 10))
        at = below(&dice, (uint32_t)c->wear_len);
    guard_lift(&over_wear);
    counts_of(&model, c->wear_len)[at] = counts_of(&ours, c->wear_len)[at] = GWO_WEAR_TOP;
}

/* How many sectors the frame would erase; 0 where the call is no erase. */
static uint32_t aims_to_erase(const struct call *c)
{
    uint8_t command = c->kind == FRAME && c->frame_len > 0 ? *last_of(&model.frame, c->frame_len) : 0;

    return unit_of(c->record.model, command) / SECTOR;
}

/*
 * The table that the last call left, mostly; now and then another, with full counts or of another length. An erase
 * often finds a full count; a chip erase, which is taken only where there is none, is often given a new table first.
 */
void choose_wear(struct call *c)
{
    static const size_t lengths[] = {0, 1, 15, 16, 17, 32, 63, 64, 65, 1024, 4095, 4096, 4097, WEAR_ROOM};
    const int report = c->kind == REPORT;
    const uint32_t erased = aims_to_erase(c);

    c->wear_len = gwo_sector_count(c->record.model);
    if (c->wear_len == 0 || chance(&dice, report ? 10 : 2))
        c->wear_len = ONE_OF(lengths);
    if (chance(&dice, erased > 0 && erased == c->wear_len ? 50 : report ? 10 : 4))
        fresh_counts();
    if (c->wear_len > 0 && chance(&dice, 15))
        refresh_counts(c, aimed_at(c));
    if (c->wear_len > 0 && chance(&dice, erased > 0 ? 30 : 5))
        fill_one(c, aimed_at(c));
}

int has_counted(const struct call *c, uint32_t number)
{
    return c->kind == FRAME && number == 0 &&
           unit_of(c->record.model, *last_of(&model.frame, c->frame_len)) >= SECTOR;
}

int same_counts(void)
{
    return agree((const uint8_t *)counts_of(&ours, WEAR_ROOM), (const uint8_t *)counts_of(&model, WEAR_ROOM),
                 WEAR_ROOM * sizeof(uint32_t));
}

/* What was met of the tables, by model. */
enum way { TO_THE_TOP, FULL_ELSEWHERE, SHARED_LARGEST, OVER_32_BITS, WITH_REMAINDER, WAYS };
static unsigned long met[MODELS + 1][WAYS];

/* How many counts have a value. */
static unsigned long how_many(const uint32_t *counts, size_t n, uint32_t value)
{
    unsigned long found = 0;
    size_t i;

    for (i = 0; i < n; i++)
        found += counts[i] == value;
    return found;
}

void note_wear(const struct call *c, uint32_t number)
{
    const uint32_t *counts = counts_of(&model, c->wear_len);
    const struct results *r = (const struct results *)(const void *)last_of(&model.results, sizeof *r);
    uint32_t chip = c->record.model <= MODELS ? c->record.model : 0, unit, first;

    if (has_counted(c, number)) {
        unit = unit_of(chip, *last_of(&model.frame, c->frame_len)) / SECTOR;
        first = unit_start(chip, *last_of(&model.frame, c->frame_len), addressed(c)) / SECTOR;
        met[chip][TO_THE_TOP] += how_many(counts + first, unit, GWO_WEAR_TOP) > 0;
        met[chip][FULL_ELSEWHERE] +=
            how_many(counts, c->wear_len, GWO_WEAR_TOP) > how_many(counts + first, unit, GWO_WEAR_TOP);
    }
    if (c->kind != REPORT || number != 0)
        return;
    met[chip][SHARED_LARGEST] += how_many(counts, c->wear_len, r->largest) > 1 && r->smallest < r->largest;
    met[chip][OVER_32_BITS] += r->total > UINT64_C(0xFFFFFFFF);
    met[chip][WITH_REMAINDER] += r->remainder > 0;
}

void wear_met(uint32_t chip)
{
    static const char *const names[WAYS] = {"an erase that brought a count to its highest",
                                            "one with full counts elsewhere", "a report with two largest",
                                            "a total over 32 bits", "a mean with a remainder"};
    int i;

    for (i = 0; i < WAYS; i++) {
        printf("%s%s: %lu", i == 0 ? "  " : ", ", names[i], met[chip][i]);
        if (met[chip][i] == 0)
            fail("model %lu: never met: %s", (unsigned long)chip, names[i]);
    }
    printf("\n");
}
