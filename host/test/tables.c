/*
 * Random SFDP tables and records to the archive's readers and writer and to the independent ones, side by side: the
 * answer and every result and byte must agree. What is lent ends at unmapped memory, and the bytes of a table can't be
 * written to. Arguments: how many tables (1,000,000), and the seed. It stops at the first difference.
 */
#include "tables.h"

#include "gwo.h"
#include "model.h"

#include <stdio.h>
#include <stdlib.h>
#include <string.h>

struct dice dice;

enum { RESULTS = 5, MARGIN = 32 };
static struct lent table, erases, ours, theirs, our_results, their_results;
static struct guard over_table;

/* What was met: answers by number, of each reason that 31 and 33 have, and of accepted tables by their headers. */
enum met {
    TAKEN, TAKEN_256, TAKEN_AT_THE_END, EMPTY_SLOTS, NO_SIGNATURE, UNDER_8, FEW_HEADERS, LONG_TABLE, SHORT_FIRST,
    FIRST_POINTER, OTHER_POINTER, LENGTH_BEFORE_POINTER, WRITTEN, WIDE_DENSITY, ODD_COUNT, MANY_TYPES, NO_EXPONENT,
    WIDE_NUMBER, SHORT_OUTPUT, SMALL_ERASE, NO_SMALL_ERASE, KINDS
};
static unsigned long met[KINDS];

static uint32_t words_of(const uint8_t *t, unsigned i)
{
    return t[8 + 8 * i + 3];
}

static uint32_t end_of(const uint8_t *t, unsigned i)
{
    const uint8_t *p = t + 8 + 8 * i + 4;

    return p[0] + 256u * p[1] + 65536u * p[2] + 4 * words_of(t, i);
}

/* Counts a table by what its bytes are; the answer is the model's. */
static void note_lengths(const uint8_t *t, size_t n)
{
    unsigned headers = t[6] + 1u, i, too_long = 0, too_far = 0;

    if (8 + 8 * (size_t)headers > n) {
        met[FEW_HEADERS]++;
        return;
    }
    for (i = 0; i < headers; i++) {
        too_long += 4 * words_of(t, i) > n;
        too_far += end_of(t, i) > n;
    }
    met[LONG_TABLE] += too_long > 0;
    met[SHORT_FIRST] += too_long == 0 && words_of(t, 0) < 9;
    met[LENGTH_BEFORE_POINTER] += too_far > too_long;
}

static void note_table(const uint8_t *t, size_t n, uint32_t number, uint32_t types)
{
    unsigned i;

    switch (number) {
    case 0:
        met[TAKEN]++;
        met[TAKEN_256] += t[6] == 255;
        for (i = 0; i <= t[6] && end_of(t, i) != n; i++)
            continue;
        met[TAKEN_AT_THE_END] += i <= t[6];
        met[EMPTY_SLOTS] += types < 4;
        break;
    case 30: met[n < 8 ? UNDER_8 : NO_SIGNATURE]++; break;
    case 31: note_lengths(t, n); break;
    case 32: met[end_of(t, 0) > n ? FIRST_POINTER : OTHER_POINTER]++; break;
    }
}

/* The same numbers for both before a call, with a margin before them. */
static uint32_t *unset(const struct lent *l)
{
    memset(last_of(l, RESULTS * sizeof(uint32_t) + MARGIN), 0xA5, RESULTS * sizeof(uint32_t) + MARGIN);
    return (uint32_t *)(void *)last_of(l, RESULTS * sizeof(uint32_t));
}

static void show(const char *who, const uint8_t *t, size_t n, uint32_t got, uint32_t wanted)
{
    size_t i;

    fail("call %lu: %s differs: answered %lu, the model says %lu", rig_calls, who, (unsigned long)got,
         (unsigned long)wanted);
    printf("  %lu bytes:", (unsigned long)n);
    for (i = 0; i < n && i < 64; i++)
        printf(" %02X", t[i]);
    printf("\n");
}

/* One of the four readers on both; false when they differ. */
static int reader_agrees(int which, const uint8_t *t, size_t n, uint32_t argument)
{
    static const char *const names[] = {"gwo_sfdp_read", "gwo_sfdp_revision", "gwo_sfdp_header", "gwo_sfdp_erase"};
    uint32_t *a = unset(&our_results), *b = unset(&their_results), got, wanted;

    rig_calls++;
    switch (which) {
    case 0:
        wanted = ref_sfdp_read(t, n, &b[2], &b[3], &b[4]);
        got = gwo_sfdp_read(t, n, &a[2], &a[3], &a[4]);
        note_table(t, n, wanted, b[4]);
        break;
    case 1:
        wanted = ref_sfdp_revision(t, n, &b[3], &b[4]);
        got = gwo_sfdp_revision(t, n, &a[3], &a[4]);
        break;
    case 2:
        wanted = ref_sfdp_header(t, n, argument, &b[0], &b[1], &b[2], &b[3], &b[4]);
        got = gwo_sfdp_header(t, n, argument, &a[0], &a[1], &a[2], &a[3], &a[4]);
        break;
    default:
        wanted = ref_sfdp_erase(t, n, argument, &b[3], &b[4]);
        got = gwo_sfdp_erase(t, n, argument, &a[3], &a[4]);
        break;
    }
    if (got == wanted && agree((uint8_t *)a - MARGIN, (uint8_t *)b - MARGIN, RESULTS * sizeof *a + MARGIN))
        return 1;
    show(names[which], t, n, got, wanted);
    return 0;
}

static int one_table(void)
{
    static uint8_t room[ROOM];
    size_t n = choose_table(room);
    uint8_t *t = last_of(&table, n);

    guard_lift(&over_table);
    memcpy(t, room, n);
    guard_over(&over_table, table.start, table.end);
    return reader_agrees(0, t, n, 0) && reader_agrees(1, t, n, 0) && reader_agrees(2, t, n, choose_index(t, n)) &&
           reader_agrees(3, t, n, choose_slot());
}

/* Counts a record by what is wrong with it. */
static void note_record(const struct chosen *r, const uint8_t *out, uint32_t number)
{
    size_t i, wide = 0, none = 0;

    for (i = 0; i < r->erases_len; i++) {
        wide += r->erases[i] > 255;
        none += i % 2 == 0 && r->erases[i] == 0;
    }
    met[WIDE_DENSITY] += r->density > 0xFFFFFFFF;
    met[ODD_COUNT] += r->erases_len % 2 == 1;
    met[MANY_TYPES] += r->erases_len > 8;
    met[NO_EXPONENT] += none > 0;
    met[WIDE_NUMBER] += wide > 0;
    met[SHORT_OUTPUT] += r->out_len < 112;
    met[WRITTEN] += number == 0;
    met[SMALL_ERASE] += number == 0 && out[0x30] == 0xE5;
    met[NO_SMALL_ERASE] += number == 0 && out[0x30] == 0xE7;
}

static int one_record(void)
{
    struct chosen r;
    uint32_t *list, got, wanted;
    uint8_t *a, *b;

    choose_record(&r);
    list = (uint32_t *)(void *)last_of(&erases, r.erases_len * sizeof *list);
    memcpy(list, r.erases, r.erases_len * sizeof *list);
    a = last_of(&ours, r.out_len);
    b = last_of(&theirs, r.out_len);
    scatter(&dice, b - MARGIN, r.out_len + MARGIN);
    memcpy(a - MARGIN, b - MARGIN, r.out_len + MARGIN);
    rig_calls++;
    wanted = ref_sfdp_write(r.density, r.erases, r.erases_len, b, r.out_len);
    got = gwo_sfdp_write(r.density, list, r.erases_len, a, r.out_len);
    note_record(&r, b, wanted);
    if (got == wanted && agree(a - MARGIN, b - MARGIN, r.out_len + MARGIN) &&
        memcmp(list, r.erases, r.erases_len * sizeof *list) == 0)
        return 1;
    show("gwo_sfdp_write", a, r.out_len, got, wanted);
    return 0;
}

static void check_variety(void)
{
    static const char *const names[KINDS] = {
        "taken", "256 headers", "a table that ends with the bytes", "an empty slot", "30 by the signature",
        "30 under 8 bytes", "31 by the headers", "31 by a table's length", "31 by a short first table",
        "32 by the first pointer", "32 by another", "31 with a bad pointer as well", "written", "a wide density",
        "an odd count", "over four types", "an exponent 0", "a wide number", "a short output", "a 4 KiB erase",
        "none"};
    int i;

    for (i = 0; i < KINDS; i++) {
        printf("%s%s: %lu", i == 0 ? "  " : ", ", names[i], met[i]);
        if (met[i] == 0)
            fail("never met: %s", names[i]);
    }
    printf("\n");
}

int main(int argc, char **argv)
{
    static char name[40];
    unsigned long tables = argc > 1 ? strtoul(argv[1], NULL, 10) : 1000000, i;
    uint64_t seed = argc > 2 ? strtoull(argv[2], NULL, 10) : 20250612;

    dice.at = seed;
    snprintf(name, sizeof name, "tables, seed %llu", (unsigned long long)seed);
    rig_begin(name);
    table = lend(ROOM);
    erases = lend(MOST_ERASES * sizeof(uint32_t));
    ours = lend(OUT_ROOM + MARGIN);
    theirs = lend(OUT_ROOM + MARGIN);
    our_results = lend(RESULTS * sizeof(uint32_t) + MARGIN);
    their_results = lend(RESULTS * sizeof(uint32_t) + MARGIN);
    for (i = 0; i < tables && failures() == 0; i++)
        if (one_table())
            one_record();
    if (failures() == 0 && tables >= 10000)
        check_variety();
    return rig_end();
}
