#include "sfdp.h"

#include "jig_sfdp.h"

#include <string.h>

enum { MARGIN = 64, MARK = 0x5C, RESULTS = 5, UNSET = 0x5A5A5A5A };

static struct lent lent_table, lent_results, lent_erases, lent_out;
static struct guard over_table, over_erases;
static uint8_t *table;
static size_t table_len;

static void make_buffers(void)
{
    if (lent_table.start != NULL)
        return;
    lent_table = lend(TABLE_ROOM);
    lent_results = lend(RESULTS * sizeof(uint32_t) + MARGIN);
    lent_erases = lend(MOST_ERASES * sizeof(uint32_t));
    lent_out = lend(OUT_ROOM + MARGIN);
}

uint8_t *table_of(size_t n)
{
    make_buffers();
    guard_lift(&over_table);
    table_len = n;
    table = last_of(&lent_table, n);
    memset(table, MARK, n < 8192 ? n : 8192);
    return table;
}

/* A byte of the table, where there is one. */
static void put(size_t at, unsigned value)
{
    if (at < table_len)
        table[at] = (uint8_t)value;
}

void table_header(unsigned index, unsigned words, uint32_t pointer)
{
    size_t at = 8 + 8 * (size_t)index;

    put(at, index * 7 + 1);
    put(at + 1, index * 11 + 2);
    put(at + 2, index * 13 + 3);
    put(at + 3, words);
    put(at + 4, pointer);
    put(at + 5, pointer >> 8);
    put(at + 6, pointer >> 16);
}

void table_headers(unsigned headers, uint32_t first_at)
{
    unsigned i;

    for (i = 0; i < 4; i++)
        put(i, (unsigned char)"SFDP"[i]);
    put(4, 0x17);
    put(5, 0x29);
    put(6, headers - 1);
    for (i = 0; i < headers; i++)
        table_header(i, i == 0 ? 9 : 0, i == 0 ? first_at : 0);
}

void table_first(uint32_t at, uint32_t density, const uint8_t pairs[2 * SLOTS])
{
    unsigned i;

    for (i = 0; i < 4; i++)
        put(at + 4 + i, density >> 8 * i);
    for (i = 0; i < 2 * SLOTS; i++)
        put(at + 28 + i, pairs[i]);
}

/* Numbers with marks before them; they end at unmapped memory. */
static uint32_t *lend_results(int n)
{
    uint8_t *p = last_of(&lent_results, n * sizeof(uint32_t));
    const uint32_t unset = UNSET;
    int i;

    memset(p - MARGIN, MARK, MARGIN);
    for (i = 0; i < n; i++)
        memcpy(p + i * sizeof unset, &unset, sizeof unset);
    guard_over(&over_table, table, table + table_len);
    rig_calls++;
    return (uint32_t *)(void *)p;
}

static void same(uint32_t got, uint32_t number, const uint32_t *results, const uint32_t *want, int n, const char *who,
                 const char *label)
{
    const uint8_t *before = (const uint8_t *)results;
    int i;

    if (got != number)
        fail("%s: %s is answered %lu, want %lu", label, who, (unsigned long)got, (unsigned long)number);
    for (i = 0; i < n; i++)
        if (results[i] != want[i])
            fail("%s: result %d of %s is %lu, want %lu", label, i + 1, who, (unsigned long)results[i],
                 (unsigned long)want[i]);
    for (i = 1; i <= MARGIN; i++)
        if (before[-i] != MARK)
            fail("%s: %s has written before its results", label, who);
}

static void same_read(uint32_t number, uint32_t headers, uint32_t density, uint32_t types, const char *label)
{
    const uint32_t want[3] = {headers, density, types};
    uint32_t *r = lend_results(3);

    same(gwo_sfdp_read(table, table_len, &r[0], &r[1], &r[2]), number, r, want, 3, "gwo_sfdp_read", label);
}

static void same_revision(uint32_t number, uint32_t minor, uint32_t major, const char *label)
{
    const uint32_t want[2] = {minor, major};
    uint32_t *r = lend_results(2);

    same(gwo_sfdp_revision(table, table_len, &r[0], &r[1]), number, r, want, 2, "gwo_sfdp_revision", label);
}

/* h: the header as it lies, or null where all results are wanted 0. */
static void same_header(uint32_t number, uint32_t index, const uint8_t *h, const char *label)
{
    uint32_t want[5] = {0, 0, 0, 0, 0}, *r = lend_results(5);
    int i;

    for (i = 0; i < 4 && h != NULL; i++)
        want[i] = h[i];
    if (h != NULL)
        want[4] = h[4] + 256u * h[5] + 65536u * h[6];
    same(gwo_sfdp_header(table, table_len, index, &r[0], &r[1], &r[2], &r[3], &r[4]), number, r, want, 5,
         "gwo_sfdp_header", label);
}

static void same_erase(uint32_t number, uint32_t slot, const uint8_t *pair, const char *label)
{
    const uint32_t want[2] = {pair == NULL ? 0 : pair[0], pair == NULL ? 0 : pair[1]};
    uint32_t *r = lend_results(2);

    same(gwo_sfdp_erase(table, table_len, slot, &r[0], &r[1]), number, r, want, 2, "gwo_sfdp_erase", label);
}

/* No header's index, and no slot, also by a product or a sum that passes 2^32. */
static const uint32_t no_index[] = {256, 257, 65536, 0x1FFFFFFF, 0x20000000, 0x20000001, 0x7FFFFFFF, 0x80000000,
                                    0xFFFFFFFF},
                      no_slot[] = {0, 5, 6, 255, 256, 257, 65537, 0x7FFFFFFF, 0x80000000, 0x80000001, 0x80000002,
                                   0xFFFFFFFF};
enum { NO_INDEX = sizeof no_index / sizeof no_index[0], NO_SLOT = sizeof no_slot / sizeof no_slot[0] };

void table_refused(uint32_t number, const char *label)
{
    static const uint32_t some[] = {0, 1, 2, 3, 4, 255, 0xFFFFFFFF};
    size_t i;

    same_read(number, 0, 0, 0, label);
    same_revision(number, 0, 0, label);
    for (i = 0; i < sizeof some / sizeof some[0]; i++) {
        same_header(number, some[i], NULL, label);
        same_erase(number, some[i], NULL, label);
    }
}

void table_read(uint32_t first_at, unsigned headers, uint32_t density, unsigned types, const char *label)
{
    unsigned i;

    same_read(0, headers, density, types, label);
    same_revision(0, table[4], table[5], label);
    for (i = 0; i < headers; i++)
        same_header(0, i, table + 8 + 8 * i, label);
    same_header(0, headers, NULL, label);
    for (i = 0; i < NO_INDEX; i++)
        same_header(0, no_index[i], NULL, label);
    for (i = 0; i < SLOTS; i++)
        same_erase(0, 1 + i, table + first_at + 28 + 2 * i, label);
    for (i = 0; i < NO_SLOT; i++)
        same_erase(0, no_slot[i], NULL, label);
}

/* What the output holds before a call. */
static uint8_t rest(size_t i)
{
    return (uint8_t)(i * 11 + (i >> 8) + 0x33);
}

static uint32_t *lend_erases(const uint32_t *erases, size_t n)
{
    uint32_t *p = (uint32_t *)(void *)last_of(&lent_erases, n * sizeof *p);

    guard_lift(&over_erases);
    if (n > 0)
        memcpy(p, erases, n * sizeof *p);
    guard_over(&over_erases, lent_erases.start, lent_erases.end);
    return p;
}

/* want: the first 112 bytes, or null where none is written. */
static void writes(uint64_t density, const uint32_t *erases, size_t erases_len, size_t out_len, const uint8_t *want,
                   const char *label)
{
    uint32_t *lent, number, wanted = want != NULL ? 0 : 33;
    uint8_t *out;
    size_t i;

    make_buffers();
    lent = lend_erases(erases, erases_len);
    out = last_of(&lent_out, out_len);
    memset(out - MARGIN, MARK, MARGIN);
    for (i = 0; i < out_len; i++)
        out[i] = rest(i);
    rig_calls++;
    number = gwo_sfdp_write(density, lent, erases_len, out, out_len);
    if (number != wanted)
        fail("%s: gwo_sfdp_write is answered %lu, want %lu", label, (unsigned long)number, (unsigned long)wanted);
    for (i = 0; i < out_len; i++) {
        uint8_t byte = want != NULL && i < SHEET_TABLE ? want[i] : rest(i);

        if (out[i] != byte) {
            fail("%s: byte %lu of the output is %02X, want %02X", label, (unsigned long)i, out[i], byte);
            break;
        }
    }
    for (i = 1; i <= MARGIN; i++)
        if (*(out - i) != MARK)
            fail("%s: gwo_sfdp_write has written before its output", label);
}

void written(uint64_t density, const uint32_t *erases, size_t erases_len, size_t out_len, const uint8_t *want,
             const char *label)
{
    writes(density, erases, erases_len, out_len, want, label);
}

void not_written(uint64_t density, const uint32_t *erases, size_t erases_len, size_t out_len, const char *label)
{
    writes(density, erases, erases_len, out_len, NULL, label);
}

const uint8_t *wanted_table(uint32_t density, const uint32_t *erases, size_t erases_len)
{
    static uint8_t want[SHEET_TABLE];
    size_t i;

    memcpy(want, sheet_table(), sizeof want);
    for (i = 0; i < 4; i++)
        want[0x34 + i] = (uint8_t)(density >> 8 * i);
    for (i = 0; i < SLOTS; i++) {
        want[0x4C + 2 * i] = (uint8_t)(2 * i < erases_len ? erases[2 * i] : 0x00);
        want[0x4D + 2 * i] = (uint8_t)(2 * i < erases_len ? erases[2 * i + 1] : 0xFF);
    }
    want[0x30] = 0xE7;
    want[0x31] = 0xFF;
    for (i = erases_len / 2; i > 0; i--) /* the first one stays */
        if (erases[2 * i - 2] == 0x0C) {
            want[0x30] = 0xE5;
            want[0x31] = (uint8_t)erases[2 * i - 1];
        }
    return want;
}
