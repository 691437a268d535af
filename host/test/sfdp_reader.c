/* 02, Req 12: the reader. Each refusal with its near misses, their order, and what a table that is taken says. */
#include "sfdp.h"

#include "jig_sfdp.h"

#include <string.h>

enum { FIRST = 36 }; /* the bytes of a first table of 9 double words, the shortest */

static const uint8_t two_types[2 * SLOTS] = {12, 0x20, 16, 0xD8, 0, 0xFF, 0, 0xFF};

/* The bytes that so many headers take, themselves and what is before them. */
static size_t head(unsigned headers)
{
    return 8 + 8 * (size_t)headers;
}

/* A table that is taken: the first table lies at the end of its n bytes. */
static uint8_t *good_table(unsigned headers, size_t n)
{
    uint8_t *t = table_of(n);

    table_headers(headers, (uint32_t)(n - FIRST));
    table_first((uint32_t)(n - FIRST), 0x01234567, two_types);
    return t;
}

static void good_is_read(unsigned headers, size_t n, const char *label)
{
    table_read((uint32_t)(n - FIRST), headers, 0x01234567, 2, label);
}

/* A first table that lies over the headers: what it says are their bytes. */
static void laid_over_is_read(const uint8_t *t, uint32_t at, unsigned headers, const char *label)
{
    const uint8_t *first = t + at;
    unsigned types = 0, i;

    for (i = 0; i < SLOTS; i++)
        types += first[28 + 2 * i] != 0;
    table_read(at, headers, first[4] + 256u * first[5] + 65536u * first[6] + 16777216u * first[7], types, label);
}

/* Under 8 bytes; each byte of the signature wrong; the letters in another order. */
void signatures(void)
{
    static const char *const others[] = {"PDFS", "sfdp", "FSPD", "SFDQ", "SFD\0", "\0SFD"};
    unsigned i, value;
    size_t n;

    for (n = 0; n < 8; n++) {
        memcpy(table_of(n), sheet_table(), n);
        table_refused(30, named("%lu bytes of a good table", (unsigned long)n));
    }
    for (i = 0; i < 4; i++)
        for (value = 0; value < 256; value++) {
            good_table(1, head(1) + FIRST)[i] = (uint8_t)value;
            if (value == (unsigned char)"SFDP"[i])
                good_is_read(1, head(1) + FIRST, "the signature as it has to be");
            else
                table_refused(30, named("byte %u of the signature %02X", i, value));
        }
    for (i = 0; i < sizeof others / sizeof others[0]; i++) {
        memcpy(good_table(1, head(1) + FIRST), others[i], 4);
        table_refused(30, named("another signature, %u", i));
    }
}

/* One byte less than the headers take, and just as many; from 4 headers on the first table can lie over them. */
void header_counts(void)
{
    unsigned headers;

    for (headers = 1; headers <= 256; headers++) {
        size_t n = head(headers);
        uint8_t *t;

        table_of(8);
        table_headers(headers, 0);
        table_refused(31, named("%u headers in 8 bytes", headers));
        table_of(n - 1);
        table_headers(headers, 0);
        table_refused(31, named("%u headers in %lu bytes", headers, (unsigned long)(n - 1)));
        if (headers >= 4) {
            t = table_of(n);
            table_headers(headers, (uint32_t)(n - FIRST));
            laid_over_is_read(t, (uint32_t)(n - FIRST), headers, named("%u headers and no byte more", headers));
        }
        good_table(headers, n + FIRST);
        good_is_read(headers, n + FIRST, named("%u headers and a table after them", headers));
    }
}

/* A table of a byte more than there are, wherever it starts, and one of as many; the header at `index` has it. */
static void long_table(unsigned headers, unsigned index, unsigned words)
{
    static const uint32_t pointers[] = {0, 1, 0x30, 0xFFFFFF};
    size_t n = 4 * (size_t)words - 1, i;
    uint8_t *t;

    if (n < head(headers))
        return;
    for (i = 0; i < sizeof pointers / sizeof pointers[0]; i++) {
        table_of(n);
        table_headers(headers, 0);
        table_header(index, words, pointers[i]);
        table_refused(31, named("header %u of %u: %u double words in %lu bytes", index, headers, words,
                                   (unsigned long)n));
    }
    t = table_of(n + 1);
    table_headers(headers, 0);
    table_header(index, words, 0);
    laid_over_is_read(t, 0, headers, named("header %u of %u: %u double words in as many bytes", index, headers, words));
}

/* A first table under 36 bytes, whatever the others have; of the others any length will do. */
static void short_first_tables(void)
{
    unsigned words, headers;

    for (headers = 1; headers <= 256; headers += headers < 4 ? 1 : 84)
        for (words = 0; words <= 255; words++) {
            size_t n = head(headers) + 4 * 255;

            good_table(headers, n);
            table_header(0, words, (uint32_t)(n - 4 * 255));
            table_first((uint32_t)(n - 4 * 255), 0x89ABCDEF, two_types);
            if (words < 9)
                table_refused(31, named("a first table of %u double words", words));
            else
                table_read((uint32_t)(n - 4 * 255), headers, 0x89ABCDEF, 2,
                           named("a first table of %u double words", words));
            if (headers == 1)
                continue;
            good_table(headers, n);
            table_header(headers - 1, words, (uint32_t)(n - 4 * words));
            good_is_read(headers, n, named("a last table of %u double words", words));
        }
}

void table_lengths(void)
{
    static const unsigned counts[] = {1, 2, 3, 16, 100, 126};
    unsigned words;
    size_t i;

    for (i = 0; i < sizeof counts / sizeof counts[0]; i++)
        for (words = 9; words <= 255; words++) {
            long_table(counts[i], 0, words);
            long_table(counts[i], counts[i] / 2, words);
            long_table(counts[i], counts[i] - 1, words);
        }
    short_first_tables();
}

/* The table of a header ends with the last byte, or one byte later. */
static void pointer_at_the_end(unsigned headers, unsigned index, unsigned words)
{
    size_t n = head(headers) + 4 * 255 + FIRST;
    uint32_t end = (uint32_t)(n - 4 * words), further;
    unsigned k;

    good_table(headers, n);
    table_header(index, words, end);
    if (index == 0)
        table_first(end, 0x01234567, two_types);
    table_read(index == 0 ? end : (uint32_t)(n - FIRST), headers, 0x01234567, 2,
               named("header %u of %u: %u double words end with the last byte", index, headers, words));
    for (k = 0; k < 4; k++) {
        further = k == 0 ? end + 1 : k == 1 ? end + 4 : k == 2 ? 0xFFFFFF : end + 65536;
        good_table(headers, n);
        table_header(index, words, further);
        table_refused(32, named("header %u of %u: %u double words at %06lX of %lu bytes", index, headers, words,
                                   (unsigned long)further, (unsigned long)n));
    }
}

/* All three bytes of a pointer count, the low one first: tables far from the start. */
static void far_tables(void)
{
    static const uint32_t pointers[] = {0x000100, 0x010000, 0x010203, 0x030201, 0x7FFFFF, 0x800000, 0xFFFFFF};
    size_t i;

    for (i = 0; i < sizeof pointers / sizeof pointers[0]; i++) {
        size_t n = pointers[i] + FIRST;

        table_of(n);
        table_headers(2, pointers[i]);
        table_header(1, 0, 0xFFFFFF);
        table_first(pointers[i], 0xFEDCBA98, two_types);
        if (n < 0xFFFFFF)
            table_header(1, 0, (uint32_t)n);
        table_read(pointers[i], 2, 0xFEDCBA98, 2, named("a first table at %06lX", (unsigned long)pointers[i]));
        table_of(n - 1);
        table_headers(2, pointers[i]);
        table_refused(32, named("a first table at %06lX and a byte too few", (unsigned long)pointers[i]));
    }
}

void table_pointers(void)
{
    static const unsigned counts[] = {1, 2, 3, 7, 128, 255, 256}, words[] = {9, 10, 16, 63, 64, 254, 255};
    size_t i, k;

    for (i = 0; i < sizeof counts / sizeof counts[0]; i++) {
        for (k = 0; k < sizeof words / sizeof words[0]; k++) {
            pointer_at_the_end(counts[i], 0, words[k]);
            if (counts[i] > 1)
                pointer_at_the_end(counts[i], counts[i] - 1, words[k]);
        }
        for (k = 0; k < 9 && counts[i] > 1; k++) {
            pointer_at_the_end(counts[i], counts[i] - 1, (unsigned)k);
            pointer_at_the_end(counts[i], counts[i] / 2, (unsigned)k);
        }
    }
    far_tables();
}

/* What is wrong, one bit each; the first of signature, count or length, pointer is said. */
enum { SIGNATURE = 1, COUNT = 2, LENGTH = 4, FIRST_SHORT = 8, POINTER = 16, EVERY = 31 };

/* Of four headers one has a bad pointer and one is too long, which may be the same. */
static void wrong(unsigned faults, unsigned bad_pointer, unsigned bad_length)
{
    const size_t n = head(4) + FIRST;
    const uint32_t far_away = 0xFFFFF0;
    uint8_t *t = good_table(4, n);

    if (faults & POINTER)
        table_header(bad_pointer, bad_pointer == 0 ? 9 : 4, far_away);
    if (faults & FIRST_SHORT)
        table_header(0, 8, (faults & POINTER) && bad_pointer == 0 ? far_away : 0);
    if (faults & LENGTH)
        table_header(bad_length, (unsigned)n / 4 + 1, (faults & POINTER) && bad_pointer == bad_length ? far_away : 0);
    if (faults & COUNT)
        t[6] = 200;
    if (faults & SIGNATURE)
        t[3] ^= 1;
    if (faults == 0)
        good_is_read(4, n, "nothing wrong");
    else
        table_refused(faults & SIGNATURE ? 30 : faults & (COUNT | LENGTH | FIRST_SHORT) ? 31 : 32,
                      named("faults %02X, the pointer in header %u, the length in header %u", faults, bad_pointer,
                               bad_length));
}

/* Of many headers the first has a bad pointer, and one after it is as long as may be, or too long; and the other way. */
static void far_apart(unsigned other)
{
    good_table(256, head(256) + FIRST);
    table_header(0, 9, 0xFFFFFF);
    table_header(other, 255, 0);
    table_refused(32, named("a bad first pointer, and header %u as long as may be", other));
    table_of(600);
    table_headers(64, 0);
    table_header(0, 9, 0xFFFFFF);
    table_header(1 + other % 63, 151, 0);
    table_refused(31, named("a bad first pointer, and header %u too long", 1 + other % 63));
    table_of(600);
    table_headers(64, 0);
    table_header(0, 151, 0);
    table_header(1 + other % 63, 4, 0xFFFFFF);
    table_refused(31, named("a first table too long, and a bad pointer in header %u", 1 + other % 63));
}

/* Every set of faults, in every pair of headers. */
void order_of_refusals(void)
{
    unsigned faults, i, k;

    for (faults = 0; faults <= EVERY; faults++)
        for (i = 0; i < 4; i++)
            for (k = 0; k < 4; k++)
                wrong(faults, i, k);
    for (i = 1; i < 256; i += 2)
        far_apart(i);
}

/* Every set of the four slots, wherever the empty ones stand; opcodes as they stand, in empty slots too. */
static void erase_types(void)
{
    static const uint8_t exponents[] = {1, 8, 12, 15, 16, 31, 32, 128, 255};
    unsigned set, i, k, types;

    for (set = 0; set < 16; set++)
        for (k = 0; k < sizeof exponents; k++) {
            uint8_t pairs[2 * SLOTS];

            for (types = 0, i = 0; i < SLOTS; i++) {
                pairs[2 * i] = (uint8_t)(set >> i & 1 ? exponents[(k + i) % sizeof exponents] : 0);
                pairs[2 * i + 1] = (uint8_t)(i * 67 + k * 29 + set);
                types += set >> i & 1;
            }
            table_of(head(2) + FIRST);
            table_headers(2, (uint32_t)head(2));
            table_first((uint32_t)head(2), set * 0x10101u, pairs);
            table_read((uint32_t)head(2), 2, set * 0x10101u, types, named("erase types, set %X", set));
        }
}

/* Each bit of the density at its place. */
static void densities(void)
{
    unsigned bit;

    for (bit = 0; bit < 32; bit++) {
        uint32_t one = (uint32_t)1 << bit;

        table_of(head(1) + FIRST);
        table_headers(1, (uint32_t)head(1));
        table_first((uint32_t)head(1), one, two_types);
        table_read((uint32_t)head(1), 1, one, 2, named("bit %u of the density", bit));
    }
}

/* Revisions, ids, unused bytes and what lies between the tables are not judged. */
static void not_judged(void)
{
    unsigned value;
    uint8_t *t;

    for (value = 0; value < 256; value++) {
        t = table_of(head(3) + 20 + FIRST + 11);
        memset(t, (int)value, head(3) + 20 + FIRST + 11);
        table_headers(3, (uint32_t)head(3) + 20);
        table_header(2, 0, (uint32_t)(head(3) + 20 + FIRST + 11));
        table_first((uint32_t)head(3) + 20, 0xA5C3F00F, two_types);
        t[4] = (uint8_t)value;
        t[5] = (uint8_t)(value * 3 + 1);
        t[8] = t[17] = (uint8_t)value;
        t[9] = t[18] = (uint8_t)(value ^ 0x55);
        t[10] = t[16] = (uint8_t)~value;
        table_read((uint32_t)head(3) + 20, 3, 0xA5C3F00F, 2, named("all other bytes %02X", value));
    }
}

void what_is_read(void)
{
    erase_types();
    densities();
    not_judged();
}

/* The whole table is read as the sheet has it; with any byte missing it is not. More bytes after it do not matter. */
void sheet_tables(void)
{
    size_t n;

    for (n = 0; n <= 160; n++) {
        uint8_t *t = table_of(n);

        memcpy(t, sheet_table(), n < SHEET_TABLE ? n : SHEET_TABLE);
        if (n < SHEET_TABLE)
            table_refused(n < 8 ? 30 : n < 36 ? 31 : 32, named("%lu bytes of the sheet's table", (unsigned long)n));
        else
            table_read(0x30, 2, 0x1FFFFF, 2, named("the sheet's table in %lu bytes", (unsigned long)n));
    }
}
