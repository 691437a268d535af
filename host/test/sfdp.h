/* The groups of sfdp.c, and one call of the reader or the writer at a time, with all that is lent compared. */
#ifndef SFDP_H
#define SFDP_H

#include "gwo.h"
#include "rig.h"

void signatures(void);      /* 30 */
void header_counts(void);   /* 31: more headers than bytes */
void table_lengths(void);   /* 31: a longer table than bytes, and a first table under 36 bytes */
void table_pointers(void);  /* 32 */
void order_of_refusals(void);
void what_is_read(void);    /* density, erase types, revisions, headers by index */
void sheet_tables(void);    /* the sheet's own table, whole and cut off */
void written_tables(void);
void refused_records(void); /* 33 */
void round_trips(void);
void chip_tables(void);     /* what 5A drives, read and written again */

/* A pointer has three bytes, and a table up to 255 double words. */
enum { TABLE_ROOM = 0x1000000 + 4 * 255, OUT_ROOM = 4096, MOST_ERASES = 64, SLOTS = 4 };

/*
 * The next table: n bytes of 5C, which end at unmapped memory, for the caller to fill; then so many headers, 1 to 256, as
 * far as they fit: the first has 9 double words at an address, the others none at 0.
 */
uint8_t *table_of(size_t n);
void table_headers(unsigned headers, uint32_t first_at);
void table_header(unsigned index, unsigned words, uint32_t pointer);

/* The first table at an address: density and the four pairs of exponent and opcode. */
void table_first(uint32_t at, uint32_t density, const uint8_t pairs[2 * SLOTS]);

/*
 * All four readers on the table: refused by the number, every result 0; or read, headers and types as many as are given,
 * revision, headers and erase types as they lie in the bytes. The bytes can't be written to meanwhile.
 */
void table_refused(uint32_t number, const char *label);
void table_read(uint32_t first_at, unsigned headers, uint32_t density, unsigned types, const char *label);

/* The writer: 0, the bytes as wanted at the head of a buffer of out_len and the rest as it was; or 33, nothing written. */
void written(uint64_t density, const uint32_t *erases, size_t erases_len, size_t out_len, const uint8_t *want,
             const char *label);
void not_written(uint64_t density, const uint32_t *erases, size_t erases_len, size_t out_len, const char *label);

/* What a record's 112 bytes have to be: the sheet's, with density, erase types and the 4 KiB erase put in. */
const uint8_t *wanted_table(uint32_t density, const uint32_t *erases, size_t erases_len);

#endif
