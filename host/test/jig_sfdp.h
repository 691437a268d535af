/* The SFDP table of the KH25L2006E as its sheet has it, field by field, and what 5A drives of it. */
#ifndef JIG_SFDP_H
#define JIG_SFDP_H

#include <stddef.h>
#include <stdint.h>

enum { SHEET_TABLE = 112 };

/* Its 112 bytes. */
const uint8_t *sheet_table(void);

/* The byte at an SFDP address, which may be past the table or past the last address: FF there. */
uint8_t sheet_byte(uint32_t address);

/* Driven from a position of the given frame to its end: the bytes from an address on; nothing where it ends there. */
void want_table(uint32_t from, uint32_t address);

#endif
