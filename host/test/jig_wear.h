/* The wear table that the jig lends: its counts as they are lent, and as they are wanted after the call. */
#ifndef JIG_WEAR_H
#define JIG_WEAR_H

#include <stddef.h>
#include <stdint.h>

/* Every count again as jig.h's count_before() has it. */
void wear_fresh(void);

/*
 * What a frame or a report is lent: the last n counts, so that they end at unmapped memory. One that is to count
 * nothing cannot write to them.
 */
uint32_t *wear_lent(size_t n, int may_count);

/* Of a table of n counts a run from a sector on: the lent ones and the wanted get a value; the wanted rise by one. */
void wear_set(size_t n, size_t sector, size_t run, uint32_t count);
void wear_want_counted(size_t n, size_t sector, size_t run);

/* Lent against wanted, with counts before the table that were not lent. */
void wear_same(size_t n, const char *label);

#endif
