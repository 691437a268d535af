/* The arrays that the jig lends: each as it is lent, and as it is wanted after the call. */
#ifndef JIG_CELLS_H
#define JIG_CELLS_H

#include <stddef.h>
#include <stdint.h>

struct cells;

/* Those lent for an array length, be it a model's or not. */
struct cells *cells_of(size_t length);

/* Every cell again as jig.h's cell() has it. */
void cells_fresh(void);

/* What a call is lent: the last bytes, so that they end at unmapped memory. */
uint8_t *cells_lent(const struct cells *c, size_t length);

/* From now on a call cannot write around the address (rig.h), or it can write everywhere. */
void cells_guard(struct cells *c, size_t address);
void cells_open(struct cells *c);

/* The cell wanted at an address, modulo the length. */
uint8_t cells_wanted(const struct cells *c, size_t address);

/* n cells get a value, or bytes: in what is wanted; or, before a call, in what is lent as well. */
void cells_want(struct cells *c, size_t at, size_t n, uint8_t value);
void cells_want_bytes(struct cells *c, size_t at, const uint8_t *bytes, size_t n);
void cells_set(struct cells *c, size_t at, size_t n, uint8_t value);

/* Lent against wanted: around an address (rig.h), and all cells that were set since they were fresh. */
void cells_same(struct cells *c, size_t address, const char *label);

/* All cells of all arrays. */
void cells_same_everywhere(const char *label);

#endif
