/* The two halves of thirteen.c. */
#ifndef THIRTEEN_H
#define THIRTEEN_H

#include "gwo.h"
#include "rig.h"

/* One run of the calls. */
struct run {
    struct gwo_record record;
    uint8_t before[GWO_STATE_LENGTH];
    uint32_t address; /* of the array, or an image of it above */
    const uint8_t *bytes;
    size_t n;
    int cut;          /* the power is cut before the first call */
    int shorter;      /* the number of the wait that is one short, 0: none */
    int full;         /* the count of the addressed sector is at its highest */
};

/* How many there were. */
extern unsigned long runs;

/* A state that runs no operation, unless one is put into it. */
void put_state(uint8_t *p, unsigned status, unsigned asleep, unsigned config, uint32_t busy, uint32_t settling);

/* The array of a model, random cells; and its wear table, random counts, many of them at their highest. */
void lend_array(uint32_t model);

/*
 * The thirteen calls as they are, with each of the five waits one microsecond shorter (where 16 MiB are being erased
 * the first alone), with a full count, and after a cut.
 */
void run_all_ways(struct run r);

/* Every cell of a model's array is as it was before the runs. */
void all_put_back(uint32_t model);

#endif
