/* The two halves of stack.c. */
#ifndef STACK_H
#define STACK_H

#include "gwo.h"

enum kind { FRAME, WAIT, POWER_CYCLE, CUT, REPORT, SFDP_READ, SFDP_REVISION, SFDP_HEADER, SFDP_ERASE, SFDP_WRITE,
            SAMPLE, SAMPLES, KINDS };

/* The arguments of a call. Of samples the front lies in the state's first bytes, the output gets the frame, and frame has the levels. */
struct call {
    enum kind kind;
    struct gwo_record record;
    uint8_t state[GWO_STATE_LENGTH];
    uint8_t *array, *out;
    const uint8_t *frame, *pattern;
    uint32_t *wear;
    size_t array_len, wear_len, frame_len, out_len, pattern_len;
    uint32_t tail, wp, strict, us;
    const uint8_t *table;
    const uint32_t *erases;
    size_t table_len, erases_len;
    uint32_t which; /* the index of a header, or a slot */
    uint64_t density;
};

/* Makes the call: how many bytes of stack it takes below its arguments and return address, and what it is answered. */
size_t stack_of(const struct call *c, uint32_t *answer);

#endif
