/* A pod with a fault: the independent model with a patch around it. */
#ifndef POD_H
#define POD_H

#include "gwo.h"

/* The four readers of SFDP tables; their results in the order of their arguments, as many as each has. */
enum reader { READ, REVISION, HEADER, ERASE };
enum { MOST_RESULTS = 5 };

/* The arguments of gwo_frame, gwo_wait, gwo_power_cycle, gwo_cut or gwo_wear_report, or of a function on SFDP tables. */
struct call {
    struct gwo_record record;
    uint8_t *state;
    size_t state_len;
    uint8_t *array; /* a frame may not write to it */
    size_t array_len;
    uint32_t *wear; /* a report may not write to it */
    size_t wear_len;
    const uint8_t *frame;
    size_t frame_len;
    uint32_t tail, wp, strict;
    uint8_t *out;
    size_t out_len;
    uint32_t *from, *count, *fold;
    uint32_t us;
    const uint8_t *pattern;
    size_t pattern_len;
    uint64_t *total;
    uint32_t *smallest, *largest, *sector, *mean, *remainder;
    enum reader reader;
    const uint8_t *table;
    size_t table_len;
    uint32_t which; /* the index of a header, or a slot */
    uint32_t *results[MOST_RESULTS];
    uint64_t density;
    const uint32_t *erases;
    size_t erases_len;
};

typedef uint32_t answers(const struct call *c);

/* A pod answers its calls so; where it has no function it is right. All four readers are one function. */
struct pod {
    answers *frame, *wait, *power_cycle, *cut, *report, *sfdp_reader, *sfdp_write;
};

/*
 * 1 to 11; those of model 3, from 12 on; of the fold, from 21 on; of sleep, from 26 on; of a cut, from 31 on; of wear,
 * from 36 on; of strict, from 47 on; of 52 withdrawn, from 56 on; of 5A, from 63 on; of the readers of SFDP tables, from
 * 74 on; and of their writer, from 90 on.
 */
enum { MISTAKES = 11, MISTAKES_OF_MODEL_3 = 9, MISTAKES_OF_FOLD = 5, MISTAKES_OF_SLEEP = 5, MISTAKES_OF_CUT = 5,
       MISTAKES_OF_WEAR = 11, MISTAKES_OF_STRICT = 9, MISTAKES_OF_WITHDRAWN = 7,
       MISTAKES_OF_5A = 11, MISTAKES_OF_READER = 16, MISTAKES_OF_WRITER = 11 };
extern const struct pod mistakes[MISTAKES], mistakes_of_model_3[MISTAKES_OF_MODEL_3],
    mistakes_of_fold[MISTAKES_OF_FOLD], mistakes_of_sleep[MISTAKES_OF_SLEEP], mistakes_of_cut[MISTAKES_OF_CUT],
    mistakes_of_wear[MISTAKES_OF_WEAR], mistakes_of_strict[MISTAKES_OF_STRICT],
    mistakes_of_withdrawn[MISTAKES_OF_WITHDRAWN], mistakes_of_5a[MISTAKES_OF_5A],
    mistakes_of_reader[MISTAKES_OF_READER], mistakes_of_writer[MISTAKES_OF_WRITER];

/* Without a fault. */
answers right_frame, right_wait, right_power_cycle, right_cut, right_report, right_reader, right_write;

/* The address in a frame of 4 bytes or more, modulo the array. */
uint32_t address_in(const struct call *c);

/* An operation as the packed state has it from byte 12 on; its place is an address or a count. */
enum { COMMAND_AT = 12, DATA_AT = 16, PAGE = 256, NO_COMMAND = 0xFF };
struct operation {
    uint8_t command, data[PAGE];
    uint32_t place;
};

/* That which is running before the call; and that which a wait ends, if it is taken. NO_COMMAND where there is none. */
struct operation running(const struct call *c);
struct operation ended_by(const struct call *c);

/* The cells that a program or an erase may change: how many, and the first of them; 0 of a status write. */
uint32_t unit_length(const struct call *c, const struct operation *o);
uint8_t *unit_cells(const struct call *c, const struct operation *o);

#endif
