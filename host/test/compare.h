/* What the files of compare.c share: one random call, and what is lent to the two sides. */
#ifndef COMPARE_H
#define COMPARE_H

#include "gwo.h"
#include "rig.h"

enum { STATE = GWO_STATE_LENGTH, STATE_ROOM = 280, FRAME_ROOM = 65600, OUT_ROOM = 65664, MARGIN = 32 };

/* Arrays are the last bytes of one room; those of models 1 and 2, and most wrong lengths, of its small end. */
enum { PAGE = 256, BLOCK = 65536, ARRAY_ROOM = 16777216 + BLOCK, SMALL_ROOM = 327680 };

/* So are wear tables, in counts. */
enum { WEAR_ROOM = 4160 };

enum { MODELS = 3 };
enum kind { FRAME, WAIT, POWER_CYCLE, CUT, REPORT, KINDS };

/* One call, as chosen. */
struct call {
    enum kind kind;
    struct gwo_record record;
    size_t state_len, array_len, wear_len, frame_len, out_len, pattern_len;
    uint32_t tail, wp, strict, us;
    int history; /* whether it is a call of a history */
};

/* What is lent to one of the two: each call takes the last bytes of them. */
struct side {
    struct lent state, array, wear, frame, out, numbers, pattern, results;
};

/* The results of a report, as they are lent: the total ends at unmapped memory. */
struct results {
    uint32_t smallest, largest, sector, mean, remainder, unused;
    uint64_t total;
};

extern struct side ours, model;

/* The archive's array, pattern and counts can be written to by the choice of a call, and else only where it may. */
extern struct guard over_array, over_pattern, over_wear;

/* The choice of every call follows from the seed alone. */
extern struct dice dice;

#define ONE_OF(list) ((list)[below(&dice, sizeof(list) / sizeof((list)[0]))])

/* Chooses a call and lays its state, frame, output, pattern and sometimes new cells into both sides. */
void choose(struct call *c);

/* The frame, tail, WP# level and output of a frame; the record is chosen before it. */
void choose_frame(struct call *c);

/* An address around an end of something, for a model or for what is none. */
uint32_t any_address(uint32_t chip);

/* A valid record: bench values, or any times. */
void valid_record(struct gwo_record *r);

/*
 * Whether the call is one of a history: then it has the history's record, and state, array and table are as the last
 * call left them. Where its frames aim, and with which command, for any one that was drawn.
 */
int in_history(struct call *c);
uint32_t address_in_history(void);
uint8_t command_in_history(uint8_t any);

/* Lays random cells into both rooms. */
void fill_cells(size_t at, size_t n);

/* The address in the model's frame, 0 where it has none. */
uint32_t addressed(const struct call *c);

/* New cells in both arrays, mostly in the page of an address, at times in three blocks around it. */
void refresh_cells(const struct call *c, uint32_t address);

/* Whether a frame is strict; the cells of a program that is are mostly such as hold its bytes, all or nearly all. */
void choose_strict(struct call *c);

/* The wear table of a frame or of a report; all counts anew; all 0. */
void choose_wear(struct call *c);
void fresh_counts(void);
void factory_counts(void);

/* Whether the call has counted sectors, by its answer; and whether all counts that could be lent agree. */
int has_counted(const struct call *c, uint32_t number);
int same_counts(void);

/*
 * Counts what a call met of the tables, of the setting, and of histories; a failure unless all of it was met on a
 * model.
 */
void note_wear(const struct call *c, uint32_t number);
void note_strict(const struct call *c, uint32_t number);
void note_history(const struct call *c, uint32_t number);
void wear_met(uint32_t chip);
void strict_met(uint32_t chip);
void history_met(uint32_t chip);

/* Counts what a 5A met; a failure unless on model 2 every kind of it was met, and on the others that it is unknown. */
void note_table(const struct call *c, uint32_t number);
void tables_met(void);

/* Counts a call, by the packed state before it and its answer. */
void note(const struct call *c, const uint8_t *state, uint32_t number);

/*
 * A failure unless on each model every number was met, by each kind of call that can be answered so, every command
 * accepted, every operation completed and cut, programs ended on both sides of their page's end, every kind of
 * wear table and of strict program, and a history with many operations; and unless all that only model 2 or 3 has was
 * met, and all that sleep takes.
 */
void check_variety(void);

#endif
