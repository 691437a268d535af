/* The groups of rules.c, one for each part of 01 and of what model 3 adds, and what they share. */
#ifndef RULES_H
#define RULES_H

#include "jig.h"

void refused_before_the_command(void); /* Numbers returned: 1, 2, 4, 5, 10 */
void packed_states(void);              /* 3 */
void refused_by_command(void);         /* 22, 11 to 13, 21, and 15 to 17 */
void refused_in_order(void);           /* the first that applies is given */
void lengths_and_tails(void);          /* 14, and every allowed length with its effect */
void state_commands(void);             /* 06, 04, B9, AB, 05, 01 */
void falling_asleep_and_waking(void);  /* B9 and AB: how long a chip settles, and what it answers meanwhile */
void configuration(void);              /* 15, 01 with two data bytes, and TB, which is never cleared */
void reading_commands(void);           /* 03, 0B, 9F, AB, 90 */
void sfdp_reads(void);                 /* 5A on model 2: the table of its sheet, and FF past it */
void erasing(void);                    /* 20, D8, 60, C7; 52 on model 3, and withdrawn */
void protected_areas(void);            /* what BP and TB protect */
void programming(void);                /* 02: fold, AND, the last byte counts */
void strict_programs(void);            /* 02 of cells that would not hold the bytes, where that is refused: 19 */
void folds(void);                      /* a program that ran past its page's end is said so */
void time_and_power(void);             /* wait and power cycle */
void operations(void);                 /* 01, 02, 20, D8, 60, C7, on model 3 52: remembered, and done when the time is out */
void wear_counts(void);                /* 20, D8, 60, C7, on model 3 52: the sectors that they cover are counted; 24, 25 */
void wear_reports(void);               /* what a wear table comes to */
void cuts(void);                       /* what a cut leaves of each of them, and of a chip that runs none */
void bench_sheet(void);                /* 01's cases, and model 3's */

/* The given record's times by number: six of a busy chip, the sixth on model 3 alone, and three of one that settles. */
enum { HALF = 5, SLEEP, WAKE, SIGN, TIMES };
uint32_t *time_field(int which);
int time_counts(uint32_t model, int which);

/* The operations by number; the last two, 52 and 01 with two data bytes, are model 3's. */
enum { CHIP_60 = 4, CHIP_C7, HALF_BLOCK_52, TWO_BYTES, OPERATIONS };
unsigned operations_of(uint32_t model);

/* Whether it is 16 MiB that it changes: these take their time, so there are few of them. */
int takes_long(uint32_t model, unsigned operation);

/* A chip that is busy with one of them, at an address of the array: the time left is the condition's. */
void jig_busy(struct condition c, unsigned operation, uint32_t address);

/* The wait that ends what the last frame has started, not a microsecond longer; the cells are wanted before it. */
void completes(struct condition after, const char *label);

/* Wants what the running operation leads to: in the cells, and in the condition, which is the one after it. */
struct condition want_finished(uint32_t model, struct condition c);

int is_protected(uint32_t model, struct condition c, uint32_t block);

/* What answer 17 leaves: on model 3 WEL clears. */
struct condition after_17(uint32_t model, struct condition c);

/* 02 with the data byte 00, or an erase: 17 where the unit is protected, else done; the rest of the array stays. */
void write_at(uint32_t model, struct condition c, uint8_t command, uint32_t address);

#endif
