/* The lines of a script beside their rows. What a line is answered is read from its row; its text is looked at for words alone. */
#ifndef PAIRS_H
#define PAIRS_H

#include "fault.h"
#include "play.h"

struct pair {
    uint64_t number;
    struct text line; /* without its newline; of a line that is too long only its start */
    size_t whole;     /* how long the line is */
    struct text row;  /* without its newline */
    uint32_t answer;
    int folded;
};

/* Takes a pair: WELL, or another status, which ends the run. */
typedef int take_pair(void *to, const struct pair *p);

struct pairs {
    take_pair *take;
    void *to;
    uint64_t number; /* of the line before */
    size_t used;     /* of the line that the passages before left open, in `open` */
    size_t whole;    /* how much of it there was */
    char open[2 * GWO_HELD_LENGTH];
};

void pairs_start(struct pairs *p, take_pair *take, void *to);

/* A take_passage: `to` is a struct pairs. */
int take_pairs(void *to, const struct passage *p);

/* The third and fourth fields of a row: where the driven bytes begin, and their hex; 0 where nothing was driven. */
int row_driven(struct text row, struct text *from, struct text *hex);

#endif
