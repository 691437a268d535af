/* A script played on a chip: the text goes in block by block, the rows come out. */
#ifndef PLAY_H
#define PLAY_H

#include "gwo.h"
#include "source.h"

#include <stddef.h>
#include <stdint.h>

/* What one call came to: the text that it used, and the rows of the lines that ended in it. */
struct passage {
    const uint8_t *text, *rows;
    size_t text_len, rows_len;
};

/* Takes a passage: WELL, or another status, which ends the run. */
typedef int take_passage(void *to, const struct passage *p);

/* Plays all of it, passage by passage: WELL, or the status that ended it. */
int play_source(struct gwo_chip *chip, struct source *from, take_passage *take, void *to);

/* The header of a log. */
extern const char log_header[];

/* How many lines there were, and what became of them. */
struct tally {
    uint64_t lines, done, refused, bad, folds;
};

/* The rows of a passage are counted. */
void tally_rows(struct tally *t, const uint8_t *rows, size_t n);

/* One row, by its answer. */
void tally_row(struct tally *t, uint32_t answer, int folded);

#endif
