/* The parts of scripts.c. */
#ifndef SCRIPTS_H
#define SCRIPTS_H

#include "gwo.h"

#include <stddef.h>
#include <stdint.h>

enum { MOST_LINE = 640, MOST_BYTES = 300, MOST_ROW = 700 };

/* A chip that lines are played on, and the setting. */
struct stage {
    const struct gwo_record *record;
    uint8_t *state, *cells;
    uint32_t *wear;
    uint32_t strict;
};

/* Plays a line without its newline by the independent model; its row with the newline, and how long that is. */
size_t play_line(const struct stage *on, unsigned long number, const char *line, size_t n, char *row);

/* A script of so many lines for a chip of that model, on standard output; an odd seed leaves the last without its newline. */
void generate(uint64_t seed, unsigned long lines, uint32_t model);

/* So many lines that are bad, or good with one byte changed, put in or left out. */
void generate_bad(uint64_t seed, unsigned long lines);

#endif
