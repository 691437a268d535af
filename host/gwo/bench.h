/* The chip on the bench: its memory, its name, its image. */
#ifndef BENCH_H
#define BENCH_H

#include "gwo.h"
#include "options.h"

/* A chip from the factory, or with the cells of an image: WELL, or COULD_NOT, which is said. */
int bench_open(struct gwo_chip *chip, const struct chip_options *o);

void bench_close(struct gwo_chip *chip);

/* KH25L512 and the others. */
const char *chip_name(uint32_t model);

/* The chip and its times, in a line on standard error. */
void bench_say(const struct gwo_chip *chip, const struct chip_options *o);

/* How many erases of sectors the wear table has counted. */
uint64_t bench_erases(const struct gwo_chip *chip);

/* What stands behind the program: empty for the proved archive, else words that follow its name. */
extern const char behind[];

#endif
