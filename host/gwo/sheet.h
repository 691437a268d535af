/* The wear sheet of a chip, as text. */
#ifndef SHEET_H
#define SHEET_H

#include "gwo.h"

/*
 * A heading, a line a sector with its number, its count and a bar, and the figures of the report; into a file, whole or not at all, or for - to
 * standard output. WELL, or COULD_NOT, which is said.
 */
int sheet_save(const char *path, const struct gwo_chip *chip);

#endif
