/* Images of chips, and files that are written whole or not at all. */
#ifndef IMAGE_H
#define IMAGE_H

#include <stddef.h>
#include <stdint.h>

/* The cells of an image, which has to be exactly as long as the chip: WELL, or COULD_NOT, which is said. */
int image_load(const char *path, uint8_t *cells, size_t length, const char *chip);

/* Whether a file can be written there at the end; it is asked before a run begins. WELL, or COULD_NOT, which is said. */
int save_possible(const char *path);

/* Writes the bytes into a new file beside the target and renames it: WELL, or COULD_NOT, which is said. */
int save_whole(const char *path, const void *bytes, size_t n);

#endif
