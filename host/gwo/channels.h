/* Which bit of a capture's byte is which pin, and how often a capture was sampled. */
#ifndef CHANNELS_H
#define CHANNELS_H

#include <stdint.h>

/* For each byte of a capture the levels that gwo_sample takes. */
struct channels {
    uint8_t levels[256];
};

/* CS#, SCLK, SI, WP#, HOLD# from bit 0 on. */
extern const char usual_channels[];

/*
 * Reads names that are parted by commas, from bit 0 on: cs, sclk, si, wp and hold, in capitals or with # at the end too; - is a bit of
 * another pin. WP# or HOLD# that is not named is high. NULL, or what is wrong with the words.
 */
const char *read_channels(const char *words, struct channels *c);

/* Hertz in decimal digits, with k, M or G after them or nothing: 1 to 1,000,000,000,000. 0 where the word is none. */
int read_rate(const char *word, uint64_t *rate);

#endif
