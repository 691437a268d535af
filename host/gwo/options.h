/* The options that say which chip is played; every command has them all. */
#ifndef OPTIONS_H
#define OPTIONS_H

#include <argp.h>
#include <stdint.h>

enum { TIMES = 9 };

struct chip_options {
    uint32_t model, strict;
    const char *load;     /* an image, or NULL */
    uint32_t time[TIMES]; /* 0: the bench value */
};

/* The names of the times, in the record's order. */
extern const char *const time_names[TIMES];

/* Model 1, bench values, every cell FF, not strict. */
struct chip_options chip_options_start(void);

/* A child for a command's argp; its input is a struct chip_options. */
extern const struct argp chip_argp;

/* A whole number of decimal digits alone, at most `most`; 0 where the word is none. */
int read_number(const char *word, uint64_t most, uint64_t *number);

#endif
