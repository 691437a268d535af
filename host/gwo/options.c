#include "options.h"

#include <stdlib.h>
#include <string.h>

enum { LONGEST_TIME = 1000000000 };

const char *const time_names[TIMES] = {"status", "page", "sector", "block", "chip", "half", "sleep", "wake", "sign"};

struct chip_options chip_options_start(void)
{
    const struct chip_options bench = {1, 0, NULL, {0, 0, 0, 0, 0, 0, 0, 0, 0}};

    return bench;
}

int read_number(const char *word, uint64_t most, uint64_t *number)
{
    *number = 0;
    if (*word == 0)
        return 0;
    for (; *word >= '0' && *word <= '9'; word++) {
        if (*number > most / 10)
            return 0;
        *number = 10 * *number + (uint64_t)(*word - '0');
    }
    return *word == 0 && *number <= most;
}

static void read_model(struct chip_options *o, const char *word, struct argp_state *state)
{
    uint64_t number;

    if (!read_number(word, 3, &number) || number == 0)
        argp_error(state, "there is no model '%s': it is 1 (KH25L512), 2 (KH25L2006E) or 3 (KH25L12845G)", word);
    o->model = (uint32_t)number;
}

/* NAME=US. */
static void read_time(struct chip_options *o, const char *word, struct argp_state *state)
{
    const char *equals = strchr(word, '=');
    size_t n = equals == NULL ? strlen(word) : (size_t)(equals - word), i = 0;
    uint64_t us;

    while (i < TIMES && (strlen(time_names[i]) != n || memcmp(time_names[i], word, n) != 0))
        i++;
    if (i == TIMES)
        argp_error(state, "--time %s: the times are status, page, sector, block, chip, half, sleep, wake and sign", word);
    else if (equals == NULL || !read_number(equals + 1, LONGEST_TIME, &us) || us == 0)
        argp_error(state, "--time %s: it is NAME=US, from 1 to %d microseconds", word, LONGEST_TIME);
    else
        o->time[i] = (uint32_t)us;
}

static error_t parse(int key, char *word, struct argp_state *state)
{
    struct chip_options *o = state->input;

    switch (key) {
    case 'm': read_model(o, word, state); return 0;
    case 't': read_time(o, word, state); return 0;
    case 's': o->strict = 1; return 0;
    case 'l': o->load = word; return 0;
    default: return ARGP_ERR_UNKNOWN;
    }
}

static const struct argp_option options[] = {
    {"model", 'm', "1|2|3", 0, "the chip: 1 KH25L512 (the default), 2 KH25L2006E, 3 KH25L12845G", 1},
    {"time", 't', "NAME=US", 0,
     "a time of the chip in microseconds in place of the data sheet's longest: status, page, sector, block, chip, half, sleep, wake or sign",
     1},
    {"strict", 's', NULL, 0, "refuse a page program over old data (19)", 1},
    {"load", 'l', "FILE", 0, "start with the cells of this image, as long as the chip, in place of FF", 1},
    {NULL, 0, NULL, 0, NULL, 0}};

const struct argp chip_argp = {options, parse, NULL, NULL, NULL, NULL, NULL};
