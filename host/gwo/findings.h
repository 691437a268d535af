/* What gwo check finds: in words for people, or as JSON. */
#ifndef FINDINGS_H
#define FINDINGS_H

#include "options.h"
#include "out.h"
#include "pairs.h"
#include "play.h"

struct findings {
    struct out *out;
    const struct chip_options *chip;
    int json;
    int named;          /* several scripts: each line names its own */
    const char *script; /* the one that is looked at */
    struct tally tally;
    uint64_t shown; /* findings of it so far */
    uint64_t scripts, clean, found, not_judged;
};

void findings_start(struct findings *f, struct out *out, const struct chip_options *chip, int named);

void findings_begin(struct findings *f, const char *script);

/* A line that folded, was refused or is not well formed; of the last kind the first ten are shown. */
void put_finding(struct findings *f, const struct pair *p);

/* The summary of a script; whole says whether it could be read to its end. */
void findings_end(struct findings *f, int whole);

/* The summary of all: WELL, FOUND, or COULD_NOT where one could not be judged. */
int findings_conclude(struct findings *f);

#endif
