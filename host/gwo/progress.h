/* How far a long run has come, on standard error where that is a terminal. */
#ifndef PROGRESS_H
#define PROGRESS_H

#include "source.h"

#include <stdint.h>
#include <time.h>

struct progress {
    int shown, wanted;
    struct timespec last;
};

struct progress progress_start(void);

/* Called at every block; says something once a second. */
void progress_at(struct progress *p, uint64_t lines, const struct source *from);

/* Takes the line away. */
void progress_end(struct progress *p);

#endif
