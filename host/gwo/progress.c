#include "progress.h"

#include <stdio.h>
#include <unistd.h>

/* Not where the log goes to a terminal too: its rows show how far it has come. */
struct progress progress_start(void)
{
    struct progress p = {0, 0, {0, 0}};

    p.wanted = isatty(STDERR_FILENO) && !isatty(STDOUT_FILENO);
    if (p.wanted)
        clock_gettime(CLOCK_MONOTONIC, &p.last);
    return p;
}

void progress_at(struct progress *p, uint64_t lines, const struct source *from)
{
    struct timespec now;

    if (!p->wanted || clock_gettime(CLOCK_MONOTONIC, &now) != 0 || now.tv_sec - p->last.tv_sec < 1 ||
        (now.tv_sec - p->last.tv_sec == 1 && now.tv_nsec < p->last.tv_nsec))
        return;
    p->last = now;
    p->shown = 1;
    fprintf(stderr, "\r%llu lines", (unsigned long long)lines);
    if (from->length > 0)
        fprintf(stderr, ", %llu %%", (unsigned long long)(100 * from->passed / from->length));
    fprintf(stderr, "\033[K");
    fflush(stderr);
}

void progress_end(struct progress *p)
{
    if (p->shown)
        fprintf(stderr, "\r\033[K");
}
