#include "source.h"

#include "say.h"

#include <errno.h>
#include <fcntl.h>
#include <string.h>
#include <sys/stat.h>
#include <unistd.h>

int source_open(struct source *s, const char *path)
{
    struct stat about;
    int standard = strcmp(path, "-") == 0;

    s->name = standard ? "standard input" : path;
    s->passed = s->length = 0;
    s->n = 0;
    s->fd = standard ? STDIN_FILENO : open(path, O_RDONLY | O_CLOEXEC);
    if (s->fd < 0)
        return refused_by_system(path);
    if (fstat(s->fd, &about) == 0 && S_ISREG(about.st_mode) && about.st_size > 0)
        s->length = (uint64_t)about.st_size;
    return WELL;
}

int source_read(struct source *s)
{
    ssize_t got;

    do
        got = read(s->fd, s->block, sizeof s->block);
    while (got < 0 && errno == EINTR);
    if (got < 0)
        return refused_by_system(s->name);
    s->n = (size_t)got;
    s->passed += s->n;
    return WELL;
}

void source_close(struct source *s)
{
    if (s->fd > STDERR_FILENO)
        close(s->fd);
}
