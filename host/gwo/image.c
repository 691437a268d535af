#include "image.h"

#include "out.h"
#include "say.h"

#include <errno.h>
#include <fcntl.h>
#include <libgen.h>
#include <stdio.h>
#include <stdlib.h>
#include <string.h>
#include <sys/stat.h>
#include <unistd.h>

/* Up to `room` bytes; how many there were, or -1 with errno. */
static ssize_t read_up_to(int fd, uint8_t *to, size_t room)
{
    size_t n = 0;

    while (n < room) {
        ssize_t got = read(fd, to + n, room - n);

        if (got < 0 && errno == EINTR)
            continue;
        if (got < 0)
            return -1;
        if (got == 0)
            break;
        n += (size_t)got;
    }
    return (ssize_t)n;
}

/* An image of another length, with both lengths; of a pipe that goes on nobody knows how long it is. */
static int other_length(const char *path, int fd, size_t got, size_t length, const char *chip)
{
    struct stat about;

    if (fstat(fd, &about) == 0 && S_ISREG(about.st_mode))
        return could_not("%s has %lld bytes, and a %s has %zu: nothing was run", path, (long long)about.st_size, chip,
                         length);
    return could_not("%s has %s%zu bytes, and a %s has %zu: nothing was run", path, got > length ? "over " : "",
                     got > length ? length : got, chip, length);
}

static int load_from(const char *path, int fd, uint8_t *cells, size_t length, const char *chip)
{
    ssize_t got = read_up_to(fd, cells, length), more = 0;
    uint8_t beyond[1];

    if (got == (ssize_t)length)
        more = read_up_to(fd, beyond, 1);
    if (got < 0 || more < 0)
        return refused_by_system(path);
    if ((size_t)got + (size_t)more != length)
        return other_length(path, fd, (size_t)got + (size_t)more, length, chip);
    return WELL;
}

int image_load(const char *path, uint8_t *cells, size_t length, const char *chip)
{
    int fd = open(path, O_RDONLY | O_CLOEXEC), status;

    if (fd < 0)
        return refused_by_system(path);
    status = load_from(path, fd, cells, length, chip);
    close(fd);
    return status;
}

/* The file itself where the path is a link; NULL with errno. A file that is not there yet is where the path says. */
static char *target_of(const char *path)
{
    char *target = realpath(path, NULL);

    return target == NULL && errno == ENOENT ? strdup(path) : target;
}

/* The folder that it stands in has to be writable, and what stands there a file. */
static int possible_at(const char *target)
{
    struct stat about;
    char *copy = strdup(target);
    int well = copy != NULL && access(dirname(copy), W_OK | X_OK) == 0;

    if (well && stat(target, &about) == 0 && !S_ISREG(about.st_mode)) {
        errno = S_ISDIR(about.st_mode) ? EISDIR : EINVAL;
        well = 0;
    }
    free(copy);
    return well;
}

int save_possible(const char *path)
{
    char *target = *path == 0 ? NULL : target_of(path);
    int well;

    if (*path == 0)
        errno = ENOENT;
    well = target != NULL && possible_at(target);
    free(target);
    if (well)
        return WELL;
    if (errno == EINVAL)
        return could_not("%s: it is not a file, so it cannot be written whole", path);
    return refused_by_system(path);
}

/* As the file that was there, or as the user's mask makes a new one. */
static mode_t mode_for(const char *target)
{
    struct stat about;
    mode_t mask;

    if (stat(target, &about) == 0)
        return about.st_mode & 0777;
    mask = umask(0);
    umask(mask);
    return 0666 & ~mask;
}

/* All bytes, and on the disk; the new file is closed either way. */
static int fill(int fd, const void *bytes, size_t n, mode_t mode)
{
    int well = write_all(fd, bytes, n) == 0 && fchmod(fd, mode) == 0 && (fsync(fd) == 0 || errno == EINVAL);
    int kept = errno;

    if (close(fd) != 0 && well) {
        kept = errno;
        well = 0;
    }
    errno = kept;
    return well;
}

static int save_at(const char *target, const void *bytes, size_t n)
{
    size_t room = strlen(target) + sizeof ".XXXXXX";
    char *beside = malloc(room);
    int fd, well = 0, kept = ENOMEM;

    if (beside == NULL)
        return 0;
    snprintf(beside, room, "%s.XXXXXX", target);
    fd = mkstemp(beside);
    if (fd >= 0) {
        well = fill(fd, bytes, n, mode_for(target)) && rename(beside, target) == 0;
        kept = errno;
        if (!well)
            unlink(beside);
        errno = kept;
    }
    kept = errno;
    free(beside);
    errno = kept;
    return well;
}

int save_whole(const char *path, const void *bytes, size_t n)
{
    char *target = target_of(path);
    int well = target != NULL && save_at(target, bytes, n), kept = errno;

    free(target);
    errno = kept;
    return well ? WELL : refused_by_system(path);
}
