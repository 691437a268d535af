/*
 * A fuzzer of everything that reads files: scripts by run, check and explain, a stored log by compare, a table by sfdp, a capture by pins, an image. The first byte says which, and
 * the rest is the file; for compare the script ends at the first byte 0.
 */
#include "commands.h"
#include "image.h"
#include "say.h"

#include <fcntl.h>
#include <stdio.h>
#include <stdlib.h>
#include <string.h>
#include <sys/mman.h>
#include <unistd.h>

int LLVMFuzzerTestOneInput(const uint8_t *data, size_t n);

/* Standard output and standard error go nowhere: what is said is not looked at. */
static void hush(void)
{
    static int hushed;
    int fd = hushed ? -1 : open("/dev/null", O_RDWR);

    while (fd >= 0 && fd <= STDERR_FILENO)
        fd = open("/dev/null", O_RDWR);
    if (!hushed)
        dup2(fd, STDOUT_FILENO);
    hushed = 1;
}

/* The bytes as a file; its path. */
static int file_of(const uint8_t *bytes, size_t n, char *path, size_t room)
{
    int fd = memfd_create("file", 0);

    if (fd < 0 || (n > 0 && write(fd, bytes, n) != (ssize_t)n))
        abort();
    snprintf(path, room, "/proc/self/fd/%d", fd);
    return fd;
}

/* A command with its words, and what it may end with. */
static void command(int (*start)(int, char **), const char *const *words, int argc)
{
    char *argv[8] = {NULL};
    int i, status;

    for (i = 0; i < argc; i++)
        argv[i] = (char *)(uintptr_t)words[i];
    status = start(argc, argv);
    if (status < WELL || status > COULD_NOT)
        abort();
}

static void compare(const uint8_t *data, size_t n)
{
    const uint8_t *end = memchr(data, 0, n);
    size_t script = end == NULL ? n : (size_t)(end - data), rest = end == NULL ? n : script + 1;
    char paths[2][40];
    const char *const words[] = {"compare", paths[0], paths[1]};
    int first = file_of(data, script, paths[0], sizeof paths[0]), second = file_of(data + rest, n - rest, paths[1], sizeof paths[1]);

    command(command_compare, words, 3);
    close(first);
    close(second);
}

/* An image that is as long as the chip, a byte shorter, or longer. */
static void image(const uint8_t *data, size_t n)
{
    char path[40];
    uint8_t *cells = malloc(n + 2);
    size_t length = n + 1 - (n > 0 ? data[0] % 3u : 1u);
    int fd = file_of(data, n, path, sizeof path);
    int status = cells == NULL ? COULD_NOT : image_load(path, cells, length, "chip");

    if (cells != NULL && (status == WELL) != (length == n))
        abort();
    free(cells);
    close(fd);
}

int LLVMFuzzerTestOneInput(const uint8_t *data, size_t n)
{
    static const char *const models[] = {"-m1", "-m2"};
    char path[40];
    const char *words[] = {"gwo", NULL, path, "--quiet"};
    int fd, which = n == 0 ? 0 : data[0];

    hush();
    if (n == 0)
        return 0;
    words[1] = which & 16 ? "--strict" : models[which >> 3 & 1];
    fd = file_of(data + 1, n - 1, path, sizeof path);
    switch (which & 7) {
    case 0: command(command_run, words, 4); break;
    case 1: command(command_check, words, 3); break;
    case 2: words[3] = which & 32 ? "--sent" : "--rate=1M"; command(command_pins, words, 4); break;
    case 3: words[1] = "--json"; command(command_check, words, 3); break;
    case 4: command(command_explain, words, 3); break;
    case 5: words[1] = path; command(command_sfdp, words, 2); break;
    case 6: compare(data + 1, n - 1); break;
    default: image(data + 1, n - 1); break;
    }
    close(fd);
    return 0;
}
