#include "out.h"

#include "say.h"

#include <errno.h>
#include <string.h>
#include <unistd.h>

int write_all(int fd, const void *bytes, size_t n)
{
    const char *at = bytes;

    while (n > 0) {
        ssize_t wrote = write(fd, at, n);

        if (wrote < 0 && errno != EINTR)
            return -1;
        if (wrote > 0) {
            at += wrote;
            n -= (size_t)wrote;
        }
    }
    return 0;
}

void out_start(struct out *o, int fd, const char *name)
{
    o->fd = fd;
    o->name = name;
    o->failed = 0;
    o->used = 0;
}

int out_flush(struct out *o)
{
    if (!o->failed && write_all(o->fd, o->buffer, o->used) != 0) {
        o->failed = 1;
        refused_by_system(o->name);
    }
    o->used = 0;
    return o->failed ? COULD_NOT : WELL;
}

void put_bytes(struct out *o, const void *bytes, size_t n)
{
    const char *at = bytes;

    while (n > 0) {
        size_t part = OUT_ROOM - o->used;

        if (part > n)
            part = n;
        memcpy(o->buffer + o->used, at, part);
        o->used += part;
        at += part;
        n -= part;
        if (o->used == OUT_ROOM)
            out_flush(o);
    }
}

void put_text(struct out *o, const char *text)
{
    put_bytes(o, text, strlen(text));
}

/* The digits from the right end of a room of 20; how many. */
static size_t digits_of(uint64_t number, char *end)
{
    size_t n = 0;

    do
        end[-(ptrdiff_t)++n] = (char)('0' + number % 10);
    while ((number /= 10) != 0);
    return n;
}

void put_number(struct out *o, uint64_t number)
{
    char digits[20], *end = digits + sizeof digits;
    size_t n = digits_of(number, end);

    put_bytes(o, end - n, n);
}

void put_right(struct out *o, size_t width, uint64_t number)
{
    char digits[20], *end = digits + sizeof digits;
    size_t n = digits_of(number, end);

    if (n < width)
        put_run(o, ' ', width - n);
    put_bytes(o, end - n, n);
}

void put_counted(struct out *o, uint64_t number, const char *word)
{
    put_number(o, number);
    put_text(o, " ");
    put_text(o, word);
    if (number != 1)
        put_text(o, "s");
}

void put_run(struct out *o, char c, size_t n)
{
    char run[64];

    memset(run, c, sizeof run);
    for (; n > sizeof run; n -= sizeof run)
        put_bytes(o, run, sizeof run);
    put_bytes(o, run, n);
}

void put_hex(struct out *o, const uint8_t *bytes, size_t n)
{
    static const char digits[] = "0123456789ABCDEF";
    char part[2 * 256];
    size_t i, k;

    for (i = 0; i < n; i += k) {
        for (k = 0; k < 256 && i + k < n; k++) {
            part[2 * k] = digits[bytes[i + k] >> 4];
            part[2 * k + 1] = digits[bytes[i + k] & 15];
        }
        put_bytes(o, part, 2 * k);
    }
}
