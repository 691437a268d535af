#include "wire.h"

#include <errno.h>
#include <poll.h>
#include <string.h>
#include <time.h>
#include <unistd.h>

enum { PATIENCE_MS = 30000, FOR_EVER = -1 };

void wire_start(struct wire *w, int in_fd, int out_fd, int stop_fd)
{
    w->in_fd = in_fd;
    w->out_fd = out_fd;
    w->stop_fd = stop_fd;
    w->at = w->n = 0;
}

/* Until the connection has one of the events. */
static enum wire_state wait_for(const struct wire *w, int fd, short events, int ms)
{
    struct pollfd both[2] = {{fd, events, 0}, {w->stop_fd, POLLIN, 0}};
    int ready;

    do
        ready = poll(both, 2, ms);
    while (ready < 0 && errno == EINTR);
    if (ready > 0 && both[1].revents != 0)
        return WIRE_STOPPED;
    return ready > 0 ? WIRE_WELL : WIRE_GONE;
}

/* The buffer is empty: more bytes, at least one. */
static enum wire_state refill(struct wire *w, int ms)
{
    enum wire_state state = wait_for(w, w->in_fd, POLLIN, ms);
    ssize_t got;

    if (state != WIRE_WELL)
        return state;
    do
        got = read(w->in_fd, w->in, sizeof w->in);
    while (got < 0 && errno == EINTR);
    if (got < 0 && (errno == EAGAIN || errno == EWOULDBLOCK))
        return WIRE_WELL; /* nothing yet, after all */
    if (got <= 0)
        return WIRE_GONE;
    w->at = 0;
    w->n = (size_t)got;
    return WIRE_WELL;
}

/* What is at hand, up to n bytes; `to` may be NULL. */
static size_t take(struct wire *w, uint8_t *to, size_t n)
{
    size_t part = w->n - w->at < n ? w->n - w->at : n;

    if (to != NULL && part > 0)
        memcpy(to, w->in + w->at, part);
    w->at += part;
    return part;
}

static enum wire_state read_or_skip(struct wire *w, uint8_t *to, size_t n, int ms)
{
    size_t got = take(w, to, n);

    while (got < n) {
        enum wire_state state = refill(w, ms);

        if (state != WIRE_WELL)
            return state;
        got += take(w, to == NULL ? NULL : to + got, n - got);
    }
    return WIRE_WELL;
}

enum wire_state wire_first(struct wire *w, uint8_t *byte)
{
    return read_or_skip(w, byte, 1, FOR_EVER);
}

enum wire_state wire_read(struct wire *w, void *to, size_t n)
{
    return read_or_skip(w, to, n, PATIENCE_MS);
}

enum wire_state wire_skip(struct wire *w, size_t n)
{
    return read_or_skip(w, NULL, n, PATIENCE_MS);
}

enum wire_state wire_write(struct wire *w, const void *bytes, size_t n)
{
    const uint8_t *at = bytes;

    while (n > 0) {
        ssize_t wrote = write(w->out_fd, at, n);

        if (wrote < 0 && errno != EINTR && errno != EAGAIN && errno != EWOULDBLOCK)
            return WIRE_GONE;
        if (wrote > 0) {
            at += wrote;
            n -= (size_t)wrote;
        } else {
            enum wire_state state = wait_for(w, w->out_fd, POLLOUT, PATIENCE_MS);

            if (state != WIRE_WELL)
                return state;
        }
    }
    return WIRE_WELL;
}

/* Milliseconds since some moment. */
static int64_t now_ms(void)
{
    struct timespec t;

    clock_gettime(CLOCK_MONOTONIC, &t);
    return (int64_t)t.tv_sec * 1000 + t.tv_nsec / 1000000;
}

/* What is over whole milliseconds is slept; nobody can be waited for in so short a time. */
enum wire_state wire_rest(struct wire *w, uint64_t us)
{
    const int64_t end = now_ms() + (int64_t)(us / 1000);
    struct timespec rest = {0, (long)(us % 1000) * 1000};
    int64_t left;

    while ((left = end - now_ms()) > 0) {
        struct pollfd both[2] = {{w->in_fd, POLLRDHUP, 0}, {w->stop_fd, POLLIN, 0}};

        if (poll(both, 2, left > 1000 ? 1000 : (int)left) > 0)
            return both[1].revents != 0 ? WIRE_STOPPED : WIRE_GONE;
    }
    nanosleep(&rest, NULL);
    return WIRE_WELL;
}
