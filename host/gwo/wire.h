/* The connection to a client: bytes in and out, with an end to patience, and with an eye on Ctrl-C. */
#ifndef WIRE_H
#define WIRE_H

#include <stddef.h>
#include <stdint.h>

enum { WIRE_ROOM = 1 << 16 };

/* What became of a read, a write or a wait. */
enum wire_state { WIRE_WELL, WIRE_GONE, WIRE_STOPPED };

struct wire {
    int in_fd, out_fd; /* a socket is both */
    int stop_fd;       /* can be read from when the server is to stop; -1: never */
    size_t at, n;      /* what of `in` is not used yet */
    uint8_t in[WIRE_ROOM];
};

void wire_start(struct wire *w, int in_fd, int out_fd, int stop_fd);

/* The first byte of a command, for which a client may take as long as it likes. */
enum wire_state wire_first(struct wire *w, uint8_t *byte);

/* Further bytes of a command; a client that takes over 30 s for one is gone. */
enum wire_state wire_read(struct wire *w, void *to, size_t n);

/* The same bytes, which nobody wants. */
enum wire_state wire_skip(struct wire *w, size_t n);

/* Bytes to the client; one that takes none for 30 s is gone. */
enum wire_state wire_write(struct wire *w, const void *bytes, size_t n);

/* So many microseconds go by, unless the client goes before. */
enum wire_state wire_rest(struct wire *w, uint64_t us);

#endif
