/* Text written to a file or to standard output, in large pieces. */
#ifndef OUT_H
#define OUT_H

#include <stddef.h>
#include <stdint.h>

enum { OUT_ROOM = 1 << 16 };

struct out {
    int fd;
    const char *name; /* what a failure is said of */
    int failed;       /* a write failed, and that was said: nothing more is written */
    size_t used;
    char buffer[OUT_ROOM];
};

void out_start(struct out *o, int fd, const char *name);

void put_bytes(struct out *o, const void *bytes, size_t n);
void put_text(struct out *o, const char *text);
void put_number(struct out *o, uint64_t number);
void put_hex(struct out *o, const uint8_t *bytes, size_t n);

/* So many times one character. */
void put_run(struct out *o, char c, size_t n);

/* A number at the right end of so many columns. */
void put_right(struct out *o, size_t width, uint64_t number);

/* A number and its word, with an s where it is not 1: 3 folds. */
void put_counted(struct out *o, uint64_t number, const char *word);

/* What is left in the buffer is written: WELL, or COULD_NOT where any write has failed. */
int out_flush(struct out *o);

/* All bytes to a file: 0, or -1 with errno. */
int write_all(int fd, const void *bytes, size_t n);

#endif
