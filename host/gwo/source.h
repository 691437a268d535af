/* Text that is read from a file or from standard input, block after block. */
#ifndef SOURCE_H
#define SOURCE_H

#include <stddef.h>
#include <stdint.h>

enum { SOURCE_ROOM = 1 << 16 };

struct source {
    int fd;
    const char *name;
    uint64_t passed; /* bytes read so far */
    uint64_t length; /* of a file; 0 where nobody knows */
    size_t n;        /* bytes in the block */
    uint8_t block[SOURCE_ROOM];
};

/* Opens a file, or standard input for the name -: WELL, or COULD_NOT, which is said. */
int source_open(struct source *s, const char *path);

/* Reads the next block, n bytes: none at the end. WELL, or COULD_NOT, which is said. */
int source_read(struct source *s);

void source_close(struct source *s);

#endif
