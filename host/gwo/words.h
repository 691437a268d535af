/* A line of a script in words, for people: nothing is judged by them. */
#ifndef WORDS_H
#define WORDS_H

#include "fault.h"
#include "out.h"

#include <stddef.h>
#include <stdint.h>

/* What a line is about. */
struct told {
    char kind;          /* F, W or P; 0 where the text is no such line */
    unsigned wp, tail;  /* of a frame */
    size_t length;      /* bytes in the frame */
    unsigned command;   /* its first byte */
    const char *name;   /* of the command */
    int unknown;        /* no command of this chip */
    int addressed;      /* it has an address */
    uint32_t address;
    int counted;        /* it has data that are counted */
    size_t count;
    size_t past;        /* of a page program: data bytes past the page's end */
    struct text digits; /* of a frame its hex, of a wait its microseconds */
};

/* Reads a line; the text may be anything. */
struct told tell_line(uint32_t model, struct text line);

/* In words: 02 page program at 0020F8, 16 bytes. */
void put_told(struct out *o, const struct told *t);

#endif
