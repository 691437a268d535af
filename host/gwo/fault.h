/* What is wrong with a line of a script. */
#ifndef FAULT_H
#define FAULT_H

#include <stddef.h>

enum { MOST_LINE = 640, MOST_BYTES = 300, MOST_WORDS = 400 };

/* A piece of a file: a line without its newline, or a field of one. */
struct text {
    const char *at;
    size_t n;
};

/* 0 when the line is well formed; otherwise 1, and what is wrong with it in words, in a room of MOST_WORDS. */
int fault(struct text line, char *words);

/*
 * The text as one can read it, in at most `most` characters: a tab is |, other odd bytes \r, \0 or \xNN.
 * 0 where it is longer than that and ends in ..
 */
int readable(struct text t, size_t most, char *to);

#endif
