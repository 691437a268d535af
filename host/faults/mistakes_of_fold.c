/* Mistakes in what is said of a fold, and a fold that takes too much stack; the numbers go on from 21. */
#include "pod.h"

#include <string.h>

/* Where the bytes after the address end, counted from the page's start; 0 where there are none. */
static size_t end_of(const struct call *c)
{
    return c->frame_len < 5 ? 0 : c->frame[3] + c->frame_len - 4;
}

static int is_program(const struct call *c)
{
    return c->frame_len >= 5 && c->frame[0] == 0x02;
}

/* 21: never says fold. */
static uint32_t never_says_it(const struct call *c)
{
    uint32_t number = right_frame(c);

    *c->fold = 0;
    return number;
}

/* 22: says it of exactly 256 bytes from offset 0. */
static uint32_t says_it_of_a_page(const struct call *c)
{
    uint32_t number = right_frame(c);

    if (number == 0 && is_program(c) && c->frame[3] == 0 && end_of(c) == PAGE)
        *c->fold = 1;
    return number;
}

/* 23: says it of a refused program. */
static uint32_t says_it_when_refused(const struct call *c)
{
    uint32_t number = right_frame(c);

    if (number != 0 && is_program(c) && end_of(c) > PAGE)
        *c->fold = 1;
    return number;
}

/* 24: says it of a read across a page's end. */
static uint32_t says_it_of_a_read(const struct call *c)
{
    uint32_t number = right_frame(c);

    if (number == 0 && c->frame[0] == 0x03 && end_of(c) > PAGE)
        *c->fold = 1;
    return number;
}

/* 25: right in all, but folds into a copy of the page data on the stack. */
static uint32_t copies_the_page(const struct call *c)
{
    uint8_t copy[PAGE];
    uint32_t number = right_frame(c);
    size_t n, i;

    if (number != 0 || !is_program(c))
        return number;
    memset(copy, 0xFF, PAGE);
    n = c->frame_len - 4;
    for (i = n > PAGE ? n - PAGE : 0; i < n; i++)
        copy[(c->frame[3] + i) % PAGE] = c->frame[4 + i];
    memcpy(c->state + DATA_AT, copy, PAGE);
    return 0;
}

const struct pod mistakes_of_fold[MISTAKES_OF_FOLD] = {
    {.frame = never_says_it}, {.frame = says_it_of_a_page}, {.frame = says_it_when_refused},
    {.frame = says_it_of_a_read}, {.frame = copies_the_page}};
