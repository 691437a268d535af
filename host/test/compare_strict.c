/*
 * The choice of the strict setting, and for programs that have it of cells that hold their bytes, all of them, all but
 * one bit, or all but those that are not reached; and what was met of it.
 */
#include "compare.h"

#include <stdio.h>

/* The page that a program aims at, in one of the arrays, and its data. */
struct program {
    uint8_t *page;
    const uint8_t *sent;
    size_t n;
    unsigned first; /* the offset of the first data byte */
};

/* False for a call that is no program, or whose array is not the chip's. */
static int program_of(const struct call *c, const struct side *s, struct program *p)
{
    uint8_t *frame = last_of(&s->frame, c->frame_len);

    if (c->kind != FRAME || c->frame_len < 5 || frame[0] != 0x02 || c->array_len == 0 ||
        c->array_len != gwo_array_length(c->record.model))
        return 0;
    p->page = last_of(&s->array, c->array_len) + addressed(c) % c->array_len / PAGE * PAGE;
    p->sent = frame + 4;
    p->n = c->frame_len - 4;
    p->first = frame[3];
    return 1;
}

/* The bytes one by one: where two go to one offset, the last stays. */
static void lay_bytes(const struct program *p, uint8_t more)
{
    size_t i;

    for (i = 0; i < p->n; i++)
        p->page[(p->first + i) % PAGE] = (uint8_t)(p->sent[i] | more);
}

/* One bit that is 1 in the last byte sent there becomes 0 in the cell: of any data byte, mostly one that counts. */
static void clear_a_bit(const struct program *p)
{
    size_t back = below(&dice, (uint32_t)(p->n > PAGE && chance(&dice, 90) ? PAGE : p->n)), i = p->n - 1 - back;

    p->page[(p->first + i) % PAGE] &= (uint8_t)~(p->sent[i] & (1u << below(&dice, 8)));
}

/* In both arrays alike: what is random is drawn once. */
static void fit_cells(const struct call *c)
{
    const uint8_t more = (uint8_t)(chance(&dice, 50) ? 0xFF : chance(&dice, 50) ? 0x00 : roll(&dice));
    const unsigned emptied = chance(&dice, 50), cleared = chance(&dice, 45);
    const struct dice before = dice;
    struct program p[2];
    int side, k;

    if (!program_of(c, &model, &p[0]) || !program_of(c, &ours, &p[1]))
        return;
    guard_lift(&over_array);
    for (side = 0; side < 2; side++) {
        dice = before;
        for (k = 0; k < PAGE && emptied; k++)
            p[side].page[k] = 0x00;
        lay_bytes(&p[side], more);
        if (cleared)
            clear_a_bit(&p[side]);
    }
}

void choose_strict(struct call *c)
{
    static const uint32_t on[] = {1, 1, 1, 1, 2, 256, 0x80000000, 0xFFFFFFFF};

    c->strict = chance(&dice, 50) ? ONE_OF(on) : 0;
    if (!c->history && chance(&dice, c->strict != 0 ? 70 : 10))
        fit_cells(c);
}

/* What was met, by model: strict programs that were taken, and those where a byte that does not count could mislead. */
enum way { TAKEN, FOLDED, EARLIER_WRONG, ONLY_LAST_WRONG, NOT_STRICT, WAYS };
static unsigned long met[MODELS + 1][WAYS];

/* Whether one of the bytes from one number to before another has a bit that its cell lacks. */
static int lacks(const struct program *p, size_t from, size_t to)
{
    size_t i;

    for (i = from; i < to; i++)
        if ((p->sent[i] & ~p->page[(p->first + i) % PAGE]) != 0)
            return 1;
    return 0;
}

/* A frame changes no cell, so that they are now as they were before it. */
void note_strict(const struct call *c, uint32_t number)
{
    uint32_t chip = c->record.model;
    struct program p;
    size_t that_count;

    if ((number != 0 && number != 19) || !program_of(c, &model, &p))
        return;
    that_count = p.n > PAGE ? p.n - PAGE : 0;
    if (c->strict == 0) {
        met[chip][NOT_STRICT] += lacks(&p, that_count, p.n);
        return;
    }
    met[chip][TAKEN] += number == 0;
    met[chip][FOLDED] += number == 0 && p.first + p.n > PAGE;
    met[chip][EARLIER_WRONG] += number == 0 && lacks(&p, 0, that_count);
    met[chip][ONLY_LAST_WRONG] += number == 19 && p.n > PAGE && !lacks(&p, 0, that_count);
}

void strict_met(uint32_t chip)
{
    static const char *const names[WAYS] = {"taken", "folded", "taken though an earlier byte does not fit",
                                            "19 though all earlier bytes fit", "taken since not strict"};
    int i;

    printf("  strict programs:");
    for (i = 0; i < WAYS; i++) {
        printf("%s %s:%lu", i == 0 ? "" : ",", names[i], met[chip][i]);
        if (met[chip][i] == 0)
            fail("model %lu: no strict program was %s", (unsigned long)chip, names[i]);
    }
    printf("\n");
}
