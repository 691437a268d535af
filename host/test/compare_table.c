/* What the random calls met of 5A. */
#include "compare.h"

#include <stdio.h>

enum { TABLE = 112, LAST = 0x1000000 };

/* Of those that were taken: where they began and ended. Of the others: how they were refused. */
enum met { NOTHING, INSIDE, TO_THE_END, ACROSS, PAST, PAST_THE_LAST, SHORT, BUSY, ASLEEP, SETTLING, KINDS_MET };
static unsigned long met[KINDS_MET], unknown[MODELS + 1];

static enum met taken(uint32_t address, size_t n)
{
    if (n == 0)
        return NOTHING;
    if (address >= TABLE)
        return address + n > LAST ? PAST_THE_LAST : PAST;
    return address + n < TABLE ? INSIDE : address + n == TABLE ? TO_THE_END : ACROSS;
}

static void note_model_2(const struct call *c, uint32_t number)
{
    switch (number) {
    case 0: met[taken(addressed(c), c->frame_len - 5)]++; break;
    case 14: met[SHORT]++; break;
    case 11: met[BUSY]++; break;
    case 12: met[ASLEEP]++; break;
    case 22: met[SETTLING]++; break;
    }
}

void note_table(const struct call *c, uint32_t number)
{
    if (c->kind != FRAME || c->frame_len == 0 || *last_of(&model.frame, c->frame_len) != 0x5A)
        return;
    if (c->record.model == 2)
        note_model_2(c, number);
    else if (c->record.model <= MODELS)
        unknown[c->record.model] += number == 13;
}

void tables_met(void)
{
    static const char *const names[KINDS_MET] = {
        "no byte", "inside the table", "to its end", "across its end", "past it", "past the last address", "too short",
        "busy", "asleep", "settling"};
    int i;

    printf("  5A on model 2:");
    for (i = 0; i < KINDS_MET; i++) {
        printf("%s %s: %lu", i == 0 ? "" : ",", names[i], met[i]);
        if (met[i] == 0)
            fail("5A on model 2 was never met so: %s", names[i]);
    }
    printf("; 13 on model 1: %lu, on model 3: %lu\n", unknown[1], unknown[3]);
    if (unknown[1] == 0 || unknown[3] == 0)
        fail("5A was never answered 13 on models 1 and 3");
}
