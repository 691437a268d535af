/*
 * Histories: many calls of one chip from power-on, with a wear table from the factory, each on what the last one left
 * and most of them at one place, so that they meet. What is lent is never spoilt. And what was met of them.
 */
#include "compare.h"

#include <stdio.h>
#include <string.h>

enum { LENGTH = 500, SELDOM = 4000 };

/* The calls that are left of the history that runs, its record, and the place that it works at. */
static unsigned calls_left;
static struct gwo_record record;
static uint32_t place;

/* By model: histories that came to their end, operations that were begun in one, and the most in one. */
static unsigned long ended[MODELS + 1], most_begun[MODELS + 1], begun;

/* The models by turns. */
static void begin(void)
{
    uint8_t p[STATE];
    uint32_t chip = record.model % MODELS + 1;

    calls_left = LENGTH;
    begun = 0;
    do
        valid_record(&record);
    while (record.model != chip);
    place = any_address(record.model);
    memset(p, 0, sizeof p);
    put_operation(p, NO_COMMAND, NOWHERE);
    memcpy(last_of(&model.state, STATE), p, STATE);
    memcpy(last_of(&ours.state, STATE), p, STATE);
    factory_counts();
}

/* A chip that is busy or settles is often waited for. */
int in_history(struct call *c)
{
    const uint8_t *p = last_of(&model.state, STATE);

    if (calls_left == 0 && below(&dice, SELDOM) == 0)
        begin();
    if (calls_left == 0)
        return 0;
    calls_left--;
    if (get_us(p + BUSY_AT) + get_us(p + SETTLING_AT) > 0 && chance(&dice, 40))
        c->kind = WAIT;
    c->history = 1;
    c->record = record;
    c->state_len = STATE;
    c->array_len = gwo_array_length(record.model);
    c->wear_len = gwo_sector_count(record.model);
    return 1;
}

/* Around its place, and now and then anywhere. */
uint32_t address_in_history(void)
{
    return chance(&dice, 15) ? any_address(record.model) : (place + below(&dice, 17) - 8) & 0xFFFFFF;
}

/* A chip that sleeps is often woken, and one that is idle often enabled; otherwise any command. */
uint8_t command_in_history(uint8_t any)
{
    const uint8_t *p = last_of(&model.state, STATE);

    if (p[1] != 0 && chance(&dice, 60))
        return 0xAB;
    return (p[0] & 3) == 0 && chance(&dice, 60) ? 0x06 : any;
}

void note_history(const struct call *c, uint32_t number)
{
    uint32_t chip = c->record.model;

    if (!c->history)
        return;
    begun += c->kind == FRAME && number == 0 && us_of(&c->record, *last_of(&model.frame, c->frame_len)) > 0;
    if (calls_left > 0)
        return;
    ended[chip]++;
    if (begun > most_begun[chip])
        most_begun[chip] = begun;
}

void history_met(uint32_t chip)
{
    printf("  histories of %d calls: %lu, up to %lu operations in one\n", LENGTH, ended[chip], most_begun[chip]);
    if (most_begun[chip] < LENGTH / 20)
        fail("model %lu: no history has %d operations", (unsigned long)chip, LENGTH / 20);
}
