/* Mistakes in the time that sleep takes; the numbers go on from 26. */
#include "pod.h"

#include <string.h>

enum { SETTLING_AT = 8, WIDTH = 4 };

static int is_settling(const struct call *c)
{
    static const uint8_t none[WIDTH];

    return c->state_len == GWO_STATE_LENGTH && memcmp(c->state + SETTLING_AT, none, WIDTH) != 0;
}

static void settle_for(const struct call *c, uint32_t us)
{
    int i;

    for (i = 0; i < WIDTH; i++)
        c->state[SETTLING_AT + i] = (uint8_t)(us >> 8 * i);
}

/* The frame as it would be on a settled chip; the time that is left stays, unless the frame sets it anew. */
static uint32_t as_settled(const struct call *c)
{
    uint8_t left[WIDTH];
    uint32_t number;

    memcpy(left, c->state + SETTLING_AT, WIDTH);
    memset(c->state + SETTLING_AT, 0, WIDTH);
    number = right_frame(c);
    if (!is_settling(c))
        memcpy(c->state + SETTLING_AT, left, WIDTH);
    return number;
}

/* 26: never says 22. */
static uint32_t never_says_22(const struct call *c)
{
    uint32_t number = right_frame(c);

    return number == 22 ? as_settled(c) : number;
}

/* 27: 22 comes before 10. */
static uint32_t refuses_no_command(const struct call *c)
{
    uint32_t number = right_frame(c);

    return number == 10 && is_settling(c) ? 22 : number;
}

/* 28: 05 is taken while settling. */
static uint32_t shows_its_status(const struct call *c)
{
    uint32_t number = right_frame(c);

    return number == 22 && c->frame[0] == 0x05 ? as_settled(c) : number;
}

/* 29: AB of a chip that was awake settles too. */
static uint32_t settles_awake(const struct call *c)
{
    int awake = c->state_len == GWO_STATE_LENGTH && c->state[1] == 0;
    uint32_t number = right_frame(c);

    if (number == 0 && awake && c->frame[0] == 0xAB)
        settle_for(c, c->frame_len == 1 ? c->record.wake_us : c->record.sign_us);
    return number;
}

/* 30: the short AB takes the long one's time. */
static uint32_t one_time_for_both(const struct call *c)
{
    uint32_t number = right_frame(c);

    if (number == 0 && c->frame[0] == 0xAB && is_settling(c))
        settle_for(c, c->record.sign_us);
    return number;
}

const struct pod mistakes_of_sleep[MISTAKES_OF_SLEEP] = {
    {.frame = never_says_22}, {.frame = refuses_no_command}, {.frame = shows_its_status}, {.frame = settles_awake},
    {.frame = one_time_for_both}};
