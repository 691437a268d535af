/*
 * The table of the decided page and its sentences, by pictures of the pins: a digit a sample, 1 for high. What the front remembers after
 * them is compared; the same by single samples and in one run.
 */
#include "pins.h"

#include <stdio.h>
#include <string.h>

/* A picture that is missing: SI is low, WP# and HOLD# are high. */
struct picture {
    const char *name, *cs, *sclk, *si, *wp, *hold;
    uint8_t front[4]; /* its first three bytes, and the low one of the whole bytes */
};

/* In front[0]: */
enum { HIGH = 1, CLOCK = 2, HELD = 4, FALL_WP = 8 };

static const struct picture pictures[] = {
    /* before the first sample */
    {"before the first sample CS# is high, SCLK low, nothing held", "", "", 0, 0, 0, {HIGH, 0, 0, 0}},
    {"a capture that begins with CS# low begins with a fall", "0", "0", 0, 0, 0, {FALL_WP, 0, 0, 0}},
    {"no clock edge counts in the first sample of such a capture", "0", "1", "1", 0, 0, {FALL_WP | CLOCK, 0, 0, 0}},
    {"before the first sample nothing is held", "1", "1", 0, 0, "0", {HIGH | CLOCK, 0, 0, 0}},
    /* high, high */
    {"CS# stays high: nothing happens", "11111", "01010", "11111", 0, 0, {HIGH, 0, 0, 0}},
    {"CS# stays high: SCLK is remembered", "1111", "0101", "1111", 0, 0, {HIGH | CLOCK, 0, 0, 0}},
    /* high, low */
    {"the fall: no byte, no bit", "10", "00", "11", 0, 0, {FALL_WP, 0, 0, 0}},
    {"WP# is the level in the sample of the fall", "1100", "0000", 0, "0010", 0, {FALL_WP, 0, 0, 0}},
    {"WP# before the fall and after it is not looked at", "1100", "0000", 0, "1101", 0, {0, 0, 0, 0}},
    {"no clock edge counts in the sample of the fall", "10", "01", "11", 0, 0, {FALL_WP | CLOCK, 0, 0, 0}},
    {"a clock that is high when CS# falls takes no bit until it has been low", "110000", "111101", "111111", 0, 0,
     {FALL_WP | CLOCK, 1, 1, 0}},
    /* low, low */
    {"a rising clock takes one bit", "1000", "0001", "0001", 0, 0, {FALL_WP | CLOCK, 1, 1, 0}},
    {"the bit is SI's level in that sample", "10000", "00001", "11110", 0, 0, {FALL_WP | CLOCK, 1, 0, 0}},
    {"a clock that stays high takes no further bit", "100000", "000111", "000101", 0, 0, {FALL_WP | CLOCK, 1, 1, 0}},
    {"a falling clock takes no bit", "10000", "00010", "00010", 0, 0, {FALL_WP, 1, 1, 0}},
    {"the high bit first", "10000000", "00010101", "00010001", 0, 0, {FALL_WP | CLOCK, 3, 5, 0}},
    {"two samples a bit", "1000000", "0010101", "0010011", 0, 0, {FALL_WP | CLOCK, 3, 5, 0}},
    {"the eighth bit makes a byte", "100000000000000000", "001010101010101010", "001000001000001000", 0, 0, {FALL_WP, 0, 0, 1}},
    /* held */
    {"SCLK low: held exactly if HOLD# is low", "11", "00", 0, 0, "10", {HIGH | HELD, 0, 0, 0}},
    {"SCLK low: not held if HOLD# is high", "111", "000", 0, 0, "101", {HIGH, 0, 0, 0}},
    {"SCLK high: held goes on though HOLD# is high", "111", "011", 0, 0, "011", {HIGH | CLOCK | HELD, 0, 0, 0}},
    {"SCLK high: HOLD# low holds nothing", "111", "011", 0, 0, "100", {HIGH | CLOCK, 0, 0, 0}},
    {"held whatever CS# is", "1000", "0000", 0, 0, "1110", {FALL_WP | HELD, 0, 0, 0}},
    {"a rising clock in a held sample takes no bit", "10000", "00001", "00001", 0, "11100", {FALL_WP | CLOCK | HELD, 0, 0, 0}},
    {"HOLD# that rises with the clock does not end the hold", "10000", "00001", "00001", 0, "11101", {FALL_WP | CLOCK | HELD, 0, 0, 0}},
    {"HOLD# that falls with the clock's rise does not begin one", "1000", "0001", "0001", 0, "1110", {FALL_WP | CLOCK, 1, 1, 0}},
    {"HOLD# low while SCLK is high: the hold begins with SCLK low", "1000000", "0001101", "0001111", 0, "1111000",
     {FALL_WP | CLOCK | HELD, 1, 1, 0}},
    {"HOLD# low and high again while SCLK is high is no hold", "10000000", "00111101", "00100001", 0, "11101111",
     {FALL_WP | CLOCK, 2, 3, 0}},
    {"HOLD# high while SCLK is high: the hold ends with SCLK low", "10000000", "00001101", "00001111", 0, "11100111",
     {FALL_WP | CLOCK, 1, 1, 0}},
    {"a hold within SCLK low takes nothing away", "1000000", "0000001", "0000001", 0, "1110011", {FALL_WP | CLOCK, 1, 1, 0}},
    {"bits begun stay through a hold", "10000000000000", "00101010101001", "00100011111001", 0, "11111100000111",
     {FALL_WP | CLOCK, 4, 11, 0}},
    {"the first bit after a hold is taken", "10000000", "00001001", "00001001", 0, "11000111", {FALL_WP | CLOCK, 1, 1, 0}},
    {"the fall's own sample held, HOLD# low before", "1100", "0001", "0001", 0, "0001", {FALL_WP | CLOCK | HELD, 0, 0, 0}},
    {"the fall's own sample held, HOLD# falls there", "1100", "0001", "0001", 0, "1101", {FALL_WP | CLOCK | HELD, 0, 0, 0}},
    {"a hold of before the fall, SCLK high: no bit until SCLK was low", "1110000", "0111101", "0000001", 0, "0111111",
     {FALL_WP | CLOCK, 1, 1, 0}},
    /* low, high, and after */
    {"the rise leaves the front idle", "100001", "001010", "001010", 0, 0, {HIGH, 0, 0, 0}},
    {"no clock edge counts in the sample of the rise", "1001", "0001", "0001", 0, 0, {HIGH | CLOCK, 0, 0, 0}}};

static uint8_t bit(const char *picture, size_t i, uint32_t level, int missing)
{
    return (uint8_t)((picture == NULL ? missing : picture[i] == '1') ? level : 0u);
}

static size_t draw(const struct picture *p, uint8_t *levels)
{
    const size_t n = strlen(p->cs);
    size_t i;

    for (i = 0; i < n; i++)
        levels[i] = (uint8_t)(bit(p->cs, i, CS, 1) | bit(p->sclk, i, SCLK, 0) | bit(p->si, i, SI, 0) | bit(p->wp, i, WP, 1) |
                              bit(p->hold, i, HOLD, 1));
    return n;
}

static void front_is(const struct desk *d, const struct picture *p, const char *how)
{
    const uint8_t want[FRONT] = {p->front[0], p->front[1], p->front[2], 0, p->front[3], 0, 0, 0};
    char label[160];

    snprintf(label, sizeof label, "%s, %s", p->name, how);
    same_bytes(d->front, want, 0, FRONT, "front", label);
}

/* Every picture is as long as its first line. */
static int drawn_well(const struct picture *p)
{
    const char *const lines[] = {p->sclk, p->si, p->wp, p->hold};
    size_t i;

    for (i = 0; i < sizeof lines / sizeof lines[0]; i++)
        if (lines[i] != NULL && strlen(lines[i]) != strlen(p->cs))
            return 0;
    return 1;
}

static void show(const struct picture *p, uint32_t above)
{
    uint8_t levels[64];
    struct desk d = fresh_desk(300);
    size_t n = draw(p, levels), i;

    if (!drawn_well(p))
        fail("%s: the picture's lines differ in length", p->name);
    for (i = 0; i < n; i++)
        one_sample(&d, levels[i] | above);
    front_is(&d, p, above == 0 ? "by samples" : "with higher bits");
    d = fresh_desk(300);
    for (i = 0; i < n; i++)
        levels[i] |= (uint8_t)above;
    for (i = 0; i < n;)
        i += run_samples(&d, levels + i, n - i).used;
    front_is(&d, p, "in a run");
}

void steps(void)
{
    size_t i;

    for (i = 0; i < sizeof pictures / sizeof pictures[0]; i++) {
        show(&pictures[i], 0);
        show(&pictures[i], 0xFFFFFFE0u);
    }
}
