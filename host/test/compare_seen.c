/* What the random calls met, so that a run that tested too little is seen. */
#include "compare.h"

#include <stdio.h>
#include <string.h>

/* How often each number was answered to each kind of call, and each command accepted, by model. */
static unsigned long answered[MODELS + 1][KINDS][32], accepted[MODELS + 1][256];

/* How often each operation was brought to its end by a wait, and cut; of two data bytes 01 counts as TWO. */
enum { TWO = 0x00 };
static unsigned long completed[MODELS + 1][256], cut_short[MODELS + 1][256];

static void note_operation(const struct call *c, const uint8_t *state, uint32_t number)
{
    uint32_t busy = get_us(state + BUSY_AT);
    uint8_t command = state[COMMAND_AT] == 0x01 && get_place(state) == 2 ? TWO : state[COMMAND_AT];

    if ((c->kind != WAIT && c->kind != CUT) || number != 0 || busy == 0)
        return;
    completed[c->record.model][command] += c->kind == WAIT && c->us >= busy;
    cut_short[c->record.model][command] += c->kind == CUT;
}

/* Where accepted programs ended, seen from their page's end, by model. */
enum ending { BEFORE, AT, ONE_PAST, FURTHER_PAST, ENDINGS };
static unsigned long ended[MODELS + 1][ENDINGS];

/* How often the state of a call had 52 running on model 1 or 2, as an older program left it, by kind: it is no valid one. */
static unsigned long left_in_52[KINDS];

static void note_left(const struct call *c, const uint8_t *state, uint32_t number)
{
    if ((c->record.model == 1 || c->record.model == 2) && state[COMMAND_AT] == 0x52 && get_us(state + BUSY_AT) > 0 &&
        get_us(state + BUSY_AT) <= c->record.block_us)
        left_in_52[c->kind] += number == 3;
}

/* What only model 3 has, and how often it was met. */
enum rare { TWO_BYTES, TB_KEPT, REGISTER_WHILE_BUSY, TOP_REFUSED, BOTTOM_REFUSED, RARE };
static unsigned long met[RARE];

/* Counts what a frame on model 3 met, by the state before it; its packed bytes 0 and 2 have WIP and TB. */
static void note_rare(const struct call *c, const uint8_t *state, uint32_t number)
{
    const uint8_t *frame = last_of(&model.frame, c->frame_len);
    int tb = (state[2] & 0x08) != 0;

    if (number == 0 && frame[0] == 0x01 && c->frame_len == 3) {
        met[TWO_BYTES]++;
        met[TB_KEPT] += tb && (frame[2] & 0x08) == 0;
    }
    met[REGISTER_WHILE_BUSY] += number == 0 && frame[0] == 0x15 && (state[0] & 1) != 0;
    met[TOP_REFUSED] += number == 17 && !tb;
    met[BOTTOM_REFUSED] += number == 17 && tb;
}

/* The frames after which a chip settles: how often each was taken, answered 22, and followed by a 22. */
enum start { SLEEP, SHORT_WAKE, LONG_WAKE, STARTS };
static unsigned long started[STARTS], refused[STARTS], followed[STARTS];

static enum start start_of(const struct call *c)
{
    uint8_t command = c->kind == FRAME && c->frame_len > 0 ? *last_of(&model.frame, c->frame_len) : 0;

    if (command == 0xB9)
        return SLEEP;
    if (command != 0xAB || (c->frame_len > 1 && c->frame_len < 5))
        return STARTS;
    return c->frame_len == 1 ? SHORT_WAKE : LONG_WAKE;
}

/* By the state before the call and the one that the last start left; AB of a chip that was awake starts nothing. */
static void note_sleep(const struct call *c, const uint8_t *state, uint32_t number)
{
    static enum start last = STARTS;
    static uint8_t left[STATE];
    enum start start = start_of(c);

    if (number == 22 && last != STARTS && memcmp(state, left, STATE) == 0)
        followed[last]++;
    if (number == 22 && start != STARTS)
        refused[start]++;
    last = number == 0 && start != STARTS && (start == SLEEP || state[1] == 1) ? start : STARTS;
    if (last == STARTS)
        return;
    started[last]++;
    memcpy(left, last_of(&model.state, STATE), STATE);
}

static enum ending ending_of(const uint8_t *frame, size_t n)
{
    size_t end = frame[3] + n - 4;

    if (end <= PAGE)
        return end < PAGE ? BEFORE : AT;
    return end == PAGE + 1 ? ONE_PAST : FURTHER_PAST;
}

static void note_accepted(uint32_t chip, const uint8_t *frame, size_t n)
{
    accepted[chip][frame[0]]++;
    if (frame[0] == 0x02)
        ended[chip][ending_of(frame, n)]++;
}

void note(const struct call *c, const uint8_t *state, uint32_t number)
{
    uint32_t chip = c->record.model <= MODELS ? c->record.model : 0;

    answered[chip][c->kind][number % 32]++;
    note_sleep(c, state, number);
    note_left(c, state, number);
    note_operation(c, state, number);
    note_wear(c, number);
    note_strict(c, number);
    note_history(c, number);
    note_table(c, number);
    if (c->kind != FRAME || (number != 0 && number != 17))
        return;
    if (number == 0)
        note_accepted(chip, last_of(&model.frame, c->frame_len), c->frame_len);
    if (chip == 3)
        note_rare(c, state, number);
}

/* The numbers that a kind of call can be answered. */
static void numbers_met(uint32_t chip, enum kind kind, const uint8_t *numbers, size_t n)
{
    static const char *const names[KINDS] = {"frames", "waits", "power cycles", "cuts", "reports"};
    size_t i;

    printf("  model %lu, %s:", (unsigned long)chip, names[kind]);
    for (i = 0; i < n; i++) {
        printf(" %u:%lu", numbers[i], answered[chip][kind][numbers[i]]);
        if (answered[chip][kind][numbers[i]] == 0)
            fail("model %lu: number %u was never answered to %s", (unsigned long)chip, numbers[i], names[kind]);
    }
    printf("\n");
}

/* The last number of a frame, 21, is not model 3's. */
static void all_numbers_met(uint32_t chip)
{
    static const uint8_t frames[] = {0, 1, 2, 24, 3, 4, 5, 10, 22, 11, 12, 13, 14, 15, 16, 17, 19, 25, 21},
                         waits[] = {0, 1, 2, 3}, power_cycles[] = {0, 1, 3, 11}, cuts[] = {0, 1, 2, 3, 23},
                         reports[] = {0, 24};

    numbers_met(chip, FRAME, frames, sizeof frames - (chip == 3 ? 1 : 0));
    numbers_met(chip, WAIT, waits, sizeof waits);
    numbers_met(chip, POWER_CYCLE, power_cycles, sizeof power_cycles);
    numbers_met(chip, CUT, cuts, sizeof cuts);
    numbers_met(chip, REPORT, reports, sizeof reports);
}

/* The last two operations are model 3's. */
static void operations_met(uint32_t chip)
{
    static const uint8_t commands[] = {0x01, 0x02, 0x20, 0x60, 0xC7, 0xD8, 0x52, TWO};
    size_t i;

    printf("  completed, cut:");
    for (i = 0; i < sizeof commands - (chip == 3 ? 0 : 2); i++) {
        printf(" %02X:%lu,%lu", commands[i], completed[chip][commands[i]], cut_short[chip][commands[i]]);
        if (completed[chip][commands[i]] == 0 || cut_short[chip][commands[i]] == 0)
            fail("model %lu: %02X was never completed, or never cut", (unsigned long)chip, commands[i]);
    }
    printf("\n");
}

/* The last two commands are model 3's. */
static void commands_met(uint32_t chip)
{
    static const uint8_t commands[] = {0x01, 0x02, 0x03, 0x04, 0x05, 0x06, 0x0B, 0x20, 0x60,
                                       0x90, 0x9F, 0xAB, 0xB9, 0xC7, 0xD8, 0x52, 0x15};
    size_t i;

    printf("  accepted:");
    for (i = 0; i < sizeof commands - (chip == 3 ? 0 : 2); i++) {
        printf(" %02X:%lu", commands[i], accepted[chip][commands[i]]);
        if (accepted[chip][commands[i]] == 0)
            fail("model %lu: command %02X was never accepted", (unsigned long)chip, commands[i]);
    }
    printf("\n");
}

static void endings_met(uint32_t chip)
{
    static const char *const names[ENDINGS] = {"before", "at", "one past", "further past"};
    int i;

    printf("  programs, by where they ended from the page's end:");
    for (i = 0; i < ENDINGS; i++) {
        printf(" %s:%lu", names[i], ended[chip][i]);
        if (ended[chip][i] == 0)
            fail("model %lu: no program ended %s its page's end", (unsigned long)chip, names[i]);
    }
    printf("\n");
}

static void sleep_met(void)
{
    static const char *const names[STARTS] = {"B9", "AB of 1 byte", "AB of 5 bytes or more"};
    int i;

    printf("  taken and then settling, answered 22, followed by a 22:");
    for (i = 0; i < STARTS; i++) {
        printf(" %s:%lu,%lu,%lu", names[i], started[i], refused[i], followed[i]);
        if (started[i] == 0 || refused[i] == 0 || followed[i] == 0)
            fail("%s was never taken, never answered 22, or never followed by a 22", names[i]);
    }
    printf("\n");
}

static void left_met(void)
{
    static const struct { enum kind kind; const char *name; } kinds[] = {
        {FRAME, "frames"}, {WAIT, "waits"}, {POWER_CYCLE, "power cycles"}, {CUT, "cuts"}};
    size_t i;

    printf("  on a chip of models 1 and 2 in the middle of 52, answered 3:");
    for (i = 0; i < sizeof kinds / sizeof kinds[0]; i++) {
        printf(" %s:%lu", kinds[i].name, left_in_52[kinds[i].kind]);
        if (left_in_52[kinds[i].kind] == 0)
            fail("no chip in the middle of 52 was met by %s", kinds[i].name);
    }
    printf("\n");
}

void check_variety(void)
{
    static const char *const names[RARE] = {"01 with two data bytes", "01 that would clear TB", "15 while busy",
                                            "17 with TB 0", "17 with TB 1"};
    uint32_t chip;
    int i;

    for (chip = 1; chip <= MODELS; chip++) {
        all_numbers_met(chip);
        commands_met(chip);
        operations_met(chip);
        endings_met(chip);
        wear_met(chip);
        strict_met(chip);
        history_met(chip);
    }
    for (i = 0; i < RARE; i++) {
        printf("%s%s: %lu", i == 0 ? "  on model 3: " : ", ", names[i], met[i]);
        if (met[i] == 0)
            fail("%s was never met", names[i]);
    }
    printf("\n");
    sleep_met();
    left_met();
    tables_met();
}
