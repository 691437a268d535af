/*
 * The thirteen calls: what each is answered, and what it leaves in the state, the output, the array and the wear table.
 * The array that matters is the one after the first wait, which may end what the chip was doing.
 */
#include "thirteen.h"

#include <string.h>

enum { STATE = GWO_STATE_LENGTH, PAGE = 256, SECTOR = 4096, MOST_FRAME = 4 + PAGE, UNSET = 0x77777777 };

/* SRWD and BP in the status byte; TB in the register. */
enum { KEPT = 0xBC, TB = 0x08 };

unsigned long runs;

static struct lent lent_state, lent_frame, lent_out, lent_numbers, lent_pattern;
static uint8_t *array;
static uint8_t cells_before[GWO_MODEL_3_LENGTH], cells_wanted[GWO_MODEL_3_LENGTH];
static struct lent lent_wear;
static uint32_t counts_before[GWO_MODEL_3_SECTORS], counts_wanted[GWO_MODEL_3_SECTORS];
static const struct run *now;
static int call_number;

/* SRWD, BP and WEL, and the register, after the first wait. */
static unsigned status_then, config_then;

/* The operation that runs while the chip is busy, as the state has it. */
static uint8_t running[STATE];

void put_state(uint8_t *p, unsigned status, unsigned asleep, unsigned config, uint32_t busy, uint32_t settling)
{
    memset(p, 0, STATE);
    p[0] = (uint8_t)(status + (busy > 0));
    p[1] = (uint8_t)asleep;
    p[2] = (uint8_t)config;
    put_us(p + BUSY_AT, busy);
    put_us(p + SETTLING_AT, settling);
    put_operation(p, NO_COMMAND, NOWHERE);
}

static void wrong(const char *what, unsigned long got, unsigned long want)
{
    const uint8_t *s = now->before;

    fail("model %lu, state %02X %02X %02X busy %lu settling %lu, %02X at %06lX, address %06lX, %lu bytes, "
         "wait %d shorter, cut %d: call %d: %s %lX, want %lX",
         (unsigned long)now->record.model, s[0], s[1], s[2], (unsigned long)get_us(s + BUSY_AT),
         (unsigned long)get_us(s + SETTLING_AT), s[COMMAND_AT], (unsigned long)get_place(s),
         (unsigned long)now->address, (unsigned long)now->n, now->shorter, now->cut, call_number, what, got, want);
}

static void wrong_bytes(const char *what, const uint8_t *got, const uint8_t *want, size_t n)
{
    size_t i;

    if (agree(got, want, n))
        return;
    for (i = 0; got[i] == want[i]; i++)
        continue;
    wrong(what, got[i], want[i]);
}

static void state_with(unsigned config, unsigned status, unsigned asleep, uint32_t busy, uint32_t settling)
{
    uint8_t want[STATE];

    put_state(want, status, asleep, config, busy, settling);
    if (busy > 0)
        memcpy(want + COMMAND_AT, running + COMMAND_AT, STATE - COMMAND_AT);
    wrong_bytes("the state has", last_of(&lent_state, STATE), want, STATE);
}

/* The register stays: a status write of one data byte does not touch it. */
static void state_is(unsigned status, unsigned asleep, uint32_t busy, uint32_t settling)
{
    state_with(config_then, status, asleep, busy, settling);
}

/* So many counts as the chip has sectors; the last of them ends at unmapped memory. */
static uint32_t *counts(void)
{
    return (uint32_t *)(void *)last_of(&lent_wear, gwo_sector_count(now->record.model) * sizeof(uint32_t));
}

static void same_counts(void)
{
    size_t n = gwo_sector_count(now->record.model), i = 0;
    const uint32_t *got = counts();

    if (agree((const uint8_t *)got, (const uint8_t *)counts_wanted, n * sizeof *got))
        return;
    while (got[i] == counts_wanted[i])
        i++;
    wrong("a count is", got[i], counts_wanted[i]);
}

/* Either, by the run and the call: in some runs all frames are strict, in some none, in the others every second way. */
static uint32_t strict_now(void)
{
    static const uint32_t masks[] = {0x0000, 0xFFFF, 0x5555, 0xAAAA, 0x3333, 0x9C6E, 0x63C1, 0x0800};

    return masks[runs / 5 % 8] >> call_number & 1 ? (runs % 3 == 0 ? 0x80000000 : 1) : 0;
}

/* A frame with WP# high and no tail; it drives count bytes from position 4, or nothing, and never folds. */
static void frame_answers(uint32_t number, const uint8_t *frame, size_t n, const uint8_t *driven, size_t count)
{
    uint8_t *in = last_of(&lent_frame, n), *out = last_of(&lent_out, n), want[MOST_FRAME];
    uint32_t *numbers = (uint32_t *)(void *)last_of(&lent_numbers, NUMBERS), got;

    memcpy(in, frame, n);
    memset(out, 0x99, n);
    memset(want, 0x99, n);
    if (count > 0)
        memcpy(want + 4, driven, count);
    numbers[0] = numbers[1] = numbers[2] = UNSET;
    rig_calls++;
    call_number++;
    got = gwo_record_frame_strict(&now->record, last_of(&lent_state, STATE), STATE, array,
                                  gwo_array_length(now->record.model), counts(), gwo_sector_count(now->record.model),
                                  in, n, 0, 1, strict_now(), out, n, &numbers[0], &numbers[1], &numbers[2]);
    if (got != number)
        wrong("the answer is", got, number);
    if (numbers[0] != (count > 0 ? 4 : 0) || numbers[1] != count)
        wrong("the driven count is", numbers[1], count);
    if (numbers[2] != 0)
        wrong("the fold is", numbers[2], 0);
    wrong_bytes("the output has", out, want, n);
}

static void wait_for(uint32_t us)
{
    uint32_t got;

    call_number++;
    rig_calls++;
    got = gwo_record_wait(&now->record, last_of(&lent_state, STATE), STATE, array,
                          gwo_array_length(now->record.model), us - (now->shorter == call_number));
    if (got != 0)
        wrong("the answer is", got, 0);
}

static size_t addressed(uint8_t *frame, uint8_t command, const uint8_t *bytes, size_t n)
{
    frame[0] = command;
    frame[1] = (uint8_t)(now->address >> 16);
    frame[2] = (uint8_t)(now->address >> 8);
    frame[3] = (uint8_t)now->address;
    if (n > 0)
        memcpy(frame + 4, bytes, n);
    return 4 + n;
}

static const uint8_t write_enable[] = {0x06};

/* 06, which a wait that was one short refuses with 11, the chip as it was: the status bits are the given ones. */
static int enabled_after(int wait, unsigned kept)
{
    int busy = now->shorter == wait;

    frame_answers(busy ? 11 : 0, write_enable, 1, NULL, 0);
    if (busy)
        state_is(kept + 2, 0, 1, 0);
    else
        state_is(2, 0, 0, 0);
    return !busy;
}

/* What AB is answered after the first wait: one short, 11 or 22 where the chip had the whole of it left. */
static uint32_t refusal_then(void)
{
    uint32_t most = longest(&now->record);

    if (now->shorter != 1)
        return 0;
    return get_us(now->before + BUSY_AT) == most ? 11 : get_us(now->before + SETTLING_AT) == most ? 22 : 0;
}

/* The end of what the chip was doing: its cells, or its bits of the registers. */
static void finish(void)
{
    const uint8_t *data = running + DATA_AT;
    uint32_t model = now->record.model, place = get_place(running), k;
    uint8_t command = running[COMMAND_AT], *unit = cells_wanted + unit_start(model, command, place);

    if (command == 0x01) {
        status_then = data[0] & (model == 3 ? 0xBC : 0x8C);
        if (place == 2)
            config_then = (data[1] & 0xD3) | ((config_then | data[1]) & TB);
    } else if (command == 0x02) {
        for (k = 0; k < PAGE; k++)
            unit[k] &= data[k];
    } else {
        memset(unit, 0xFF, unit_of(model, command));
    }
}

/* The first wait, if it is long enough, ends the operation, and WEL clears. */
static void expect_then(uint32_t refusal)
{
    memcpy(running, now->before, STATE);
    status_then = now->before[0] & (unsigned)(KEPT + 2);
    config_then = now->before[2];
    if (get_us(now->before + BUSY_AT) == 0 || refusal == 11)
        return;
    status_then &= KEPT;
    finish();
}

/* Calls 1 to 3: the longest wait, AB and its wait. */
static int wake_up(void)
{
    static const uint8_t wake[] = {0xAB};
    uint32_t refusal = refusal_then();

    expect_then(refusal);
    wait_for(longest(&now->record));
    state_is(status_then, now->before[1], refusal == 11, refusal == 22);
    frame_answers(refusal, wake, 1, NULL, 0);
    if (refusal != 0) {
        state_is(status_then, now->before[1], refusal == 11, refusal == 22);
        return 0;
    }
    state_is(status_then, 0, 0, now->before[1] ? now->record.wake_us : 0);
    wait_for(now->record.wake_us);
    return 1;
}

/* Call 4: 06. Where the wait was one short, a chip that was asleep still settles. */
static int enabled_first(void)
{
    int settling = now->shorter == 3 && now->before[1] == 1;

    frame_answers(settling ? 22 : 0, write_enable, 1, NULL, 0);
    if (settling)
        state_is(status_then, 0, 0, 1);
    else
        state_is(status_then | 2, 0, 0, 0);
    return !settling;
}

/* Calls 5 and 6: 01 00 and its wait, until which the old bits stay. */
static void unprotect(void)
{
    static const uint8_t status_00[] = {0x01, 0x00};

    frame_answers(0, status_00, 2, NULL, 0);
    put_operation(running, 0x01, 1);
    running[DATA_AT] = 0x00;
    state_is(status_then | 2, 0, now->record.status_us, 0);
    wait_for(now->record.status_us);
}

/* The address in the array. */
static uint32_t inside(void)
{
    return now->address % (uint32_t)gwo_array_length(now->record.model);
}

/* Calls 8 and 9: the erase, which is counted at once, and its wait. A full count refuses it, the chip as it was. */
static int erased(void)
{
    uint8_t frame[4];

    frame_answers(now->full ? 25 : 0, frame, addressed(frame, 0x20, NULL, 0), NULL, 0);
    if (!now->full)
        counts_wanted[inside() / SECTOR]++;
    same_counts();
    if (now->full) {
        state_is(2, 0, 0, 0);
        return 0;
    }
    put_operation(running, 0x20, inside());
    state_is(2, 0, now->record.sector_us, 0);
    wait_for(now->record.sector_us);
    if (now->shorter != 9)
        memset(cells_wanted + inside() / SECTOR * SECTOR, 0xFF, SECTOR);
    return 1;
}

/* Calls 11 and 12: the program and its wait. */
static void program(void)
{
    uint8_t frame[MOST_FRAME];

    frame_answers(0, frame, addressed(frame, 0x02, now->bytes, now->n), NULL, 0);
    put_operation(running, 0x02, inside());
    memcpy(running + DATA_AT + inside() % PAGE, now->bytes, now->n);
    state_is(2, 0, now->record.page_us, 0);
    wait_for(now->record.page_us);
    if (now->shorter != 12)
        memcpy(cells_wanted + inside(), now->bytes, now->n);
}

/* Call 13: the data come back. */
static void read_back(void)
{
    uint8_t frame[MOST_FRAME], zeros[PAGE];
    int busy = now->shorter == 12;
    size_t n;

    memset(zeros, 0, sizeof zeros);
    n = addressed(frame, 0x03, zeros, now->n);
    frame_answers(busy ? 11 : 0, frame, n, now->bytes, busy ? 0 : now->n);
    if (busy)
        state_is(2, 0, 1, 0);
    else
        state_is(0, 0, 0, 0);
}

static void thirteen_calls(void)
{
    if (!wake_up() || !enabled_first())
        return;
    unprotect();
    if (!enabled_after(6, status_then & KEPT))
        return;
    if (!erased() || !enabled_after(9, 0))
        return;
    program();
    read_back();
}

/*
 * The power is cut, with any pattern: what it leaves in the unit is taken as it is, and outside of it nothing changes.
 * The run goes on from the state that is left.
 */
static void cut(struct run *r)
{
    uint8_t command = r->before[COMMAND_AT], *state = last_of(&lent_state, STATE);
    size_t unit = unit_of(r->record.model, command), n = command == 0x01 ? get_place(r->before) : unit;
    size_t at = unit_start(r->record.model, command, get_place(r->before));
    uint32_t got;

    rig_calls++;
    got = gwo_record_cut(&r->record, state, STATE, array, gwo_array_length(r->record.model),
                         last_of(&lent_pattern, n), n);
    if (got != 0)
        wrong("the answer to a cut is", got, 0);
    state_with(state[2] & TB, state[0] & (unsigned)KEPT, 0, 0, 0);
    memcpy(r->before, state, STATE);
    memcpy(cells_wanted + at, array + at, unit);
}

/* Puts back the cells that a run changed: its sector, or all when something went wrong. */
static void put_back(size_t at, size_t n)
{
    memcpy(array + at, cells_before + at, n);
    memcpy(cells_wanted + at, cells_before + at, n);
}

/* All counts as they were; that of the addressed sector is low, any, one below its highest, or at it. */
static void lay_counts(void)
{
    const uint32_t low[4] = {0, 1, (uint32_t)runs * 2654435u % 4000000000u, GWO_WEAR_TOP - 1};
    size_t bytes = gwo_sector_count(now->record.model) * sizeof(uint32_t);

    memcpy(counts_wanted, counts_before, bytes);
    counts_wanted[inside() / SECTOR] = now->full ? GWO_WEAR_TOP : low[runs / 3 % 4];
    memcpy(counts(), counts_wanted, bytes);
}

/* Around the calls' address and, where that is not enough, around the unit of what was running. */
static void same_cells(size_t at, size_t unit)
{
    size_t size = gwo_array_length(now->record.model);
    struct stretch s = around(inside(), size), other = around(at, size);

    if (unit == size)
        s.low = 0, s.high = size;
    wrong_bytes("a cell is", array + s.low, cells_wanted + s.low, s.high - s.low);
    if (other.low < s.low || other.high > s.high)
        wrong_bytes("a cell is", array + other.low, cells_wanted + other.low, other.high - other.low);
}

static void run_once(struct run r)
{
    size_t size = gwo_array_length(r.record.model), unit = unit_of(r.record.model, r.before[COMMAND_AT]);
    size_t at = unit_start(r.record.model, r.before[COMMAND_AT], get_place(r.before));
    unsigned long before = failures();

    now = &r;
    call_number = 0;
    runs++;
    memcpy(last_of(&lent_state, STATE), r.before, STATE);
    lay_counts();
    if (r.cut)
        cut(&r);
    thirteen_calls();
    same_cells(at, unit);
    same_counts();
    if (failures() != before)
        at = 0, unit = size;
    put_back(inside() / SECTOR * SECTOR, SECTOR);
    put_back(at, unit);
}

/* A third of them are full. */
static void draw_counts(struct dice *dice)
{
    size_t i;

    for (i = 0; i < GWO_MODEL_3_SECTORS; i++)
        counts_before[i] = chance(dice, 33) ? GWO_WEAR_TOP : (uint32_t)roll(dice);
}

void lend_array(uint32_t model)
{
    struct dice dice = {12};
    size_t size = gwo_array_length(model);

    if (lent_state.start == NULL) {
        lent_state = lend(STATE);
        lent_frame = lend(MOST_FRAME);
        lent_out = lend(MOST_FRAME);
        lent_numbers = lend(NUMBERS);
        lent_wear = lend(sizeof counts_before);
        lent_pattern = lend(GWO_MODEL_3_LENGTH);
        scatter(&dice, lent_pattern.start, GWO_MODEL_3_LENGTH);
        draw_counts(&dice);
    }
    array = lend(size).start;
    scatter(&dice, cells_before, size);
    put_back(0, size);
}

void all_put_back(uint32_t model)
{
    size_t size = gwo_array_length(model);

    same_bytes(array, cells_before, 0, size, "array", "after all runs");
}

void run_all_ways(struct run r)
{
    static const int shorter[] = {0, 1, 3, 6, 9, 12};
    size_t i, ways = unit_of(r.record.model, r.before[COMMAND_AT]) < GWO_MODEL_3_LENGTH ? 6 : 2;

    r.cut = 0;
    r.full = 0;
    for (i = 0; i < ways; i++) {
        r.shorter = shorter[i];
        run_once(r);
    }
    r.shorter = 0;
    if (ways == 6) {
        r.full = 1;
        run_once(r);
    }
    r.cut = 1;
    r.full = 0;
    run_once(r);
}
