/*
 * Script text in blocks of any length and logs of any room through gwo_play_lines and gwo_play_last.
 *   lines MODEL SEED [strict] <SCRIPT
 * After each call everything that was lent is what the independent model makes of it. At the end all rows together, the state, the cells and
 * the counts are those of the script played line by line (scripts_play.c). Calls that have to be refused, and chips that
 * are not in order, come in between.
 */
#include "scripts.h"

#include "model.h"
#include "rig.h"

#include <stdio.h>
#include <stdlib.h>
#include <string.h>

enum { HELD = GWO_HELD_LENGTH, ROW = GWO_ROW_LENGTH, STATE = GWO_STATE_LENGTH, MOST_BLOCK = 70000, MOST_LOG = 20000 };

/* What a player of lines is lent, and the numbers that it writes. */
struct lines {
    uint8_t *state, *cells, *held, *log, *wear_bytes;
    size_t state_len, held_len, log_len, cells_len, wear_len;
    uint32_t *wear, used;
    uint64_t line, taken, written;
};

static struct dice dice;
static struct gwo_record record;
static uint32_t strict;
static struct lent lent_state, lent_cells, lent_wear, lent_held, lent_log, lent_block;

/* A copy of everything in memory of its own, for the model; the log too, so that what is not written is compared. */
static struct lines copy_of(const struct lines *l)
{
    static uint8_t state[STATE], cells[GWO_MODEL_3_LENGTH], held[2 * HELD], log[MOST_LOG];
    static uint32_t wear[GWO_MODEL_3_SECTORS + 1];
    struct lines c = *l;

    c.state = state;
    c.cells = cells;
    c.held = held;
    c.log = log;
    c.wear = wear;
    memcpy(state, l->state, l->state_len);
    memcpy(cells, l->cells, l->cells_len);
    memcpy(held, l->held, l->held_len);
    memcpy(log, l->log, l->log_len);
    memcpy(wear, l->wear, 4 * l->wear_len);
    return c;
}

static uint32_t play(play_lines_call *call, struct lines *l, const uint8_t *block, size_t n)
{
    const struct gwo_record *r = &record;

    return call(r->model, r->status_us, r->page_us, r->sector_us, r->block_us, r->chip_us, r->half_us, r->sleep_us,
                r->wake_us, r->sign_us, strict, l->state, l->state_len, l->cells, l->cells_len, l->wear, l->wear_len,
                l->held, l->held_len, &l->used, &l->line, block, n, l->log, l->log_len, &l->taken, &l->written);
}

static uint32_t play_end(play_last_call *call, struct lines *l)
{
    const struct gwo_record *r = &record;

    return call(r->model, r->status_us, r->page_us, r->sector_us, r->block_us, r->chip_us, r->half_us, r->sleep_us,
                r->wake_us, r->sign_us, strict, l->state, l->state_len, l->cells, l->cells_len, l->wear, l->wear_len,
                l->held, l->held_len, &l->used, &l->line, l->log, l->log_len, &l->written);
}

static void same(const struct lines *got, const struct lines *want, const char *what)
{
    if (got->used != want->used || got->line != want->line || got->taken != want->taken || got->written != want->written)
        fail("%s: used %lu, line %lu, taken %lu, written %lu; want %lu, %lu, %lu, %lu", what, (unsigned long)got->used,
             (unsigned long)got->line, (unsigned long)got->taken, (unsigned long)got->written,
             (unsigned long)want->used, (unsigned long)want->line, (unsigned long)want->taken,
             (unsigned long)want->written);
    same_bytes(got->state, want->state, 0, got->state_len, "the state", what);
    same_bytes(got->held, want->held, 0, got->held_len, "the held line", what);
    same_bytes(got->log, want->log, 0, got->log_len, "the log", what);
    same_bytes((const uint8_t *)got->wear, (const uint8_t *)want->wear, 0, 4 * got->wear_len, "the table", what);
}

/* The cells take long to compare where there are 16 MiB: now and then, and at the end. */
static void same_cells(const struct lines *got, const struct lines *want, const char *what)
{
    same_bytes(got->cells, want->cells, 0, got->cells_len, "the cells", what);
}

/* One call by both, on a block that ends at unmapped memory. */
static void call_both(struct lines *l, const uint8_t *text, size_t n, const char *what)
{
    struct lines want = copy_of(l);
    uint8_t *block = last_of(&lent_block, n);
    uint32_t got, number;

    memcpy(block, text, n);
    number = play(ref_play_lines, &want, text, n);
    got = play(gwo_play_lines, l, block, n);
    rig_calls++;
    if (got != number)
        fail("%s: answered %lu, want %lu", what, (unsigned long)got, (unsigned long)number);
    same(l, &want, what);
    same_cells(l, &want, what);
}

static void end_both(struct lines *l, const char *what)
{
    struct lines want = copy_of(l);
    uint32_t number = play_end(ref_play_last, &want), got = play_end(gwo_play_last, l);

    rig_calls++;
    if (got != number)
        fail("%s: answered %lu, want %lu", what, (unsigned long)got, (unsigned long)number);
    same(l, &want, what);
    same_cells(l, &want, what);
}

/* A chip from the factory, and a log of that room; both end at unmapped memory. */
static struct lines fresh(size_t room)
{
    struct lines l;

    memset(&l, 0, sizeof l);
    l.state_len = STATE;
    l.held_len = HELD;
    l.log_len = room;
    l.cells_len = gwo_array_length(record.model);
    l.wear_len = gwo_sector_count(record.model);
    l.state = last_of(&lent_state, STATE);
    l.cells = last_of(&lent_cells, l.cells_len);
    l.held = last_of(&lent_held, HELD);
    l.log = last_of(&lent_log, room);
    l.wear = (uint32_t *)(void *)last_of(&lent_wear, 4 * l.wear_len);
    l.line = 1;
    gwo_factory_state(l.state);
    memset(l.cells, 0xFF, l.cells_len);
    memset(l.wear, 0, 4 * l.wear_len);
    scatter(&dice, l.held, HELD);
    return l;
}

/* A log of another room; what was in it is gone. */
static void new_log(struct lines *l)
{
    static const size_t rooms[] = {0, 1, ROW - 1, ROW, ROW, ROW + 1, 2 * ROW, 3 * ROW + 7, 5000, MOST_LOG, MOST_LOG};

    l->log_len = rooms[below(&dice, sizeof rooms / sizeof rooms[0])];
    l->log = last_of(&lent_log, l->log_len);
    scatter(&dice, l->log, l->log_len < 64 ? l->log_len : 64);
}

static size_t block_length(size_t left)
{
    size_t n = chance(&dice, 10) ? below(&dice, 3) : chance(&dice, 60) ? below(&dice, 900) : below(&dice, MOST_BLOCK);

    return n < left ? n : left;
}

/* ---- what is refused: nothing changes */

static void spoil(struct lines *l)
{
    switch (below(&dice, 9)) {
    case 0: l->held_len = HELD - 1; break;
    case 1: l->held_len = 0; break;
    case 2: l->used = HELD + 1 + below(&dice, 9); break;
    case 3: l->used = 0xFFFFFFFFu; break;
    case 4: l->state_len = below(&dice, STATE); l->state = last_of(&lent_state, l->state_len); break;
    case 5: l->state[0] |= 0x40; break;
    case 6: l->state[0] ^= 0x01; break;
    case 7: l->state[1] = 2; break;
    default: l->state[3] = 1; break;
    }
    if (chance(&dice, 20))
        l->held_len = HELD - 1; /* 3 and 5 at once */
}

static void refused_calls(void)
{
    struct lines l;
    int i;

    for (i = 0; i < 40; i++) {
        l = fresh(chance(&dice, 50) ? MOST_LOG : 2 * ROW);
        l.used = below(&dice, 4);
        spoil(&l);
        call_both(&l, (const uint8_t *)"P\nF\t1\t0\t06\n", 11, "a call that is refused");
        if (l.taken != 0 || l.written != 0)
            fail("a refused call has taken %lu and written %lu", (unsigned long)l.taken, (unsigned long)l.written);
        end_both(&l, "an end that is refused");
    }
    l = fresh(ROW - 1);
    l.used = 1;
    end_both(&l, "an end without room for its row");
}

/* A chip that is not in order: every line is played, and its row says so. */
static void disorder(struct lines *l)
{
    switch (below(&dice, 7)) {
    case 0: record.model = 4 + below(&dice, 9); break;
    case 1: record.page_us = 0; break;
    case 2: record.wake_us = 1000000001u; break;
    case 3: l->cells_len -= 1; l->cells += 1; break;
    case 4: l->wear_len -= 1; l->wear += 1; break;
    case 5: put_us(l->state + SETTLING_AT, longest_settling(&record) + 1); break;
    default: l->state[COMMAND_AT] = 0x20; break;
    }
}

static void disordered_chips(void)
{
    static const char text[] = "F\t1\t0\t0500\nW\t5\nP\nX\nF\t1\t0\t9F000000\nP";
    const struct gwo_record kept = record;
    struct lines l;
    int i;

    for (i = 0; i < 30; i++) {
        l = fresh(MOST_LOG);
        disorder(&l);
        call_both(&l, (const uint8_t *)text, sizeof text - 1, "a chip that is not in order");
        if (l.line != 6 || l.taken != sizeof text - 1)
            fail("a chip that is not in order: %lu lines", (unsigned long)l.line - 1);
        end_both(&l, "its last line");
        record = kept;
    }
}

/* ---- lines that are held */

/* A line of that length in blocks of `part` bytes, its newline in a block of its own: 641 bytes are held at most, and the line has one row. */
static void held_line(size_t length, size_t part)
{
    static uint8_t text[2 * HELD];
    struct lines l = fresh(MOST_LOG);
    size_t at, n;

    memset(text, 'P', length);
    for (at = 0; at < length; at += n) {
        n = length - at < part ? length - at : part;
        call_both(&l, text + at, n, "a part of a long line");
    }
    if (l.used != (length < HELD ? length : HELD) || l.line != 1)
        fail("of a line of %lu bytes %lu are held", (unsigned long)length, (unsigned long)l.used);
    call_both(&l, (const uint8_t *)"\n", 1, "the end of a long line");
    if (l.used != 0 || l.line != 2)
        fail("a line of %lu bytes is not played at its newline", (unsigned long)length);
}

static void held_lines(void)
{
    static const size_t lengths[] = {1, 2, HELD - 2, HELD - 1, HELD, HELD + 1, 2 * HELD}, parts[] = {1, 320, HELD - 1, HELD, 2 * HELD};
    size_t i, k;

    for (i = 0; i < sizeof lengths / sizeof lengths[0]; i++)
        for (k = 0; k < sizeof parts / sizeof parts[0]; k++)
            if (record.model != 3 || parts[k] > 1)
                held_line(lengths[i], parts[k]);
}

/* ---- the whole script */

/* The rows of all lines, one after the other, by the second player: besides its hex, which the line has too, a row has 24 bytes at most. */
static size_t play_by_line(const struct stage *on, const char *text, size_t n, char *rows)
{
    unsigned long number = 0;
    size_t filled = 0, at = 0;

    while (at < n) {
        const char *end = memchr(text + at, '\n', n - at);
        size_t line = end == NULL ? n - at : (size_t)(end - text) - at;

        filled += play_line(on, ++number, text + at, line, rows + filled);
        at += line + (end != NULL);
    }
    return filled;
}

/* The script in blocks; all rows go to `rows`, and how long they are. */
static size_t play_in_blocks(struct lines *l, const uint8_t *text, size_t n, char *rows)
{
    size_t at = 0, filled = 0;

    while (at < n && failures() == 0) {
        new_log(l);
        call_both(l, text + at, block_length(n - at), "a block");
        memcpy(rows + filled, l->log, l->written);
        filled += l->written;
        at += l->taken;
    }
    l->log_len = ROW;
    l->log = last_of(&lent_log, ROW);
    end_both(l, "the end");
    memcpy(rows + filled, l->log, l->written);
    if (l->used != 0)
        fail("%lu bytes are held after the end", (unsigned long)l->used);
    return filled + l->written;
}

static void whole_script(const uint8_t *text, size_t n)
{
    static uint8_t state[STATE], cells[GWO_MODEL_3_LENGTH];
    static uint32_t wear[GWO_MODEL_3_SECTORS];
    const struct stage on = {&record, state, cells, wear, strict};
    char *rows = malloc(24 * n + MOST_ROW), *want = malloc(24 * n + MOST_ROW);
    struct lines l = fresh(ROW);
    size_t got, length;

    if (rows == NULL || want == NULL) {
        fail("no memory for the rows");
        return;
    }
    gwo_factory_state(state);
    memset(cells, 0xFF, sizeof cells);
    length = play_by_line(&on, (const char *)text, n, want);
    got = play_in_blocks(&l, text, n, rows);
    if (got != length)
        fail("the rows are %lu bytes, want %lu", (unsigned long)got, (unsigned long)length);
    same_bytes((const uint8_t *)rows, (const uint8_t *)want, 0, got < length ? got : length, "the rows", "the script");
    same_bytes(l.state, state, 0, STATE, "the state", "the script");
    same_bytes(l.cells, cells, 0, l.cells_len, "the cells", "the script");
    same_bytes((const uint8_t *)l.wear, (const uint8_t *)wear, 0, 4 * l.wear_len, "the table", "the script");
    free(rows);
    free(want);
}

static size_t read_script(uint8_t *text, size_t room)
{
    size_t n = fread(text, 1, room, stdin);

    if (n == room || ferror(stdin))
        fail("the script is over %lu bytes, or cannot be read", (unsigned long)room);
    return n;
}

int main(int argc, char **argv)
{
    static uint8_t text[8 << 20];
    size_t n;

    if (argc < 3 || gwo_bench((uint32_t)strtoul(argv[1], NULL, 10)) == NULL) {
        fprintf(stderr, "usage: lines MODEL SEED [strict] <SCRIPT\n");
        return 2;
    }
    rig_begin("lines");
    record = *gwo_bench((uint32_t)strtoul(argv[1], NULL, 10));
    dice.at = strtoull(argv[2], NULL, 10);
    strict = argc > 3;
    lent_state = lend(STATE);
    lent_cells = lend(gwo_array_length(record.model));
    lent_wear = lend(4 * gwo_sector_count(record.model));
    lent_held = lend(HELD);
    lent_log = lend(MOST_LOG);
    lent_block = lend(MOST_BLOCK);
    n = read_script(text, sizeof text);
    refused_calls();
    disordered_chips();
    held_lines();
    whole_script(text, n);
    return rig_end();
}
