/*
 * 01, Commands: the allowed lengths and tails of each command, and what it does at
 * each of them: one row a command, for a frame whose bytes after the command are 0.
 */
#include "jig.h"
#include "jig_sfdp.h"
#include "rules.h"

enum { ANY = 1, NO_TAIL = 0, END = LONGEST_FRAME };
enum on { EVERY_MODEL, SMALL, LARGE, SECOND }; /* models 1 and 2, model 3, model 2 */
enum driven { NOTHING, STATUS_BYTE, REGISTER, CELLS, TABLE, ID, SIGNATURE, BY_TURNS };

/* What it gives on an awake, idle chip with WEL 1 and the rest 0. */
struct row {
    uint8_t command;
    enum on on;
    size_t least, most;   /* whole bytes */
    int tail;             /* any tail, or none */
    uint32_t first;       /* first driven position, 0: none */
    enum driven driven;
    unsigned wel, asleep; /* after */
};

static const struct row rows[] = {
    {0x06, EVERY_MODEL, 1, 1, NO_TAIL, 0, NOTHING, 1, 0},
    {0x04, EVERY_MODEL, 1, 1, NO_TAIL, 0, NOTHING, 0, 0},
    {0xB9, EVERY_MODEL, 1, 1, NO_TAIL, 0, NOTHING, 1, 1},
    {0x60, EVERY_MODEL, 1, 1, NO_TAIL, 0, NOTHING, 1, 0},
    {0xC7, EVERY_MODEL, 1, 1, NO_TAIL, 0, NOTHING, 1, 0},
    {0x05, EVERY_MODEL, 1, END, ANY, 1, STATUS_BYTE, 1, 0},
    {0x15, LARGE, 1, END, ANY, 1, REGISTER, 1, 0},
    {0x01, SMALL, 2, 2, NO_TAIL, 0, NOTHING, 1, 0},
    {0x01, LARGE, 2, 3, NO_TAIL, 0, NOTHING, 1, 0},
    {0x03, EVERY_MODEL, 4, END, ANY, 4, CELLS, 1, 0},
    {0x0B, EVERY_MODEL, 5, END, ANY, 5, CELLS, 1, 0},
    {0x5A, SECOND, 5, END, ANY, 5, TABLE, 1, 0},
    {0x20, EVERY_MODEL, 4, 4, NO_TAIL, 0, NOTHING, 1, 0},
    {0x52, LARGE, 4, 4, NO_TAIL, 0, NOTHING, 1, 0},
    {0xD8, EVERY_MODEL, 4, 4, NO_TAIL, 0, NOTHING, 1, 0},
    {0x02, EVERY_MODEL, 5, END, NO_TAIL, 0, NOTHING, 1, 0},
    {0x9F, EVERY_MODEL, 1, END, ANY, 1, ID, 1, 0},
    {0xAB, EVERY_MODEL, 1, 1, NO_TAIL, 0, NOTHING, 1, 0},
    {0xAB, EVERY_MODEL, 5, END, ANY, 4, SIGNATURE, 1, 0},
    {0x90, EVERY_MODEL, 4, END, ANY, 4, BY_TURNS, 1, 0},
};
enum { ROWS = sizeof rows / sizeof rows[0] };

static int is_for(const struct row *r, uint32_t model, uint8_t command)
{
    if (r->on == SECOND)
        return r->command == command && model == 2;
    return r->command == command && (r->on == EVERY_MODEL || (r->on == LARGE) == (model == 3));
}

/* The row that takes the frame, or none and the number that refuses it; 52 of the others is withdrawn. */
static const struct row *row_for(uint32_t model, uint8_t command, size_t length, uint32_t tail, uint32_t *number)
{
    size_t i;

    *number = command == 0x52 ? 21 : 13;
    for (i = 0; i < ROWS; i++) {
        if (!is_for(&rows[i], model, command))
            continue;
        *number = 14;
        if (length >= rows[i].least && length <= rows[i].most && (tail == 0 || rows[i].tail == ANY)) {
            *number = 0;
            return &rows[i];
        }
    }
    return NULL;
}

/* When the time has run out: erased cells are FF; as many as there are data bytes, to a page's end, are 00. */
static void changes(uint32_t model, uint8_t command, const char *label)
{
    uint32_t data = (uint32_t)given.frame_len - 4;

    if (command == 0x02)
        want_cells(0, data < PAGE ? data : PAGE, 0x00);
    else
        want_cells(0, unit_of(model, command), 0xFF);
    completes(power_on, label);
}

static void want_driven(const struct row *r, uint32_t model)
{
    switch (r->driven) {
    case STATUS_BYTE: want_repeated(r->first, "02"); break;
    case REGISTER: want_repeated(r->first, "00"); break;
    case CELLS: want_cells_driven(r->first, 0); break;
    case TABLE: want_table(r->first, 0); break;
    case ID: want_repeated(r->first, part_of(model)->id); break;
    case SIGNATURE: want_repeated(r->first, part_of(model)->signature); break;
    case BY_TURNS: want_repeated(r->first, part_of(model)->by_turns[0]); break;
    default: break;
    }
}

static void want_row(const struct row *r, uint32_t model)
{
    struct condition after = enabled;

    after.wel = r->wel;
    after.asleep = r->asleep;
    after.busy_us = us_of(&given.record, r->command);
    after.settling_us = r->asleep ? given.record.sleep_us : 0;
    want_state(after);
    want_fold(r->command == 0x02 && given.frame_len > 4 + PAGE);
    if (given.frame_len > r->first)
        want_driven(r, model);
}

static void length_and_tail(uint32_t model, uint8_t command, size_t length, uint32_t tail)
{
    uint32_t number;
    const struct row *r = row_for(model, command, length, tail, &number);
    const char *label = named("model %lu: %02X, %lu bytes, tail %lu", (unsigned long)model, command,
                              (unsigned long)length, (unsigned long)tail);

    jig_model(model);
    jig_state(enabled);
    jig_filled(command, length, 0);
    given.tail = tail;
    if (r != NULL)
        want_row(r, model);
    frame_gives(number, label);
    if (number == 0 && us_of(&given.record, command) > 0)
        changes(model, command, label);
}

/* Lengths around every limit, each with the eight tails. */
static const size_t lengths[] = {1, 2, 3, 4, 5, 6, 7, 8, 9, 255, 256, 257, 259, 260, 261, 262, 300,
                                 4096, 65535, 65536, 65537, 65540, 65541};
enum { LENGTHS = sizeof lengths / sizeof lengths[0] };

void lengths_and_tails(void)
{
    uint32_t model, tail;
    size_t i, k;

    for (model = 1; model <= MODELS; model++) {
        for (i = 0; i < ROWS; i++) {
            if (i > 0 && rows[i].command == rows[i - 1].command)
                continue;
            for (k = 0; k < LENGTHS; k++)
                for (tail = 0; tail <= 7; tail++)
                    length_and_tail(model, rows[i].command, lengths[k], tail);
        }
    }
}
