#include "jig.h"

#include "jig_cells.h"
#include "jig_wear.h"

#include <string.h>

enum { MARGIN = 64, MARK = 0x5C, UNSET = 0x5A5A5A5A };

const struct condition power_on = {0, 0, 0, 0, 0, 0, 0};
const struct condition enabled = {0, 0, 1, 0, 0, 0, 0};

struct given given;

/* What is wanted after the call. */
static uint32_t wanted_from, wanted_count, wanted_fold;
static uint8_t wanted_state[STATE_ROOM], wanted_out[OUT_ROOM];

static struct lent lent_state, lent_frame, lent_out, lent_numbers, lent_pattern;
static struct guard over_pattern;

/* What every output position holds before a call. */
static uint8_t rest[OUT_ROOM];

const struct part *part_of(uint32_t model)
{
    static const struct part parts[MODELS] = {
        {&gwo_bench_model_1, 65536, 3, "C22010", "05", {"C205", "05C2"}},
        {&gwo_bench_model_2, 262144, 3, "C22012", "11", {"C211", "11C2"}},
        {&gwo_bench_model_3, 16777216, 15, "C22018", "17", {"C217", "17C2"}},
    };

    return &parts[model - 1];
}

struct gwo_record bench(uint32_t model)
{
    return *part_of(model)->bench;
}

uint32_t size_of(uint32_t model)
{
    return part_of(model)->size;
}

uint8_t cell(uint32_t address)
{
    return (uint8_t)(address * 7 + (address >> 8) * 59 + (address >> 12) * 101 + (address >> 16) * 43 + 13);
}

static void make_buffers(void)
{
    size_t i;

    lent_state = lend(STATE_ROOM + MARGIN);
    lent_frame = lend(FRAME_ROOM + MARGIN);
    lent_out = lend(OUT_ROOM + MARGIN);
    lent_numbers = lend(NUMBERS + MARGIN);
    lent_pattern = lend(PATTERN_ROOM);
    for (i = 0; i < OUT_ROOM; i++)
        rest[i] = (uint8_t)(i * 11 + (i >> 8) + 0x33);
    memcpy(wanted_out, rest, OUT_ROOM);
}

static void nothing_wanted(void)
{
    memcpy(wanted_out + wanted_from, rest + wanted_from, wanted_count);
    wanted_from = 0;
    wanted_count = 0;
    wanted_fold = 0;
    memcpy(wanted_state, given.state, STATE_ROOM);
}

static void empty_frame(void)
{
    given.frame_len = 0;
    given.out_len = 0;
    given.tail = 0;
    given.wp = 1;
    given.strict = 0;
    given.pattern_len = 0;
}

void jig_model(uint32_t model)
{
    if (lent_state.start == NULL)
        make_buffers();
    given.record = bench(model);
    given.array_len = size_of(model);
    given.wear_len = size_of(model) / SECTOR;
    empty_frame();
    jig_state(power_on);
    nothing_wanted();
    cells_fresh();
    wear_fresh();
}

void jig_next(void)
{
    memcpy(given.state, wanted_state, STATE_ROOM);
    empty_frame();
    nothing_wanted();
}

/* The status byte, the flag, the configuration register, a zero, the two times, and the operation. */
static void pack(struct condition c, uint8_t *p)
{
    memset(p, 0, STATE_ROOM);
    p[0] = (uint8_t)(128 * c.srwd + 4 * c.bp + 2 * c.wel + (c.busy_us > 0 ? 1 : 0));
    p[1] = (uint8_t)c.asleep;
    p[2] = (uint8_t)c.config;
    put_us(p + BUSY_AT, c.busy_us);
    put_us(p + SETTLING_AT, c.settling_us);
    put_operation(p, c.busy_us > 0 ? 0xC7 : NO_COMMAND, NOWHERE);
}

void jig_state(struct condition c)
{
    pack(c, given.state);
    given.state_len = GWO_STATE_LENGTH;
    memcpy(wanted_state, given.state, STATE_ROOM);
}

void jig_runs(uint8_t command, uint32_t place, const uint8_t *data, size_t n)
{
    put_operation(given.state, command, place);
    if (n > 0)
        memcpy(given.state + DATA_AT, data, n);
    memcpy(wanted_state, given.state, STATE_ROOM);
}

void jig_packed(const uint8_t *bytes, size_t n)
{
    memcpy(given.state, bytes, n);
    given.state_len = n;
    memcpy(wanted_state, given.state, STATE_ROOM);
}

static unsigned digit(char c)
{
    return (unsigned)(c <= '9' ? c - '0' : c - 'A' + 10);
}

static size_t unhex(const char *hex, uint8_t *bytes)
{
    size_t n = strlen(hex) / 2, i;

    for (i = 0; i < n; i++)
        bytes[i] = (uint8_t)(digit(hex[2 * i]) * 16 + digit(hex[2 * i + 1]));
    return n;
}

void jig_frame(const char *hex)
{
    given.frame_len = given.out_len = unhex(hex, given.frame);
}

void jig_filled(uint8_t command, size_t n, uint8_t fill)
{
    memset(given.frame, fill, n);
    if (n > 0)
        given.frame[0] = command;
    given.frame_len = given.out_len = n;
}

void jig_addressed(uint8_t command, uint32_t address, size_t n, uint8_t fill)
{
    jig_filled(command, 4 + n, fill);
    given.frame[1] = (uint8_t)(address >> 16);
    given.frame[2] = (uint8_t)(address >> 8);
    given.frame[3] = (uint8_t)address;
}

void jig_cells(uint32_t at, uint32_t n, uint8_t value)
{
    cells_set(cells_of(given.array_len), at, n, value);
}

uint8_t *jig_pattern(size_t n)
{
    guard_lift(&over_pattern);
    given.pattern_len = n;
    return last_of(&lent_pattern, n);
}

/* The address in the given frame; 0 where it has none. */
static uint32_t addressed(void)
{
    const uint8_t *f = given.frame;

    return given.frame_len < 4 ? 0 : (uint32_t)f[1] << 16 | (uint32_t)f[2] << 8 | f[3];
}

/* The data bytes of a program are laid one by one, so that of those for one offset the last stays. */
static void want_started(void)
{
    uint32_t at = addressed() % size_of(given.record.model);
    uint8_t command = given.frame[0], *data = wanted_state + DATA_AT;
    size_t i;

    switch (command) {
    case 0x01:
        put_operation(wanted_state, command, (uint32_t)given.frame_len - 1);
        memcpy(data, given.frame + 1, given.frame_len - 1);
        break;
    case 0x02:
        put_operation(wanted_state, command, at);
        for (i = 4; i < given.frame_len; i++)
            data[(at + i - 4) % PAGE] = given.frame[i];
        break;
    case 0x20: case 0x52: case 0xD8:
        put_operation(wanted_state, command, at);
        break;
    default:
        put_operation(wanted_state, command, NOWHERE);
        break;
    }
}

void want_state(struct condition c)
{
    pack(c, wanted_state);
    if (c.busy_us == 0)
        return;
    if (get_us(given.state + BUSY_AT) > 0)
        memcpy(wanted_state + COMMAND_AT, given.state + COMMAND_AT, GWO_STATE_LENGTH - COMMAND_AT);
    else
        want_started();
}

void want_hex(uint32_t from, const char *hex)
{
    wanted_from = from;
    wanted_count = (uint32_t)unhex(hex, wanted_out + from);
}

void want_out(uint32_t from, const uint8_t *bytes, size_t n)
{
    wanted_from = from;
    wanted_count = (uint32_t)n;
    memcpy(wanted_out + from, bytes, n);
}

void want_cells(uint32_t at, uint32_t n, uint8_t value)
{
    cells_want(cells_of(given.array_len), at, n, value);
}

void want_bytes(uint32_t at, const uint8_t *bytes, uint32_t n)
{
    cells_want_bytes(cells_of(given.array_len), at, bytes, n);
}

uint8_t wanted_cell(uint32_t address)
{
    return cells_wanted(cells_of(given.array_len), address);
}

void want_fold(int folded)
{
    wanted_fold = folded ? 1 : 0;
}

void want_repeated(uint32_t from, const char *hex)
{
    uint8_t bytes[16];
    size_t n = unhex(hex, bytes), i;

    wanted_from = from;
    wanted_count = (uint32_t)given.frame_len - from;
    for (i = 0; i < wanted_count; i++)
        wanted_out[from + i] = bytes[i % n];
}

void want_cells_driven(uint32_t from, uint32_t address)
{
    const struct cells *c = cells_of(given.array_len);
    uint32_t i;

    wanted_from = from;
    wanted_count = (uint32_t)given.frame_len - from;
    for (i = 0; i < wanted_count; i++)
        wanted_out[from + i] = cells_wanted(c, address + i);
}

/* The last n bytes of a lent buffer, with marks before them. */
static uint8_t *place(const struct lent *l, const void *bytes, size_t n)
{
    uint8_t *p = last_of(l, n);

    memset(p - MARGIN, MARK, MARGIN);
    memcpy(p, bytes, n);
    return p;
}

static void same_number(uint32_t got, uint32_t want, const char *what, const char *label)
{
    if (got != want)
        fail("%s: %s is %lu, want %lu", label, what, (unsigned long)got, (unsigned long)want);
}

/* A placed buffer: its bytes, and the marks before it. */
static void same_placed(const uint8_t *got, const uint8_t *want, size_t n, const char *what, const char *label)
{
    int i;

    same_bytes(got, want, 0, n, what, label);
    for (i = 1; i <= MARGIN; i++)
        if (got[-i] != MARK)
            fail("%s: a byte that was not lent, %d before the %s, became %02X", label, i, what, got[-i]);
}

/* Compares the array after a call that could write to it. */
static void same_cells(struct cells *c, int could_write, const char *label)
{
    if (could_write)
        cells_same(c, get_place(given.state), label);
}

/* The array for a call: that of a frame is guarded where the frame aims, that of the others where the operation is. */
static uint8_t *lend_cells(struct cells *c, uint32_t address, int may_write)
{
    if (may_write)
        cells_open(c);
    else
        cells_guard(c, address);
    return cells_lent(c, given.array_len);
}

/* Whether the given frame starts an erase when it is taken: the sectors of its unit are wanted to be counted. */
static int counts(uint32_t number)
{
    uint32_t model = given.record.model, unit = number == 0 ? unit_of(model, given.frame[0]) : 0;

    if (unit < SECTOR)
        return 0;
    wear_want_counted(given.wear_len, unit_start(model, given.frame[0], addressed()) / SECTOR, unit / SECTOR);
    return 1;
}

void frame_gives(uint32_t number, const char *label)
{
    const struct gwo_record *r = &given.record;
    const int may_count = counts(number);
    const uint32_t unset[3] = {UNSET, UNSET, UNSET};
    uint8_t *state = place(&lent_state, given.state, given.state_len);
    uint8_t *frame = place(&lent_frame, given.frame, given.frame_len);
    uint8_t *out = place(&lent_out, rest, given.out_len);
    uint32_t *numbers = (uint32_t *)(void *)place(&lent_numbers, unset, NUMBERS);
    uint32_t got;

    rig_calls++;
    got = gwo_frame(r->model, r->status_us, r->page_us, r->sector_us, r->block_us, r->chip_us, r->half_us,
                    r->sleep_us, r->wake_us, r->sign_us, state, given.state_len,
                    lend_cells(cells_of(given.array_len), addressed(), 0), given.array_len,
                    wear_lent(given.wear_len, may_count), given.wear_len,
                    frame, given.frame_len, given.tail, given.wp, given.strict, out, given.out_len,
                    &numbers[0], &numbers[1], &numbers[2]);
    same_number(got, number, "the answer", label);
    same_number(numbers[0], wanted_from, "the first driven position", label);
    same_number(numbers[1], wanted_count, "the driven count", label);
    same_number(numbers[2], wanted_fold, "the fold", label);
    same_placed(state, wanted_state, given.state_len, "state", label);
    same_placed(frame, given.frame, given.frame_len, "frame", label);
    same_placed(out, wanted_out, given.out_len, "output", label);
    if (may_count)
        wear_same(given.wear_len, label);
}

void wait_gives(uint32_t us, uint32_t number, const char *label)
{
    const struct gwo_record *r = &given.record;
    struct cells *c = cells_of(given.array_len);
    uint8_t *state = place(&lent_state, given.state, given.state_len);
    int may_write = number == 0 && ends_by_wait(given.state, us);
    uint32_t got;

    rig_calls++;
    got = gwo_wait(r->model, r->status_us, r->page_us, r->sector_us, r->block_us, r->chip_us, r->half_us,
                   r->sleep_us, r->wake_us, r->sign_us, state, given.state_len,
                   lend_cells(c, get_place(given.state), may_write), given.array_len, us);
    same_number(got, number, "the answer to a wait", label);
    same_placed(state, wanted_state, given.state_len, "state", label);
    same_cells(c, may_write, label);
}

void power_cycle_gives(uint32_t number, const char *label)
{
    const struct gwo_record *r = &given.record;
    uint8_t *state = place(&lent_state, given.state, given.state_len);
    uint32_t got;

    rig_calls++;
    got = gwo_power_cycle(r->model, r->status_us, r->page_us, r->sector_us, r->block_us, r->chip_us, r->half_us,
                          r->sleep_us, r->wake_us, r->sign_us, state, given.state_len);
    same_number(got, number, "the answer to a power cycle", label);
    same_placed(state, wanted_state, given.state_len, "state", label);
}

void cut_gives(uint32_t number, const char *label)
{
    const struct gwo_record *r = &given.record;
    struct cells *c = cells_of(given.array_len);
    uint8_t *state = place(&lent_state, given.state, given.state_len);
    uint8_t *pattern = last_of(&lent_pattern, given.pattern_len);
    int may_write = number == 0 && ends_by_cut(given.state);
    uint32_t got;

    guard_over(&over_pattern, pattern, pattern + given.pattern_len);
    rig_calls++;
    got = gwo_cut(r->model, r->status_us, r->page_us, r->sector_us, r->block_us, r->chip_us, r->half_us,
                  r->sleep_us, r->wake_us, r->sign_us, state, given.state_len,
                  lend_cells(c, get_place(given.state), may_write), given.array_len, pattern, given.pattern_len);
    same_number(got, number, "the answer to a cut", label);
    same_placed(state, wanted_state, given.state_len, "state", label);
    same_cells(c, may_write, label);
}

void jig_whole(const char *label)
{
    cells_same_everywhere(label);
}
