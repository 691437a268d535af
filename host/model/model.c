/*
 * The independent model: 01's rules in its order, one small function a rule.
 * Sheet lines: 000 is the KH25L512, 002 the KH25L2006E, 003 the KH25L12845G.
 */
#include "model.h"
#include "sfdp_image.h"

#include <stdbool.h>
#include <string.h>

enum { PAGE = 256, SECTOR = 4096, HALF_BLOCK = 32768, BLOCK = 65536, FRAME_LIMIT = 65541, STATE = 272 };

/* HALF_ERASE is model 3's: the others had 52 for a block, until it was withdrawn. READ_SFDP is model 2's. */
enum {
    WRITE_STATUS = 0x01, PROGRAM = 0x02, READ = 0x03, WRITE_DISABLE = 0x04,
    READ_STATUS = 0x05, WRITE_ENABLE = 0x06, FAST_READ = 0x0B, READ_CONFIG = 0x15, SECTOR_ERASE = 0x20,
    HALF_ERASE = 0x52, READ_SFDP = 0x5A, CHIP_ERASE_60 = 0x60, READ_MAKER = 0x90, READ_ID = 0x9F,
    WAKE = 0xAB, SLEEP = 0xB9, CHIP_ERASE_C7 = 0xC7, BLOCK_ERASE = 0xD8
};

enum { MAKER = 0xC2 };

/* The configuration register: TB is set once and stays; the others are volatile and change no answer (003 L828-867). */
enum { TB = 0x08, VOLATILE = 0xD3 };

/* What stays without power: SRWD and BP in the status byte. */
enum { KEPT = 0xBC };

/* No operation is running; the operation has no address. */
enum { NO_COMMAND = 0xFF, NOWHERE = 0xFFFFFF };

struct record {
    uint32_t model, status_us, page_us, sector_us, block_us, chip_us, half_us, sleep_us, wake_us, sign_us;
};

struct state {
    unsigned srwd, bp, wel, asleep, config;
    uint32_t busy_us, settling_us;
    uint8_t command; /* of the running operation */
    uint32_t at;     /* its address in the array; of a status write how many data bytes it has */
    uint8_t *data;   /* the page data: the last 256 bytes of the packed state itself */
};

/* What differs between the models. */
struct chip {
    uint32_t size;
    uint8_t id[3];
    uint8_t signature;
    bool large;             /* 003: a configuration register, half blocks, and 17 clears WEL */
    uint8_t status, config; /* the bits that the two registers have */
    uint16_t locked[16];    /* by BP: so many blocks at the top are protected, or with TB at the bottom */
    const uint8_t *sfdp;    /* what 5A reads, SFDP_LENGTH bytes; null where the chip has no 5A */
};

static const struct chip chips[] = {
    /* 000 L383-391, L126-131 */
    {65536, {0xC2, 0x20, 0x10}, 0x05, false, 0x8F, 0, {0, 1, 1, 1}, NULL},
    /* 002 L522-526, L273-276 */
    {262144, {0xC2, 0x20, 0x12}, 0x11, false, 0x8F, 0, {0, 1, 2, 4}, sfdp_image},
    /* 003 L735-742, L813-843, L285-323 */
    {16777216, {0xC2, 0x20, 0x18}, 0x17, true, 0xBF, VOLATILE | TB,
     {0, 1, 2, 4, 8, 16, 32, 64, 128, 256, 256, 256, 256, 256, 256, 256}, NULL},
};

/* 01, Record. */
static bool time_ok(uint32_t us)
{
    return us >= 1 && us <= 1000000000;
}

static bool record_ok(const struct record *r)
{
    return r->model >= 1 && r->model <= 3 && time_ok(r->status_us) && time_ok(r->page_us) &&
           time_ok(r->sector_us) && time_ok(r->block_us) && time_ok(r->chip_us) &&
           (r->model == 3 ? time_ok(r->half_us) : r->half_us == 0) &&
           time_ok(r->sleep_us) && time_ok(r->wake_us) && time_ok(r->sign_us);
}

static uint32_t larger(uint32_t a, uint32_t b)
{
    return a > b ? a : b;
}

/* How long an operation takes; 0 for a byte that starts none. */
static uint32_t time_of(const struct record *r, uint8_t command)
{
    switch (command) {
    case WRITE_STATUS: return r->status_us;
    case PROGRAM: return r->page_us;
    case SECTOR_ERASE: return r->sector_us;
    case HALF_ERASE: return r->half_us; /* 003 L1227-1231; 0 on models 1 and 2, where it starts nothing */
    case BLOCK_ERASE: return r->block_us;
    case CHIP_ERASE_60: case CHIP_ERASE_C7: return r->chip_us;
    default: return 0;
    }
}

/* How many cells a program or an erase may change. */
static uint32_t unit_of(const struct chip *chip, uint8_t command)
{
    switch (command) {
    case PROGRAM: return PAGE;
    case SECTOR_ERASE: return SECTOR;
    case HALF_ERASE: return HALF_BLOCK;
    case BLOCK_ERASE: return BLOCK;
    case CHIP_ERASE_60: case CHIP_ERASE_C7: return chip->size;
    default: return 0;
    }
}

static uint32_t longest_settling(const struct record *r)
{
    return larger(r->sleep_us, larger(r->wake_us, r->sign_us));
}

/* 01, State: 128 SRWD + 4 BP + 2 WEL + WIP. */
static uint8_t status_byte(const struct state *s)
{
    return (uint8_t)(s->srwd << 7 | s->bp << 2 | s->wel << 1 | (s->busy_us > 0));
}

/* A time takes four bytes, the low one first. */
static void pack_us(uint32_t us, uint8_t *p)
{
    p[0] = (uint8_t)us;
    p[1] = (uint8_t)(us >> 8);
    p[2] = (uint8_t)(us >> 16);
    p[3] = (uint8_t)(us >> 24);
}

static uint32_t unpack_us(const uint8_t *p)
{
    return (uint32_t)p[0] | (uint32_t)p[1] << 8 | (uint32_t)p[2] << 16 | (uint32_t)p[3] << 24;
}

static void pack(const struct state *s, uint8_t *p)
{
    p[0] = status_byte(s);
    p[1] = (uint8_t)s->asleep;
    p[2] = (uint8_t)s->config;
    p[3] = 0;
    pack_us(s->busy_us, p + 4);
    pack_us(s->settling_us, p + 8);
    p[12] = s->command;
    p[13] = (uint8_t)(s->at >> 16);
    p[14] = (uint8_t)(s->at >> 8);
    p[15] = (uint8_t)s->at;
}

/* Whether the operation, or none, has such an address. */
static bool place_ok(const struct chip *chip, const struct state *s)
{
    switch (s->command) {
    case WRITE_STATUS: return s->at == 1 || (s->at == 2 && chip->large);
    case PROGRAM: case SECTOR_ERASE: case HALF_ERASE: case BLOCK_ERASE: return s->at < chip->size;
    default: return s->at == NOWHERE;
    }
}

/* The first is, and each is as the one before. */
static bool all_ff(const uint8_t *p, size_t n)
{
    return n == 0 || (p[0] == 0xFF && memcmp(p + 1, p, n - 1) == 0);
}

/* A program may use all of the page data, a status write has its data bytes there; the rest is FF. */
static bool data_ok(const struct state *s)
{
    size_t used = s->command == PROGRAM ? PAGE : s->command == WRITE_STATUS ? s->at : 0;

    return all_ff(s->data + used, PAGE - used);
}

/* False unless p holds the packing of a valid state. */
static bool unpack(struct state *s, uint8_t *p, size_t len, const struct record *r)
{
    const struct chip *chip = &chips[r->model - 1];

    if (len != STATE || (p[0] & ~chip->status) != 0 || p[1] > 1 || (p[2] & ~chip->config) != 0 || p[3] != 0)
        return false;
    s->srwd = p[0] >> 7;
    s->bp = p[0] >> 2 & 15;
    s->wel = p[0] >> 1 & 1;
    s->asleep = p[1];
    s->config = p[2];
    s->busy_us = unpack_us(p + 4);
    s->settling_us = unpack_us(p + 8);
    s->command = p[12];
    s->at = (uint32_t)p[13] << 16 | (uint32_t)p[14] << 8 | p[15];
    s->data = p + 16;
    if ((p[0] & 1) != (s->busy_us > 0) || !place_ok(chip, s) || !data_ok(s))
        return false;
    if (s->busy_us == 0)
        return s->command == NO_COMMAND && s->settling_us <= longest_settling(r);
    return s->busy_us <= time_of(r, s->command) && s->wel && !s->asleep && s->settling_us == 0;
}

/* The 24-bit address as it is sent, high byte first. */
static uint32_t sent_address(const uint8_t *frame)
{
    return (uint32_t)frame[1] << 16 | (uint32_t)frame[2] << 8 | frame[3];
}

/* The address in the array: modulo its length, a power of two. */
static uint32_t address(const uint8_t *frame, uint32_t size)
{
    return sent_address(frame) & (size - 1);
}

/*
 * 01, Commands: 13 for an unknown one, 14 for a length or tail it doesn't allow, else 0. Between them 21, for one that
 * is withdrawn on the chip: 02, Req 11.
 */
static uint32_t form_refusal(const struct chip *chip, uint8_t command, size_t len, uint32_t tail)
{
    bool ok;

    switch (command) {
    case WRITE_ENABLE: case WRITE_DISABLE: case SLEEP: case CHIP_ERASE_60: case CHIP_ERASE_C7:
        ok = len == 1 && tail == 0;
        break;
    case READ_STATUS: case READ_ID:
        ok = true;
        break;
    case READ_CONFIG:
        return chip->large ? 0 : 13;
    case WRITE_STATUS:
        ok = (len == 2 || (len == 3 && chip->large)) && tail == 0;
        break;
    case READ: case READ_MAKER:
        ok = len >= 4;
        break;
    case FAST_READ:
        ok = len >= 5;
        break;
    case READ_SFDP:
        if (chip->sfdp == NULL)
            return 13;
        ok = len >= 5;
        break;
    case HALF_ERASE:
        if (!chip->large)
            return 21;
        ok = len == 4 && tail == 0;
        break;
    case SECTOR_ERASE: case BLOCK_ERASE:
        ok = len == 4 && tail == 0;
        break;
    case PROGRAM:
        ok = len >= 5 && tail == 0;
        break;
    case WAKE:
        ok = (len == 1 && tail == 0) || len >= 5;
        break;
    default:
        return 13;
    }
    return ok ? 0 : 14;
}

/* Whether the block that holds a cell is protected. */
static bool is_locked(const struct chip *chip, const struct state *s, uint32_t at)
{
    uint32_t block = at / BLOCK, blocks = chip->size / BLOCK, locked = chip->locked[s->bp];

    return s->config & TB ? block < locked : block >= blocks - locked;
}

/* 15, 16 and 17: only for the seven commands that need WEL. */
static uint32_t write_refusal(const struct chip *chip, const struct state *s,
                              const uint8_t *frame, uint32_t wp)
{
    switch (frame[0]) {
    case WRITE_STATUS:
        if (!s->wel)
            return 15;
        return s->srwd && wp == 0 ? 16 : 0;
    case PROGRAM: case SECTOR_ERASE: case HALF_ERASE: case BLOCK_ERASE:
        if (!s->wel)
            return 15;
        return is_locked(chip, s, address(frame, chip->size)) ? 17 : 0;
    case CHIP_ERASE_60: case CHIP_ERASE_C7:
        if (!s->wel)
            return 15;
        return s->bp != 0 ? 17 : 0;
    default:
        return 0;
    }
}

/* What a busy chip answers. */
static bool taken_while_busy(const struct chip *chip, uint8_t command)
{
    return command == READ_STATUS || (command == READ_CONFIG && chip->large);
}

/* 01, Numbers returned, from 4 to 17, with 22 and 21 in their places. */
static uint32_t frame_refusal(const struct chip *chip, const struct state *s, const uint8_t *frame,
                              size_t len, uint32_t tail, uint32_t wp, size_t out_len)
{
    uint32_t number;

    if (len > FRAME_LIMIT || tail > 7)
        return 4;
    if (out_len < len)
        return 5;
    if (len == 0)
        return 10;
    if (s->settling_us > 0)
        return 22;
    if (s->busy_us > 0 && !taken_while_busy(chip, frame[0]))
        return 11;
    if (s->asleep && frame[0] != WAKE)
        return 12;
    number = form_refusal(chip, frame[0], len, tail);
    if (number != 0)
        return number;
    return write_refusal(chip, s, frame, wp);
}

/* The sectors that an erase covers; no other command covers any. */
struct sectors {
    uint32_t first, n;
};

static struct sectors covered_by(const struct chip *chip, const uint8_t *frame)
{
    struct sectors s = {0, 0};

    switch (frame[0]) {
    case SECTOR_ERASE: case HALF_ERASE: case BLOCK_ERASE:
        s.n = unit_of(chip, frame[0]) / SECTOR;
        s.first = address(frame, chip->size) / SECTOR / s.n * s.n;
        break;
    case CHIP_ERASE_60: case CHIP_ERASE_C7:
        s.n = chip->size / SECTOR;
        break;
    }
    return s;
}

/* Each of them is counted once more; false, and none is, where a count is at its highest. */
static bool count_sectors(struct sectors s, uint32_t *wear)
{
    uint32_t i;

    for (i = s.first; i < s.first + s.n; i++)
        if (wear[i] == UINT32_MAX)
            return false;
    for (i = s.first; i < s.first + s.n; i++)
        wear[i]++;
    return true;
}

/*
 * Whether a program would leave a cell without the byte that counts for it: a bit of it is 1, and 0 in the cell. Of n
 * bytes the last 256 count, each for a cell of its own.
 */
static bool loses_a_bit(const uint8_t *array, uint32_t at, const uint8_t *sent, size_t n)
{
    const uint8_t *page = array + at / PAGE * PAGE;
    size_t i;

    for (i = n > PAGE ? n - PAGE : 0; i < n; i++)
        if ((sent[i] & ~page[(at + i) % PAGE]) != 0)
            return true;
    return false;
}

/* 02, the two numbers after 17; where neither is given, the sectors of an erase are counted. */
static uint32_t last_refusal(const struct chip *chip, const uint8_t *array, uint32_t *wear, const uint8_t *frame,
                             size_t len, uint32_t strict)
{
    if (strict != 0 && frame[0] == PROGRAM && loses_a_bit(array, address(frame, chip->size), frame + 4, len - 4))
        return 19;
    return count_sectors(covered_by(chip, frame), wear) ? 0 : 25;
}

/* The address rises by one, from the last to 0. */
static void read_cells(const uint8_t *array, uint32_t size, uint32_t at, uint8_t *out, size_t n)
{
    while (n > 0) {
        size_t run = size - at;

        if (run > n)
            run = n;
        memcpy(out, array + at, run);
        out += run;
        n -= run;
        at = 0;
    }
}

/* The table from an address on, the one that was sent; past its end all is FF, also past the last address (02, Req 12). */
static void read_sfdp(const uint8_t *image, uint32_t at, uint8_t *out, size_t n)
{
    size_t inside = at < SFDP_LENGTH ? SFDP_LENGTH - at : 0;

    if (inside > n)
        inside = n;
    if (inside > 0)
        memcpy(out, image + at, inside);
    memset(out + inside, 0xFF, n - inside);
}

static void drive_id(const uint8_t id[3], uint8_t *out, size_t n)
{
    size_t i;
    unsigned turn = 0;

    for (i = 0; i < n; i++) {
        out[i] = id[turn];
        turn = turn == 2 ? 0 : turn + 1;
    }
}

/* The maker and the signature by turns; an odd fourth byte puts the signature first. */
static void drive_maker(uint8_t signature, unsigned fourth, uint8_t *out, size_t n)
{
    size_t i;

    for (i = 0; i < n; i++)
        out[i] = (fourth + i) % 2 == 0 ? MAKER : signature;
}

/* Positions from first on are driven, if there are such; first 0: none is. */
static void driven(size_t first, size_t len, uint32_t *from, uint32_t *count)
{
    if (first > 0 && len > first) {
        *from = (uint32_t)first;
        *count = (uint32_t)(len - first);
    }
}

/* The commands that drive bytes out; the first driven position, 0 for the other commands. */
static size_t answer(const struct chip *chip, const struct state *s, const uint8_t *array,
                     const uint8_t *frame, size_t len, uint8_t *out)
{
    switch (frame[0]) {
    case READ_STATUS:
        memset(out + 1, status_byte(s), len - 1);
        return 1;
    case READ_CONFIG:
        memset(out + 1, (int)s->config, len - 1);
        return 1;
    case READ_ID:
        drive_id(chip->id, out + 1, len - 1);
        return 1;
    case READ:
        read_cells(array, chip->size, address(frame, chip->size), out + 4, len - 4);
        return 4;
    case FAST_READ:
        read_cells(array, chip->size, address(frame, chip->size), out + 5, len - 5);
        return 5;
    case READ_SFDP:
        read_sfdp(chip->sfdp, sent_address(frame), out + 5, len - 5);
        return 5;
    case READ_MAKER:
        drive_maker(chip->signature, frame[3], out + 4, len - 4);
        return 4;
    case WAKE:
        if (len < 5)
            return 0;
        memset(out + 4, chip->signature, len - 4); /* repeats: 000 L369, 002 L498, 003 L696 */
        return 4;
    default:
        return 0;
    }
}

/* Asleep at once; then it settles (002 L802). */
static void fall_asleep(const struct record *r, struct state *s)
{
    s->asleep = 1;
    s->settling_us = r->sleep_us;
}

/* Awake at once; then it settles if it was asleep, by the length of AB (002 L803-806). */
static void wake_up(const struct record *r, struct state *s, size_t len)
{
    if (s->asleep)
        s->settling_us = len == 1 ? r->wake_us : r->sign_us;
    s->asleep = 0;
}

/*
 * Byte i goes to offset (a + i) mod 256, the last one counts: of n bytes only the last
 * 256 can, and no two of those share an offset. Where none goes the page data stay FF. True
 * when a byte went past the page's end.
 */
static bool fold_bytes(uint8_t *data, uint32_t at, const uint8_t *sent, size_t n)
{
    uint32_t a = at % PAGE;
    size_t i;

    for (i = n > PAGE ? n - PAGE : 0; i < n; i++)
        data[(a + i) % PAGE] = sent[i];
    return n > PAGE - a;
}

/* An operation begins: what it is to do is remembered. True when a program folded. */
static bool start(const struct chip *chip, const struct record *r, struct state *s, const uint8_t *frame, size_t len)
{
    s->command = frame[0];
    s->busy_us = time_of(r, frame[0]);
    switch (frame[0]) {
    case WRITE_STATUS:
        s->at = (uint32_t)(len - 1);
        memcpy(s->data, frame + 1, len - 1);
        return false;
    case PROGRAM:
        s->at = address(frame, chip->size);
        return fold_bytes(s->data, s->at, frame + 4, len - 4);
    case SECTOR_ERASE: case HALF_ERASE: case BLOCK_ERASE:
        s->at = address(frame, chip->size);
        return false;
    default:
        return false; /* a chip erase has no address */
    }
}

/* The commands that change the state; true when a program folded. */
static bool carry_out(const struct chip *chip, const struct record *r, struct state *s, const uint8_t *frame,
                      size_t len)
{
    switch (frame[0]) {
    case WRITE_ENABLE: s->wel = 1; return false;
    case WRITE_DISABLE: s->wel = 0; return false;
    case SLEEP: fall_asleep(r, s); return false;
    case WAKE: wake_up(r, s, len); return false;
    default: return time_of(r, frame[0]) > 0 && start(chip, r, s, frame, len);
    }
}

static void forget(struct state *s)
{
    s->busy_us = 0;
    s->command = NO_COMMAND;
    s->at = NOWHERE;
    memset(s->data, 0xFF, PAGE);
}

/* The cells of the running program or erase. The chip is the one unit of a chip erase, whose address is FFFFFF. */
static uint8_t *unit_in(const struct chip *chip, const struct state *s, uint8_t *array)
{
    uint32_t unit = unit_of(chip, s->command);

    return array + (s->at & (chip->size - 1)) / unit * unit;
}

static void put_status(struct state *s, unsigned bits)
{
    s->srwd = bits >> 7;
    s->bp = bits >> 2 & 15;
}

/* What a status write leads to; without a second data byte the register stays. */
static uint8_t status_written(const struct chip *chip, const struct state *s)
{
    return s->data[0] & chip->status & KEPT;
}

static unsigned config_written(const struct state *s)
{
    return s->at == 2 ? (s->data[1] & VOLATILE) | ((s->config | s->data[1]) & TB) : s->config;
}

/* The time has run out: new cell = old AND data, FF in an erased unit, the bits of a status write. */
static void finish(const struct chip *chip, struct state *s, uint8_t *array)
{
    uint8_t *unit;
    size_t i;

    switch (s->command) {
    case WRITE_STATUS:
        s->config = config_written(s);
        put_status(s, status_written(chip, s));
        break;
    case PROGRAM:
        unit = unit_in(chip, s, array);
        for (i = 0; i < PAGE; i++)
            unit[i] &= s->data[i];
        break;
    default:
        memset(unit_in(chip, s, array), 0xFF, unit_of(chip, s->command));
        break;
    }
    s->wel = 0;
    forget(s);
}

/* Each bit that was to change takes its pattern bit. */
static unsigned torn(unsigned old, unsigned new, unsigned pattern)
{
    unsigned changing = old ^ new;

    return (old & ~changing) | (pattern & changing);
}

/* What the running operation leaves when the power is cut. */
static void tear(const struct chip *chip, struct state *s, uint8_t *array, const uint8_t *pattern)
{
    uint8_t *unit;
    size_t i;

    switch (s->command) {
    case NO_COMMAND:
        break;
    case WRITE_STATUS:
        if (s->at == 2)
            s->config = torn(s->config, config_written(s), pattern[1]);
        put_status(s, torn(status_byte(s) & KEPT, status_written(chip, s), pattern[0]));
        break;
    case PROGRAM:
        unit = unit_in(chip, s, array);
        for (i = 0; i < PAGE; i++)
            unit[i] = (uint8_t)torn(unit[i], unit[i] & s->data[i], pattern[i]);
        break;
    default:
        memcpy(unit_in(chip, s, array), pattern, unit_of(chip, s->command));
        break;
    }
}

/* As long as what the running operation changes: in bytes of its unit, or of the two registers. */
static size_t pattern_length(const struct chip *chip, const struct state *s)
{
    return s->command == WRITE_STATUS ? s->at : unit_of(chip, s->command);
}

/* SRWD, BP and TB stay, the rest becomes 0. */
static void lose_power(struct state *s)
{
    s->wel = 0;
    s->asleep = 0;
    s->config &= TB;
    s->settling_us = 0;
}

uint32_t ref_frame(uint32_t model, uint32_t status_us, uint32_t page_us, uint32_t sector_us,
                   uint32_t block_us, uint32_t chip_us, uint32_t half_us,
                   uint32_t sleep_us, uint32_t wake_us, uint32_t sign_us,
                   uint8_t *state, size_t state_len, const uint8_t *array, size_t array_len,
                   uint32_t *wear, size_t wear_len,
                   const uint8_t *frame, size_t frame_len, uint32_t tail, uint32_t wp, uint32_t strict,
                   uint8_t *out, size_t out_len, uint32_t *from, uint32_t *count, uint32_t *fold)
{
    const struct record r = {model, status_us, page_us, sector_us, block_us, chip_us, half_us, sleep_us, wake_us,
                             sign_us};
    const struct chip *chip;
    struct state s;
    uint32_t number;

    *from = *count = *fold = 0;
    if (!record_ok(&r))
        return 1;
    chip = &chips[model - 1];
    if (array_len != chip->size)
        return 2;
    if (wear_len != chip->size / SECTOR)
        return 24;
    if (!unpack(&s, state, state_len, &r))
        return 3;
    number = frame_refusal(chip, &s, frame, frame_len, tail, wp, out_len);
    if (number == 17 && chip->large) { /* 003 L803 */
        s.wel = 0;
        pack(&s, state);
    }
    if (number == 0)
        number = last_refusal(chip, array, wear, frame, frame_len, strict);
    if (number != 0)
        return number;
    driven(answer(chip, &s, array, frame, frame_len, out), frame_len, from, count);
    *fold = carry_out(chip, &r, &s, frame, frame_len);
    pack(&s, state);
    return 0;
}

/* Both times fall, never below 0; when the busy time comes to 0, the operation is done. */
uint32_t ref_wait(uint32_t model, uint32_t status_us, uint32_t page_us, uint32_t sector_us,
                  uint32_t block_us, uint32_t chip_us, uint32_t half_us,
                  uint32_t sleep_us, uint32_t wake_us, uint32_t sign_us,
                  uint8_t *state, size_t state_len, uint8_t *array, size_t array_len, uint32_t us)
{
    const struct record r = {model, status_us, page_us, sector_us, block_us, chip_us, half_us, sleep_us, wake_us,
                             sign_us};
    const struct chip *chip;
    struct state s;

    if (!record_ok(&r))
        return 1;
    chip = &chips[model - 1];
    if (array_len != chip->size)
        return 2;
    if (!unpack(&s, state, state_len, &r))
        return 3;
    if (us < s.busy_us)
        s.busy_us -= us;
    else if (s.busy_us > 0)
        finish(chip, &s, array);
    s.settling_us -= us < s.settling_us ? us : s.settling_us;
    pack(&s, state);
    return 0;
}

uint32_t ref_power_cycle(uint32_t model, uint32_t status_us, uint32_t page_us, uint32_t sector_us,
                         uint32_t block_us, uint32_t chip_us, uint32_t half_us,
                         uint32_t sleep_us, uint32_t wake_us, uint32_t sign_us,
                         uint8_t *state, size_t state_len)
{
    const struct record r = {model, status_us, page_us, sector_us, block_us, chip_us, half_us, sleep_us, wake_us,
                             sign_us};
    struct state s;

    if (!record_ok(&r))
        return 1;
    if (!unpack(&s, state, state_len, &r))
        return 3;
    if (s.busy_us > 0)
        return 11;
    lose_power(&s);
    pack(&s, state);
    return 0;
}

uint32_t ref_cut(uint32_t model, uint32_t status_us, uint32_t page_us, uint32_t sector_us,
                 uint32_t block_us, uint32_t chip_us, uint32_t half_us,
                 uint32_t sleep_us, uint32_t wake_us, uint32_t sign_us,
                 uint8_t *state, size_t state_len, uint8_t *array, size_t array_len,
                 const uint8_t *pattern, size_t pattern_len)
{
    const struct record r = {model, status_us, page_us, sector_us, block_us, chip_us, half_us, sleep_us, wake_us,
                             sign_us};
    const struct chip *chip;
    struct state s;

    if (!record_ok(&r))
        return 1;
    chip = &chips[model - 1];
    if (array_len != chip->size)
        return 2;
    if (!unpack(&s, state, state_len, &r))
        return 3;
    if (pattern_len != pattern_length(chip, &s))
        return 23;
    tear(chip, &s, array, pattern);
    forget(&s);
    lose_power(&s);
    pack(&s, state);
    return 0;
}
