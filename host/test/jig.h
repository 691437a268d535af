/*
 * One call at a time: what is given, what 01 wants of it, and the comparison of
 * everything that was lent. A test begins with jig_model. What it does not say stays:
 * the default is a call that changes nothing and drives nothing.
 */
#ifndef JIG_H
#define JIG_H

#include "gwo.h"
#include "rig.h"

enum { PAGE = 256, SECTOR = 4096, HALF_BLOCK = 32768, BLOCK = 65536, LONGEST_FRAME = 65541 };
enum { FRAME_ROOM = 65600, OUT_ROOM = 65664, STATE_ROOM = 280, PATTERN_ROOM = 16777216 + BLOCK, WEAR_ROOM = 4160 };

/* What differs between the models. */
struct part {
    const struct gwo_record *bench;
    uint32_t size;
    unsigned highest_bp;
    const char *id, *signature;  /* driven by 9F and AB, repeated */
    const char *by_turns[2];     /* driven by 90, with an even and with an odd fourth byte */
};

enum { MODELS = 3 };
const struct part *part_of(uint32_t model);
struct gwo_record bench(uint32_t model);
uint32_t size_of(uint32_t model);

/* The state, as fields; the configuration register is model 3's. */
struct condition {
    unsigned srwd, bp, wel, asleep;
    uint32_t busy_us;
    unsigned config;
    uint32_t settling_us;
};

/* Bit 3 of the configuration register: the protected blocks are the lowest. */
enum { TB = 0x08 };

/* From the factory; and the same with WEL 1. */
extern const struct condition power_on, enabled;

/* What the next call is given. */
struct given {
    struct gwo_record record;
    uint8_t state[STATE_ROOM];
    size_t state_len;
    size_t array_len, wear_len;
    uint8_t frame[FRAME_ROOM];
    size_t frame_len;
    uint32_t tail, wp, strict;
    size_t out_len, pattern_len;
};
extern struct given given;

/* The content of a cell before the first call; and what is wanted of it so far. */
uint8_t cell(uint32_t address);
uint8_t wanted_cell(uint32_t address);

/* The count of a sector before the first call, by its place among the last WEAR_ROOM counts; and what is lent now. */
uint32_t count_before(uint32_t place);
uint32_t lent_count(uint32_t sector);

/*
 * A fresh call: bench record, power-on state, every cell and count as above, an empty frame, WP# high, not strict, no
 * pattern.
 */
void jig_model(uint32_t model);

/* The next call of the same chip: state, cells and counts as the last one left them, an empty frame as above. */
void jig_next(void);

/* A chip that is busy runs C7, if jig_runs does not say after it what it runs. */
void jig_state(struct condition c);

/* The place is an address in the array, the count of a status write, or NOWHERE; n data bytes, the rest FF. */
void jig_runs(uint8_t command, uint32_t place, const uint8_t *data, size_t n);

/* The state by bytes, valid or not; n is at most STATE_ROOM. */
void jig_packed(const uint8_t *bytes, size_t n);

/* The frame, by capital hex digits; the output gets its length. */
void jig_frame(const char *hex);

/* A frame of a command byte, a 24-bit address and n bytes of value fill after them. */
void jig_addressed(uint8_t command, uint32_t address, size_t n, uint8_t fill);

/* A frame of n bytes: the command, the others fill. */
void jig_filled(uint8_t command, size_t n, uint8_t fill);

/* The pattern of a cut: n bytes, for the caller to fill; what a former one left is in them. */
uint8_t *jig_pattern(size_t n);

/* Sets n cells before the call, in what is given and in what is wanted alike. */
void jig_cells(uint32_t at, uint32_t n, uint8_t value);

/* The same of the counts of n sectors. */
void jig_wear(uint32_t sector, uint32_t n, uint32_t count);

/*
 * What is wanted, where it differs from a call that changes nothing. A chip that was busy and is wanted so goes on with
 * what it runs; one that was not runs what the given frame starts.
 */
void want_state(struct condition c);
void want_hex(uint32_t from, const char *hex);
void want_cells(uint32_t at, uint32_t n, uint8_t value);
void want_bytes(uint32_t at, const uint8_t *bytes, uint32_t n);
void want_fold(int folded);

/* Driven from a position on: these bytes. */
void want_out(uint32_t from, const uint8_t *bytes, size_t n);

/* Driven from a position to the frame's end: the bytes given, repeated. */
void want_repeated(uint32_t from, const char *hex);

/* Driven from a position to the frame's end: the cells from an address on, rising, from the last to 0. */
void want_cells_driven(uint32_t from, uint32_t address);

/*
 * Make the call, and compare the answer and every lent byte. Only a call that ends a program or an erase can write to
 * the array, and then it is compared; none can write to a pattern. Of 16 MiB only the cells around the address (rig.h)
 * are guarded, and compared with those that are wanted otherwise: jig_whole compares all of them. A frame that starts
 * an erase is wanted to count the sectors of its unit, and no other can write to the counts. It is the call itself,
 * for the functions on a record (gwo.h) put a bench value where a time is 0.
 */
void frame_gives(uint32_t number, const char *label);
void wait_gives(uint32_t us, uint32_t number, const char *label);
void power_cycle_gives(uint32_t number, const char *label);
void cut_gives(uint32_t number, const char *label);
void jig_whole(const char *label);

/* What a report on the wear table is wanted to give; where it is refused, no result is to be written. */
struct report {
    uint64_t total;
    uint32_t smallest, largest, sector, mean, remainder;
};
void report_gives(uint32_t number, struct report want, const char *label);

#endif
