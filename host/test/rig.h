/* What the test programs share: lent buffers, a count of failures, random numbers. */
#ifndef RIG_H
#define RIG_H

#include "gwo.h"

#include <stddef.h>
#include <stdint.h>

/* Bytes that lie between two unmapped stretches: to touch one outside is a fault. */
struct lent {
    uint8_t *start, *end;
};

/* At least room bytes; .end is the first unmapped one. */
struct lent lend(size_t room);

/* A part of a lent buffer where to write a byte is a fault for a while; both null: none. */
struct guard {
    uint8_t *low, *high;
};

/* Moves it over the bytes from low to before high, and over some around them; or takes it away. */
void guard_over(struct guard *g, uint8_t *low, uint8_t *high);
void guard_lift(struct guard *g);

/* The last n bytes, so that they end at the unmapped stretch. */
static inline uint8_t *last_of(const struct lent *l, size_t n)
{
    return l->end - n;
}

/*
 * What of a lent array is guarded, or compared after a call that may write to it: all of a small one; of 16 MiB the
 * block that holds an address and a sector on each side of it. The programs compare the whole now and then, and at
 * their end.
 */
struct stretch {
    size_t low, high;
};

struct stretch around(size_t address, size_t length);

/* The longest of a record's busy times, the sixth being 0 where it does not count; of its settling times; of all. */
uint32_t longest_busy(const struct gwo_record *r);
uint32_t longest_settling(const struct gwo_record *r);
uint32_t longest(const struct gwo_record *r);

/* The parts of a packed state after its first four bytes. */
enum { BUSY_AT = 4, SETTLING_AT = 8, COMMAND_AT = 12, PLACE_AT = 13, DATA_AT = 16 };

/* A time in it: four bytes, the low one first. */
void put_us(uint8_t *p, uint32_t us);
uint32_t get_us(const uint8_t *p);

/* The running operation in it: the command, the place (an address, or the count of a status write), no data: FF. */
void put_operation(uint8_t *state, uint8_t command, uint32_t place);
uint32_t get_place(const uint8_t *state);

/* No operation: what an idle chip has in place of a command and of an address; a chip erase has no address either. */
enum { NO_COMMAND = 0xFF, NOWHERE = 0xFFFFFF };

/* Whether a call that is done may write to the array: it ends a program or an erase, by so long a wait or by a cut. */
int ends_by_wait(const uint8_t *state, uint32_t us);
int ends_by_cut(const uint8_t *state);

/* Of an operation: how long it takes, 0 for a byte that starts none; how many cells it may change; where they begin. */
uint32_t us_of(const struct gwo_record *r, uint8_t command);
uint32_t unit_of(uint32_t model, uint8_t command);
uint32_t unit_start(uint32_t model, uint8_t command, uint32_t address);

/* The bytes of the three numbers that are lent with a frame: the first driven position, the count, the fold. */
enum { NUMBERS = 12 };

/* True when n bytes agree: by words, which an emulator does faster than memcmp. */
int agree(const uint8_t *a, const uint8_t *b, size_t n);

/* A failure unless the bytes from one to before another agree; it names the first that differs. */
void same_bytes(const uint8_t *got, const uint8_t *want, size_t from, size_t to, const char *what, const char *label);

/*
 * Begins a test program. A touch of unmapped memory is from now on a failure
 * of its own: the program says so with the calls made so far, and ends with status 1.
 */
void rig_begin(const char *name);

/* From now on the first failure ends the program. */
void rig_stop_at_first(void);

/* Calls made so far; the programs count them up. */
extern unsigned long rig_calls;

/* One failure, in printf's form; the first ten are shown. */
#if defined(__GNUC__)
__attribute__((format(printf, 1, 2)))
#endif
void fail(const char *form, ...);

unsigned long failures(void);

/* A label in printf's form, good until the next one. */
#if defined(__GNUC__)
__attribute__((format(printf, 1, 2)))
#endif
const char *named(const char *form, ...);

/* Prints how it went; the exit status: 0 exactly when nothing failed. */
int rig_end(void);

/* A program of named groups of checks. */
struct group {
    const char *name;
    void (*run)(void);
};

/*
 * All of them, or the one that is named: PROGRAM [first [GROUP]]; with `first` it stops at a failure. After each group
 * its name goes to after, unless that is null. The exit status: rig_end's, or 2 where there is no group of the name.
 */
int rig_groups(const char *name, const struct group *groups, size_t count, void (*after)(const char *), int argc,
               char **argv);

/* Random numbers (splitmix64), the same for the same seed on every machine. */
struct dice {
    uint64_t at;
};

uint64_t roll(struct dice *d);

/* 0 to n - 1; n is not 0. */
uint32_t below(struct dice *d, uint32_t n);

/* 1 in percent of the cases, else 0. */
unsigned chance(struct dice *d, unsigned percent);

void scatter(struct dice *d, uint8_t *bytes, size_t n);

#endif
