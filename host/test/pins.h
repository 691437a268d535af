/* The tests of the front, gwo_sample and gwo_samples: what they are lent, waves of samples, and what calls tell. */
#ifndef PINS_H
#define PINS_H

#include "model.h"
#include "rig.h"

#include <stddef.h>
#include <stdint.h>

enum { CS = GWO_LEVEL_CS, SCLK = GWO_LEVEL_SCLK, SI = GWO_LEVEL_SI, WP = GWO_LEVEL_WP, HOLD = GWO_LEVEL_HOLD };
enum { FRONT = GWO_FRONT_LENGTH, MOST_BYTES = GWO_FRAME_LIMIT, LONG_WAVE = 17 * (MOST_BYTES + 4) };

/* Nothing happens: CS# is high, and WP# and HOLD# are. Within a frame CS# is low. */
enum { AT_REST = CS | WP | HOLD, SELECTED = WP | HOLD };

/* A front and a buffer for the bytes, lent at unmapped memory. */
struct desk {
    uint8_t *front, *frame;
    size_t front_len, frame_len;
};

/* What a call tells; used is 1 for a single sample. */
struct told {
    uint32_t answer, ready, bytes, tail, wp;
    uint64_t used;
};

/* A front before its first sample, and a buffer of that room with bytes of no meaning. */
struct desk fresh_desk(size_t room);

/* The same front with a buffer of another room; its bytes are kept as far as there is room. */
void lend_room(struct desk *d, size_t room);

/*
 * The calls. The samples of a run are copied so that they end at unmapped memory. What every call has to do is tested: results that are
 * 0 without a frame, a single sample that changes one byte of the buffer at most, 3 that changes nothing.
 */
struct told one_sample(struct desk *d, uint32_t levels);
struct told run_samples(struct desk *d, const uint8_t *levels, size_t n);

/* As run_samples, by single samples. */
struct told run_singly(struct desk *d, const uint8_t *levels, size_t n);

/* Whether two calls told the same. */
int same_told(const struct told *a, const struct told *b);

void fail_told(const char *name, const struct told *got, const struct told *want);

/* Samples one after the other. */
struct wave {
    uint8_t *at;
    size_t n;
};

struct wave *fresh_wave(void);

/* So many samples with these levels. */
void put(struct wave *w, uint32_t levels, size_t times);

/*
 * A frame from its fall to its rise, `per` samples a bit, the clock idle high or low; other holds levels that stay, WP and HOLD. SI is
 * there from the low half of the clock on.
 */
struct form {
    uint32_t other;
    unsigned per, idle_high;
};
void put_bits(struct wave *w, const struct form *f, const uint8_t *bytes, size_t bits);
void put_frame(struct wave *w, const struct form *f, const uint8_t *bytes, size_t n, unsigned tail);

/* The house rule: whether each sample is held, nothing before the first one. */
void held_samples(const uint8_t *levels, size_t n, uint8_t *held);

/* The groups. */
void steps(void);                              /* the page's table and its sentences, by pictures of the pins */
void rises(void);                              /* what is handed over, 34 and 4, room */
void packed_fronts(void);                      /* the eight bytes */
void promises(struct dice *d);                 /* over lists of samples */
void random_runs(struct dice *d, unsigned long n); /* against the independent front */

#endif
