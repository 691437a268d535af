/*
 * The independent model's front (02, Req 07, and its decided page; 000 L133-143 for HOLD#, L187 for bits on the rising clock):
 * levels of the pins in, frames out.
 */
#include "model.h"

#include <stdbool.h>

enum { CS = 1, SCLK = 2, SI = 4, WP = 8, HOLD = 16 };
enum { FRONT = 8, MOST = 65541 };

/* What is remembered from sample to sample; the last five within a frame only. */
struct front {
    bool cs, sclk, held; /* of the last sample */
    bool wp;             /* at the fall */
    bool outgrown;
    uint32_t bits, value; /* of the byte begun */
    uint32_t bytes;       /* whole ones */
};

/* ---- the eight bytes */

static struct front unpack(const uint8_t *p)
{
    struct front f;

    f.cs = (p[0] & 1) != 0;
    f.sclk = (p[0] & 2) != 0;
    f.held = (p[0] & 4) != 0;
    f.wp = (p[0] & 8) != 0;
    f.outgrown = (p[0] & 16) != 0;
    f.bits = p[1];
    f.value = p[2];
    f.bytes = (uint32_t)p[4] | (uint32_t)p[5] << 8 | (uint32_t)p[6] << 16 | (uint32_t)p[7] << 24;
    return f;
}

static void pack(const struct front *f, uint8_t *p)
{
    p[0] = (uint8_t)(f->cs | f->sclk << 1 | f->held << 2 | f->wp << 3 | f->outgrown << 4);
    p[1] = (uint8_t)f->bits;
    p[2] = (uint8_t)f->value;
    p[3] = 0;
    p[4] = (uint8_t)f->bytes;
    p[5] = (uint8_t)(f->bytes >> 8);
    p[6] = (uint8_t)(f->bytes >> 16);
    p[7] = (uint8_t)(f->bytes >> 24);
}

/* With CS# high there is no frame, and an outgrown one has neither bytes nor bits. */
static bool is_front(const uint8_t *p, size_t n)
{
    struct front f;

    if (n != FRONT || p[0] >= 32 || p[1] > 7 || p[2] >> p[1] != 0 || p[3] != 0)
        return false;
    f = unpack(p);
    if (f.bytes > MOST || (f.cs && (f.wp || f.outgrown)))
        return false;
    return !(f.cs || f.outgrown) || (f.bits == 0 && f.value == 0 && f.bytes == 0);
}

/* ---- a sample */

/* What a call tells besides its number. */
struct told {
    uint32_t ready, bytes, tail, wp;
};

static void no_frame(struct front *f)
{
    f->wp = f->outgrown = false;
    f->bits = f->value = f->bytes = 0;
}

/* A bit of a frame that goes on. */
static void take_bit(struct front *f, bool si, uint8_t *frame, size_t room)
{
    f->value = 2 * f->value + si;
    f->bits++;
    if (f->bits < 8)
        return;
    if (f->bytes < MOST && f->bytes < room) {
        frame[f->bytes++] = (uint8_t)f->value;
    } else {
        f->outgrown = true;
        f->bytes = 0;
    }
    f->bits = f->value = 0;
}

/* CS# rises: the number, and the frame where it is handed over. */
static uint32_t rise(const struct front *f, size_t room, struct told *t)
{
    if (f->held)
        return 34;
    if (f->outgrown || f->bytes > room)
        return 4;
    t->ready = 1;
    t->bytes = f->bytes;
    t->tail = f->bits;
    t->wp = f->wp;
    return 0;
}

static uint32_t step(struct front *f, uint32_t levels, uint8_t *frame, size_t room, struct told *t)
{
    const bool cs = (levels & CS) != 0, sclk = (levels & SCLK) != 0;
    const bool held = sclk ? f->held : (levels & HOLD) == 0;
    uint32_t number = 0;

    if (f->cs && !cs) {
        no_frame(f);
        f->wp = (levels & WP) != 0;
    } else if (!f->cs && !cs) {
        if (!f->sclk && sclk && !held && !f->outgrown)
            take_bit(f, (levels & SI) != 0, frame, room);
    } else if (!f->cs && cs) {
        number = rise(f, room, t);
        no_frame(f);
    }
    f->cs = cs;
    f->sclk = sclk;
    f->held = held;
    return number;
}

/* ---- the two calls */

uint32_t ref_samples(uint8_t *front, size_t front_len, uint8_t *frame, size_t frame_len,
                     const uint8_t *levels, size_t levels_len,
                     uint64_t *used, uint32_t *ready, uint32_t *bytes, uint32_t *tail, uint32_t *wp)
{
    struct told t = {0, 0, 0, 0};
    const bool good = is_front(front, front_len);
    uint32_t number = good ? 0 : 3;
    size_t at = 0;

    if (good) {
        struct front f = unpack(front);

        while (at < levels_len && number == 0 && t.ready == 0)
            number = step(&f, levels[at++], frame, frame_len, &t);
        pack(&f, front);
    }
    *used = at;
    *ready = t.ready;
    *bytes = t.bytes;
    *tail = t.tail;
    *wp = t.wp;
    return number;
}

uint32_t ref_sample(uint8_t *front, size_t front_len, uint8_t *frame, size_t frame_len, uint32_t levels,
                    uint32_t *ready, uint32_t *bytes, uint32_t *tail, uint32_t *wp)
{
    const uint8_t one = levels & (CS | SCLK | SI | WP | HOLD);
    uint64_t used;

    return ref_samples(front, front_len, frame, frame_len, &one, 1, &used, ready, bytes, tail, wp);
}
