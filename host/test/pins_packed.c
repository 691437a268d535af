/* The eight bytes of a front: which are a packing, and that all others are answered 3 and stay. */
#include "pins.h"

#include <string.h>

static uint8_t bytes[FRONT];

static void spell(uint8_t flags, uint8_t bits, uint8_t value, uint8_t zero, uint32_t whole)
{
    bytes[0] = flags;
    bytes[1] = bits;
    bytes[2] = value;
    bytes[3] = zero;
    put_us(bytes + 4, whole);
}

/* Both calls judge the bytes so, a run without samples too; 3 leaves them and the buffer. */
static void judged(int good, const char *what)
{
    static const uint8_t levels[] = {AT_REST};
    struct desk d = fresh_desk(8);
    uint8_t kept[8];
    struct told t;

    memcpy(kept, d.frame, 8);
    memcpy(d.front, bytes, FRONT);
    t = run_samples(&d, levels, 0);
    if (t.answer != (good ? 0u : 3u))
        fail("%s: %02X %02X %02X %02X %02X%02X%02X%02X: answer %lu of a run without samples", what, bytes[0], bytes[1], bytes[2], bytes[3],
             bytes[7], bytes[6], bytes[5], bytes[4], (unsigned long)t.answer);
    same_bytes(d.front, bytes, 0, FRONT, "front", what);
    t = run_samples(&d, levels, 1);
    if ((t.answer == 3) == good)
        fail("%s: %02X %02X %02X %02X: answer %lu of a run", what, bytes[0], bytes[1], bytes[2], bytes[3], (unsigned long)t.answer);
    memcpy(d.front, bytes, FRONT);
    t = one_sample(&d, levels[0]);
    if ((t.answer == 3) == good)
        fail("%s: %02X %02X %02X %02X: answer %lu of a sample", what, bytes[0], bytes[1], bytes[2], bytes[3], (unsigned long)t.answer);
    same_bytes(d.frame, kept, 0, 8, "frame", what);
}

/* Bits 5 to 7 are zero; with CS# high bits 3 and 4 are. */
static void flag_bytes(void)
{
    unsigned flags;

    for (flags = 0; flags < 256; flags++) {
        spell((uint8_t)flags, 0, 0, 0, 0);
        judged(flags < 32 && ((flags & 1) == 0 || (flags & 24) == 0), "byte 0");
    }
}

/* Bits begun 0 to 7, their value below 2^bits. */
static void bits_and_values(void)
{
    unsigned bits, value;

    for (bits = 0; bits < 256; bits++) {
        spell(8, (uint8_t)bits, 0, 0, 0);
        judged(bits < 8, "byte 1");
    }
    for (bits = 0; bits < 8; bits++)
        for (value = 0; value < 256; value++) {
            spell(2, (uint8_t)bits, (uint8_t)value, 0, 9);
            judged(value < 1u << bits, "byte 2");
        }
}

static void zero_and_counts(void)
{
    static const uint32_t counts[] = {1, 255, 256, 65535, 65536, MOST_BYTES, MOST_BYTES + 1, 65545, 0x10000u * 2, 0x01000000u,
                                      0x80000000u, 0xFFFFFFFFu};
    unsigned zero;
    size_t i;

    for (zero = 1; zero < 256; zero++) {
        spell(0, 3, 2, (uint8_t)zero, 1);
        judged(0, "byte 3");
    }
    for (i = 0; i < sizeof counts / sizeof counts[0]; i++) {
        spell(4, 7, 127, 0, counts[i]);
        judged(counts[i] <= MOST_BYTES, "bytes 4 to 7");
    }
}

/* With CS# high, or outgrown, bytes 1 to 7 are 0. */
static void nothing_begun(void)
{
    static const uint8_t flags[] = {1, 3, 5, 7, 16, 18, 20, 24, 30};
    size_t i;

    for (i = 0; i < sizeof flags; i++) {
        spell(flags[i], 0, 0, 0, 0);
        judged(1, "no frame, or outgrown");
        spell(flags[i], 1, 0, 0, 0);
        judged(0, "no frame, or outgrown, and a bit");
        spell(flags[i], 1, 1, 0, 0);
        judged(0, "no frame, or outgrown, and a bit that is 1");
        spell(flags[i], 0, 0, 0, 1);
        judged(0, "no frame, or outgrown, and a byte");
        spell(flags[i], 0, 0, 0, 65536);
        judged(0, "no frame, or outgrown, and 65,536 bytes");
    }
}

/* Any other length, the right bytes at their head. */
static void other_lengths(void)
{
    static const uint8_t levels[] = {SELECTED, AT_REST};
    size_t n;

    for (n = 0; n <= 16; n++) {
        struct desk d = fresh_desk(8);

        d.front += FRONT - (ptrdiff_t)n;
        d.front_len = n;
        memset(d.front, 0, n);
        if (n > 0)
            d.front[0] = CS;
        if (n == 0)
            d.front = NULL;
        if (one_sample(&d, SELECTED).answer != (n == FRONT ? 0u : 3u))
            fail("a front of %lu bytes, by a sample", (unsigned long)n);
        if (run_samples(&d, levels, 2).answer != (n == FRONT ? 0u : 3u))
            fail("a front of %lu bytes, by a run", (unsigned long)n);
    }
}

void packed_fronts(void)
{
    flag_bytes();
    bits_and_values();
    zero_and_counts();
    nothing_begun();
    other_lengths();
}
