/* 01, Commands: 03, 0B, 9F, AB and 90. */
#include "jig.h"
#include "rules.h"

/* Addresses at the ends of pages, sectors, blocks and arrays, and beyond the arrays. */
static const uint32_t addresses[] = {
    0x000000, 0x000001, 0x0000FF, 0x000100, 0x000FFF, 0x001000, 0x00FFFE, 0x00FFFF, 0x010000, 0x0100FF,
    0x01FFFF, 0x020000, 0x02FFFF, 0x030000, 0x03FFFE, 0x03FFFF, 0x040000, 0x040001, 0x7FFFFF, 0x800000,
    0xFFFEFF, 0xFFFFFE, 0xFFFFFF};
enum { ADDRESSES = sizeof addresses / sizeof addresses[0] };

/* Data bytes after the address: none, few, a page and the array's length around. */
static const size_t counts[] = {0, 1, 2, 3, 16, 255, 256, 257, 4097, 65535, 65536};
enum { COUNTS = sizeof counts / sizeof counts[0] };

/* The same cells by 03, and by 0B with one dummy byte more. */
static void read_at(uint32_t model, uint32_t address, size_t count)
{
    unsigned fast;

    for (fast = 0; fast < 2; fast++) {
        jig_model(model);
        jig_addressed(fast ? 0x0B : 0x03, address, count + fast, (uint8_t)(count + 0x5B));
        given.tail = (uint32_t)(address + count) % 8;
        if (count > 0)
            want_cells_driven(4 + fast, address % size_of(model));
        frame_gives(0, named("model %lu: %s at %06lX, %lu bytes", (unsigned long)model, fast ? "0B" : "03",
                             (unsigned long)address, (unsigned long)count));
    }
}

static void reads(uint32_t model)
{
    size_t i, k;

    for (i = 0; i < ADDRESSES; i++)
        for (k = 0; k < COUNTS; k++)
            read_at(model, addresses[i], counts[k]);
}

/* The longest read: 65,537 bytes come back to the first cell read of model 1. */
static void longest_reads(uint32_t model)
{
    size_t i;

    for (i = 0; i < ADDRESSES; i++) {
        jig_model(model);
        jig_addressed(0x03, addresses[i], LONGEST_FRAME - 4, 0);
        want_cells_driven(4, addresses[i] % size_of(model));
        frame_gives(0, named("03 at %06lX, 65,537 bytes", (unsigned long)addresses[i]));
    }
}

/* 9F: the three bytes repeated, whatever is clocked in. */
static void identification(uint32_t model)
{
    size_t length;

    for (length = 1; length <= 300; length++) {
        jig_model(model);
        jig_filled(0x9F, length, (uint8_t)length);
        given.tail = (uint32_t)length % 8;
        if (length > 1)
            want_repeated(1, part_of(model)->id);
        frame_gives(0, named("9F of %lu bytes", (unsigned long)length));
    }
}

/* AB: the signature repeats to the frame's end (000 L369, 002 L498, 003 L696); a chip that was asleep drives it too. */
static void signature(uint32_t model)
{
    static const struct condition asleep = {1, 2, 0, 1, 0, 0, 0}, awake = {1, 2, 0, 0, 0, 0, 0};
    struct condition after = awake;
    size_t length;

    for (length = 5; length <= 300; length++) {
        jig_model(model);
        jig_state(length % 2 ? asleep : awake);
        jig_filled(0xAB, length, (uint8_t)(length * 3));
        given.tail = (uint32_t)length % 8;
        after.settling_us = length % 2 ? bench(model).sign_us : 0;
        want_state(after);
        want_repeated(4, part_of(model)->signature);
        frame_gives(0, named("AB of %lu bytes", (unsigned long)length));
    }
}

/* 90: by turns; every odd fourth byte puts the signature first; bytes 2 and 3 don't matter. */
static void maker_and_signature(uint32_t model)
{
    unsigned fourth;
    size_t length;

    for (fourth = 0; fourth < 256; fourth++) {
        for (length = 4; length <= 9; length++) {
            jig_model(model);
            jig_addressed(0x90, fourth * 0x010100u + fourth, length - 4, (uint8_t)fourth);
            given.tail = fourth % 8;
            if (length > 4)
                want_repeated(4, part_of(model)->by_turns[fourth % 2]);
            frame_gives(0, named("90 with fourth byte %02X, %lu bytes", fourth, (unsigned long)length));
        }
    }
}

void reading_commands(void)
{
    uint32_t model;

    for (model = 1; model <= MODELS; model++) {
        reads(model);
        longest_reads(model);
        identification(model);
        signature(model);
        maker_and_signature(model);
    }
}
