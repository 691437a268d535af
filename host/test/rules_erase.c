/* 01, Commands: 20, D8, 60 and C7; 52 erases a half block on model 3, and nothing on the others. */
#include "jig.h"
#include "rules.h"

void write_at(uint32_t model, struct condition c, uint8_t command, uint32_t address)
{
    uint32_t inside = address % size_of(model);
    int refused = is_protected(model, c, inside / BLOCK);
    struct condition busy = c;
    const char *label = named("model %lu, BP %u, register %02X: %02X at %06lX", (unsigned long)model, c.bp, c.config,
                              command, (unsigned long)address);

    jig_model(model);
    jig_state(c);
    busy.busy_us = us_of(&given.record, command);
    jig_addressed(command, address, command == 0x02 ? 1 : 0, 0x00);
    given.wp = address % 2;
    want_state(refused ? after_17(model, c) : busy);
    frame_gives(refused ? 17 : 0, label);
    if (refused)
        return;
    if (command == 0x02)
        want_cells(inside, 1, 0x00);
    else
        want_cells(unit_start(model, command, inside), unit_of(model, command), 0xFF);
    c.wel = 0;
    completes(c, label);
}

/* 52 on models 1 and 2: it is withdrawn, whatever is protected, and the latch stays. */
static void withdrawn_at(uint32_t model, struct condition c, uint32_t address)
{
    jig_model(model);
    jig_state(c);
    jig_addressed(0x52, address, 0, 0x00);
    given.wp = address % 2;
    frame_gives(21, named("model %lu, BP %u: 52 at %06lX", (unsigned long)model, c.bp, (unsigned long)address));
    jig_next();
    wait_gives(0xFFFFFFFF, 0, "a wait after it");
}

/* Both ends of every sector, in the array and in its images above it. */
static void every_sector(uint32_t model, unsigned bp)
{
    struct condition c = enabled;
    uint32_t size = size_of(model), sector, image;

    c.bp = bp;
    for (sector = 0; sector < size / SECTOR; sector++) {
        for (image = 0; image < 3; image++) {
            uint32_t first = sector * SECTOR + image * (0x1000000u / 2 / size) * size;

            if (first > 0xFFFFFF)
                first -= size;
            write_at(model, c, 0x20, first);
            write_at(model, c, 0x20, first + SECTOR - 1);
            write_at(model, c, 0xD8, first + sector * 16);
            withdrawn_at(model, c, first + sector * 16);
        }
    }
}

/* Model 3 has no image: an end of every sector, both ends of every half block, and a cell of every block. */
static void every_unit_of_model_3(void)
{
    uint32_t i;

    for (i = 0; i < 4096; i++)
        write_at(3, enabled, 0x20, i * SECTOR + i % 2 * (SECTOR - 1));
    for (i = 0; i < 512; i++) {
        write_at(3, enabled, 0x52, i * HALF_BLOCK);
        write_at(3, enabled, 0x52, i * HALF_BLOCK + HALF_BLOCK - 1);
    }
    for (i = 0; i < 256; i++)
        write_at(3, enabled, 0xD8, i * BLOCK + i * 257);
}

/* Only with BP 0, wherever TB puts the protected blocks. */
static void whole_chip(uint32_t model, unsigned bp, unsigned config, const char *frame)
{
    const struct condition c = {0, bp, 1, 0, 0, config, 0}, busy = {0, bp, 1, 0, bench(model).chip_us, config, 0},
                           after = {0, bp, 0, 0, 0, config, 0};
    const char *label = named("model %lu, BP %u, register %02X: %s", (unsigned long)model, bp, config, frame);

    jig_model(model);
    jig_state(c);
    jig_frame(frame);
    want_state(bp == 0 ? busy : after_17(model, c));
    frame_gives(bp == 0 ? 0 : 17, label);
    if (bp != 0)
        return;
    want_cells(0, size_of(model), 0xFF);
    completes(after, label);
}

void erasing(void)
{
    uint32_t model;
    unsigned bp;

    for (model = 1; model <= MODELS; model++) {
        for (bp = 0; bp <= part_of(model)->highest_bp; bp++) {
            if (model < 3)
                every_sector(model, bp);
            whole_chip(model, bp, 0, "60");
            whole_chip(model, bp, 0, "C7");
        }
    }
    every_unit_of_model_3();
    for (bp = 0; bp <= part_of(3)->highest_bp; bp++) {
        whole_chip(3, bp, TB, "60");
        whole_chip(3, bp, 0xDB, "C7");
    }
}
