/* 01, Protected: the blocks that BP protects, on model 3 at the end that TB says; 02, 20, 52 and D8 at their limits. */
#include "jig.h"
#include "rules.h"

/* First and last block by BP: 01 for model 1; Table 2 of 002; Table 2 of 003 with TB 0 and with TB 1. */
#define NONE {1, 0}
#define ALL {0, 255}
static const struct { uint32_t first, last; } ranges[4][16] = {
    {NONE, {0, 0}, {0, 0}, {0, 0}},
    {NONE, {3, 3}, {2, 3}, {0, 3}},
    {NONE, {255, 255}, {254, 255}, {252, 255}, {248, 255}, {240, 255}, {224, 255}, {192, 255}, {128, 255},
     ALL, ALL, ALL, ALL, ALL, ALL, ALL},
    {NONE, {0, 0}, {0, 1}, {0, 3}, {0, 7}, {0, 15}, {0, 31}, {0, 63}, {0, 127}, ALL, ALL, ALL, ALL, ALL, ALL, ALL},
};

static unsigned row_of(uint32_t model, struct condition c)
{
    return model == 3 && (c.config & TB) != 0 ? 3 : model - 1;
}

int is_protected(uint32_t model, struct condition c, uint32_t block)
{
    unsigned row = row_of(model, c);

    return block >= ranges[row][c.bp].first && block <= ranges[row][c.bp].last;
}

/* 003 L803: model 3 ignores the program or erase, and WEL clears. */
struct condition after_17(uint32_t model, struct condition c)
{
    if (model == 3)
        c.wel = 0;
    return c;
}

static const uint8_t commands[] = {0x02, 0x20, 0x52, 0xD8};

/* A program looks at the addressed unit as an erase does: both ends of every block, and of its images. */
static void program_at_block_ends(uint32_t model, struct condition c)
{
    uint32_t block;

    for (block = 0; block < size_of(model) / BLOCK * 2; block++) {
        write_at(model, c, 0x02, block * BLOCK);
        write_at(model, c, 0x02, block * BLOCK + BLOCK - 1);
    }
}

/* An end of every block, by each of the commands in turn. */
static void every_block(struct condition c)
{
    uint32_t block;

    for (block = 0; block < 256; block++)
        write_at(3, c, commands[(block + c.bp) % 4], block * BLOCK + (block / 4 + c.bp) % 2 * (BLOCK - 1));
}

/* The last cell before an address and the first from it on, modulo the array, by each of the commands. */
static void on_both_sides(struct condition c, uint32_t address)
{
    int i;

    for (i = 0; i < 4; i++) {
        write_at(3, c, commands[i], (address - 1) & 0xFFFFFF);
        write_at(3, c, commands[i], address & 0xFFFFFF);
    }
}

/* Where the range begins and ends, at the chip's ends, and between the two halves of its first and last block. */
static void limits(struct condition c)
{
    unsigned row = row_of(3, c);
    uint32_t first = ranges[row][c.bp].first * BLOCK, end = (ranges[row][c.bp].last + 1) * BLOCK;

    on_both_sides(c, 0);
    on_both_sides(c, first);
    on_both_sides(c, first + HALF_BLOCK);
    on_both_sides(c, end - HALF_BLOCK);
    on_both_sides(c, end);
}

void protected_areas(void)
{
    static const unsigned registers[] = {0x00, TB, 0xD3, 0xDB};
    struct condition c = enabled;
    uint32_t model;
    int i;

    for (model = 1; model <= 2; model++)
        for (c.bp = 0; c.bp <= 3; c.bp++)
            program_at_block_ends(model, c);
    for (i = 0; i < 4; i++) {
        c.config = registers[i];
        for (c.bp = 0; c.bp <= 15; c.bp++) {
            if (i < 2)
                every_block(c);
            limits(c);
        }
    }
}
