/*
 * What a frame says of a fold: 1 when an accepted program's offset and data bytes are more than 256 together, and 0
 * otherwise. The other groups want 0 of every frame that is no such program.
 */
#include "jig.h"
#include "jig_sfdp.h"
#include "rules.h"

/* FF leaves every cell as it is, so that only the time and the fold are seen. */
static void program_says(uint32_t model, uint32_t address, size_t n, int folded)
{
    struct condition busy = enabled;

    busy.busy_us = bench(model).page_us;
    jig_model(model);
    jig_state(enabled);
    jig_addressed(0x02, address, n, 0xFF);
    want_state(busy);
    want_fold(folded);
    frame_gives(0, named("model %lu: 02 at %06lX, %lu data bytes", (unsigned long)model, (unsigned long)address,
                         (unsigned long)n));
}

/* From every offset: up to the page's end, past it, and the longest. */
static void every_offset(uint32_t model)
{
    uint32_t a;

    for (a = 0; a < PAGE; a++) {
        program_says(model, 0x7700 + a, 1, 0);
        if (a < PAGE - 1)
            program_says(model, 0x7700 + a, PAGE - a - 1, 0);
        program_says(model, 0x7700 + a, PAGE - a, 0);
        program_says(model, 0x7700 + a, PAGE - a + 1, 1);
        program_says(model, 0x7700 + a, PAGE - a + 2, 1);
        program_says(model, 0x7700 + a, PAGE, a > 0);
        program_says(model, 0x7700 + a, PAGE + 1, 1);
        program_says(model, 0x7700 + a, LONGEST_FRAME - 4, 1);
    }
}

/* Whatever the high address bytes are: in the array, and in its images above it. */
static void every_high_byte(uint32_t model)
{
    uint32_t high;

    for (high = 0; high < 256; high++) {
        program_says(model, high << 16 | high << 8, PAGE, 0);
        program_says(model, high << 16 | high << 8, PAGE + 1, 1);
        program_says(model, high << 16 | 0xFFFF, 1, 0);
        program_says(model, high << 16 | 0xFFFF, 2, 1);
    }
}

/* What is wrong with a program at the last address, by the number that refuses it; BP 3 protects the last block. */
static void spoil(uint32_t model, uint32_t number)
{
    static const struct condition settling = {0, 0, 1, 0, 0, 0, 1}, busy = {0, 0, 1, 0, 1, 0, 0},
                                  asleep = {0, 0, 1, 1, 0, 0, 0}, bp_3 = {0, 3, 1, 0, 0, 0, 0};

    switch (number) {
    case 1: given.record.page_us = 0; break;
    case 2: given.array_len -= 1; break;
    case 24: given.wear_len += 1; break;
    case 3: given.state[3] = 1; jig_packed(given.state, GWO_STATE_LENGTH); break;
    case 4: given.tail = 8; break;
    case 5: given.out_len = given.frame_len - 1; break;
    case 22: jig_state(settling); break;
    case 11: jig_state(busy); break;
    case 12: jig_state(asleep); break;
    case 14: given.tail = 1; break;
    case 15: jig_state(power_on); break;
    case 17: jig_state(bp_3); want_state(after_17(model, bp_3)); break;
    case 19: given.strict = 1; given.frame[4] = given.frame[given.frame_len - 1] = 0xFF; break;
    }
}

/* Programs that would fold. */
static void refused_programs(uint32_t model, size_t n)
{
    static const uint32_t numbers[] = {1, 2, 24, 3, 4, 5, 22, 11, 12, 14, 15, 17, 19};
    size_t i;

    for (i = 0; i < sizeof numbers / sizeof numbers[0]; i++) {
        jig_model(model);
        jig_state(enabled);
        jig_addressed(0x02, 0xFFFFFF, n, 0x00);
        spoil(model, numbers[i]);
        frame_gives(numbers[i], named("model %lu: refused 02 at FFFFFF, %lu data bytes", (unsigned long)model,
                                      (unsigned long)n));
    }
}

static void too_long_a_program(uint32_t model)
{
    jig_model(model);
    jig_state(enabled);
    jig_addressed(0x02, 0xFFFFFF, LONGEST_FRAME - 3, 0x00);
    frame_gives(4, "02 of 65,542 bytes");
}

/* A frame of 260 bytes, the address in it FF: what the command drives, and the answer. */
static uint32_t want_other(uint32_t model, uint8_t command)
{
    switch (command) {
    case 0x05: want_repeated(1, "02"); return 0;
    case 0x03: want_cells_driven(4, 0xFF); return 0;
    case 0x0B: want_cells_driven(5, 0xFF); return 0;
    case 0x9F: want_repeated(1, part_of(model)->id); return 0;
    case 0xAB: want_repeated(4, part_of(model)->signature); return 0;
    case 0x90: want_repeated(4, part_of(model)->by_turns[1]); return 0;
    case 0x15:
        if (model != 3)
            return 13;
        want_repeated(1, "00");
        return 0;
    case 0x5A:
        if (model != 2)
            return 13;
        want_table(5, 0xFF);
        return 0;
    case 0x52:
        return model == 3 ? 14 : 21;
    case 0x01: case 0x04: case 0x06: case 0x20: case 0x60: case 0xB9: case 0xC7: case 0xD8:
        return 14;
    default:
        return 13;
    }
}

/* Every other command byte in a frame that as a program would fold. */
static void other_commands(uint32_t model)
{
    unsigned command;

    for (command = 0; command < 256; command++) {
        if (command == 0x02)
            continue;
        jig_model(model);
        jig_state(enabled);
        jig_addressed((uint8_t)command, 0x0000FF, PAGE, 0x00);
        frame_gives(want_other(model, (uint8_t)command),
                    named("model %lu: %02X of 260 bytes", (unsigned long)model, command));
    }
}

void folds(void)
{
    uint32_t model;

    for (model = 1; model <= MODELS; model++) {
        every_offset(model);
        every_high_byte(model);
        refused_programs(model, 2);
        refused_programs(model, PAGE + 1);
        refused_programs(model, LONGEST_FRAME - 4);
        too_long_a_program(model);
        other_commands(model);
    }
}
