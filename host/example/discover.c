/*
 * A controller that does not know its chip: it reads the SFDP table by 5A, takes the size and the erases from it, and
 * goes by them. The table also names 3B, the read on two wires. The model does not play it and answers 13, so the
 * controller must not rely on what the table says of reads: it tries, and falls back to 03.
 */
#include "gwo.h"

#include <stdio.h>
#include <string.h>

enum { ASKED = 256, MOST_FRAME = 5 + ASKED };

static const struct gwo_record *chip;
static uint8_t state[GWO_STATE_LENGTH], array[GWO_MODEL_2_LENGTH], in[MOST_FRAME];

/* CS# low, n bytes out and in, CS# high. */
static uint32_t transfer(const uint8_t *out, size_t n)
{
    uint32_t from, count;

    return gwo_record_frame(chip, state, sizeof state, array, gwo_array_length(chip->model), out, n, 0, 1, in, n, &from,
                            &count);
}

/* A command with an address and n bytes after it. */
static uint32_t addressed(uint32_t command, uint32_t address, size_t n)
{
    uint8_t frame[MOST_FRAME] = {(uint8_t)command, (uint8_t)(address >> 16), (uint8_t)(address >> 8), (uint8_t)address};

    return transfer(frame, 4 + n);
}

static void say(const char *what, uint32_t number)
{
    printf("  %-24s %2lu  %s\n", what, (unsigned long)number, gwo_text(number));
}

/* The table is somewhere in these bytes; past its end they are FF. */
static uint32_t read_table(uint8_t *table)
{
    uint32_t number = addressed(0x5A, 0, 1 + ASKED);

    say("5A", number);
    memcpy(table, in + 5, ASKED);
    return number;
}

/* Bit 0 of the first table's third byte says that there is a read on two wires, its byte 13 by which command. */
static uint32_t two_wires(const uint8_t *table)
{
    uint32_t id, minor, major, words, pointer;

    gwo_sfdp_header(table, ASKED, 0, &id, &minor, &major, &words, &pointer);
    return (table[pointer + 2] & 1) != 0 ? table[pointer + 13] : 0;
}

/* Size and erases; the command of the smallest erase, 0 where the table is refused or has none. */
static uint32_t discover(const uint8_t *table)
{
    uint32_t headers, density, types, slot, exponent, opcode, smallest = 256, command = 0;
    uint32_t number = gwo_sfdp_read(table, ASKED, &headers, &density, &types);

    say("the table", number);
    if (number != GWO_DONE)
        return 0;
    printf("  %lu headers, %lu bytes, %lu erases:", (unsigned long)headers, (unsigned long)density / 8 + 1,
           (unsigned long)types);
    for (slot = 1; slot <= 4; slot++) {
        gwo_sfdp_erase(table, ASKED, slot, &exponent, &opcode);
        if (exponent == 0)
            continue;
        printf(" %02lX of 2^%lu", (unsigned long)opcode, (unsigned long)exponent);
        if (exponent < smallest) {
            smallest = exponent;
            command = opcode;
        }
    }
    printf("\n");
    return command;
}

/* The erase that the table names, to its end; then a read by what it names, and by 03. */
static void use(uint32_t erase, uint32_t read)
{
    static const uint8_t write_enable[] = {0x06};

    say("06", transfer(write_enable, 1));
    say("the smallest erase", addressed(erase, 0x001234, 0));
    say("its wait", gwo_record_wait(chip, state, sizeof state, array, gwo_array_length(chip->model), chip->sector_us));
    if (addressed(read, 0x001234, 1 + 4) != GWO_DONE)
        printf("  %02lX, which the table names, is not played: read by 03\n", (unsigned long)read);
    say("03", addressed(0x03, 0x001234, 4));
    printf("  the cells: %02X %02X %02X %02X\n", in[4], in[5], in[6], in[7]);
}

static void meet(const char *name, const struct gwo_record *record)
{
    uint8_t table[ASKED];
    uint32_t erase;

    printf("%s\n", name);
    chip = record;
    gwo_factory_state(state);
    memset(array, 0x00, sizeof array);
    if (read_table(table) != GWO_DONE)
        return;
    erase = discover(table);
    if (erase != 0)
        use(erase, two_wires(table));
}

int main(void)
{
    meet("KH25L2006E", &gwo_bench_model_2);
    meet("KH25L512", &gwo_bench_model_1);
    return 0;
}
