#include "flash.h"

#include <stdio.h>
#include <stdlib.h>
#include <string.h>

void flash_power_on(struct flash *f)
{
    stop_unless_done(gwo_chip_init(&f->chip, gwo_bench(1), f->array, sizeof f->array, f->wear, GWO_MODEL_1_SECTORS));
}

void stop_unless_done(uint32_t number)
{
    if (number == GWO_DONE)
        return;
    printf("the chip refused: %lu, %s\n", (unsigned long)number, gwo_text(number));
    exit(1);
}

size_t addressed(uint8_t *frame, uint8_t command, uint32_t address)
{
    frame[0] = command;
    frame[1] = (uint8_t)(address >> 16);
    frame[2] = (uint8_t)(address >> 8);
    frame[3] = (uint8_t)address;
    return 4;
}

uint32_t transfer(struct flash *f, const uint8_t *out, uint8_t *in, size_t n)
{
    struct gwo_reply reply;

    memset(in, 0, n);
    reply = gwo_chip_send(&f->chip, out, in, n, 0);
    stop_unless_done(reply.answer);
    return reply.fold;
}

void write_enable(struct flash *f)
{
    static const uint8_t frame[] = {0x06};
    uint8_t in[1];

    transfer(f, frame, in, 1);
}

void wait_until_ready(struct flash *f)
{
    static const uint8_t frame[] = {0x05, 0x00};
    uint8_t in[2];

    transfer(f, frame, in, 2);
    while ((in[1] & 1) != 0) {
        stop_unless_done(gwo_chip_wait(&f->chip, 100));
        transfer(f, frame, in, 2);
    }
}

void erase_sector(struct flash *f, uint32_t address)
{
    uint8_t frame[4], in[4];

    write_enable(f);
    transfer(f, frame, in, addressed(frame, 0x20, address));
    wait_until_ready(f);
}

void show_wear(const struct flash *f)
{
    struct gwo_sheet sheet;

    stop_unless_done(gwo_chip_wear(&f->chip, &sheet));
    printf("  erases counted: %lu, from %lu to %lu a sector, the most in sector %lu; mean %lu, remainder %lu\n",
           (unsigned long)sheet.total, (unsigned long)sheet.smallest, (unsigned long)sheet.largest,
           (unsigned long)sheet.sector, (unsigned long)sheet.mean, (unsigned long)sheet.remainder);
}

void read_bytes(struct flash *f, uint32_t address, uint8_t *bytes, size_t n)
{
    uint8_t frame[4 + GWO_PAGE_LENGTH], in[4 + GWO_PAGE_LENGTH];
    size_t at = addressed(frame, 0x03, address);

    memset(frame + at, 0, n);
    transfer(f, frame, in, at + n);
    memcpy(bytes, in + at, n);
}

int all_written(void)
{
    if (fflush(stdout) == 0 && !ferror(stdout))
        return 0;
    perror("standard output");
    return 1;
}
