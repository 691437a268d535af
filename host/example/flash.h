/* The flash driver of the two examples. */
#ifndef FLASH_H
#define FLASH_H

#include "gwo.h"

/* The chip on the board: here the model, and the memory that is lent to it. */
struct flash {
    struct gwo_chip chip;
    uint8_t array[GWO_MODEL_1_LENGTH];
    uint32_t wear[GWO_MODEL_1_SECTORS]; /* how often each sector was erased */
};

/* A chip from the factory, no sector of it erased yet. */
void flash_power_on(struct flash *f);

/* Ends the program where the chip has refused a call. */
void stop_unless_done(uint32_t number);

/* The command and the address; how many bytes they are. */
size_t addressed(uint8_t *frame, uint8_t command, uint32_t address);

/* CS# low, n bytes out and in, CS# high; 1 where it was a program that folded. */
uint32_t transfer(struct flash *f, const uint8_t *out, uint8_t *in, size_t n);

void write_enable(struct flash *f);

/* Asks for the status every 100 microseconds until the chip is no longer busy. */
void wait_until_ready(struct flash *f);

void erase_sector(struct flash *f, uint32_t address);

/* The wear sheet in a line. */
void show_wear(const struct flash *f);

/* Up to a page, from one address on. */
void read_bytes(struct flash *f, uint32_t address, uint8_t *bytes, size_t n);

/* The exit status: 0 where all that was printed has been written. */
int all_written(void);

#endif
