/* Frames that a client sends to the chip: answered, counted, and written down. */
#ifndef FRAMES_H
#define FRAMES_H

#include "gwo.h"
#include "out.h"

#include <stddef.h>
#include <stdint.h>

enum { NUMBERS = 64 };

/* What became of frames. */
struct frame_counts {
    uint64_t frames, folds, erases; /* erases of sectors */
    uint64_t by_number[NUMBERS];
};

struct frames {
    struct gwo_chip *chip;
    struct out *log;          /* or NULL */
    struct frame_counts here; /* of this client */
    struct frame_counts all;
    uint64_t worn;            /* what the wear table summed up to when the client came */
    uint8_t tx[GWO_FRAME_LIMIT];
    uint8_t reply[1 + GWO_FRAME_LIMIT]; /* a byte for an acknowledgement, and what was driven */
};

void frames_start(struct frames *f, struct gwo_chip *chip, struct out *log);

/*
 * Sends the first `sent` bytes of tx, and as many zeros as `read` says: the answer's bytes are in reply from 1 + `sent` on, FF where the chip
 * drives nothing. 0 where the frame would be too long, and then nothing is sent.
 */
int frames_send(struct frames *f, size_t sent, size_t read);

/* As much time passes for the chip. */
void frames_wait(struct frames *f, uint64_t us);

/* What became of the client's frames is said, and added to those of all. */
void frames_client_gone(struct frames *f, uint64_t client);

/* What became of all of them is said. */
void frames_say_all(const struct frames *f);

#endif
