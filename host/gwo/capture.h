/* A capture of the pins played on a chip: samples go in block by block, a row comes out for each frame. */
#ifndef CAPTURE_H
#define CAPTURE_H

#include "channels.h"
#include "gwo.h"
#include "out.h"
#include "source.h"

#include <stdint.h>

/* What became of the frames. */
struct capture_counts {
    uint64_t frames, done, refused, dropped, folds;
};

struct capture {
    struct gwo_chip *chip;
    struct channels channels;
    struct out *log;
    uint64_t rate; /* samples a second; 0 where nobody knows, and then no time passes */
    int sent;      /* the rows end with WP#, the tail and the bytes that were sent */
    struct capture_counts counts;
    uint64_t samples; /* so far */
    uint64_t fall;    /* the sample where CS# fell, while it is low */
    uint64_t resting; /* samples with CS# high that have not passed on the chip yet */
    uint64_t part;    /* of a microsecond that has not: so many rate-ths */
    uint8_t front[GWO_FRONT_LENGTH];
    uint8_t levels[SOURCE_ROOM];
    uint8_t frame[GWO_FRAME_LIMIT], driven[GWO_FRAME_LIMIT];
};

/* The header of the log, and a front before its first sample. chip, channels, log, rate and sent are set. */
void capture_start(struct capture *c);

/* Plays all of it: WELL, or COULD_NOT, which is said. */
int capture_play(struct capture *c, struct source *from);

/* The capture has ended: the time after its last frame passes, and a frame that lacks its end is said. */
void capture_end(struct capture *c);

#endif
