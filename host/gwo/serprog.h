/* serprog, the protocol of flashrom's serial programmers, version 1: https://flashrom.org/supported_hw/supported_prog/serprog/serprog-protocol.html */
#ifndef SERPROG_H
#define SERPROG_H

#include "frames.h"
#include "wire.h"

struct serprog {
    struct frames *frames;
    int real_time;  /* time passes by the clock */
    uint64_t delay; /* what the operation buffer has in it, in microseconds */
    uint64_t clock; /* the time up to which the chip has come, in microseconds */
};

void serprog_start(struct serprog *s, struct frames *frames, int real_time);

/*
 * A client from its first byte on, until it has gone or the server is to stop. Where time passes by delays alone, what the chip is at comes to
 * its end when the client goes.
 */
enum wire_state serprog_session(struct serprog *s, struct wire *w);

#endif
