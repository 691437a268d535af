#include "serprog.h"

#include <string.h>
#include <time.h>

enum { ACK = 0x06, NAK = 0x15 };

enum {
    NOP = 0x00, VERSION = 0x01, COMMANDS = 0x02, NAME = 0x03, SERIAL_ROOM = 0x04, BUSES = 0x05, BUFFER_ROOM = 0x07,
    MOST_WRITE = 0x08, BUFFER_CLEAR = 0x0B, BUFFER_DELAY = 0x0E, BUFFER_RUN = 0x0F, SYNC_NOP = 0x10, MOST_READ = 0x11,
    SET_BUS = 0x12, SPI = 0x13, SPI_CLOCK = 0x14, PINS = 0x15
};

enum { BUS_SPI = 0x08, MOST_DATA = 65536, ROOM = 0xFFFF };

static const uint8_t known[] = {NOP, VERSION, COMMANDS, NAME, SERIAL_ROOM, BUSES, BUFFER_ROOM, MOST_WRITE, BUFFER_CLEAR,
                                BUFFER_DELAY, BUFFER_RUN, SYNC_NOP, MOST_READ, SET_BUS, SPI, SPI_CLOCK, PINS};

static enum wire_state answer(struct wire *w, uint8_t byte)
{
    return wire_write(w, &byte, 1);
}

/* ACK and a number of so many bytes, the low one first. */
static enum wire_state answer_number(struct wire *w, uint32_t number, size_t n)
{
    uint8_t bytes[5] = {ACK, (uint8_t)number, (uint8_t)(number >> 8), (uint8_t)(number >> 16), (uint8_t)(number >> 24)};

    return wire_write(w, bytes, 1 + n);
}

static enum wire_state answer_commands(struct wire *w)
{
    uint8_t bits[1 + 32] = {ACK};
    size_t i;

    for (i = 0; i < sizeof known; i++)
        bits[1 + known[i] / 8] |= (uint8_t)(1 << known[i] % 8);
    return wire_write(w, bits, sizeof bits);
}

static enum wire_state answer_name(struct wire *w)
{
    char name[1 + 16] = {ACK};

    memcpy(name + 1, "gwo serve", 9);
    return wire_write(w, name, sizeof name);
}

/* NAK and then ACK: a client that has lost its place finds it again. */
static enum wire_state answer_sync(struct wire *w)
{
    const uint8_t both[2] = {NAK, ACK};

    return wire_write(w, both, sizeof both);
}

static uint32_t number_in(const uint8_t *bytes, size_t n)
{
    uint32_t number = 0;

    while (n-- > 0)
        number = number << 8 | bytes[n];
    return number;
}

/* ---- time */

static uint64_t clock_us(void)
{
    struct timespec t;

    clock_gettime(CLOCK_MONOTONIC, &t);
    return (uint64_t)t.tv_sec * 1000000 + (uint64_t)t.tv_nsec / 1000;
}

/* By the clock the chip comes up to now; otherwise only delays let time pass. */
static void come_to_now(struct serprog *s)
{
    uint64_t now;

    if (!s->real_time)
        return;
    now = clock_us();
    frames_wait(s->frames, now - s->clock);
    s->clock = now;
}

/* The delays of the operation buffer: by the clock they are waited for. */
static enum wire_state run_buffer(struct serprog *s, struct wire *w)
{
    const uint64_t us = s->delay;
    enum wire_state state = WIRE_WELL;

    s->delay = 0;
    if (s->real_time)
        state = wire_rest(w, us);
    else
        frames_wait(s->frames, us);
    return state == WIRE_WELL ? answer(w, ACK) : state;
}

static enum wire_state add_delay(struct serprog *s, struct wire *w)
{
    uint8_t bytes[4];
    enum wire_state state = wire_read(w, bytes, sizeof bytes);

    if (state != WIRE_WELL)
        return state;
    s->delay += number_in(bytes, 4);
    return answer(w, ACK);
}

void serprog_start(struct serprog *s, struct frames *frames, int real_time)
{
    s->frames = frames;
    s->real_time = real_time;
    s->clock = clock_us();
}

/* ---- the bus */

static enum wire_state set_bus(struct wire *w)
{
    uint8_t flags;
    enum wire_state state = wire_read(w, &flags, 1);

    return state != WIRE_WELL ? state : answer(w, flags == BUS_SPI ? ACK : NAK);
}

/* Any clock will do but none. */
static enum wire_state set_clock(struct wire *w)
{
    uint8_t bytes[4];
    enum wire_state state = wire_read(w, bytes, sizeof bytes);

    if (state != WIRE_WELL)
        return state;
    return number_in(bytes, 4) == 0 ? answer(w, NAK) : answer_number(w, number_in(bytes, 4), 4);
}

static enum wire_state set_pins(struct wire *w)
{
    uint8_t on;
    enum wire_state state = wire_read(w, &on, 1);

    return state != WIRE_WELL ? state : answer(w, ACK);
}

/* A frame: so many bytes to send and so many to read. One that is too long is refused, and its bytes are passed over. */
static enum wire_state spi(struct serprog *s, struct wire *w)
{
    struct frames *f = s->frames;
    uint8_t head[6];
    enum wire_state state = wire_read(w, head, sizeof head);
    size_t sent, read;

    if (state != WIRE_WELL)
        return state;
    sent = number_in(head, 3);
    read = number_in(head + 3, 3);
    if (sent > sizeof f->tx || read > sizeof f->tx - sent) {
        state = wire_skip(w, sent);
        return state != WIRE_WELL ? state : answer(w, NAK);
    }
    state = wire_read(w, f->tx, sent);
    if (state != WIRE_WELL)
        return state;
    come_to_now(s);
    frames_send(f, sent, read);
    f->reply[sent] = ACK; /* the byte before what was read */
    return wire_write(w, f->reply + sent, 1 + read);
}

static enum wire_state command(struct serprog *s, struct wire *w, uint8_t byte)
{
    switch (byte) {
    case NOP: return answer(w, ACK);
    case VERSION: return answer_number(w, 1, 2);
    case COMMANDS: return answer_commands(w);
    case NAME: return answer_name(w);
    case SERIAL_ROOM: case BUFFER_ROOM: return answer_number(w, ROOM, 2);
    case BUSES: return answer_number(w, BUS_SPI, 1);
    case MOST_WRITE: case MOST_READ: return answer_number(w, MOST_DATA, 3);
    case BUFFER_CLEAR: s->delay = 0; return answer(w, ACK);
    case BUFFER_DELAY: return add_delay(s, w);
    case BUFFER_RUN: return run_buffer(s, w);
    case SYNC_NOP: return answer_sync(w);
    case SET_BUS: return set_bus(w);
    case SPI: return spi(s, w);
    case SPI_CLOCK: return set_clock(w);
    case PINS: return set_pins(w);
    default: return answer(w, NAK);
    }
}

enum wire_state serprog_session(struct serprog *s, struct wire *w)
{
    enum wire_state state = WIRE_WELL;
    uint8_t byte;

    s->delay = 0;
    while (state == WIRE_WELL) {
        state = wire_first(w, &byte);
        if (state == WIRE_WELL)
            state = command(s, w, byte);
    }
    if (!s->real_time)
        gwo_chip_finish(s->frames->chip);
    return state;
}
