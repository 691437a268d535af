#include "words.h"

#include <string.h>

/* What a command is called, and what stands in its frame. */
struct command {
    uint8_t byte;
    char model;          /* 0: the same on every model */
    const char *name;
    uint8_t addressed;   /* three bytes of address follow */
    uint8_t data;        /* the place of the first data byte; 0: it has none that are counted */
    uint8_t any_length;  /* further bytes only clock the answer out */
};

static const struct command commands[] = {
    {0x01, 0, "status write", 0, 0, 0},   {0x02, 0, "page program", 1, 4, 0},
    {0x03, 0, "read", 1, 4, 0},           {0x04, 0, "write disable", 0, 0, 0},
    {0x05, 0, "status", 0, 0, 1},         {0x06, 0, "write enable", 0, 0, 0},
    {0x0B, 0, "fast read", 1, 5, 0},      {0x15, 3, "configuration", 0, 0, 1},
    {0x20, 0, "sector erase", 1, 0, 0},   {0x52, 3, "32 KiB erase", 1, 0, 0},
    {0x52, 0, "block erase", 1, 0, 0},    {0x5A, 2, "SFDP table", 1, 5, 0},
    {0x60, 0, "chip erase", 0, 0, 0},
    {0x90, 0, "maker and signature", 0, 0, 1}, {0x9F, 0, "identification", 0, 0, 1},
    {0xAB, 0, "wake", 0, 0, 1},           {0xB9, 0, "sleep", 0, 0, 0},
    {0xC7, 0, "chip erase", 0, 0, 0},     {0xD8, 0, "block erase", 1, 0, 0}};

static const struct command *command_of(uint32_t model, unsigned byte)
{
    size_t i;

    for (i = 0; i < sizeof commands / sizeof commands[0]; i++)
        if (commands[i].byte == byte && (commands[i].model == 0 || (uint32_t)commands[i].model == model))
            return &commands[i];
    return NULL;
}

/* The words of a frame whose first bytes are at hand. */
static void tell_bytes(uint32_t model, const uint8_t *first, struct told *t)
{
    const struct command *c = t->length == 0 ? NULL : command_of(model, first[0]);

    t->command = t->length == 0 ? 0 : first[0];
    t->unknown = t->length > 0 && c == NULL;
    t->name = t->length == 0 ? "no command" : c == NULL ? "unknown command" : c->name;
    if (t->command == 0xAB && t->length >= 5)
        t->name = "wake and signature";
    t->addressed = c != NULL && c->addressed && t->length >= 4;
    if (t->addressed)
        t->address = (uint32_t)first[1] << 16 | (uint32_t)first[2] << 8 | first[3];
    if (t->addressed && c->data != 0 && t->length >= c->data) {
        t->counted = 1;
        t->count = t->length - c->data;
    }
    if (t->counted && t->command == 0x02 && (t->address & 0xFF) + t->count > 256)
        t->past = (t->address & 0xFF) + t->count - 256;
}

static unsigned hex_digit(char c)
{
    return (unsigned)(c >= '0' && c <= '9' ? c - '0' : (c - 'A' + 10) & 15);
}

struct told tell_line(uint32_t model, struct text line)
{
    uint8_t first[4] = {0, 0, 0, 0};
    struct told t;
    size_t i;

    memset(&t, 0, sizeof t);
    if (line.n == 0)
        return t;
    t.kind = line.at[0];
    t.digits.at = line.at + (line.n > 2 ? 2 : line.n);
    t.digits.n = line.n > 2 ? line.n - 2 : 0;
    if (t.kind == 'F' && line.n >= 6) {
        t.wp = (unsigned)(line.at[2] - '0');
        t.tail = (unsigned)(line.at[4] - '0');
        t.digits.at = line.at + 6;
        t.digits.n = line.n - 6;
        t.length = t.digits.n / 2;
        for (i = 0; i < 4 && i < t.length; i++)
            first[i] = (uint8_t)(hex_digit(t.digits.at[2 * i]) << 4 | hex_digit(t.digits.at[2 * i + 1]));
        tell_bytes(model, first, &t);
    } else if (t.kind != 'W' && t.kind != 'P') {
        t.kind = 0;
    }
    return t;
}

static void put_byte(struct out *o, unsigned byte)
{
    const uint8_t one = (uint8_t)byte;

    put_hex(o, &one, 1);
}

/* The address, the data bytes; or how long the frame is, where that is to be seen. */
static void put_contents(struct out *o, const struct told *t)
{
    const uint8_t address[3] = {(uint8_t)(t->address >> 16), (uint8_t)(t->address >> 8), (uint8_t)t->address};
    const struct command *c = command_of(3, t->command);

    if (t->addressed) {
        put_text(o, " at ");
        put_hex(o, address, 3);
    }
    if (t->counted) {
        put_text(o, ", ");
        put_counted(o, t->count, "byte");
    } else if (t->command == 0x01 && t->digits.n >= 4) {
        put_text(o, " of ");
        put_bytes(o, t->digits.at + 2, t->digits.n < 10 ? t->digits.n - 2 : 8);
    } else if (t->length > (t->addressed ? 4u : 1u) && (c == NULL || !c->any_length)) {
        put_text(o, ", ");
        put_counted(o, t->length, "byte");
        put_text(o, " in all");
    }
}

static void put_frame(struct out *o, const struct told *t)
{
    if (t->length > 0)
        put_byte(o, t->command);
    if (t->length > 0 && !t->unknown)
        put_text(o, " ");
    if (!t->unknown)
        put_text(o, t->name);
    if (t->length > 0)
        put_contents(o, t);
    if (t->tail > 0) {
        put_text(o, " and ");
        put_counted(o, t->tail, "bit");
    }
    if (t->wp == 0)
        put_text(o, ", WP# low");
}

void put_told(struct out *o, const struct told *t)
{
    switch (t->kind) {
    case 'F':
        put_frame(o, t);
        break;
    case 'W':
        put_text(o, "wait ");
        put_bytes(o, t->digits.at, t->digits.n);
        put_text(o, " us");
        break;
    case 'P':
        put_text(o, "power cycle");
        break;
    default:
        put_text(o, "a line");
        break;
    }
}
