/* gwo sfdp: an SFDP table for people. What stands in it, and whether it is one, comes from the archive's readers. */
#include "commands.h"
#include "gwo.h"
#include "out.h"
#include "say.h"
#include "source.h"

#include <argp.h>
#include <string.h>
#include <unistd.h>

enum { TABLE_ROOM = 1 << 24, SLOTS = 4 }; /* SFDP addresses have three bytes */

struct sfdp {
    const char *file;
    struct source from;
    struct out out;
    size_t n;
    uint8_t bytes[TABLE_ROOM];
};

static error_t parse(int key, char *word, struct argp_state *state)
{
    struct sfdp *s = state->input;

    if (key != ARGP_KEY_ARG)
        return ARGP_ERR_UNKNOWN;
    if (state->arg_num > 0)
        argp_error(state, "one table is read; '%s' is another", word);
    s->file = word;
    return 0;
}

static const struct argp argp = {
    NULL, parse, "[FILE|-]",
    "Prints what stands in an SFDP table: its revision, its parameter headers, the density and the erase types. FILE has the bytes as a host read "
    "them from address 0 on; without FILE, or with -, they come from standard input."
    "\vThe exit status is 1 where the table is refused: 30, 31 or 32.",
    NULL, NULL, NULL};

static int read_table(struct sfdp *s)
{
    int status;

    while ((status = source_read(&s->from)) == WELL && s->from.n > 0) {
        if (s->from.n > TABLE_ROOM - s->n)
            return could_not("%s has over %d bytes, and SFDP has no more addresses", s->from.name, (int)TABLE_ROOM);
        memcpy(s->bytes + s->n, s->from.block, s->from.n);
        s->n += s->from.n;
    }
    return status;
}

/* The low bytes of a number in hex, the high one first. */
static void put_field(struct out *o, uint32_t number, unsigned bytes)
{
    while (bytes-- > 0) {
        uint8_t byte = (uint8_t)(number >> 8 * bytes);

        put_hex(o, &byte, 1);
    }
}

static void put_revision(struct out *o, uint32_t major, uint32_t minor)
{
    put_text(o, "revision ");
    put_number(o, major);
    put_text(o, ".");
    put_number(o, minor);
}

/* 2 to the power of so much, as a number where it has a place. */
static void put_power(struct out *o, uint32_t exponent, const char *word)
{
    if (exponent < 64) {
        put_counted(o, (uint64_t)1 << exponent, word);
        return;
    }
    put_text(o, "2^");
    put_number(o, exponent);
    put_text(o, " ");
    put_text(o, word);
    put_text(o, "s");
}

static void put_header(struct out *o, const struct sfdp *s, uint32_t index)
{
    uint32_t id, minor, major, words, pointer;

    gwo_sfdp_header(s->bytes, s->n, index, &id, &minor, &major, &words, &pointer);
    put_text(o, "header ");
    put_number(o, index);
    put_text(o, ": id ");
    put_field(o, id, 1);
    put_text(o, ", ");
    put_revision(o, major, minor);
    put_text(o, ", ");
    put_counted(o, words, "double word");
    put_text(o, " at ");
    put_field(o, pointer, 3);
    put_text(o, "\n");
}

/* The field is the bits less one; with its highest bit set the rest is an exponent of bits (JESD216). */
static void put_density(struct out *o, uint32_t field)
{
    uint32_t exponent = field & 0x7FFFFFFF;
    uint64_t bits = (uint64_t)field + 1;

    put_text(o, "density: ");
    if (field >> 31 != 0)
        put_power(o, exponent < 3 ? exponent : exponent - 3, exponent < 3 ? "bit" : "byte");
    else
        put_counted(o, bits % 8 == 0 ? bits / 8 : bits, bits % 8 == 0 ? "byte" : "bit");
    put_text(o, " (field ");
    put_field(o, field, 4);
    put_text(o, ")\n");
}

/* A slot without an erase type is left out. */
static void put_erase(struct out *o, const struct sfdp *s, uint32_t slot)
{
    uint32_t exponent, opcode;

    gwo_sfdp_erase(s->bytes, s->n, slot, &exponent, &opcode);
    if (exponent == 0)
        return;
    put_text(o, "erase type ");
    put_number(o, slot);
    put_text(o, ": ");
    put_power(o, exponent, "byte");
    put_text(o, " by ");
    put_field(o, opcode, 1);
    put_text(o, "\n");
}

static void put_table(struct out *o, const struct sfdp *s, uint32_t headers, uint32_t density, uint32_t types)
{
    uint32_t minor, major, i;

    gwo_sfdp_revision(s->bytes, s->n, &minor, &major);
    put_text(o, "SFDP ");
    put_revision(o, major, minor);
    put_text(o, ", ");
    put_counted(o, headers, "parameter header");
    put_text(o, "\n");
    for (i = 0; i < headers; i++)
        put_header(o, s, i);
    put_density(o, density);
    for (i = 1; i <= SLOTS; i++)
        put_erase(o, s, i);
    if (types == 0)
        put_text(o, "no erase type\n");
}

static void put_refusal(struct out *o, size_t n, uint32_t answer)
{
    put_text(o, "REFUSED ");
    put_counted(o, n, "byte");
    put_text(o, ": ");
    put_number(o, answer);
    put_text(o, ", ");
    put_text(o, gwo_text(answer));
    put_text(o, "\n");
}

static int show_table(struct sfdp *s)
{
    uint32_t headers, density, types, answer = gwo_sfdp_read(s->bytes, s->n, &headers, &density, &types);

    out_start(&s->out, STDOUT_FILENO, "standard output");
    if (answer == GWO_DONE)
        put_table(&s->out, s, headers, density, types);
    else
        put_refusal(&s->out, s->n, answer);
    if (out_flush(&s->out) != WELL)
        return COULD_NOT;
    return answer == GWO_DONE ? WELL : FOUND;
}

int command_sfdp(int argc, char **argv)
{
    static struct sfdp s;
    int status;

    s.file = "-";
    s.n = 0;
    argp_parse(&argp, argc, argv, 0, NULL, &s);
    status = source_open(&s.from, s.file);
    if (status != WELL)
        return status;
    status = read_table(&s);
    source_close(&s.from);
    return status == WELL ? show_table(&s) : status;
}
