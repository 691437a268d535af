/* gwo explain: each line of a script beside its answer in words. */
#include "bench.h"
#include "commands.h"
#include "fault.h"
#include "out.h"
#include "pairs.h"
#include "play.h"
#include "say.h"
#include "words.h"

#include <stdio.h>
#include <string.h>
#include <unistd.h>

enum { SCRIPT_WIDTH = 34, SHORT_WIDTH = 20, DIGITS = 32 };

struct explain {
    struct chip_options chip;
    const char *script;
    int headed;
    struct tally tally;
    struct pairs pairs;
    struct out out;
};

static error_t parse(int key, char *word, struct argp_state *state)
{
    struct explain *e = state->input;

    switch (key) {
    case ARGP_KEY_INIT: state->child_inputs[0] = &e->chip; return 0;
    case ARGP_KEY_ARG:
        if (state->arg_num > 0)
            argp_error(state, "one script is explained; '%s' is another", word);
        e->script = word;
        return 0;
    default: return ARGP_ERR_UNKNOWN;
    }
}

static const struct argp_child children[] = {{&chip_argp, 0, "The chip:", 1}, {NULL, 0, NULL, 0}};

static const struct argp argp = {
    NULL, parse, "[SCRIPT|-]",
    "Plays a script and shows each line beside its answer in words; of a line that is not well formed, what is wrong with it.",
    children, NULL, NULL};

/* A line's number and text, shortened where it is long; a tab is shown as |. */
static void put_line(struct out *o, const struct pair *p)
{
    char shown[SCRIPT_WIDTH + 1];
    size_t before;
    int whole = p->whole == p->line.n && readable(p->line, SCRIPT_WIDTH, shown);

    if (!whole)
        readable(p->line, SHORT_WIDTH, shown);
    put_right(o, 5, p->number);
    put_text(o, "  ");
    before = strlen(shown);
    put_text(o, shown);
    if (!whole) {
        char length[40];
        size_t n = (size_t)snprintf(length, sizeof length, " (%zu bytes)", p->whole);

        put_bytes(o, length, n);
        before += n;
    }
    if (before < SCRIPT_WIDTH)
        put_run(o, ' ', SCRIPT_WIDTH - before);
}

/* The bytes that were driven, the first of them where there are many. */
static void put_driven(struct out *o, struct text row)
{
    struct text from, hex;

    if (!row_driven(row, &from, &hex))
        return;
    put_text(o, ", from position ");
    put_bytes(o, from.at, from.n);
    put_text(o, ": ");
    put_bytes(o, hex.at, hex.n > DIGITS ? DIGITS - 2 : hex.n);
    if (hex.n > DIGITS) {
        put_text(o, ".. (");
        put_number(o, hex.n / 2);
        put_text(o, " bytes)");
    }
}

static void put_fault(struct out *o, const struct pair *p)
{
    const struct text line = {p->line.at, p->whole}; /* of one that is too long no byte is looked at */
    char words[MOST_WORDS];

    put_text(o, gwo_text(p->answer));
    put_text(o, ": ");
    put_text(o, fault(line, words) ? words : "but nothing is found wrong with it");
}

/* A take_pair. */
static int explain_line(void *to, const struct pair *p)
{
    struct explain *e = to;
    const struct told told = tell_line(e->chip.model, p->line);
    struct out *o = &e->out;

    put_line(o, p);
    put_right(o, 4, p->answer);
    put_text(o, "  ");
    if (p->answer == GWO_BAD_LINE) {
        put_fault(o, p);
    } else {
        put_told(o, &told);
        put_text(o, ": ");
        put_text(o, gwo_text(p->answer));
        put_driven(o, p->row);
    }
    if (p->folded) {
        put_text(o, ", FOLDED: ");
        put_number(o, told.past);
        put_text(o, " past the page's end, on at the page's start");
    }
    put_text(o, "\n");
    tally_row(&e->tally, p->answer, p->folded);
    return o->failed ? COULD_NOT : WELL;
}

/* Whether every line that ends in the first block has CR before its newline, and there are such. */
static int from_windows(const struct passage *p)
{
    const uint8_t *at = p->text, *end = p->text + p->text_len, *stop;
    int ended = 0;

    while (at < end && (stop = memchr(at, '\n', (size_t)(end - at))) != NULL) {
        if (stop == at || stop[-1] != '\r')
            return 0;
        ended = 1;
        at = stop + 1;
    }
    return ended;
}

/* A take_passage: the first one is headed; typed lines are answered at once. */
static int take_explained(void *to, const struct passage *p)
{
    struct explain *e = to;
    int status;

    if (!e->headed && from_windows(p))
        put_text(&e->out, "The lines end in CR before their newline, as in a file from Windows, and no such line is well formed: "
                          "take the CRs out (tr -d '\\r' <FILE >NEW).\n\n");
    if (!e->headed)
        put_text(&e->out, " line  script (a tab is shown as |)        answer\n");
    e->headed = 1;
    status = take_pairs(&e->pairs, p);
    return status == WELL ? out_flush(&e->out) : status;
}

static void put_tally(struct out *o, const struct tally *t)
{
    put_counted(o, t->lines, "line");
    put_text(o, ": ");
    put_number(o, t->done);
    put_text(o, " done, ");
    put_number(o, t->refused);
    put_text(o, " refused, ");
    put_number(o, t->bad);
    put_text(o, " not well formed, ");
    put_counted(o, t->folds, "fold");
    put_text(o, "\n");
}

static int explain_script(struct explain *e, struct gwo_chip *chip)
{
    static struct source from;
    int status = source_open(&from, e->script), flushed;

    if (status != WELL)
        return status;
    out_start(&e->out, STDOUT_FILENO, "standard output");
    pairs_start(&e->pairs, explain_line, e);
    status = play_source(chip, &from, take_explained, e);
    source_close(&from);
    if (status == WELL)
        put_tally(&e->out, &e->tally);
    flushed = out_flush(&e->out);
    return status == WELL ? flushed : status;
}

int command_explain(int argc, char **argv)
{
    static struct explain e;
    struct gwo_chip chip;
    int status;

    memset(&e, 0, sizeof e);
    e.chip = chip_options_start();
    e.script = "-";
    argp_parse(&argp, argc, argv, 0, NULL, &e);
    status = bench_open(&chip, &e.chip);
    if (status != WELL)
        return status;
    status = explain_script(&e, &chip);
    bench_close(&chip);
    return status;
}
