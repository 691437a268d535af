/* gwo compare: a script played, and its log held against a stored one. */
#include "bench.h"
#include "commands.h"
#include "fault.h"
#include "out.h"
#include "pairs.h"
#include "play.h"
#include "say.h"

#include <string.h>
#include <unistd.h>

enum { SHOWN_ROWS = 3, ROW_WIDTH = 100, ROW_KEPT = 1024 };

/* The stored log, row by row. */
struct stored {
    struct source from;
    size_t at;        /* in the source's block */
    int ended, broken;
    int newline;      /* the last row ended in one */
    struct text row;  /* its first bytes, in `kept` */
    size_t whole;     /* how long it is */
    char kept[ROW_KEPT];
};

struct compare {
    struct chip_options chip;
    const char *script, *log;
    uint64_t differ;
    struct stored stored;
    struct pairs pairs;
    struct out out;
};

static error_t parse(int key, char *word, struct argp_state *state)
{
    struct compare *c = state->input;

    switch (key) {
    case ARGP_KEY_INIT: state->child_inputs[0] = &c->chip; return 0;
    case ARGP_KEY_ARG:
        if (state->arg_num > 1)
            argp_error(state, "a script and a log are compared; '%s' is a third file", word);
        *(state->arg_num == 0 ? &c->script : &c->log) = word;
        return 0;
    case ARGP_KEY_END:
        if (state->arg_num < 2)
            argp_error(state, "which script, and which log?");
        if (strcmp(c->script, "-") == 0 && strcmp(c->log, "-") == 0)
            argp_error(state, "script and log cannot both come from standard input");
        return 0;
    default: return ARGP_ERR_UNKNOWN;
    }
}

static const struct argp_child children[] = {{&chip_argp, 0, "The chip:", 1}, {NULL, 0, NULL, 0}};

static const struct argp argp = {
    NULL, parse, "SCRIPT LOG",
    "Plays a script and compares its log with a stored one; the first rows that differ are shown. "
    "The status is 0 where they are the same, 1 where they differ, 2 where they could not be compared.",
    children, NULL, NULL};

/* The next byte of the stored log; -1 at its end, or where it cannot be read. */
static int stored_block(struct stored *s)
{
    if (!s->ended && s->at == s->from.n) {
        s->broken = source_read(&s->from) != WELL;
        s->ended = s->broken || s->from.n == 0;
        s->at = 0;
    }
    return !s->ended;
}

/* The next row; 0 where there is none. */
static int next_stored(struct stored *s)
{
    size_t used = 0;

    s->whole = 0;
    s->newline = 0;
    while (!s->newline && stored_block(s)) {
        const char *part = (const char *)s->from.block + s->at;
        const char *end = memchr(part, '\n', s->from.n - s->at);
        size_t n = end == NULL ? s->from.n - s->at : (size_t)(end - part);
        size_t kept = n < sizeof s->kept - used ? n : sizeof s->kept - used;

        memcpy(s->kept + used, part, kept);
        used += kept;
        s->whole += n;
        s->newline = end != NULL;
        s->at += n + (end != NULL);
    }
    s->row.at = s->kept;
    s->row.n = used;
    return s->whole > 0 || s->newline;
}

/* A row as one can read it: a tab stays one, a long row is cut. */
static void put_row(struct out *o, struct text row)
{
    size_t i, n = row.n > ROW_WIDTH ? ROW_WIDTH - 2 : row.n;

    for (i = 0; i < n; i++) {
        char shown[8];
        const struct text one = {row.at + i, 1};

        if (row.at[i] == '\t' || !readable(one, sizeof shown - 1, shown))
            put_bytes(o, row.at + i, 1);
        else
            put_text(o, shown);
    }
    put_text(o, row.n > ROW_WIDTH ? "..\n" : "\n");
}

/* One of the two; without a row it has none. */
static void put_side(struct out *o, const char *whose, int is_there, struct text row)
{
    put_text(o, whose);
    if (is_there)
        put_row(o, row);
    else
        put_text(o, "has no such row\n");
}

/* The line before its two rows; without a number it is the header. */
static void show(struct compare *c, uint64_t number, const struct text *line)
{
    if (number == 0) {
        put_text(&c->out, "the header differs\n");
        return;
    }
    put_text(&c->out, "line ");
    put_number(&c->out, number);
    put_text(&c->out, " differs: ");
    if (line == NULL)
        put_text(&c->out, "the script has no such line\n");
    else
        put_row(&c->out, *line);
}

/* A row that was played, or none, against the next stored one. */
static int hold_against(struct compare *c, uint64_t number, const struct text *line, const struct text *played)
{
    const struct text none = {"", 0};
    struct stored *s = &c->stored;
    int is_there = next_stored(s);

    if (s->broken)
        return COULD_NOT;
    if (is_there && played != NULL && s->whole == played->n && memcmp(s->row.at, played->at, played->n) == 0)
        return WELL;
    if (c->differ++ < SHOWN_ROWS) {
        show(c, number, line);
        put_side(&c->out, "  stored  ", is_there, s->row);
        put_side(&c->out, "  played  ", played != NULL, played == NULL ? none : *played);
    }
    return c->out.failed ? COULD_NOT : WELL;
}

/* A take_pair. */
static int compare_line(void *to, const struct pair *p)
{
    return hold_against(to, p->number, &p->line, &p->row);
}

/* Rows that are stored beyond the script's end. */
static int compare_rest(struct compare *c)
{
    struct stored *s = &c->stored;
    uint64_t number = c->pairs.number;
    int status = WELL;

    while (status == WELL && (s->at < s->from.n || stored_block(s)))
        status = hold_against(c, ++number, NULL, NULL);
    return s->broken ? COULD_NOT : status;
}

/* What it came to, in the last lines. */
static int conclude(struct compare *c)
{
    const int cut = c->differ == 0 && !c->stored.newline;

    if (cut)
        put_text(&c->out, "the rows are the same; only the newline at the end differs\n");
    if (c->differ > SHOWN_ROWS) {
        put_number(&c->out, c->differ - SHOWN_ROWS);
        put_text(&c->out, " more rows differ\n");
    }
    put_text(&c->out, "gwo compare: the log of ");
    put_text(&c->out, c->script);
    put_text(&c->out, c->differ > 0 || cut ? " is not " : " is ");
    put_text(&c->out, c->log);
    put_text(&c->out, "\n");
    if (out_flush(&c->out) != WELL)
        return COULD_NOT;
    return c->differ > 0 || cut ? FOUND : WELL;
}

static int compare_all(struct compare *c, struct gwo_chip *chip)
{
    static struct source from;
    const struct text header = {log_header, strlen(log_header) - 1};
    int status = source_open(&from, c->script);

    if (status != WELL)
        return status;
    status = source_open(&c->stored.from, c->log);
    if (status == WELL)
        status = hold_against(c, 0, NULL, &header);
    if (status == WELL)
        status = play_source(chip, &from, take_pairs, &c->pairs);
    if (status == WELL)
        status = compare_rest(c);
    if (status == WELL)
        status = conclude(c);
    source_close(&from);
    source_close(&c->stored.from);
    return status;
}

int command_compare(int argc, char **argv)
{
    static struct compare c;
    struct gwo_chip chip;
    int status;

    memset(&c, 0, sizeof c);
    c.chip = chip_options_start();
    argp_parse(&argp, argc, argv, 0, NULL, &c);
    out_start(&c.out, STDOUT_FILENO, "standard output");
    pairs_start(&c.pairs, compare_line, &c);
    status = bench_open(&chip, &c.chip);
    if (status != WELL)
        return status;
    status = compare_all(&c, &chip);
    bench_close(&chip);
    return status;
}
