/* gwo run: a script played, its log on standard output. */
#include "bench.h"
#include "commands.h"
#include "image.h"
#include "out.h"
#include "play.h"
#include "say.h"
#include "sheet.h"

#include <string.h>
#include <unistd.h>

struct run {
    struct chip_options chip;
    const char *script, *save, *wear;
    int quiet, logged;
    struct tally tally;
};

static error_t parse(int key, char *word, struct argp_state *state)
{
    struct run *r = state->input;

    switch (key) {
    case ARGP_KEY_INIT: state->child_inputs[0] = &r->chip; return 0;
    case 'S': r->save = word; return 0;
    case 'w': r->wear = word; return 0;
    case 'q': r->quiet = 1; return 0;
    case ARGP_KEY_ARG:
        if (state->arg_num > 0)
            argp_error(state, "one script is played; '%s' is another", word);
        r->script = word;
        return 0;
    default: return ARGP_ERR_UNKNOWN;
    }
}

static const struct argp_option options[] = {
    {"save", 'S', "FILE", 0, "write the cells to this file at the end, whole or not at all", 2},
    {"wear", 'w', "FILE", 0, "write the wear sheet to this file at the end; - is standard output, in the log's place", 2},
    {"quiet", 'q', NULL, 0, "say neither the chip nor the counts on standard error", 2},
    {NULL, 0, NULL, 0, NULL, 0}};

static const struct argp_child children[] = {{&chip_argp, 0, "The chip:", 1}, {NULL, 0, NULL, 0}};

static const struct argp argp = {
    options, parse, "[SCRIPT|-]",
    "Plays a script and writes its log to standard output. Without SCRIPT, or with -, the script comes from standard input.",
    children, NULL, NULL};

/* A take_passage: the rows go out as they are. */
static int take_rows(void *to, const struct passage *p)
{
    struct run *r = to;

    tally_rows(&r->tally, p->rows, p->rows_len);
    if (r->logged && write_all(STDOUT_FILENO, p->rows, p->rows_len) != 0)
        return refused_by_system("standard output");
    return WELL;
}

static void say_tally(const struct tally *t, uint64_t erases)
{
    say("%llu %s: %llu done, %llu refused, %llu not well formed, %llu %s, %llu sector %s",
        (unsigned long long)t->lines, t->lines == 1 ? "line" : "lines", (unsigned long long)t->done,
        (unsigned long long)t->refused, (unsigned long long)t->bad, (unsigned long long)t->folds,
        t->folds == 1 ? "fold" : "folds", (unsigned long long)erases, erases == 1 ? "erase" : "erases");
}

/* The script played, and what is to be written at the end. */
static int play_and_save(struct run *r, struct gwo_chip *chip)
{
    static struct source from;
    int status = source_open(&from, r->script);

    if (status != WELL)
        return status;
    if (!r->quiet)
        bench_say(chip, &r->chip);
    if (r->logged && write_all(STDOUT_FILENO, log_header, strlen(log_header)) != 0)
        status = refused_by_system("standard output");
    if (status == WELL)
        status = play_source(chip, &from, take_rows, r);
    source_close(&from);
    if (status == WELL && r->save != NULL)
        status = save_whole(r->save, chip->array, chip->array_len);
    if (status == WELL && r->wear != NULL)
        status = sheet_save(r->wear, chip);
    if (!r->quiet)
        say_tally(&r->tally, bench_erases(chip));
    return status;
}

int command_run(int argc, char **argv)
{
    static struct run r;
    struct gwo_chip chip;
    int status;

    memset(&r, 0, sizeof r);
    r.chip = chip_options_start();
    r.script = "-";
    argp_parse(&argp, argc, argv, 0, NULL, &r);
    r.logged = r.wear == NULL || strcmp(r.wear, "-") != 0;
    if (r.save != NULL && save_possible(r.save) != WELL)
        return COULD_NOT;
    if (r.wear != NULL && r.logged && save_possible(r.wear) != WELL)
        return COULD_NOT;
    status = bench_open(&chip, &r.chip);
    if (status != WELL)
        return status;
    status = play_and_save(&r, &chip);
    bench_close(&chip);
    return status;
}
