/* gwo check: every fold and every refusal of scripts, and a verdict. */
#include "bench.h"
#include "commands.h"
#include "fault.h"
#include "findings.h"
#include "out.h"
#include "pairs.h"
#include "play.h"
#include "say.h"

#include <string.h>
#include <unistd.h>

struct check {
    struct chip_options chip;
    char **scripts;
    size_t count;
    struct findings findings;
    struct out out;
};

static error_t parse(int key, char *word, struct argp_state *state)
{
    struct check *c = state->input;

    (void)word;
    switch (key) {
    case ARGP_KEY_INIT: state->child_inputs[0] = &c->chip; return 0;
    case 'j': c->findings.json = 1; return 0;
    case ARGP_KEY_ARGS:
        c->scripts = state->argv + state->next;
        c->count = (size_t)(state->argc - state->next);
        return 0;
    case ARGP_KEY_NO_ARGS: argp_error(state, "which scripts?"); return 0;
    default: return ARGP_ERR_UNKNOWN;
    }
}

static const struct argp_option options[] = {
    {"json", 'j', NULL, 0, "the same for machines", 2}, {NULL, 0, NULL, 0, NULL, 0}};

static const struct argp_child children[] = {{&chip_argp, 0, "The chip:", 1}, {NULL, 0, NULL, 0}};

static const struct argp argp = {
    options, parse, "SCRIPT...",
    "Plays each script from power-on and says every fold and every refusal. - is standard input."
    "\vThe exit status is 0 where all scripts are clean; 1 where there is a fold or a refusal; 2 where a script could not be judged: a "
    "line that is not well formed, CR before a newline, a byte order mark, no line at all, a file that is missing or cannot be read, or an "
    "output that cannot be written.",
    children, NULL, NULL};

/* A take_pair: most lines say nothing. */
static int look_at(void *to, const struct pair *p)
{
    struct findings *f = to;

    tally_row(&f->tally, p->answer, p->folded);
    if (p->answer == GWO_DONE && !p->folded)
        return WELL;
    put_finding(f, p);
    return f->out->failed ? COULD_NOT : WELL;
}

/* One script on a chip of its own. COULD_NOT only where no other can be checked either. */
static int check_script(struct check *c, const char *path)
{
    static struct source from;
    static struct pairs pairs;
    struct gwo_chip chip;
    int status = bench_open(&chip, &c->chip), whole;

    if (status != WELL)
        return status;
    findings_begin(&c->findings, path);
    whole = source_open(&from, path) == WELL;
    if (whole) {
        pairs_start(&pairs, look_at, &c->findings);
        whole = play_source(&chip, &from, take_pairs, &pairs) == WELL;
        source_close(&from);
    }
    findings_end(&c->findings, whole);
    bench_close(&chip);
    return c->out.failed ? COULD_NOT : WELL;
}

int command_check(int argc, char **argv)
{
    static struct check c;
    int status = WELL, flushed;
    size_t i;

    memset(&c, 0, sizeof c);
    c.chip = chip_options_start();
    argp_parse(&argp, argc, argv, 0, NULL, &c);
    out_start(&c.out, STDOUT_FILENO, "standard output");
    findings_start(&c.findings, &c.out, &c.chip, c.count > 1);
    for (i = 0; i < c.count && status == WELL; i++)
        status = check_script(&c, c.scripts[i]);
    if (status == WELL)
        status = findings_conclude(&c.findings);
    flushed = out_flush(&c.out);
    return flushed != WELL ? flushed : status;
}
