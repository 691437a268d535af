/* gwo pins: a capture of a logic analyser, played on the chip; the log of its frames on standard output. */
#include "bench.h"
#include "capture.h"
#include "commands.h"
#include "image.h"
#include "out.h"
#include "say.h"

#include <string.h>
#include <unistd.h>

struct pins {
    struct chip_options chip;
    const char *samples, *save;
    int quiet;
    struct capture capture;
    struct out out;
};

static void read_order(struct pins *p, const char *words, struct argp_state *state)
{
    const char *wrong = read_channels(words, &p->capture.channels);

    if (wrong != NULL)
        argp_error(state, "--channels %s: %s", words, wrong);
}

static error_t parse(int key, char *word, struct argp_state *state)
{
    struct pins *p = state->input;

    switch (key) {
    case ARGP_KEY_INIT: state->child_inputs[0] = &p->chip; return 0;
    case 'S': p->save = word; return 0;
    case 'c': read_order(p, word, state); return 0;
    case 'b': p->capture.sent = 1; return 0;
    case 'q': p->quiet = 1; return 0;
    case 'r':
        if (!read_rate(word, &p->capture.rate))
            argp_error(state, "--rate %s: it is a number of samples a second, from 1 to 1000G, such as 8000000 or 8M", word);
        return 0;
    case ARGP_KEY_ARG:
        if (state->arg_num > 0)
            argp_error(state, "one capture is played; '%s' is another", word);
        p->samples = word;
        return 0;
    default: return ARGP_ERR_UNKNOWN;
    }
}

static const struct argp_option options[] = {
    {"rate", 'r', "HZ", 0, "samples a second, such as 8000000 or 8M: the time between frames passes on the chip; without it none does", 2},
    {"channels", 'c', "NAMES", 0,
     "which bit of a sample is which pin, from bit 0 on; cs,sclk,si,wp,hold if it is not given. - is a bit of another pin; wp or hold that is "
     "not named is high", 2},
    {"sent", 'b', NULL, 0, "three fields more in each row: WP#, the tail and the bytes that were sent", 2},
    {"save", 'S', "FILE", 0, "write the cells to this file at the end, whole or not at all", 2},
    {"quiet", 'q', NULL, 0, "say neither the chip nor the counts on standard error", 2},
    {NULL, 0, NULL, 0, NULL, 0}};

static const struct argp_child children[] = {{&chip_argp, 0, "The chip:", 1}, {NULL, 0, NULL, 0}};

static const struct argp argp = {
    options, parse, "[SAMPLES|-]",
    "Plays a capture of the chip's pins and writes the log of its frames to standard output. Without SAMPLES, or with -, the capture comes "
    "from standard input. A sample is a byte, as sigrok-cli -O binary writes it: bit 0 CS#, 1 SCLK, 2 SI, 3 WP#, 4 HOLD#."
    "\vThe first field of a row is the number of the sample where CS# rose, from 0 on. A frame whose CS# rises during a hold is dropped, and "
    "its row has the answer 34; one of over 65,541 bytes has 4.",
    children, NULL, NULL};

static void say_counts(const struct pins *p, uint64_t erases)
{
    const struct capture_counts *n = &p->capture.counts;

    say("%llu %s, %llu %s: %llu done, %llu refused, %llu dropped, %llu %s, %llu sector %s", (unsigned long long)p->capture.samples,
        p->capture.samples == 1 ? "sample" : "samples", (unsigned long long)n->frames, n->frames == 1 ? "frame" : "frames",
        (unsigned long long)n->done, (unsigned long long)n->refused, (unsigned long long)n->dropped, (unsigned long long)n->folds,
        n->folds == 1 ? "fold" : "folds", (unsigned long long)erases, erases == 1 ? "erase" : "erases");
}

/* The capture played, and what is to be written at the end. */
static int play_and_save(struct pins *p, struct gwo_chip *chip)
{
    static struct source from;
    int status = source_open(&from, p->samples);

    if (status != WELL)
        return status;
    if (!p->quiet)
        bench_say(chip, &p->chip);
    if (p->capture.rate == 0)
        say("no --rate: no time passes on the chip, and what it starts does not come to its end");
    p->capture.chip = chip;
    p->capture.log = &p->out;
    capture_start(&p->capture);
    status = capture_play(&p->capture, &from);
    source_close(&from);
    if (status == WELL)
        capture_end(&p->capture);
    if (status == WELL && p->save != NULL)
        status = save_whole(p->save, chip->array, chip->array_len);
    if (!p->quiet)
        say_counts(p, bench_erases(chip));
    return status;
}

int command_pins(int argc, char **argv)
{
    static struct pins p;
    struct gwo_chip chip;
    int status;

    memset(&p, 0, sizeof p);
    p.chip = chip_options_start();
    p.samples = "-";
    read_channels(usual_channels, &p.capture.channels);
    argp_parse(&argp, argc, argv, 0, NULL, &p);
    if (p.save != NULL && save_possible(p.save) != WELL)
        return COULD_NOT;
    status = bench_open(&chip, &p.chip);
    if (status != WELL)
        return status;
    out_start(&p.out, STDOUT_FILENO, "standard output");
    status = play_and_save(&p, &chip);
    bench_close(&chip);
    return status;
}
