/*
 * Scripts for the runner, and the log that it has to write.
 *   scripts gen SEED N [MODEL]        a script of N lines for a chip of that model (1), good and bad of every kind
 *   scripts bad SEED N                N lines that are bad, or nearly
 *   scripts expect [strict] [MODEL]   the log of the script on standard input, by the independent model; strict or not
 */
#include "scripts.h"

#include <stdio.h>
#include <stdlib.h>
#include <string.h>

/* The whole input in memory, and how long it is. */
static char *read_all(size_t *length)
{
    size_t room = 1 << 16, n = 0, got;
    char *all = malloc(room);

    while (all != NULL && (got = fread(all + n, 1, room - n, stdin)) > 0) {
        n += got;
        if (n == room)
            all = realloc(all, room *= 2);
    }
    if (all == NULL) {
        fprintf(stderr, "scripts: no memory for the script\n");
        exit(2);
    }
    *length = n;
    return all;
}

/* The log of the script on standard input: a bench chip of that model from the factory. */
static void expect(uint32_t model, uint32_t strict)
{
    static uint8_t state[GWO_STATE_LENGTH], cells[GWO_MODEL_3_LENGTH];
    static uint32_t wear[GWO_MODEL_3_SECTORS];
    const struct stage stage = {gwo_bench(model), state, cells, wear, strict};
    size_t left, n;
    char *text = read_all(&left), *at = text, row[MOST_ROW];
    unsigned long number = 0;

    gwo_factory_state(state);
    memset(cells, 0xFF, sizeof cells);
    printf("line\tanswer\tfrom\tbytes\tnote\n");
    for (; left > 0; at += n, left -= n) {
        char *end = memchr(at, '\n', left);

        n = end == NULL ? left : (size_t)(end - at) + 1;
        fwrite(row, 1, play_line(&stage, ++number, at, n - (end != NULL), row), stdout);
    }
    free(text);
}

/* MODEL where it is given, else 1; 0 for a word that is no model. */
static uint32_t model_of(const char *word)
{
    if (word == NULL)
        return 1;
    return strlen(word) == 1 && word[0] >= '1' && word[0] <= '3' ? (uint32_t)(word[0] - '0') : 0;
}

static int usage(void)
{
    fprintf(stderr, "usage: scripts gen SEED LINES [MODEL], scripts bad SEED LINES, or scripts expect [strict] [MODEL]\n");
    return 2;
}

int main(int argc, char **argv)
{
    const char *word = argc > 1 ? argv[1] : "";
    int strict = argc > 2 && strcmp(argv[2], "strict") == 0, next = strcmp(word, "expect") == 0 ? 2 + strict : 4;
    uint32_t model = model_of(argc > next ? argv[next] : NULL);

    if (argc > next + 1 || argc < next || model == 0)
        return usage();
    if (strcmp(word, "gen") == 0)
        generate(strtoull(argv[2], NULL, 10), strtoul(argv[3], NULL, 10), model);
    else if (strcmp(word, "bad") == 0 && argc == 4)
        generate_bad(strtoull(argv[2], NULL, 10), strtoul(argv[3], NULL, 10));
    else if (strcmp(word, "expect") == 0)
        expect(model, (uint32_t)strict);
    else
        return usage();
    return fflush(stdout) == 0 && !ferror(stdout) ? 0 : 1;
}
