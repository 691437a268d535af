/* The front as C and as C++: a capture of 9F and three bytes, by single samples and in a run, handed to the frame call. */
#include "gwo.h"

#include <stdio.h>
#include <string.h>

static int failed;
static const char *program = "front";

static void check(int ok, const char *what)
{
    if (ok)
        return;
    printf("%s: FAIL: %s\n", program, what);
    failed = 1;
}

/* The frame at two samples a bit, from rest to the rise; how many samples. */
static size_t capture(const uint8_t *bytes, size_t n, uint8_t *levels)
{
    const uint8_t low = GWO_LEVEL_WP | GWO_LEVEL_HOLD;
    size_t at = 0, i;

    levels[at++] = (uint8_t)(low | GWO_LEVEL_CS);
    levels[at++] = low;
    for (i = 0; i < 8 * n; i++) {
        const uint8_t si = (uint8_t)(bytes[i / 8] >> (7 - i % 8) & 1 ? GWO_LEVEL_SI : 0u);

        levels[at++] = (uint8_t)(low | si);
        levels[at++] = (uint8_t)(low | si | GWO_LEVEL_SCLK);
    }
    levels[at++] = low;
    levels[at++] = (uint8_t)(low | GWO_LEVEL_CS);
    return at;
}

static const uint8_t identify[4] = {0x9F, 0, 0, 0};

static void singly(const uint8_t *levels, size_t n)
{
    uint8_t front[GWO_FRONT_LENGTH], frame[4];
    uint32_t ready = 7, bytes = 7, tail = 7, wp = 7;
    size_t i;

    gwo_first_front(front);
    for (i = 0; i < n; i++) {
        check(gwo_sample(front, sizeof front, frame, sizeof frame, levels[i], &ready, &bytes, &tail, &wp) == GWO_DONE, "a sample");
        check(ready == (i + 1 == n), "ready at the rise alone");
    }
    check(bytes == 4 && tail == 0 && wp == 1 && memcmp(frame, identify, 4) == 0, "the frame by single samples");
    front[3] = 1;
    check(gwo_sample(front, sizeof front, frame, sizeof frame, 0, &ready, &bytes, &tail, &wp) == GWO_BAD_STATE, "a front that is none");
}

/* What is handed over goes to the chip as it is. */
static void in_a_run(const uint8_t *levels, size_t n)
{
    static uint8_t cells[GWO_MODEL_1_LENGTH];
    static uint32_t wear[GWO_MODEL_1_SECTORS];
    static struct gwo_chip chip;
    uint8_t front[GWO_FRONT_LENGTH], frame[8], rx[8];
    uint32_t ready = 7, bytes = 7, tail = 7, wp = 7;
    uint64_t used = 7;
    struct gwo_reply reply;

    check(gwo_chip_init(&chip, &gwo_bench_model_1, cells, sizeof cells, wear, GWO_MODEL_1_SECTORS) == GWO_DONE, "a chip");
    gwo_first_front(front);
    check(gwo_samples(front, sizeof front, frame, sizeof frame, levels, n, &used, &ready, &bytes, &tail, &wp) == GWO_DONE, "a run");
    check(used == n && ready == 1 && bytes == 4 && tail == 0 && wp == 1, "the frame of a run");
    chip.wp = wp;
    reply = gwo_chip_send(&chip, frame, rx, bytes, tail);
    check(reply.answer == GWO_DONE && reply.from == 1 && reply.count == 3 && rx[1] == 0xC2 && rx[2] == 0x20 && rx[3] == 0x10,
          "the identification by its samples");
    check(gwo_samples(front, sizeof front, NULL, 0, NULL, 0, &used, &ready, &bytes, &tail, &wp) == GWO_DONE && used == 0 && ready == 0,
          "a run without samples");
}

int main(int argc, char **argv)
{
    uint8_t levels[80];
    size_t n = capture(identify, 4, levels);

    if (argc > 1)
        program = argv[1];
    singly(levels, n);
    in_a_run(levels, n);
    printf("%s: %s\n", program, failed ? "failed" : "compiles without a warning, links and runs");
    return failed;
}
