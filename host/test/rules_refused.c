/* 01, Numbers returned: 1, 2, 4, 5 and 10, and what a valid record is; 24 is with the wear counts. */
#include "jig.h"
#include "rules.h"

/* 06 from power-on: taken in any valid setting, so that only the tested rule refuses. */
static void write_enable(void)
{
    jig_frame("06");
}

static void want_enabled(uint32_t number)
{
    if (number == 0)
        want_state(enabled);
}

/* The same record for frame, wait, power cycle and cut. */
static void record_gives(uint32_t number, const char *label)
{
    power_cycle_gives(number, label);
    wait_gives(1, number, label);
    cut_gives(number, label);
    write_enable();
    want_enabled(number);
    frame_gives(number, label);
}

int time_counts(uint32_t model, int which)
{
    return model == 3 || which != HALF;
}

uint32_t *time_field(int which)
{
    struct gwo_record *r = &given.record;
    uint32_t *const fields[TIMES] = {&r->status_us, &r->page_us, &r->sector_us, &r->block_us, &r->chip_us,
                                     &r->half_us, &r->sleep_us, &r->wake_us, &r->sign_us};

    return fields[which];
}

static void no_model(uint32_t model)
{
    static const uint32_t numbers[] = {0, 4, 5, 255, 256, 257, 259, 65537, 0x80000001, 0x80000003, 0xFFFFFFFF};
    size_t i;

    for (i = 0; i < sizeof numbers / sizeof numbers[0]; i++) {
        jig_model(model);
        given.record.model = numbers[i];
        record_gives(1, named("model %lu", (unsigned long)numbers[i]));
    }
}

/* A time that counts is 1 to 1,000,000,000; the sixth is 0 on models 1 and 2. */
static uint32_t time_number(uint32_t model, int which, uint32_t us)
{
    return (time_counts(model, which) ? us >= 1 && us <= 1000000000 : us == 0) ? 0 : 1;
}

static void times(uint32_t model)
{
    static const uint32_t us[] = {0, 1, 2, 1000000, 999999999, 1000000000, 1000000001, 0x80000000, 0xFFFFFFFF};
    size_t i;
    int which;

    for (which = 0; which < TIMES; which++) {
        for (i = 0; i < sizeof us / sizeof us[0]; i++) {
            jig_model(model);
            *time_field(which) = us[i];
            record_gives(time_number(model, which, us[i]),
                         named("model %lu, time %d is %lu us", (unsigned long)model, which + 1, (unsigned long)us[i]));
        }
    }
}

/* The record of one model under the number of another. */
static void other_model(uint32_t model)
{
    uint32_t other;

    for (other = 1; other <= MODELS; other++) {
        jig_model(model);
        given.record.model = other;
        given.array_len = size_of(other);
        given.wear_len = size_of(other) / SECTOR;
        record_gives((model == 3) == (other == 3) ? 0 : 1,
                     named("the times of model %lu for model %lu", (unsigned long)model, (unsigned long)other));
    }
}

static void number_1(void)
{
    uint32_t model;

    for (model = 1; model <= MODELS; model++) {
        no_model(model);
        times(model);
        other_model(model);
    }
}

/* The same array for wait, cut and frame; a chip that is busy would change some of it. */
static void array_gives(uint32_t number, const char *label)
{
    static const struct condition busy = {0, 0, 1, 0, 1, 0, 0};

    wait_gives(1, number, label);
    cut_gives(number, label);
    if (number == 2) {
        jig_busy(busy, 2, 0);
        wait_gives(1, 2, label);
        jig_pattern(SECTOR);
        cut_gives(2, label);
        jig_state(power_on);
    }
    write_enable();
    want_enabled(number);
    frame_gives(number, label);
}

static void number_2(void)
{
    static const size_t lengths[] = {0, 1, 4096, 65535, 65536, 65537, 131072, 262143, 262144, 262145, 327680,
                                     16777215, 16777216, 16777217};
    uint32_t model;
    size_t i;

    for (model = 1; model <= MODELS; model++) {
        for (i = 0; i < sizeof lengths / sizeof lengths[0]; i++) {
            uint32_t number = lengths[i] == size_of(model) ? 0 : 2;

            jig_model(model);
            given.array_len = lengths[i];
            array_gives(number, named("model %lu, array of %lu", (unsigned long)model, (unsigned long)lengths[i]));
        }
    }
}

static void number_4(void)
{
    static const uint32_t tails[] = {8, 9, 15, 16, 255, 256, 0x80000000, 0xFFFFFFFF};
    uint32_t model;
    size_t i;

    for (model = 1; model <= MODELS; model++) {
        for (i = 0; i < sizeof tails / sizeof tails[0]; i++) {
            jig_model(model);
            jig_frame("0500");
            given.tail = tails[i];
            frame_gives(4, named("tail %lu", (unsigned long)tails[i]));
        }
        jig_model(model);
        jig_filled(0x05, LONGEST_FRAME, 0);
        want_repeated(1, "00");
        frame_gives(0, "05 of 65,541 bytes");
        jig_model(model);
        jig_filled(0x05, LONGEST_FRAME + 1, 0);
        frame_gives(4, "05 of 65,542 bytes");
        given.out_len = 10;
        frame_gives(4, "65,542 bytes with a short output");
    }
}

/* Whatever the command: one byte too many is 4, with room for it or not; of the longest frame a byte of room is missing. */
static void longest_of_every_command(uint32_t model)
{
    unsigned command;

    for (command = 0; command < 256; command++) {
        jig_model(model);
        jig_state(enabled);
        jig_filled((uint8_t)command, LONGEST_FRAME + 1, 0);
        frame_gives(4, named("%02X of 65,542 bytes", command));
        given.out_len = 1;
        frame_gives(4, named("%02X of 65,542 bytes with a short output", command));
        jig_filled((uint8_t)command, LONGEST_FRAME, 0);
        given.out_len = LONGEST_FRAME - 1;
        frame_gives(5, named("%02X of 65,541 bytes, output one shorter", command));
    }
}

static void number_5(void)
{
    static const size_t lengths[] = {1, 2, 5, 256, 300, 65541};
    uint32_t model;
    size_t i;

    for (model = 1; model <= MODELS; model++) {
        for (i = 0; i < sizeof lengths / sizeof lengths[0]; i++) {
            jig_model(model);
            jig_filled(0x9F, lengths[i], 0);
            given.out_len = lengths[i] - 1;
            frame_gives(5, named("%lu bytes, output one shorter", (unsigned long)lengths[i]));
            given.out_len = 0;
            frame_gives(5, named("%lu bytes, no output", (unsigned long)lengths[i]));
        }
    }
}

/* Positions after the frame's end keep their contents. */
static void longer_output(void)
{
    uint32_t model;
    size_t more;

    for (model = 1; model <= MODELS; model++) {
        for (more = 1; more <= 33; more += 4) {
            jig_model(model);
            jig_frame("9F000000000000");
            want_repeated(1, part_of(model)->id);
            given.out_len = given.frame_len + more;
            frame_gives(0, named("output longer by %lu", (unsigned long)more));
        }
    }
}

static void number_10(void)
{
    static const struct condition conditions[] = {
        {0, 0, 0, 0, 0, 0, 0}, {1, 3, 1, 0, 0, 0, 0}, {0, 0, 0, 1, 0, 0, 0}, {0, 0, 1, 1, 0, 0, 0},
        {0, 0, 1, 0, 1, 0, 0}, {0, 0, 0, 1, 0, 0, 1}, {0, 0, 1, 0, 0, 0, 9}};
    uint32_t model, tail;
    size_t i;

    for (model = 1; model <= MODELS; model++) {
        for (i = 0; i < sizeof conditions / sizeof conditions[0]; i++) {
            for (tail = 0; tail <= 7; tail++) {
                jig_model(model);
                jig_state(conditions[i]);
                given.tail = tail;
                frame_gives(10, named("empty frame, tail %lu", (unsigned long)tail));
                given.out_len = 9;
                frame_gives(10, named("empty frame, tail %lu, output of 9", (unsigned long)tail));
            }
        }
    }
}

void refused_before_the_command(void)
{
    uint32_t model;

    for (model = 1; model <= MODELS; model++)
        longest_of_every_command(model);
    number_1();
    number_2();
    number_4();
    number_5();
    longer_output();
    number_10();
}
