/* 02, Req 06: what a wear table comes to; and that the total is what the erases have counted. */
#include "jig.h"
#include "rules.h"

static const uint32_t sectors_of[MODELS] = {16, 64, 4096};

/* Any model's table, all of it one count. */
static void table_of(uint32_t sectors, uint32_t count)
{
    jig_model(1);
    given.wear_len = sectors;
    jig_wear(0, sectors, count);
}

static const char *labelled(const char *what, uint32_t sectors, uint32_t at)
{
    return named("a report on %lu counts, %s %lu", (unsigned long)sectors, what, (unsigned long)at);
}

/* 24 where it is no chip's length: none of the results is written. */
static void lengths(void)
{
    static const size_t others[] = {0, 1, 2, 8, 15, 17, 32, 63, 65, 80, 128, 256, 1024, 4095, 4097, 4112, WEAR_ROOM};
    static const struct report none = {0, 0, 0, 0, 0, 0};
    size_t i;

    for (i = 0; i < sizeof others / sizeof others[0]; i++) {
        jig_model(1);
        given.wear_len = others[i];
        report_gives(24, none, named("a report on %lu counts", (unsigned long)others[i]));
    }
}

/* All alike: the first sector has the largest, and the mean leaves nothing. */
static void all_alike(uint32_t sectors, uint32_t count)
{
    const struct report want = {(uint64_t)sectors * count, count, count, 0, count, 0};

    table_of(sectors, count);
    report_gives(0, want, labelled("all of them", sectors, count));
}

/* One sector above the others, or below them. */
static void one_other(uint32_t sectors, uint32_t at)
{
    const struct report above = {(uint64_t)sectors * 7 + 3, 7, 10, at, 7, 3},
                        below = {(uint64_t)sectors * 7 - 2, 5, 7, at == 0 ? 1 : 0, 6, sectors - 2};

    table_of(sectors, 7);
    jig_wear(at, 1, 10);
    report_gives(0, above, labelled("the largest at", sectors, at));
    table_of(sectors, 7);
    jig_wear(at, 1, 5);
    report_gives(0, below, labelled("the smallest at", sectors, at));
}

/* Two or three that are the largest: the first of them is said. */
static void ties(uint32_t sectors, uint32_t first, uint32_t last)
{
    const struct report two = {sectors + 2u * 99, 1, 100, first, 1 + 198 / sectors, 198 % sectors},
                        three = {sectors + 3u * 99, 1, 100, first, 1 + 297 / sectors, 297 % sectors};

    table_of(sectors, 1);
    jig_wear(first, 1, 100);
    jig_wear(last, 1, 100);
    report_gives(0, two, labelled("two largest, the first at", sectors, first));
    jig_wear((first + last) / 2, 1, 100);
    report_gives(0, three, labelled("three largest, the first at", sectors, first));
}

/* Every remainder, with the mean 0 and with another. */
static void remainders(uint32_t sectors)
{
    uint32_t k, step = sectors == 4096 ? 63 : 1;

    for (k = 1; k < sectors; k += step) {
        const struct report small = {k, 0, k, sectors - 1, 0, k},
                            large = {(uint64_t)sectors * 1000000 + k, 1000000, 1000000 + k, sectors - 1, 1000000, k};

        table_of(sectors, 0);
        jig_wear(sectors - 1, 1, k);
        report_gives(0, small, labelled("a remainder of", sectors, k));
        table_of(sectors, 1000000);
        jig_wear(sectors - 1, 1, 1000000 + k);
        report_gives(0, large, labelled("1,000,000 each and a remainder of", sectors, k));
    }
}

/* Totals around 2^32, and the highest; 4,294,967,295 is 15 mod 16, 63 mod 64 and 4,095 mod 4,096. */
static void large_totals(uint32_t sectors)
{
    const struct report top = {UINT64_C(4294967295), 0, GWO_WEAR_TOP, 1, GWO_WEAR_TOP / sectors, sectors - 1},
                        one_more = {UINT64_C(4294967296), 0, GWO_WEAR_TOP, 1, GWO_WEAR_TOP / sectors + 1, 0},
                        two = {UINT64_C(8589934590), 0, GWO_WEAR_TOP, 1, (uint32_t)(UINT64_C(8589934590) / sectors),
                               sectors - 2},
                        all_but_one = {UINT64_C(4294967295) * (sectors - 1), 0, GWO_WEAR_TOP, 1,
                                       (uint32_t)(UINT64_C(4294967295) * (sectors - 1) / sectors), 1};

    table_of(sectors, 0);
    jig_wear(1, 1, GWO_WEAR_TOP);
    report_gives(0, top, labelled("one full of", sectors, sectors));
    jig_wear(sectors - 1, 1, 1);
    report_gives(0, one_more, labelled("one full and one of", sectors, 1));
    jig_wear(sectors - 1, 1, GWO_WEAR_TOP);
    report_gives(0, two, labelled("full ones:", sectors, 2));
    jig_wear(1, sectors - 1, GWO_WEAR_TOP);
    report_gives(0, all_but_one, labelled("full ones:", sectors, sectors - 1));
}

/* Rising and falling counts. */
static void slopes(uint32_t sectors)
{
    const uint64_t total = (uint64_t)sectors * (sectors - 1) / 2;
    const struct report rising = {total, 0, sectors - 1, sectors - 1, sectors / 2 - 1, sectors / 2},
                        falling = {total, 0, sectors - 1, 0, sectors / 2 - 1, sectors / 2};
    uint32_t i;

    table_of(sectors, 0);
    for (i = 0; i < sectors; i++)
        jig_wear(i, 1, i);
    report_gives(0, rising, labelled("rising to", sectors, sectors - 1));
    for (i = 0; i < sectors; i++)
        jig_wear(i, 1, sectors - 1 - i);
    report_gives(0, falling, labelled("falling from", sectors, sectors - 1));
}

/* An erase on an enabled chip, taken to its end or refused. */
static void erased(const char *frame, uint32_t number)
{
    struct condition busy = enabled;

    jig_next();
    jig_state(enabled);
    jig_frame(frame);
    busy.busy_us = us_of(&given.record, given.frame[0]);
    if (number == 0)
        want_state(busy);
    frame_gives(number, frame);
    if (number != 0)
        return;
    jig_next();
    want_finished(given.record.model, busy);
    wait_gives(busy.busy_us, 0, "its end");
}

/* The sum is the starting sum and the sectors that the erases taken have covered. */
static void totals_of_histories(void)
{
    static const struct report from_5 = {16 * 5 + 1 + 16 + 1, 6, 7, 3, 6, 2},
                               model_2 = {1 + 64 + 16 + 16, 1, 4, 17, 1, 33}, model_3 = {1 + 8 + 16, 0, 3, 0, 0, 25};

    jig_model(1);
    jig_wear(0, 16, 5);
    erased("20003000", 0);
    erased("2000300000", 14);
    erased("D8000000", 0);
    erased("2003FFFF", 0);
    report_gives(0, from_5, "a history of model 1");
    jig_model(2);
    jig_wear(0, 64, 0);
    erased("20011000", 0);
    erased("C7", 0);
    erased("52010000", 21);
    erased("D8010000", 0);
    erased("D801FFFF", 0);
    report_gives(0, model_2, "a history of model 2");
    jig_model(3);
    jig_wear(0, 4096, 0);
    erased("20000000", 0);
    erased("52007FFF", 0);
    erased("D8008000", 0);
    report_gives(0, model_3, "a history of model 3");
}

void wear_reports(void)
{
    static const uint32_t counts[] = {0, 1, 2, 65536, 1000000007, GWO_WEAR_TOP - 1, GWO_WEAR_TOP};
    uint32_t at;
    size_t i, k;

    lengths();
    for (i = 0; i < MODELS; i++) {
        uint32_t sectors = sectors_of[i];

        for (k = 0; k < sizeof counts / sizeof counts[0]; k++)
            all_alike(sectors, counts[k]);
        for (at = 0; at < sectors; at += sectors == 4096 && at > 0 && at < 4064 ? 31 : 1) {
            one_other(sectors, at);
            if (at < sectors - 2)
                ties(sectors, at, sectors - 1);
        }
        remainders(sectors);
        large_totals(sectors);
        slopes(sectors);
    }
    totals_of_histories();
}
