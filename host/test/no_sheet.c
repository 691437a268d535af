/*
 * Firmware that keeps no wear sheet: the functions on a record lend a table of their own. The call that they make is
 * the one below, and not the archive's: it sees the table, and fills it.
 */
#include "gwo.h"

#include <stdio.h>

/* What the call was lent, what it shall make of every count, its setting, and how often it was made. */
static uint32_t *lent, becomes, was_strict;
static size_t lent_len;
static int calls, failed;

uint32_t gwo_frame(uint32_t model, uint32_t status_us, uint32_t page_us, uint32_t sector_us,
                   uint32_t block_us, uint32_t chip_us, uint32_t half_us,
                   uint32_t sleep_us, uint32_t wake_us, uint32_t sign_us,
                   uint8_t *state, size_t state_len, const uint8_t *array, size_t array_len,
                   uint32_t *wear, size_t wear_len,
                   const uint8_t *frame, size_t frame_len, uint32_t tail, uint32_t wp, uint32_t strict,
                   uint8_t *out, size_t out_len, uint32_t *from, uint32_t *count, uint32_t *fold)
{
    size_t i;

    (void)model, (void)status_us, (void)page_us, (void)sector_us, (void)block_us, (void)chip_us, (void)half_us;
    (void)sleep_us, (void)wake_us, (void)sign_us, (void)state, (void)state_len, (void)array, (void)array_len;
    (void)frame, (void)frame_len, (void)tail, (void)wp, (void)out, (void)out_len;
    calls++;
    was_strict = strict;
    lent = wear;
    lent_len = wear_len;
    *from = *count = *fold = 0;
    for (i = 0; i < wear_len; i++)
        if (wear[i] == GWO_WEAR_TOP)
            return GWO_WEAR_FULL;
    for (i = 0; i < wear_len; i++)
        wear[i] = becomes == 0 ? wear[i] + 1 : becomes;
    return GWO_DONE;
}

static void check(int ok, const char *what)
{
    if (ok)
        return;
    printf("no sheet: FAIL: %s\n", what);
    failed = 1;
}

static uint32_t erase(const struct gwo_record *r)
{
    static const uint8_t chip_erase[] = {0xC7};
    uint8_t state[1], array[1], out[1];
    uint32_t from, count;

    calls = 0;
    return gwo_record_frame(r, state, 1, array, 1, chip_erase, 1, 0, 1, out, 1, &from, &count);
}

/* A table of the right length; a count that has become full is cleared with all others, and the call made again. */
static void use(const struct gwo_record *r, size_t sectors)
{
    uint32_t before;
    size_t i;

    becomes = 41;
    check(erase(r) == GWO_DONE && calls == 1 && lent_len == sectors && was_strict == 0, "an erase");
    before = lent[sectors - 1];
    becomes = GWO_WEAR_TOP;
    check(before == 41 && erase(r) == GWO_DONE && calls == 1, "a count that becomes full");
    becomes = 0;
    check(erase(r) == GWO_DONE && calls == 2, "an erase with a full count");
    for (i = 0; i < sectors; i++)
        check(lent[i] == 1, "a count that was cleared");
    check(erase(r) == GWO_DONE && calls == 1 && lent[0] == 2, "the erase after it");
}

int main(void)
{
    struct gwo_record none = gwo_bench_model_1;

    use(&gwo_bench_model_1, 16);
    use(&gwo_bench_model_2, 64);
    use(&gwo_bench_model_3, 4096);
    none.model = 4;
    check(erase(&none) == GWO_DONE && lent_len == 0, "no model");
    printf("no sheet: firmware without a wear table %s\n", failed ? "failed" : "is lent one that is never full");
    return failed;
}
