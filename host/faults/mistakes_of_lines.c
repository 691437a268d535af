/* Mistakes of a player of lines, from 101 on: what is made of a call before it, and of its results after it. */
#include "gwo.h"
#include "model.h"

#include <stdlib.h>
#include <string.h>

enum {
    OPEN_FORGOTTEN = 101, NUMBER_STAYS, ROW_LOST, TAKES_ONE_MORE, NEVER_STRICT, NOT_COUNTED, NO_ROOM_NEEDED, ONE_LINE, CUT_TO_640,
    TAKEN_WHEN_REFUSED, FIVE_FIRST, LAST_EMPTY, LAST_STAYS, LAST_WITHOUT_ROOM
};

static int mistake(void)
{
    const char *text = getenv("GWO_FAULT");

    return text == NULL ? 0 : atoi(text);
}

/* A table that nobody reads in place of the caller's. */
static uint32_t *table(uint32_t *wear, size_t n)
{
    static uint32_t unread[GWO_MODEL_3_SECTORS];

    if (mistake() != NOT_COUNTED || n > GWO_MODEL_3_SECTORS)
        return wear;
    memcpy(unread, wear, n * sizeof unread[0]);
    return unread;
}

/* As much of the block as the call is given. */
static size_t given(const uint8_t *script, size_t n)
{
    const uint8_t *end = mistake() == ONE_LINE && n > 0 ? memchr(script, '\n', n) : NULL;

    return end == NULL ? n : (size_t)(end - script) + 1;
}

/* How long the rows are without the last one. */
static uint64_t without_last(const uint8_t *log, uint64_t n)
{
    if (n > 0)
        n--;
    while (n > 0 && log[n - 1] != '\n')
        n--;
    return n;
}

static void spoil_results(uint32_t number, size_t script_len, const uint8_t *log, uint32_t *used, uint64_t *line,
                          uint64_t first, uint64_t *taken, uint64_t *written)
{
    switch (mistake()) {
    case OPEN_FORGOTTEN: *used = 0; break;
    case NUMBER_STAYS: *line = first; break;
    case ROW_LOST: *written = without_last(log, *written); break;
    case TAKES_ONE_MORE: *taken += *taken < script_len; break;
    case CUT_TO_640: *used -= *used == GWO_HELD_LENGTH; break;
    case TAKEN_WHEN_REFUSED: *taken += number != 0; break;
    default: break;
    }
}

uint32_t gwo_play_lines(uint32_t model, uint32_t status_us, uint32_t page_us, uint32_t sector_us,
                        uint32_t block_us, uint32_t chip_us, uint32_t half_us,
                        uint32_t sleep_us, uint32_t wake_us, uint32_t sign_us, uint32_t strict,
                        uint8_t *state, size_t state_len, uint8_t *array, size_t array_len,
                        uint32_t *wear, size_t wear_len,
                        uint8_t *held, size_t held_len, uint32_t *used, uint64_t *line,
                        const uint8_t *script, size_t script_len, uint8_t *log, size_t log_len,
                        uint64_t *taken, uint64_t *written)
{
    static uint8_t other[GWO_ROW_LENGTH];
    const int elsewhere = mistake() == NO_ROOM_NEEDED && log_len < sizeof other;
    const uint64_t first = *line;
    uint32_t number;

    if (mistake() == FIVE_FIRST && held_len != GWO_HELD_LENGTH) {
        *taken = *written = 0;
        return 5;
    }
    number = ref_play_lines(model, status_us, page_us, sector_us, block_us, chip_us, half_us, sleep_us, wake_us, sign_us,
                            mistake() == NEVER_STRICT ? 0 : strict, state, state_len, array, array_len,
                            table(wear, wear_len), wear_len, held, held_len, used, line, script,
                            given(script, script_len), elsewhere ? other : log, elsewhere ? sizeof other : log_len,
                            taken, written);
    if (elsewhere)
        *written = 0;
    if (number == 0 || mistake() == TAKEN_WHEN_REFUSED)
        spoil_results(number, script_len, log, used, line, first, taken, written);
    return number;
}

uint32_t gwo_play_last(uint32_t model, uint32_t status_us, uint32_t page_us, uint32_t sector_us,
                       uint32_t block_us, uint32_t chip_us, uint32_t half_us,
                       uint32_t sleep_us, uint32_t wake_us, uint32_t sign_us, uint32_t strict,
                       uint8_t *state, size_t state_len, uint8_t *array, size_t array_len,
                       uint32_t *wear, size_t wear_len,
                       const uint8_t *held, size_t held_len, uint32_t *used, uint64_t *line,
                       uint8_t *log, size_t log_len, uint64_t *written)
{
    const uint32_t before = *used;
    uint32_t number;

    if (mistake() == LAST_EMPTY && before == 0 && log_len >= GWO_ROW_LENGTH)
        *used = 1;
    if (mistake() == LAST_WITHOUT_ROOM && log_len < GWO_ROW_LENGTH) {
        *written = 0;
        return 0;
    }
    number = ref_play_last(model, status_us, page_us, sector_us, block_us, chip_us, half_us, sleep_us, wake_us, sign_us, strict,
                           state, state_len, array, array_len, wear, wear_len, held, held_len, used, line, log, log_len,
                           written);
    if (mistake() == LAST_STAYS)
        *used = before;
    return number;
}
