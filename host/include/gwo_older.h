/*
 * Gwolunmade: the names that firmware used before struct gwo_chip of gwo.h. Each function takes the record, the state, the array and what
 * else it needs one by one. gwo.h includes this file, so that such firmware compiles as it is; with GWO_NO_OLDER_NAMES defined it
 * does not.
 */
#ifndef GWO_OLDER_H
#define GWO_OLDER_H

#include "gwo.h"

#ifdef __cplusplus
extern "C" {
#endif

/* gwo_frame under a record. */
static inline uint32_t gwo_record_frame_strict(const struct gwo_record *r, uint8_t *state, size_t state_len,
                                               const uint8_t *array, size_t array_len,
                                               uint32_t *wear, size_t wear_len,
                                               const uint8_t *frame, size_t frame_len,
                                               uint32_t tail, uint32_t wp, uint32_t strict,
                                               uint8_t *out, size_t out_len,
                                               uint32_t *from, uint32_t *count, uint32_t *fold)
{
    const struct gwo_record f = gwo_record_filled(r);

    return gwo_frame(f.model, f.status_us, f.page_us, f.sector_us, f.block_us, f.chip_us, f.half_us,
                     f.sleep_us, f.wake_us, f.sign_us,
                     state, state_len, array, array_len, wear, wear_len, frame, frame_len, tail, wp, strict,
                     out, out_len, from, count, fold);
}

/* The same with strict off, so that 19 is never answered. */
static inline uint32_t gwo_record_frame_wear(const struct gwo_record *r, uint8_t *state, size_t state_len,
                                             const uint8_t *array, size_t array_len,
                                             uint32_t *wear, size_t wear_len,
                                             const uint8_t *frame, size_t frame_len,
                                             uint32_t tail, uint32_t wp,
                                             uint8_t *out, size_t out_len,
                                             uint32_t *from, uint32_t *count, uint32_t *fold)
{
    return gwo_record_frame_strict(r, state, state_len, array, array_len, wear, wear_len, frame, frame_len,
                                   tail, wp, 0u, out, out_len, from, count, fold);
}

/*
 * The same for firmware that keeps no wear sheet either: its erases are counted in a table that nobody reads, and that
 * is cleared when a count in it is full, so that 24 and 25 are never answered. The table takes 16 KiB in each source
 * file that calls this or gwo_record_frame. All chips share it: of several threads each lends a table of its own, to
 * the function above.
 */
static inline uint32_t gwo_record_frame_fold(const struct gwo_record *r, uint8_t *state, size_t state_len,
                                             const uint8_t *array, size_t array_len,
                                             const uint8_t *frame, size_t frame_len,
                                             uint32_t tail, uint32_t wp,
                                             uint8_t *out, size_t out_len,
                                             uint32_t *from, uint32_t *count, uint32_t *fold)
{
    static uint32_t unread[GWO_MODEL_3_SECTORS];
    const size_t sectors = gwo_sector_count(r->model);
    uint32_t number = gwo_record_frame_wear(r, state, state_len, array, array_len, unread, sectors, frame, frame_len,
                                            tail, wp, out, out_len, from, count, fold);
    size_t i;

    if (number != GWO_WEAR_FULL)
        return number;
    for (i = 0u; i < sectors; i++)
        unread[i] = 0u;
    return gwo_record_frame_wear(r, state, state_len, array, array_len, unread, sectors, frame, frame_len, tail, wp,
                                 out, out_len, from, count, fold);
}

/* And for firmware that does not ask for the fold. */
static inline uint32_t gwo_record_frame(const struct gwo_record *r, uint8_t *state, size_t state_len,
                                        const uint8_t *array, size_t array_len,
                                        const uint8_t *frame, size_t frame_len,
                                        uint32_t tail, uint32_t wp,
                                        uint8_t *out, size_t out_len,
                                        uint32_t *from, uint32_t *count)
{
    uint32_t fold;

    return gwo_record_frame_fold(r, state, state_len, array, array_len, frame, frame_len, tail, wp,
                                 out, out_len, from, count, &fold);
}

/* gwo_wait under a record. */
static inline uint32_t gwo_record_wait(const struct gwo_record *r, uint8_t *state, size_t state_len,
                                       uint8_t *array, size_t array_len, uint32_t us)
{
    const struct gwo_record f = gwo_record_filled(r);

    return gwo_wait(f.model, f.status_us, f.page_us, f.sector_us, f.block_us, f.chip_us, f.half_us,
                    f.sleep_us, f.wake_us, f.sign_us, state, state_len, array, array_len, us);
}

/* gwo_power_cycle under a record. */
static inline uint32_t gwo_record_power_cycle(const struct gwo_record *r, uint8_t *state, size_t state_len)
{
    const struct gwo_record f = gwo_record_filled(r);

    return gwo_power_cycle(f.model, f.status_us, f.page_us, f.sector_us, f.block_us, f.chip_us, f.half_us,
                           f.sleep_us, f.wake_us, f.sign_us, state, state_len);
}

/* gwo_cut under a record. */
static inline uint32_t gwo_record_cut(const struct gwo_record *r, uint8_t *state, size_t state_len,
                                      uint8_t *array, size_t array_len,
                                      const uint8_t *pattern, size_t pattern_len)
{
    const struct gwo_record f = gwo_record_filled(r);

    return gwo_cut(f.model, f.status_us, f.page_us, f.sector_us, f.block_us, f.chip_us, f.half_us,
                   f.sleep_us, f.wake_us, f.sign_us, state, state_len, array, array_len, pattern, pattern_len);
}

#ifdef __cplusplus
}
#endif

#endif
