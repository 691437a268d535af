/* Calls that do nothing: what is counted for them is the cost of calling. */
#include <stddef.h>
#include <stdint.h>

uint32_t empty_frame(uint32_t model, uint32_t status_us, uint32_t page_us, uint32_t sector_us,
                     uint32_t block_us, uint32_t chip_us, uint32_t half_us,
                     uint32_t sleep_us, uint32_t wake_us, uint32_t sign_us,
                     uint8_t *state, size_t state_len, const uint8_t *array, size_t array_len,
                     uint32_t *wear, size_t wear_len,
                     const uint8_t *frame, size_t frame_len, uint32_t tail, uint32_t wp, uint32_t strict,
                     uint8_t *out, size_t out_len, uint32_t *from, uint32_t *count, uint32_t *fold)
{
    (void)model, (void)status_us, (void)page_us, (void)sector_us, (void)block_us, (void)chip_us, (void)half_us;
    (void)sleep_us, (void)wake_us, (void)sign_us, (void)state, (void)state_len, (void)array, (void)array_len;
    (void)wear, (void)wear_len, (void)frame, (void)frame_len, (void)tail, (void)wp, (void)strict, (void)out;
    (void)out_len, (void)from, (void)count, (void)fold;
    return 0;
}

uint32_t empty_wait(uint32_t model, uint32_t status_us, uint32_t page_us, uint32_t sector_us,
                    uint32_t block_us, uint32_t chip_us, uint32_t half_us,
                    uint32_t sleep_us, uint32_t wake_us, uint32_t sign_us,
                    uint8_t *state, size_t state_len, uint8_t *array, size_t array_len, uint32_t us)
{
    (void)model, (void)status_us, (void)page_us, (void)sector_us, (void)block_us, (void)chip_us, (void)half_us;
    (void)sleep_us, (void)wake_us, (void)sign_us, (void)state, (void)state_len, (void)array, (void)array_len;
    (void)us;
    return 0;
}

uint32_t empty_power_cycle(uint32_t model, uint32_t status_us, uint32_t page_us, uint32_t sector_us,
                           uint32_t block_us, uint32_t chip_us, uint32_t half_us,
                           uint32_t sleep_us, uint32_t wake_us, uint32_t sign_us,
                           uint8_t *state, size_t state_len)
{
    (void)model, (void)status_us, (void)page_us, (void)sector_us, (void)block_us, (void)chip_us, (void)half_us;
    (void)sleep_us, (void)wake_us, (void)sign_us, (void)state, (void)state_len;
    return 0;
}

uint32_t empty_cut(uint32_t model, uint32_t status_us, uint32_t page_us, uint32_t sector_us,
                   uint32_t block_us, uint32_t chip_us, uint32_t half_us,
                   uint32_t sleep_us, uint32_t wake_us, uint32_t sign_us,
                   uint8_t *state, size_t state_len, uint8_t *array, size_t array_len,
                   const uint8_t *pattern, size_t pattern_len)
{
    (void)model, (void)status_us, (void)page_us, (void)sector_us, (void)block_us, (void)chip_us, (void)half_us;
    (void)sleep_us, (void)wake_us, (void)sign_us, (void)state, (void)state_len, (void)array, (void)array_len;
    (void)pattern, (void)pattern_len;
    return 0;
}

uint32_t empty_report(const uint32_t *wear, size_t wear_len, uint64_t *total, uint32_t *smallest,
                      uint32_t *largest, uint32_t *sector, uint32_t *mean, uint32_t *remainder)
{
    (void)wear, (void)wear_len, (void)total, (void)smallest, (void)largest, (void)sector, (void)mean, (void)remainder;
    return 0;
}

uint32_t empty_sfdp_read(const uint8_t *bytes, size_t len, uint32_t *headers, uint32_t *density, uint32_t *types)
{
    (void)bytes, (void)len, (void)headers, (void)density, (void)types;
    return 0;
}

uint32_t empty_sfdp_revision(const uint8_t *bytes, size_t len, uint32_t *minor, uint32_t *major)
{
    (void)bytes, (void)len, (void)minor, (void)major;
    return 0;
}

uint32_t empty_sfdp_header(const uint8_t *bytes, size_t len, uint32_t index, uint32_t *id, uint32_t *minor,
                           uint32_t *major, uint32_t *words, uint32_t *pointer)
{
    (void)bytes, (void)len, (void)index, (void)id, (void)minor, (void)major, (void)words, (void)pointer;
    return 0;
}

uint32_t empty_sfdp_erase(const uint8_t *bytes, size_t len, uint32_t slot, uint32_t *exponent, uint32_t *opcode)
{
    (void)bytes, (void)len, (void)slot, (void)exponent, (void)opcode;
    return 0;
}

uint32_t empty_sfdp_write(uint64_t density, const uint32_t *erases, size_t erases_len, uint8_t *out, size_t out_len)
{
    (void)density, (void)erases, (void)erases_len, (void)out, (void)out_len;
    return 0;
}

uint32_t empty_sample(uint8_t *front, size_t front_len, uint8_t *frame, size_t frame_len, uint32_t levels,
                      uint32_t *ready, uint32_t *bytes, uint32_t *tail, uint32_t *wp)
{
    (void)front, (void)front_len, (void)frame, (void)frame_len, (void)levels, (void)ready, (void)bytes, (void)tail, (void)wp;
    return 0;
}

uint32_t empty_samples(uint8_t *front, size_t front_len, uint8_t *frame, size_t frame_len,
                       const uint8_t *levels, size_t levels_len,
                       uint64_t *used, uint32_t *ready, uint32_t *bytes, uint32_t *tail, uint32_t *wp)
{
    (void)front, (void)front_len, (void)frame, (void)frame_len, (void)levels, (void)levels_len, (void)used, (void)ready, (void)bytes;
    (void)tail, (void)wp;
    return 0;
}

void *empty_copy(void *to, const void *from, size_t n)
{
    (void)from, (void)n;
    return to;
}

void *empty_set(void *to, int value, size_t n)
{
    (void)value, (void)n;
    return to;
}
