/*
 * An independent model of the three chips in plain C, written from the rules (01 and 02) and the
 * data sheets alone. The host tests compare the archive with it; the benchmark
 * takes it as the baseline. Its functions have the forms of gwo_frame, gwo_wait, gwo_power_cycle, gwo_cut,
 * gwo_wear_report, gwo_play_lines and gwo_play_last, of the five on SFDP tables, and of gwo_sample and gwo_samples, under names of their own.
 * names.h puts it in the archive's place.
 */
#ifndef REF_MODEL_H
#define REF_MODEL_H

#include <stddef.h>
#include <stdint.h>

typedef uint32_t frame_call(uint32_t model, uint32_t status_us, uint32_t page_us, uint32_t sector_us,
                            uint32_t block_us, uint32_t chip_us, uint32_t half_us,
                            uint32_t sleep_us, uint32_t wake_us, uint32_t sign_us,
                            uint8_t *state, size_t state_len, const uint8_t *array, size_t array_len,
                            uint32_t *wear, size_t wear_len,
                            const uint8_t *frame, size_t frame_len, uint32_t tail, uint32_t wp, uint32_t strict,
                            uint8_t *out, size_t out_len, uint32_t *from, uint32_t *count, uint32_t *fold);

typedef uint32_t wait_call(uint32_t model, uint32_t status_us, uint32_t page_us, uint32_t sector_us,
                           uint32_t block_us, uint32_t chip_us, uint32_t half_us,
                           uint32_t sleep_us, uint32_t wake_us, uint32_t sign_us,
                           uint8_t *state, size_t state_len, uint8_t *array, size_t array_len, uint32_t us);

typedef uint32_t power_cycle_call(uint32_t model, uint32_t status_us, uint32_t page_us, uint32_t sector_us,
                                  uint32_t block_us, uint32_t chip_us, uint32_t half_us,
                                  uint32_t sleep_us, uint32_t wake_us, uint32_t sign_us,
                                  uint8_t *state, size_t state_len);

typedef uint32_t cut_call(uint32_t model, uint32_t status_us, uint32_t page_us, uint32_t sector_us,
                          uint32_t block_us, uint32_t chip_us, uint32_t half_us,
                          uint32_t sleep_us, uint32_t wake_us, uint32_t sign_us,
                          uint8_t *state, size_t state_len, uint8_t *array, size_t array_len,
                          const uint8_t *pattern, size_t pattern_len);

typedef uint32_t report_call(const uint32_t *wear, size_t wear_len, uint64_t *total, uint32_t *smallest,
                             uint32_t *largest, uint32_t *sector, uint32_t *mean, uint32_t *remainder);

typedef uint32_t sfdp_read_call(const uint8_t *bytes, size_t len, uint32_t *headers, uint32_t *density,
                                uint32_t *types);
typedef uint32_t sfdp_revision_call(const uint8_t *bytes, size_t len, uint32_t *minor, uint32_t *major);
typedef uint32_t sfdp_header_call(const uint8_t *bytes, size_t len, uint32_t index, uint32_t *id, uint32_t *minor,
                                  uint32_t *major, uint32_t *words, uint32_t *pointer);
typedef uint32_t sfdp_erase_call(const uint8_t *bytes, size_t len, uint32_t slot, uint32_t *exponent,
                                 uint32_t *opcode);
typedef uint32_t sfdp_write_call(uint64_t density, const uint32_t *erases, size_t erases_len, uint8_t *out,
                                 size_t out_len);
typedef uint32_t play_lines_call(uint32_t model, uint32_t status_us, uint32_t page_us, uint32_t sector_us,
                                 uint32_t block_us, uint32_t chip_us, uint32_t half_us,
                                 uint32_t sleep_us, uint32_t wake_us, uint32_t sign_us, uint32_t strict,
                                 uint8_t *state, size_t state_len, uint8_t *array, size_t array_len,
                                 uint32_t *wear, size_t wear_len,
                                 uint8_t *held, size_t held_len, uint32_t *used, uint64_t *line,
                                 const uint8_t *script, size_t script_len, uint8_t *log, size_t log_len,
                                 uint64_t *taken, uint64_t *written);

typedef uint32_t play_last_call(uint32_t model, uint32_t status_us, uint32_t page_us, uint32_t sector_us,
                                uint32_t block_us, uint32_t chip_us, uint32_t half_us,
                                uint32_t sleep_us, uint32_t wake_us, uint32_t sign_us, uint32_t strict,
                                uint8_t *state, size_t state_len, uint8_t *array, size_t array_len,
                                uint32_t *wear, size_t wear_len,
                                const uint8_t *held, size_t held_len, uint32_t *used, uint64_t *line,
                                uint8_t *log, size_t log_len, uint64_t *written);

typedef uint32_t sample_call(uint8_t *front, size_t front_len, uint8_t *frame, size_t frame_len, uint32_t levels,
                             uint32_t *ready, uint32_t *bytes, uint32_t *tail, uint32_t *wp);

typedef uint32_t samples_call(uint8_t *front, size_t front_len, uint8_t *frame, size_t frame_len,
                              const uint8_t *levels, size_t levels_len,
                              uint64_t *used, uint32_t *ready, uint32_t *bytes, uint32_t *tail, uint32_t *wp);

frame_call ref_frame;
wait_call ref_wait;
power_cycle_call ref_power_cycle;
cut_call ref_cut;
report_call ref_wear_report;
sfdp_read_call ref_sfdp_read;
sfdp_revision_call ref_sfdp_revision;
sfdp_header_call ref_sfdp_header;
sfdp_erase_call ref_sfdp_erase;
sfdp_write_call ref_sfdp_write;
play_lines_call ref_play_lines;
play_last_call ref_play_last;
sample_call ref_sample;
samples_call ref_samples;

#endif
