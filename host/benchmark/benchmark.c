/*
 * The benchmark: each row is one call, made by the archive, by the independent model and, where the
 * row moves bytes, by memcpy or memset of as many. Every call is made twice and the second
 * is counted; the cost of calling, as counted for an empty function of the same form, is taken
 * off by run.sh. Prints the rows; the counts come from the counter (mark.h).
 *
 * Stretch 10 * row + 0 is ours, + 1 the model's, + 2 memcpy's or memset's, + 3 the empty call's,
 * + 4 the empty copy's.
 */
#include "gwo.h"
#include "model.h"
#include "mark.h"

#include <stdio.h>
#include <stdlib.h>
#include <string.h>

typedef void *copy_call(void *, const void *, size_t);
typedef void *set_call(void *, int, size_t);

frame_call empty_frame;
wait_call empty_wait;
power_cycle_call empty_power_cycle;
cut_call empty_cut;
report_call empty_report;
sfdp_read_call empty_sfdp_read;
sfdp_revision_call empty_sfdp_revision;
sfdp_header_call empty_sfdp_header;
sfdp_erase_call empty_sfdp_erase;
sfdp_write_call empty_sfdp_write;
sample_call empty_sample;
samples_call empty_samples;
copy_call empty_copy;
set_call empty_set;

enum { OURS, MODEL, MEMORY, EMPTY, EMPTY_MEMORY };
enum kind { FRAME, WAIT, POWER_CYCLE, CUT, REPORT, SFDP_READ, SFDP_REVISION, SFDP_HEADER, SFDP_ERASE, SFDP_WRITE, SAMPLE, SAMPLES };
enum memory { NONE, COPY, SET };

/*
 * SHORT rows have a limit of 300 instructions; FOLDED, AS_MODEL_2 and AS_STATUS are held against the row before. STRICT
 * rows have that setting, and where they are taken an erased page. IN_12 and IN_20 rows have so many instructions a sample, of RUN samples.
 */
enum { SHORT = 1, FOLDED = 2, AS_MODEL_2 = 4, STRICT = 8, AS_STATUS = 16, IN_12 = 32, IN_20 = 64 };
enum { RUN = 65536 };

struct row {
    const char *name;
    uint32_t model;
    unsigned status, asleep;
    uint32_t left_us;       /* the state: status byte, flag and time left, busy with WIP 1, settling with WIP 0; of an
                               SFDP table the index of a header, or a slot */
    enum kind kind;
    uint8_t head[5];        /* the frame's first bytes, the others are 5A; of the other calls the running operation's; of
                               an SFDP table how many headers come after the first */
    size_t frame_len;       /* of an SFDP table its bytes, or those of the buffer for it; of samples how many are a bit, and none
                               where CS# is high */
    uint32_t tail, wp, answer;
    enum memory memory;
    size_t moved;           /* also the length of a cut's pattern */
    const char *memory_limit; /* at most this many times the memory function; "-" none */
    int marks;
};

#define READ_64K 65536
static const struct row rows[] = {
    {"status, 2 bytes", 1, 0, 0, 0, FRAME, {0x05}, 2, 0, 1, 0, NONE, 0, "-", SHORT},
    {"write enable", 1, 0, 0, 0, FRAME, {0x06}, 1, 0, 1, 0, NONE, 0, "-", SHORT},
    {"read, 16 bytes", 1, 0, 0, 0, FRAME, {0x03, 0, 0x12, 0x34}, 4 + 16, 0, 1, 0, COPY, 16, "-", SHORT},
    {"read, 64 KiB from 0", 1, 0, 0, 0, FRAME, {0x03, 0, 0, 0}, 4 + READ_64K, 0, 1, 0, COPY, READ_64K, "3", 0},
    {"read, 64 KiB wrapping", 1, 0, 0, 0, FRAME, {0x03, 0, 0x80, 0x01}, 4 + READ_64K, 0, 1, 0, COPY, READ_64K, "3", 0},
    {"read, 64 KiB, model 2", 2, 0, 0, 0, FRAME, {0x03, 3, 0x80, 0x01}, 4 + READ_64K, 0, 1, 0, COPY, READ_64K, "3", 0},
    {"fast read, 64 KiB", 1, 0, 0, 0, FRAME, {0x0B, 0, 0x80, 0x01}, 5 + READ_64K, 0, 1, 0, COPY, READ_64K, "3", 0},
    {"9F, 64 KiB", 1, 0, 0, 0, FRAME, {0x9F}, 1 + READ_64K, 0, 1, 0, COPY, READ_64K, "-", 0},
    {"sector erase", 1, 2, 0, 0, FRAME, {0x20, 0, 0x12, 0x34}, 4, 0, 1, 0, NONE, 0, "-", SHORT},
    {"chip erase", 1, 2, 0, 0, FRAME, {0xC7}, 1, 0, 1, 0, NONE, 0, "-", SHORT},
    {"block erase", 1, 2, 0, 0, FRAME, {0xD8, 0, 0x12, 0x34}, 4, 0, 1, 0, NONE, 0, "-", SHORT},
    {"chip erase, model 2", 2, 2, 0, 0, FRAME, {0xC7}, 1, 0, 1, 0, NONE, 0, "-", 0},
    {"chip erase, model 3", 3, 2, 0, 0, FRAME, {0xC7}, 1, 0, 1, 0, NONE, 0, "-", 0},
    {"report, 16 sectors", 1, 0, 0, 0, REPORT, {0}, 0, 0, 0, 0, NONE, 0, "-", SHORT},
    {"report, 64 sectors", 2, 0, 0, 0, REPORT, {0}, 0, 0, 0, 0, NONE, 0, "-", 0},
    {"report, 4,096 sectors", 3, 0, 0, 0, REPORT, {0}, 0, 0, 0, 0, NONE, 0, "-", 0},
    {"program, 1 byte", 1, 2, 0, 0, FRAME, {0x02, 0, 0x12, 0x34}, 4 + 1, 0, 1, 0, NONE, 0, "-", SHORT},
    {"program, 256 bytes", 1, 2, 0, 0, FRAME, {0x02, 0, 0x12, 0x34}, 4 + 256, 0, 1, 0, COPY, 256, "-", 0},
    {"program, 65,537 bytes", 1, 2, 0, 0, FRAME, {0x02, 0, 0x12, 0x34}, 4 + 65537, 0, 1, 0, COPY, 256, "-", FOLDED},
    {"program, 1 byte, strict", 1, 2, 0, 0, FRAME, {0x02, 0, 0x12, 0x34}, 4 + 1, 0, 1, 0, NONE, 0, "-", SHORT | STRICT},
    {"program, 256 bytes, strict", 1, 2, 0, 0, FRAME, {0x02, 0, 0x12, 0x34}, 4 + 256, 0, 1, 0, COPY, 256, "-", STRICT},
    {"program, 65,537 bytes, strict", 1, 2, 0, 0, FRAME, {0x02, 0, 0x12, 0x34}, 4 + 65537, 0, 1, 0, COPY, 256, "-",
     FOLDED | STRICT},
    {"wait, idle", 1, 0, 0, 0, WAIT, {0}, 0, 0, 0, 0, NONE, 0, "-", SHORT},
    {"wait, busy", 1, 3, 0, 5000, WAIT, {0x20, 0, 0x12, 0x34}, 0, 0, 0, 0, NONE, 0, "-", SHORT},
    {"wait, end of a status write", 1, 3, 0, 4999, WAIT, {0x01, 0, 0, 1, 0x0C}, 0, 0, 0, 0, NONE, 0, "-", SHORT},
    {"wait, end of a program", 1, 3, 0, 4999, WAIT, {0x02, 0, 0x12, 0x34}, 0, 0, 0, 0, COPY, 256, "-", 0},
    {"wait, end of a sector erase", 1, 3, 0, 4999, WAIT, {0x20, 0, 0x12, 0x34}, 0, 0, 0, 0, SET, 4096, "-", 0},
    {"wait, end of a block erase", 2, 3, 0, 4999, WAIT, {0xD8, 1, 0x12, 0x34}, 0, 0, 0, 0, SET, 65536, "1.3", 0},
    {"wait, end of a chip erase, model 1", 1, 3, 0, 4999, WAIT, {0xC7, 0xFF, 0xFF, 0xFF}, 0, 0, 0, 0, SET, 65536,
     "1.3", 0},
    {"wait, end of a chip erase, model 2", 2, 3, 0, 4999, WAIT, {0x60, 0xFF, 0xFF, 0xFF}, 0, 0, 0, 0, SET, 262144,
     "1.3", 0},
    {"power cycle", 1, 0, 0, 0, POWER_CYCLE, {0}, 0, 0, 0, 0, NONE, 0, "-", SHORT},
    {"cut, idle", 1, 0, 0, 0, CUT, {0}, 0, 0, 0, 0, NONE, 0, "-", SHORT},
    {"cut of a program", 1, 3, 0, 5000, CUT, {0x02, 0, 0x12, 0x34}, 0, 0, 0, 0, COPY, 256, "-", 0},
    {"cut of a sector erase", 1, 3, 0, 5000, CUT, {0x20, 0, 0x12, 0x34}, 0, 0, 0, 0, COPY, 4096, "-", 0},
    {"cut of a chip erase, model 2", 2, 3, 0, 5000, CUT, {0x60, 0xFF, 0xFF, 0xFF}, 0, 0, 0, 0, COPY, 262144, "-", 0},
    {"refused 1, record", 4, 0, 0, 0, FRAME, {0x06}, 1, 0, 1, 1, NONE, 0, "-", SHORT},
    {"refused 24, table", 1, 0, 0, 0, FRAME, {0x06}, 1, 0, 1, 24, NONE, 0, "-", SHORT},
    {"refused 24, report", 1, 0, 0, 0, REPORT, {0}, 0, 0, 0, 24, NONE, 0, "-", SHORT},
    {"refused 3, state", 1, 0x10, 0, 0, FRAME, {0x06}, 1, 0, 1, 3, NONE, 0, "-", SHORT},
    {"refused 4, tail", 1, 0, 0, 0, FRAME, {0x06}, 1, 8, 1, 4, NONE, 0, "-", SHORT},
    {"refused 10, empty", 1, 0, 0, 0, FRAME, {0}, 0, 0, 1, 10, NONE, 0, "-", SHORT},
    {"refused 22, settling", 1, 0, 0, 5, FRAME, {0x03}, 4 + 16, 0, 1, 22, NONE, 0, "-", SHORT},
    {"refused 11, power cycle", 1, 3, 0, 5000, POWER_CYCLE, {0xC7, 0xFF, 0xFF, 0xFF}, 0, 0, 0, 11, NONE, 0, "-", SHORT},
    {"refused 23, pattern", 1, 3, 0, 5000, CUT, {0x20, 0, 0x12, 0x34}, 0, 0, 0, 23, NONE, 0, "-", SHORT},
    {"refused 11, busy", 1, 3, 0, 5000, FRAME, {0x03}, 4 + 16, 0, 1, 11, NONE, 0, "-", SHORT},
    {"refused 12, asleep", 1, 0, 1, 0, FRAME, {0x03}, 4 + 16, 0, 1, 12, NONE, 0, "-", SHORT},
    {"refused 13, unknown", 1, 0, 0, 0, FRAME, {0x5A}, 4 + 16, 0, 1, 13, NONE, 0, "-", SHORT},
    {"refused 21, withdrawn", 1, 2, 0, 0, FRAME, {0x52, 0, 0x12, 0x34}, 4, 0, 1, 21, NONE, 0, "-", SHORT},
    {"refused 14, length", 1, 2, 0, 0, FRAME, {0x20}, 5, 0, 1, 14, NONE, 0, "-", SHORT},
    {"refused 15, WEL 0", 1, 0, 0, 0, FRAME, {0x02}, 4 + 256, 0, 1, 15, NONE, 0, "-", SHORT},
    {"refused 16, SRWD", 1, 0x82, 0, 0, FRAME, {0x01, 0}, 2, 0, 0, 16, NONE, 0, "-", SHORT},
    {"refused 17, protected", 1, 6, 0, 0, FRAME, {0x20, 0, 0, 0}, 4, 0, 1, 17, NONE, 0, "-", SHORT},
    {"refused 19, not erased", 1, 2, 0, 0, FRAME, {0x02, 0, 0x12, 0x34}, 4 + 256, 0, 1, 19, NONE, 0, "-",
     SHORT | STRICT},
    {"refused 25, count", 1, 2, 0, 0, FRAME, {0x20, 0, 0x12, 0x34}, 4, 0, 1, 25, NONE, 0, "-", SHORT},
    {"status, model 2", 2, 0, 0, 0, FRAME, {0x05}, 2, 0, 1, 0, NONE, 0, "-", SHORT},
    {"status, model 3", 3, 0, 0, 0, FRAME, {0x05}, 2, 0, 1, 0, NONE, 0, "-", SHORT | AS_MODEL_2},
    {"write enable, model 2", 2, 0, 0, 0, FRAME, {0x06}, 1, 0, 1, 0, NONE, 0, "-", SHORT},
    {"write enable, model 3", 3, 0, 0, 0, FRAME, {0x06}, 1, 0, 1, 0, NONE, 0, "-", SHORT | AS_MODEL_2},
    {"status write, model 2", 2, 2, 0, 0, FRAME, {0x01, 0x04}, 2, 0, 1, 0, NONE, 0, "-", SHORT},
    {"status write, model 3", 3, 2, 0, 0, FRAME, {0x01, 0x04}, 2, 0, 1, 0, NONE, 0, "-", SHORT | AS_MODEL_2},
    {"read, 16 bytes, model 2", 2, 0, 0, 0, FRAME, {0x03, 0, 0x12, 0x34}, 4 + 16, 0, 1, 0, COPY, 16, "-", SHORT},
    {"read, 16 bytes, model 3", 3, 0, 0, 0, FRAME, {0x03, 0, 0x12, 0x34}, 4 + 16, 0, 1, 0, COPY, 16, "-",
     SHORT | AS_MODEL_2},
    {"sector erase, model 2", 2, 2, 0, 0, FRAME, {0x20, 0, 0x12, 0x34}, 4, 0, 1, 0, NONE, 0, "-", SHORT},
    {"sector erase, model 3", 3, 2, 0, 0, FRAME, {0x20, 0, 0x12, 0x34}, 4, 0, 1, 0, NONE, 0, "-", SHORT | AS_MODEL_2},
    {"program, 256 bytes, model 2", 2, 2, 0, 0, FRAME, {0x02, 0, 0x12, 0x34}, 4 + 256, 0, 1, 0, COPY, 256, "-", 0},
    {"program, 256 bytes, model 3", 3, 2, 0, 0, FRAME, {0x02, 0, 0x12, 0x34}, 4 + 256, 0, 1, 0, COPY, 256, "-",
     AS_MODEL_2},
    {"wait, busy, model 2", 2, 3, 0, 5000, WAIT, {0x20, 0, 0x12, 0x34}, 0, 0, 0, 0, NONE, 0, "-", SHORT},
    {"wait, busy, model 3", 3, 3, 0, 5000, WAIT, {0x20, 0, 0x12, 0x34}, 0, 0, 0, 0, NONE, 0, "-", SHORT | AS_MODEL_2},
    {"wait, end of a program, model 2", 2, 3, 0, 700, WAIT, {0x02, 0, 0x12, 0x34}, 0, 0, 0, 0, COPY, 256, "-", 0},
    {"wait, end of a program, model 3", 3, 3, 0, 700, WAIT, {0x02, 0, 0x12, 0x34}, 0, 0, 0, 0, COPY, 256, "-",
     AS_MODEL_2},
    {"power cycle, model 2", 2, 0, 0, 0, POWER_CYCLE, {0}, 0, 0, 0, 0, NONE, 0, "-", SHORT},
    {"power cycle, model 3", 3, 0, 0, 0, POWER_CYCLE, {0}, 0, 0, 0, 0, NONE, 0, "-", SHORT | AS_MODEL_2},
    {"cut, idle, model 2", 2, 0, 0, 0, CUT, {0}, 0, 0, 0, 0, NONE, 0, "-", SHORT},
    {"cut, idle, model 3", 3, 0, 0, 0, CUT, {0}, 0, 0, 0, 0, NONE, 0, "-", SHORT | AS_MODEL_2},
    {"refused 17, model 2", 2, 6, 0, 0, FRAME, {0x20, 0xFF, 0, 0}, 4, 0, 1, 17, NONE, 0, "-", SHORT},
    {"refused 17, model 3", 3, 6, 0, 0, FRAME, {0x20, 0xFF, 0, 0}, 4, 0, 1, 17, NONE, 0, "-", SHORT | AS_MODEL_2},
    {"configuration, 2 bytes", 3, 0, 0, 0, FRAME, {0x15}, 2, 0, 1, 0, NONE, 0, "-", SHORT},
    {"status write, 2 data bytes", 3, 2, 0, 0, FRAME, {0x01, 0x04, 0x08}, 3, 0, 1, 0, NONE, 0, "-", SHORT},
    {"wait, end of a sector erase, model 3", 3, 3, 0, 4999, WAIT, {0x20, 0, 0x12, 0x34}, 0, 0, 0, 0, SET, 4096, "-", 0},
    {"wait, end of a half block erase, model 3", 3, 3, 0, 4999, WAIT, {0x52, 1, 0x12, 0x34}, 0, 0, 0, 0, SET, 32768,
     "1.3", 0},
    {"wait, end of a block erase, model 3", 3, 3, 0, 4999, WAIT, {0xD8, 1, 0x12, 0x34}, 0, 0, 0, 0, SET, 65536, "1.3",
     0},
    {"wait, end of a chip erase, model 3", 3, 3, 0, 4999, WAIT, {0x60, 0xFF, 0xFF, 0xFF}, 0, 0, 0, 0, SET, 16777216,
     "1.1", 0},
    {"status, 64 KiB, model 2", 2, 0, 0, 0, FRAME, {0x05}, 1 + READ_64K, 0, 1, 0, SET, READ_64K, "-", 0},
    {"SFDP by 5A, 64 KiB", 2, 0, 0, 0, FRAME, {0x5A, 0, 0, 0}, 5 + READ_64K, 0, 1, 0, SET, READ_64K, "-", AS_STATUS},
    {"SFDP by 5A, 112 bytes", 2, 0, 0, 0, FRAME, {0x5A, 0, 0, 0}, 5 + 112, 0, 1, 0, COPY, 112, "-", 0},
    {"SFDP by 5A, 16 bytes", 2, 0, 0, 0, FRAME, {0x5A, 0, 0, 0x30}, 5 + 16, 0, 1, 0, COPY, 16, "-", 0},
    {"SFDP by 5A, 16 bytes past the table", 2, 0, 0, 0, FRAME, {0x5A, 0, 1, 0}, 5 + 16, 0, 1, 0, SET, 16, "-", 0},
    {"SFDP reader, the chip's table", 2, 0, 0, 0, SFDP_READ, {1}, 112, 0, 0, 0, NONE, 0, "-", SHORT},
    {"SFDP reader, 256 headers", 2, 0, 0, 0, SFDP_READ, {255}, 8 + 8 * 256 + 36, 0, 0, 0, NONE, 0, "-", 0},
    {"SFDP revision", 2, 0, 0, 0, SFDP_REVISION, {1}, 112, 0, 0, 0, NONE, 0, "-", SHORT},
    {"SFDP header", 2, 0, 0, 1, SFDP_HEADER, {1}, 112, 0, 0, 0, NONE, 0, "-", SHORT},
    {"SFDP erase type", 2, 0, 0, 2, SFDP_ERASE, {1}, 112, 0, 0, 0, NONE, 0, "-", SHORT},
    {"SFDP writer", 2, 0, 0, 0, SFDP_WRITE, {0}, 112, 0, 0, 0, COPY, 112, "-", 0},
    {"refused 14, 5A", 2, 0, 0, 0, FRAME, {0x5A}, 4, 0, 1, 14, NONE, 0, "-", SHORT},
    {"refused 30, signature", 2, 0, 0, 0, SFDP_READ, {1}, 112, 0, 0, 30, NONE, 0, "-", SHORT},
    {"refused 31, headers", 2, 0, 0, 0, SFDP_READ, {1}, 23, 0, 0, 31, NONE, 0, "-", SHORT},
    {"refused 32, pointer", 2, 0, 0, 0, SFDP_READ, {1}, 111, 0, 0, 32, NONE, 0, "-", SHORT},
    {"refused 33, exponent 0", 2, 0, 0, 0, SFDP_WRITE, {0}, 112, 0, 0, 33, NONE, 0, "-", SHORT},
    {"one sample, a rising clock", 1, 0, 0, 0, SAMPLE, {0}, 2, 0, 0, 0, NONE, 0, "-", SHORT},
    {"65,536 samples at rest", 1, 0, 0, 0, SAMPLES, {0}, 0, 0, 0, 0, NONE, 0, "-", IN_12},
    {"65,536 samples, two a bit", 1, 0, 0, 0, SAMPLES, {0}, 2, 0, 0, 0, NONE, 0, "-", IN_20},
    {"65,536 samples, eight a bit", 1, 0, 0, 0, SAMPLES, {0}, 8, 0, 0, 0, NONE, 0, "-", IN_20},
    {"cut of a chip erase, model 3", 3, 3, 0, 5000, CUT, {0xC7, 0xFF, 0xFF, 0xFF}, 0, 0, 0, 0, COPY, 16777216, "-", 0},
};
enum { ROWS = sizeof rows / sizeof rows[0] };

static uint8_t array[GWO_MODEL_3_LENGTH] __attribute__((aligned(4096)));
static uint8_t other[GWO_MODEL_3_LENGTH + 64] __attribute__((aligned(4096)));
static uint8_t frame[65600] __attribute__((aligned(4096)));
static uint8_t out[65600] __attribute__((aligned(4096)));
static uint8_t state[GWO_STATE_LENGTH];
static struct gwo_record record;
static size_t array_len, wear_len;
static uint32_t wear[GWO_MODEL_3_SECTORS] __attribute__((aligned(4096)));
static uint32_t from, count, fold;
static uint64_t total;
static uint32_t smallest, largest, sector, mean, remainder;
static uint8_t table[8 + 8 * 256 + 36];
static uint32_t erases[4], results[5];
static uint8_t front[GWO_FRONT_LENGTH], levels[RUN] __attribute__((aligned(4096)));
static uint64_t used;
static uint32_t ready, bytes, tail, wp;

/* The operation that runs in a busy chip: the row's, of a frame's row a chip erase; data bytes of a program are 5A. */
static void prepare_operation(const struct row *r)
{
    static const uint8_t chip_erase[4] = {0xC7, 0xFF, 0xFF, 0xFF};
    const uint8_t *operation = r->kind == FRAME ? chip_erase : r->head;

    if (r->status % 2 == 0)
        return;
    memcpy(state + 12, operation, 4);
    if (operation[0] == 0x01)
        state[16] = operation[4];
    if (operation[0] == 0x02)
        memset(state + 16, 0x5A, 256);
}

/* Counts that rise from sector to sector; a row that is answered 24 or 25 has one too few, or a full one. */
static void prepare_wear(const struct row *r)
{
    uint32_t i;

    wear_len = array_len / GWO_SECTOR_LENGTH - (r->answer == 24 ? 1 : 0);
    for (i = 0; i < GWO_MODEL_3_SECTORS; i++)
        wear[i] = i * 1000;
    if (r->answer == 25)
        wear[1] = GWO_WEAR_TOP;
}

/* The chip's own table and record; with more headers theirs are of no double words, and the first table is after them. */
static void prepare_table(const struct row *r)
{
    static const uint32_t own[4] = {0x0C, 0x20, 0x10, 0xD8};
    size_t i, headers = r->head[0] + 1u;

    memcpy(erases, own, sizeof erases);
    ref_sfdp_write(0x1FFFFF, own, 4, table, GWO_SFDP_LENGTH);
    if (headers > 2) {
        memset(table + 16, 0, sizeof table - 16);
        table[6] = r->head[0];
        table[12] = (uint8_t)(8 + 8 * headers);
        table[13] = (uint8_t)((8 + 8 * headers) >> 8);
        for (i = 0; i < 36; i++)
            table[8 + 8 * headers + i] = (uint8_t)(i + 1);
    }
    if (r->answer == 30)
        table[3] = 0x51;
    if (r->answer == 33)
        erases[2] = 0;
}

/* A fall, and bits of 5A from there on; or nothing at all. */
static void prepare_samples(const struct row *r)
{
    const size_t per = r->frame_len;
    size_t i;

    gwo_first_front(front);
    for (i = 0; i < RUN; i++)
        levels[i] = GWO_LEVEL_WP | GWO_LEVEL_HOLD | (per == 0 ? GWO_LEVEL_CS : 0);
    for (i = 1; i < RUN && per > 0; i++)
        levels[i] |= (uint8_t)((i % per >= per / 2 ? GWO_LEVEL_SCLK : 0) | (0x5A >> (7 - i / per % 8) & 1 ? GWO_LEVEL_SI : 0));
    if (r->kind == SAMPLE)
        front[0] = 0x08;
}

/* A number that is no model has the first one's record and array. */
static void prepare(const struct row *r)
{
    uint8_t *left = state + (r->status % 2 ? 4 : 8);
    size_t i;

    record = r->model == 3 ? gwo_bench_model_3 : r->model == 2 ? gwo_bench_model_2 : gwo_bench_model_1;
    array_len = gwo_array_length(record.model);
    record.model = r->model;
    gwo_factory_state(state);
    state[0] = (uint8_t)r->status;
    state[1] = (uint8_t)r->asleep;
    left[0] = (uint8_t)r->left_us;
    left[1] = (uint8_t)(r->left_us >> 8);
    prepare_operation(r);
    prepare_wear(r);
    if (r->kind >= SFDP_READ)
        prepare_table(r);
    for (i = 0; i < GWO_MODEL_2_LENGTH; i++) /* all that the rows read or write, but for model 3's chip erase */
        array[i] = (uint8_t)(i * 7);
    if ((r->marks & STRICT) != 0 && r->answer == 0)
        memset(array + 0x1200, 0xFF, 256);
    memset(frame, 0x5A, sizeof frame);
    memcpy(frame, r->head, sizeof r->head);
    if (r->kind == SAMPLE || r->kind == SAMPLES)
        prepare_samples(r);
}

/* The stretches, each in a function of its own that no other is merged with. */
#define STRETCH __attribute__((noinline, noclone))

static STRETCH uint32_t count_frame(frame_call *f, const struct row *r, int stretch, const char *name)
{
    uint32_t answer;

    (void)stretch, (void)name;
    MARK_START(stretch);
    answer = f(record.model, record.status_us, record.page_us, record.sector_us, record.block_us, record.chip_us,
               record.half_us, record.sleep_us, record.wake_us, record.sign_us, state, sizeof state, array, array_len,
               wear, wear_len, frame, r->frame_len, r->tail, r->wp, (r->marks & STRICT) != 0, out, r->frame_len,
               &from, &count, &fold);
    MARK_END(stretch, name);
    return answer;
}

/* 4,999 microseconds: one less than what is left, or all of it. */
static STRETCH uint32_t count_wait(wait_call *f, int stretch, const char *name)
{
    uint32_t answer;

    (void)stretch, (void)name;
    MARK_START(stretch);
    answer = f(record.model, record.status_us, record.page_us, record.sector_us, record.block_us, record.chip_us,
               record.half_us, record.sleep_us, record.wake_us, record.sign_us, state, sizeof state, array, array_len, 4999);
    MARK_END(stretch, name);
    return answer;
}

static STRETCH uint32_t count_power_cycle(power_cycle_call *f, int stretch, const char *name)
{
    uint32_t answer;

    (void)stretch, (void)name;
    MARK_START(stretch);
    answer = f(record.model, record.status_us, record.page_us, record.sector_us, record.block_us, record.chip_us,
               record.half_us, record.sleep_us, record.wake_us, record.sign_us, state, sizeof state);
    MARK_END(stretch, name);
    return answer;
}

static STRETCH uint32_t count_cut(cut_call *f, const struct row *r, int stretch, const char *name)
{
    uint32_t answer;

    (void)stretch, (void)name;
    MARK_START(stretch);
    answer = f(record.model, record.status_us, record.page_us, record.sector_us, record.block_us, record.chip_us,
               record.half_us, record.sleep_us, record.wake_us, record.sign_us, state, sizeof state, array, array_len,
               other, r->moved);
    MARK_END(stretch, name);
    return answer;
}

static STRETCH uint32_t count_report(report_call *f, int stretch, const char *name)
{
    uint32_t answer;

    (void)stretch, (void)name;
    MARK_START(stretch);
    answer = f(wear, wear_len, &total, &smallest, &largest, &sector, &mean, &remainder);
    MARK_END(stretch, name);
    return answer;
}

static STRETCH uint32_t count_sfdp_read(sfdp_read_call *f, const struct row *r, int stretch, const char *name)
{
    uint32_t answer;

    (void)stretch, (void)name;
    MARK_START(stretch);
    answer = f(table, r->frame_len, &results[0], &results[1], &results[2]);
    MARK_END(stretch, name);
    return answer;
}

static STRETCH uint32_t count_sfdp_revision(sfdp_revision_call *f, const struct row *r, int stretch, const char *name)
{
    uint32_t answer;

    (void)stretch, (void)name;
    MARK_START(stretch);
    answer = f(table, r->frame_len, &results[0], &results[1]);
    MARK_END(stretch, name);
    return answer;
}

static STRETCH uint32_t count_sfdp_header(sfdp_header_call *f, const struct row *r, int stretch, const char *name)
{
    uint32_t answer;

    (void)stretch, (void)name;
    MARK_START(stretch);
    answer = f(table, r->frame_len, r->left_us, &results[0], &results[1], &results[2], &results[3], &results[4]);
    MARK_END(stretch, name);
    return answer;
}

static STRETCH uint32_t count_sfdp_erase(sfdp_erase_call *f, const struct row *r, int stretch, const char *name)
{
    uint32_t answer;

    (void)stretch, (void)name;
    MARK_START(stretch);
    answer = f(table, r->frame_len, r->left_us, &results[0], &results[1]);
    MARK_END(stretch, name);
    return answer;
}

static STRETCH uint32_t count_sfdp_write(sfdp_write_call *f, const struct row *r, int stretch, const char *name)
{
    uint32_t answer;

    (void)stretch, (void)name;
    MARK_START(stretch);
    answer = f(0x1FFFFF, erases, 4, out, r->frame_len);
    MARK_END(stretch, name);
    return answer;
}

static STRETCH uint32_t count_sample(sample_call *f, int stretch, const char *name)
{
    uint32_t answer;

    (void)stretch, (void)name;
    MARK_START(stretch);
    answer = f(front, sizeof front, out, GWO_FRAME_LIMIT, GWO_LEVEL_SCLK | GWO_LEVEL_SI | GWO_LEVEL_HOLD, &ready, &bytes, &tail, &wp);
    MARK_END(stretch, name);
    return answer;
}

static STRETCH uint32_t count_samples(samples_call *f, int stretch, const char *name)
{
    uint32_t answer;

    (void)stretch, (void)name;
    MARK_START(stretch);
    answer = f(front, sizeof front, out, GWO_FRAME_LIMIT, levels, RUN, &used, &ready, &bytes, &tail, &wp);
    MARK_END(stretch, name);
    return answer;
}

static STRETCH void count_copy(copy_call *f, size_t n, int stretch, const char *name)
{
    (void)stretch, (void)name;
    MARK_START(stretch);
    f(other + 4, array + 0x234, n);
    MARK_END(stretch, name);
}

static STRETCH void count_set(set_call *f, size_t n, int stretch, const char *name)
{
    (void)stretch, (void)name;
    MARK_START(stretch);
    f(other, 0xFF, n);
    MARK_END(stretch, name);
}

static uint32_t call_once(const struct row *r, int who, int stretch, const char *name)
{
    static frame_call *const frames[] = {gwo_frame, ref_frame, NULL, empty_frame};
    static wait_call *const waits[] = {gwo_wait, ref_wait, NULL, empty_wait};
    static power_cycle_call *const power_cycles[] = {gwo_power_cycle, ref_power_cycle, NULL, empty_power_cycle};
    static cut_call *const cuts[] = {gwo_cut, ref_cut, NULL, empty_cut};
    static report_call *const reports[] = {gwo_wear_report, ref_wear_report, NULL, empty_report};
    static sfdp_read_call *const reads[] = {gwo_sfdp_read, ref_sfdp_read, NULL, empty_sfdp_read};
    static sfdp_revision_call *const revisions[] = {gwo_sfdp_revision, ref_sfdp_revision, NULL, empty_sfdp_revision};
    static sfdp_header_call *const headers[] = {gwo_sfdp_header, ref_sfdp_header, NULL, empty_sfdp_header};
    static sfdp_erase_call *const types[] = {gwo_sfdp_erase, ref_sfdp_erase, NULL, empty_sfdp_erase};
    static sfdp_write_call *const writes[] = {gwo_sfdp_write, ref_sfdp_write, NULL, empty_sfdp_write};
    static sample_call *const single[] = {gwo_sample, ref_sample, NULL, empty_sample};
    static samples_call *const runs[] = {gwo_samples, ref_samples, NULL, empty_samples};

    prepare(r);
    switch (r->kind) {
    case FRAME: return count_frame(frames[who], r, stretch, name);
    case WAIT: return count_wait(waits[who], stretch, name);
    case CUT: return count_cut(cuts[who], r, stretch, name);
    case REPORT: return count_report(reports[who], stretch, name);
    case SFDP_READ: return count_sfdp_read(reads[who], r, stretch, name);
    case SFDP_REVISION: return count_sfdp_revision(revisions[who], r, stretch, name);
    case SFDP_HEADER: return count_sfdp_header(headers[who], r, stretch, name);
    case SFDP_ERASE: return count_sfdp_erase(types[who], r, stretch, name);
    case SFDP_WRITE: return count_sfdp_write(writes[who], r, stretch, name);
    case SAMPLE: return count_sample(single[who], stretch, name);
    case SAMPLES: return count_samples(runs[who], stretch, name);
    default: return count_power_cycle(power_cycles[who], stretch, name);
    }
}

/* Twice: the first call finds and maps what it needs, and its count is replaced by the second's. */
static void measure(const struct row *r, int index, int who)
{
    char name[16];
    int stretch = 10 * index + who, turn;

    snprintf(name, sizeof name, "%d", stretch);
    for (turn = 0; turn < 2; turn++) {
        uint32_t answer = call_once(r, who, stretch, name);

        if (who != EMPTY && answer != r->answer) {
            printf("benchmark: %s is answered %lu, want %lu\n", r->name, (unsigned long)answer, (unsigned long)r->answer);
            exit(1);
        }
    }
}

static void measure_memory(const struct row *r, int index, int who)
{
    char name[16];
    int stretch = 10 * index + who, turn;

    snprintf(name, sizeof name, "%d", stretch);
    for (turn = 0; turn < 2; turn++) {
        if (r->memory == COPY)
            count_copy(who == MEMORY ? memcpy : empty_copy, r->moved, stretch, name);
        else
            count_set(who == MEMORY ? memset : empty_set, r->moved, stretch, name);
    }
}

int main(int argc, char **argv)
{
    static const char *const memories[] = {"-", "memcpy", "memset"};
    int i;

    /* `rows` lists them; otherwise they are counted. */
    if (argc > 1 && strcmp(argv[1], "rows") == 0) {
        for (i = 0; i < ROWS; i++)
            printf("%d\t%s\t%lu\t%s\t%s\t%d\n", i, rows[i].name, (unsigned long)rows[i].answer,
                   memories[rows[i].memory], rows[i].memory_limit, rows[i].marks);
        return 0;
    }
    for (i = 0; i < ROWS; i++) {
        measure(&rows[i], i, OURS);
        measure(&rows[i], i, MODEL);
        measure(&rows[i], i, EMPTY);
        if (rows[i].memory == NONE)
            continue;
        measure_memory(&rows[i], i, MEMORY);
        measure_memory(&rows[i], i, EMPTY_MEMORY);
    }
    return 0;
}
