/*
 * The stack that a call takes: it runs on a painted one, and the deepest byte that has lost its paint is looked for.
 * The same is done with an empty call of the same form, and the difference is the call's own.
 */
#include "stack.h"

#include "model.h"
#include "rig.h"

#include <string.h>
#include <ucontext.h>

enum { ROOM = 65536 };

frame_call empty_frame;
wait_call empty_wait;
power_cycle_call empty_power_cycle;
cut_call empty_cut;
report_call empty_report;
sfdp_read_call empty_sfdp_read;
sfdp_revision_call empty_sfdp_revision;
sfdp_header_call empty_sfdp_header;
sfdp_erase_call empty_sfdp_erase;
sfdp_write_call empty_sfdp_write;
sample_call empty_sample;
samples_call empty_samples;

/* What is called next: its arguments, who it is, and what it has answered. */
static const struct call *now;
static frame_call *called_frame;
static wait_call *called_wait;
static power_cycle_call *called_power_cycle;
static cut_call *called_cut;
static report_call *called_report;
static sfdp_read_call *called_sfdp_read;
static sfdp_revision_call *called_sfdp_revision;
static sfdp_header_call *called_sfdp_header;
static sfdp_erase_call *called_sfdp_erase;
static sfdp_write_call *called_sfdp_write;
static sample_call *called_sample;
static samples_call *called_samples;
static uint32_t answered;

/* Lent to the call, which alters it. */
static uint8_t state[GWO_STATE_LENGTH];

static void make_frame(void)
{
    const struct gwo_record *r = &now->record;
    uint32_t from, count, fold;

    answered = called_frame(r->model, r->status_us, r->page_us, r->sector_us, r->block_us, r->chip_us, r->half_us,
                            r->sleep_us, r->wake_us, r->sign_us, state, sizeof state, now->array, now->array_len,
                            now->wear, now->wear_len, now->frame, now->frame_len, now->tail, now->wp, now->strict,
                            now->out, now->out_len, &from, &count, &fold);
}

static void make_wait(void)
{
    const struct gwo_record *r = &now->record;

    answered = called_wait(r->model, r->status_us, r->page_us, r->sector_us, r->block_us, r->chip_us, r->half_us,
                           r->sleep_us, r->wake_us, r->sign_us, state, sizeof state, now->array, now->array_len,
                           now->us);
}

static void make_power_cycle(void)
{
    const struct gwo_record *r = &now->record;

    answered = called_power_cycle(r->model, r->status_us, r->page_us, r->sector_us, r->block_us, r->chip_us,
                                  r->half_us, r->sleep_us, r->wake_us, r->sign_us, state, sizeof state);
}

static void make_cut(void)
{
    const struct gwo_record *r = &now->record;

    answered = called_cut(r->model, r->status_us, r->page_us, r->sector_us, r->block_us, r->chip_us, r->half_us,
                          r->sleep_us, r->wake_us, r->sign_us, state, sizeof state, now->array, now->array_len,
                          now->pattern, now->pattern_len);
}

static void make_report(void)
{
    uint64_t total;
    uint32_t smallest, largest, sector, mean, remainder;

    answered = called_report(now->wear, now->wear_len, &total, &smallest, &largest, &sector, &mean, &remainder);
}

static void make_sfdp_read(void)
{
    uint32_t headers, density, types;

    answered = called_sfdp_read(now->table, now->table_len, &headers, &density, &types);
}

static void make_sfdp_revision(void)
{
    uint32_t minor, major;

    answered = called_sfdp_revision(now->table, now->table_len, &minor, &major);
}

static void make_sfdp_header(void)
{
    uint32_t id, minor, major, words, pointer;

    answered = called_sfdp_header(now->table, now->table_len, now->which, &id, &minor, &major, &words, &pointer);
}

static void make_sfdp_erase(void)
{
    uint32_t exponent, opcode;

    answered = called_sfdp_erase(now->table, now->table_len, now->which, &exponent, &opcode);
}

static void make_sfdp_write(void)
{
    answered = called_sfdp_write(now->density, now->erases, now->erases_len, now->out, now->out_len);
}

static void make_sample(void)
{
    uint32_t ready, bytes, tail, wp;

    answered = called_sample(state, GWO_FRONT_LENGTH, now->out, now->out_len, now->frame[0], &ready, &bytes, &tail, &wp);
}

static void make_samples(void)
{
    uint64_t used;
    uint32_t ready, bytes, tail, wp;

    answered = called_samples(state, GWO_FRONT_LENGTH, now->out, now->out_len, now->frame, now->frame_len, &used, &ready,
                              &bytes, &tail, &wp);
}

/* From the top of the painted stack to the deepest byte that the call has written. */
static size_t depth(uint8_t paint)
{
    static void (*const makes[KINDS])(void) = {
        make_frame, make_wait, make_power_cycle, make_cut, make_report, make_sfdp_read, make_sfdp_revision,
        make_sfdp_header, make_sfdp_erase, make_sfdp_write, make_sample, make_samples};
    static ucontext_t here, there;
    static struct lent stack;
    uint8_t *deepest;

    if (stack.start == NULL)
        stack = lend(ROOM);
    memset(stack.start, paint, ROOM);
    memcpy(state, now->state, sizeof state);
    getcontext(&there);
    there.uc_stack.ss_sp = stack.start;
    there.uc_stack.ss_size = ROOM;
    there.uc_link = &here;
    makecontext(&there, makes[now->kind], 0);
    swapcontext(&here, &there);
    for (deepest = stack.start; *deepest == paint; deepest++)
        continue;
    return (size_t)(stack.end - deepest);
}

/* By two paints, since a call may write one of them. The first call may have to find and bind what it needs. */
static size_t deepest(void)
{
    size_t one, other;

    depth(0x00);
    one = depth(0xA5);
    other = depth(0x5A);
    return one > other ? one : other;
}

static void call_the_empty(void)
{
    called_frame = empty_frame;
    called_wait = empty_wait;
    called_power_cycle = empty_power_cycle;
    called_cut = empty_cut;
    called_report = empty_report;
    called_sfdp_read = empty_sfdp_read;
    called_sfdp_revision = empty_sfdp_revision;
    called_sfdp_header = empty_sfdp_header;
    called_sfdp_erase = empty_sfdp_erase;
    called_sfdp_write = empty_sfdp_write;
    called_sample = empty_sample;
    called_samples = empty_samples;
}

static void call_the_archive(void)
{
    called_frame = gwo_frame;
    called_wait = gwo_wait;
    called_power_cycle = gwo_power_cycle;
    called_cut = gwo_cut;
    called_report = gwo_wear_report;
    called_sfdp_read = gwo_sfdp_read;
    called_sfdp_revision = gwo_sfdp_revision;
    called_sfdp_header = gwo_sfdp_header;
    called_sfdp_erase = gwo_sfdp_erase;
    called_sfdp_write = gwo_sfdp_write;
    called_sample = gwo_sample;
    called_samples = gwo_samples;
}

size_t stack_of(const struct call *c, uint32_t *answer)
{
    size_t empty, whole;

    now = c;
    call_the_empty();
    empty = deepest();
    call_the_archive();
    whole = deepest();
    *answer = answered;
    return whole - empty;
}
