#define _DEFAULT_SOURCE
#include "rig.h"

#include <signal.h>
#include <stdarg.h>
#include <stdio.h>
#include <stdlib.h>
#include <string.h>
#include <sys/mman.h>
#include <unistd.h>

/* No machine in use has larger pages; an emulator protects by the host's. */
enum { STRETCH = 65536 };

enum { PAGE = 256, SECTOR = 4096, BLOCK = 65536, SMALL = 5 * BLOCK };

unsigned long rig_calls;

static const char *program = "?";
static unsigned long failed;
static int stop_at_first;

struct lent lend(size_t room)
{
    size_t size = (room + STRETCH - 1) / STRETCH * STRETCH;
    uint8_t *base = mmap(NULL, size + 3 * STRETCH, PROT_NONE, MAP_PRIVATE | MAP_ANONYMOUS, -1, 0);
    struct lent l;

    if (base == MAP_FAILED) {
        printf("%s: no memory for a lent buffer\n", program);
        exit(1);
    }
    l.start = (uint8_t *)(((uintptr_t)base + 2 * STRETCH - 1) / STRETCH * STRETCH);
    l.end = l.start + size;
    if (mprotect(l.start, size, PROT_READ | PROT_WRITE) != 0) {
        printf("%s: a lent buffer can't be mapped\n", program);
        exit(1);
    }
    return l;
}

static void protect(const struct guard *g, int protection)
{
    if (g->low < g->high && mprotect(g->low, (size_t)(g->high - g->low), protection) != 0) {
        printf("%s: a lent buffer can't be guarded\n", program);
        exit(1);
    }
}

/* By stretches: a lent buffer begins and ends with one. */
void guard_over(struct guard *g, uint8_t *low, uint8_t *high)
{
    struct guard new;

    new.low = (uint8_t *)((uintptr_t)low / STRETCH * STRETCH);
    new.high = (uint8_t *)(((uintptr_t)high + STRETCH - 1) / STRETCH * STRETCH);
    if (new.low == g->low && new.high == g->high)
        return;
    protect(g, PROT_READ | PROT_WRITE);
    *g = new;
    protect(g, PROT_READ);
}

void guard_lift(struct guard *g)
{
    protect(g, PROT_READ | PROT_WRITE);
    g->low = g->high = NULL;
}

static uint32_t largest(const uint32_t *us, int n)
{
    uint32_t most = 0;
    int i;

    for (i = 0; i < n; i++)
        most = us[i] > most ? us[i] : most;
    return most;
}

uint32_t longest_busy(const struct gwo_record *r)
{
    const uint32_t us[6] = {r->status_us, r->page_us, r->sector_us, r->block_us, r->chip_us, r->half_us};

    return largest(us, 6);
}

uint32_t longest_settling(const struct gwo_record *r)
{
    const uint32_t us[3] = {r->sleep_us, r->wake_us, r->sign_us};

    return largest(us, 3);
}

uint32_t longest(const struct gwo_record *r)
{
    const uint32_t us[2] = {longest_busy(r), longest_settling(r)};

    return largest(us, 2);
}

void put_us(uint8_t *p, uint32_t us)
{
    int i;

    for (i = 0; i < 4; i++)
        p[i] = (uint8_t)(us >> 8 * i);
}

uint32_t get_us(const uint8_t *p)
{
    return (uint32_t)p[0] | (uint32_t)p[1] << 8 | (uint32_t)p[2] << 16 | (uint32_t)p[3] << 24;
}

void put_operation(uint8_t *state, uint8_t command, uint32_t place)
{
    state[COMMAND_AT] = command;
    state[PLACE_AT] = (uint8_t)(place >> 16);
    state[PLACE_AT + 1] = (uint8_t)(place >> 8);
    state[PLACE_AT + 2] = (uint8_t)place;
    memset(state + DATA_AT, 0xFF, PAGE);
}

uint32_t get_place(const uint8_t *state)
{
    const uint8_t *p = state + PLACE_AT;

    return (uint32_t)p[0] << 16 | (uint32_t)p[1] << 8 | p[2];
}

uint32_t us_of(const struct gwo_record *r, uint8_t command)
{
    switch (command) {
    case 0x01: return r->status_us;
    case 0x02: return r->page_us;
    case 0x20: return r->sector_us;
    case 0x52: return r->model == 3 ? r->half_us : 0; /* 003 L1227-1231; 02, Req 11 */
    case 0xD8: return r->block_us;
    case 0x60: case 0xC7: return r->chip_us;
    default: return 0;
    }
}

uint32_t unit_of(uint32_t model, uint8_t command)
{
    switch (command) {
    case 0x02: return PAGE;
    case 0x20: return SECTOR;
    case 0x52: return model == 3 ? BLOCK / 2 : 0;
    case 0xD8: return BLOCK;
    case 0x60: case 0xC7: return (uint32_t)gwo_array_length(model);
    default: return 0;
    }
}

int ends_by_cut(const uint8_t *state)
{
    return get_us(state + BUSY_AT) > 0 && state[COMMAND_AT] != 0x01;
}

int ends_by_wait(const uint8_t *state, uint32_t us)
{
    return ends_by_cut(state) && us >= get_us(state + BUSY_AT);
}

uint32_t unit_start(uint32_t model, uint8_t command, uint32_t address)
{
    uint32_t unit = unit_of(model, command);

    return unit == 0 ? 0 : address % (uint32_t)gwo_array_length(model) / unit * unit;
}

struct stretch around(size_t address, size_t length)
{
    size_t block = address / BLOCK * BLOCK;
    struct stretch s = {0, length};

    if (length <= SMALL)
        return s;
    s.low = block < SECTOR ? 0 : block - SECTOR;
    if (block + BLOCK + SECTOR < length)
        s.high = block + BLOCK + SECTOR;
    return s;
}

static uint64_t word(const uint8_t *p)
{
    uint64_t w;

    memcpy(&w, p, 8);
    return w;
}

int agree(const uint8_t *a, const uint8_t *b, size_t n)
{
    uint64_t differ = 0;
    size_t i;

    for (i = 0; i + 32 <= n; i += 32)
        differ |= (word(a + i) ^ word(b + i)) | (word(a + i + 8) ^ word(b + i + 8)) |
                  (word(a + i + 16) ^ word(b + i + 16)) | (word(a + i + 24) ^ word(b + i + 24));
    return differ == 0 && memcmp(a + i, b + i, n - i) == 0;
}

void same_bytes(const uint8_t *got, const uint8_t *want, size_t from, size_t to, const char *what, const char *label)
{
    size_t i = from;

    if (agree(got + from, want + from, to - from))
        return;
    while (got[i] == want[i])
        i++;
    fail("%s: byte %lu of the %s is %02X, want %02X", label, (unsigned long)i, what, got[i], want[i]);
}

static void touched(int signal_number)
{
    char text[160];
    int n = snprintf(text, sizeof text,
                     "%s: FAIL: call %lu touched memory that was not lent to it, or not to be written (signal %d)\n",
                     program, rig_calls, signal_number);

    if (write(STDOUT_FILENO, text, (size_t)n) != n)
        _exit(2);
    _exit(1);
}

void rig_begin(const char *name)
{
    struct sigaction action;

    program = name;
    memset(&action, 0, sizeof action);
    action.sa_handler = touched;
    sigaction(SIGSEGV, &action, NULL);
    sigaction(SIGBUS, &action, NULL);
    setvbuf(stdout, NULL, _IONBF, 0);
}

void rig_stop_at_first(void)
{
    stop_at_first = 1;
}

void fail(const char *form, ...)
{
    va_list rest;

    failed++;
    if (failed > 10)
        return;
    printf("%s: FAIL: ", program);
    va_start(rest, form);
    vprintf(form, rest);
    va_end(rest);
    printf("%s\n", failed == 10 ? " (further ones are counted only)" : "");
    if (stop_at_first)
        exit(rig_end());
}

unsigned long failures(void)
{
    return failed;
}

int rig_end(void)
{
    printf("%s: %lu calls, %lu failures\n", program, rig_calls, failed);
    return failed == 0 ? 0 : 1;
}

const char *named(const char *form, ...)
{
    static char text[160];
    va_list rest;

    va_start(rest, form);
    vsnprintf(text, sizeof text, form, rest);
    va_end(rest);
    return text;
}

static void run_group(const struct group *g, void (*after)(const char *))
{
    unsigned long calls = rig_calls, before = failures();

    g->run();
    if (after != NULL)
        after(g->name);
    printf("  %-28s %7lu calls, %lu failures\n", g->name, rig_calls - calls, failures() - before);
}

int rig_groups(const char *name, const struct group *groups, size_t count, void (*after)(const char *), int argc,
               char **argv)
{
    const char *only = argc > 2 ? argv[2] : NULL;
    size_t i;
    int found = 0;

    rig_begin(name);
    if (argc > 1 && strcmp(argv[1], "first") == 0)
        rig_stop_at_first();
    for (i = 0; i < count; i++) {
        if (only != NULL && strcmp(groups[i].name, only) != 0)
            continue;
        run_group(&groups[i], after);
        found = 1;
    }
    if (!found) {
        printf("%s: there is no group of this name: %s\n", name, only);
        return 2;
    }
    return rig_end();
}

uint64_t roll(struct dice *d)
{
    uint64_t z = d->at += UINT64_C(0x9E3779B97F4A7C15);

    z = (z ^ z >> 30) * UINT64_C(0xBF58476D1CE4E5B9);
    z = (z ^ z >> 27) * UINT64_C(0x94D049BB133111EB);
    return z ^ z >> 31;
}

uint32_t below(struct dice *d, uint32_t n)
{
    return (uint32_t)((roll(d) >> 32) * n >> 32);
}

unsigned chance(struct dice *d, unsigned percent)
{
    return below(d, 100) < percent;
}

void scatter(struct dice *d, uint8_t *bytes, size_t n)
{
    size_t i;

    for (i = 0; i + 8 <= n; i += 8) {
        uint64_t word = roll(d);

        memcpy(bytes + i, &word, 8);
    }
    for (; i < n; i++)
        bytes[i] = (uint8_t)(roll(d) >> 56);
}
