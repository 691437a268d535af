#include "jig_cells.h"

#include "jig.h"

#include <string.h>

enum { KINDS = 5, SHORT = 3, LONG = 4 };

struct cells {
    size_t length;
    struct lent lent;
    struct guard guard;
    uint8_t *wanted;
    size_t low, high; /* outside of these they hold the pattern */
};

/* Of the three models; for wrong lengths up to 327,680; and for longer ones. */
static struct cells kinds[KINDS] = {{.length = GWO_MODEL_1_LENGTH}, {.length = GWO_MODEL_2_LENGTH},
                                    {.length = GWO_MODEL_3_LENGTH}, {.length = 327680},
                                    {.length = GWO_MODEL_3_LENGTH + BLOCK}};
static struct cells *const large = &kinds[2];

/* What the first n cells hold before a call: every block has that of the one before, plus 123. */
static const uint8_t *pattern(size_t n)
{
    static uint8_t laid[GWO_MODEL_3_LENGTH + BLOCK];
    static size_t so_far;
    size_t i;

    for (i = so_far; i < n; i++)
        laid[i] = i < BLOCK ? cell((uint32_t)i) : (uint8_t)(laid[i - BLOCK] + 123);
    so_far = i > so_far ? i : so_far;
    return laid;
}

/* Lays the pattern anew where cells were set. */
static void freshen(struct cells *c)
{
    if (c->low < c->high) {
        cells_open(c);
        memcpy(c->wanted + c->low, pattern(c->length) + c->low, c->high - c->low);
        memcpy(c->lent.start + c->low, c->wanted + c->low, c->high - c->low);
    }
    c->low = c->length;
    c->high = 0;
}

/* Memory is taken for an array when it is first asked for. */
static struct cells *made(struct cells *c)
{
    if (c->wanted != NULL)
        return c;
    c->lent = lend(c->length);
    c->wanted = lend(c->length).start;
    c->high = c->length;
    freshen(c);
    return c;
}

struct cells *cells_of(size_t length)
{
    int i;

    for (i = 0; i < SHORT; i++)
        if (length == kinds[i].length)
            return made(&kinds[i]);
    return made(&kinds[length <= kinds[SHORT].length ? SHORT : LONG]);
}

void cells_fresh(void)
{
    int i;

    for (i = 0; i < KINDS; i++)
        if (kinds[i].wanted != NULL)
            freshen(&kinds[i]);
}

uint8_t *cells_lent(const struct cells *c, size_t length)
{
    return last_of(&c->lent, length);
}

void cells_guard(struct cells *c, size_t address)
{
    struct stretch s = around(address, c->length);

    guard_over(&c->guard, c->lent.start + s.low, c->lent.start + s.high);
}

void cells_open(struct cells *c)
{
    guard_lift(&c->guard);
}

uint8_t cells_wanted(const struct cells *c, size_t address)
{
    return c->wanted[address % c->length];
}

static size_t smaller(size_t a, size_t b)
{
    return a < b ? a : b;
}

static size_t larger(size_t a, size_t b)
{
    return a > b ? a : b;
}

static void changes(struct cells *c, size_t low, size_t high)
{
    c->low = smaller(c->low, low);
    c->high = larger(c->high, high);
}

/* Of n cells; before all of 16 MiB change, what is there is compared: after it nothing would be seen. */
static void will_change(struct cells *c, size_t at, size_t n)
{
    if (c == large && n == c->length)
        cells_same_everywhere("all cells, before a chip erase");
    changes(c, at, at + n);
}

void cells_want(struct cells *c, size_t at, size_t n, uint8_t value)
{
    will_change(c, at, n);
    memset(c->wanted + at, value, n);
}

void cells_want_bytes(struct cells *c, size_t at, const uint8_t *bytes, size_t n)
{
    will_change(c, at, n);
    memcpy(c->wanted + at, bytes, n);
}

void cells_set(struct cells *c, size_t at, size_t n, uint8_t value)
{
    cells_want(c, at, n, value);
    cells_open(c);
    memset(c->lent.start + at, value, n);
}

static void same_between(struct cells *c, size_t low, size_t high, const char *label)
{
    unsigned long before = failures();

    same_bytes(c->lent.start, c->wanted, low, high, "array", label);
    if (failures() != before)
        changes(c, 0, c->length);
}

void cells_same(struct cells *c, size_t address, const char *label)
{
    struct stretch s = around(address, c->length);

    same_between(c, smaller(c->low, s.low), larger(c->high, s.high), label);
}

void cells_same_everywhere(const char *label)
{
    int i;

    for (i = 0; i < KINDS; i++)
        if (kinds[i].wanted != NULL)
            same_between(&kinds[i], 0, kinds[i].length, label);
}
