#include "pairs.h"

#include "say.h"

#include <string.h>

void pairs_start(struct pairs *p, take_pair *take, void *to)
{
    p->take = take;
    p->to = to;
    p->number = 0;
    p->used = p->whole = 0;
}

/* More of the line that is open; what is too long for a line is not kept. */
static void keep(struct pairs *p, const char *part, size_t n)
{
    size_t room = sizeof p->open - p->used;

    p->whole += n;
    if (n > room)
        n = room;
    if (n > 0)
        memcpy(p->open + p->used, part, n);
    p->used += n;
}

/* The line of a pair: from what was open to before the newline, where it stands in one piece where it can. */
static void close_line(struct pairs *p, const char *part, size_t n, struct pair *to)
{
    if (p->whole > 0) {
        keep(p, part, n);
        part = p->open;
        n = p->used;
    }
    to->line.at = part;
    to->line.n = n < sizeof p->open ? n : sizeof p->open;
    to->whole = p->whole > 0 ? p->whole : n;
    p->used = p->whole = 0;
}

/* Reads the number, the answer and the note; 0 where the row is none, or another line's. */
static int read_row(struct pair *to)
{
    const char *at = to->row.at, *end = at + to->row.n;
    uint64_t number = 0;

    for (; at < end && *at >= '0' && *at <= '9'; at++)
        number = 10 * number + (uint64_t)(*at - '0');
    if (number != to->number || at == end || *at++ != '\t')
        return 0;
    to->answer = 0;
    for (; at < end && *at >= '0' && *at <= '9'; at++)
        to->answer = 10 * to->answer + (uint32_t)(*at - '0');
    to->folded = end[-1] == 'd';
    return at < end && *at == '\t';
}

int take_pairs(void *to, const struct passage *now)
{
    struct pairs *p = to;
    const char *text = (const char *)now->text, *last = text + now->text_len;
    const char *row = (const char *)now->rows, *rows_end = row + now->rows_len;
    struct pair pair;
    int status = WELL;

    while (row < rows_end && status == WELL) {
        const char *stop = memchr(row, '\n', (size_t)(rows_end - row));
        const char *end = text < last ? memchr(text, '\n', (size_t)(last - text)) : NULL;
        size_t n = (size_t)((end == NULL ? last : end) - text);

        close_line(p, text, n, &pair);
        text += n + (end != NULL);
        pair.number = ++p->number;
        pair.row.at = row;
        pair.row.n = stop == NULL ? 0 : (size_t)(stop - row);
        if (stop == NULL || !read_row(&pair))
            return could_not("line %llu has no row", (unsigned long long)pair.number);
        status = p->take(p->to, &pair);
        row = stop + 1;
    }
    keep(p, text, (size_t)(last - text));
    return status;
}

/* The field of that number, from 0 on. */
static struct text field_of(struct text row, size_t number)
{
    const char *at = row.at, *end = row.at + row.n, *tab;
    struct text field;

    while ((tab = memchr(at, '\t', (size_t)(end - at))) != NULL && number-- > 0)
        at = tab + 1;
    field.at = at;
    field.n = (size_t)((tab == NULL ? end : tab) - at);
    return field;
}

int row_driven(struct text row, struct text *from, struct text *hex)
{
    *from = field_of(row, 2);
    *hex = field_of(row, 3);
    return hex->n > 1;
}
