#include "play.h"

#include "progress.h"
#include "say.h"

#include <string.h>

enum { LOG_ROOM = 1 << 16 };

const char log_header[] = "line\tanswer\tfrom\tbytes\tnote\n";

/* The chip, and what goes on from block to block. */
struct player {
    struct gwo_chip *chip;
    uint32_t used;
    uint64_t line;
    uint8_t held[GWO_HELD_LENGTH], log[LOG_ROOM];
};

/* Lines that end in the text, as far as there is room for their rows. */
static int play_text(struct player *p, struct passage *to)
{
    struct gwo_chip *c = p->chip;
    const struct gwo_record *r = &c->record;
    uint64_t taken, written;
    uint32_t number = gwo_play_lines(r->model, r->status_us, r->page_us, r->sector_us, r->block_us, r->chip_us,
                                     r->half_us, r->sleep_us, r->wake_us, r->sign_us, c->strict, c->state,
                                     sizeof c->state, c->array, c->array_len, c->wear, c->wear_len, p->held,
                                     sizeof p->held, &p->used, &p->line, to->text, to->text_len, p->log,
                                     sizeof p->log, &taken, &written);

    if (number != GWO_DONE || (taken == 0 && to->text_len > 0))
        return could_not("the chip cannot be played: %lu, %s", (unsigned long)number, gwo_text(number));
    to->text_len = (size_t)taken;
    to->rows = p->log;
    to->rows_len = (size_t)written;
    return WELL;
}

/* The line that is held when the text has ended. */
static int play_end(struct player *p, struct passage *to)
{
    struct gwo_chip *c = p->chip;
    const struct gwo_record *r = &c->record;
    uint64_t written;
    uint32_t number = gwo_play_last(r->model, r->status_us, r->page_us, r->sector_us, r->block_us, r->chip_us,
                                    r->half_us, r->sleep_us, r->wake_us, r->sign_us, c->strict, c->state,
                                    sizeof c->state, c->array, c->array_len, c->wear, c->wear_len, p->held,
                                    sizeof p->held, &p->used, &p->line, p->log, sizeof p->log, &written);

    if (number != GWO_DONE)
        return could_not("the chip cannot be played: %lu, %s", (unsigned long)number, gwo_text(number));
    to->text = to->rows = p->log;
    to->text_len = 0;
    to->rows_len = (size_t)written;
    return WELL;
}

/* A whole block, in as many calls as it takes. */
static int play_block(struct player *p, const struct source *from, take_passage *take, void *to)
{
    struct passage now;
    size_t at = 0;
    int status = WELL;

    while (status == WELL && at < from->n) {
        now.text = from->block + at;
        now.text_len = from->n - at;
        status = play_text(p, &now);
        if (status == WELL)
            status = take(to, &now);
        at += now.text_len;
    }
    return status;
}

int play_source(struct gwo_chip *chip, struct source *from, take_passage *take, void *to)
{
    static struct player p;
    struct progress progress = progress_start();
    struct passage now;
    int status;

    p.chip = chip;
    p.used = 0;
    p.line = 1;
    do {
        status = source_read(from);
        if (status == WELL)
            status = play_block(&p, from, take, to);
        progress_at(&progress, p.line - 1, from);
    } while (status == WELL && from->n > 0);
    if (status == WELL)
        status = play_end(&p, &now);
    if (status == WELL && now.rows_len > 0)
        status = take(to, &now);
    progress_end(&progress);
    return status;
}

void tally_row(struct tally *t, uint32_t answer, int folded)
{
    t->lines++;
    t->done += answer == GWO_DONE;
    t->bad += answer == GWO_BAD_LINE;
    t->refused += answer != GWO_DONE && answer != GWO_BAD_LINE;
    t->folds += folded != 0;
}

/* The second field of a row is the answer; the last is fold or -. */
void tally_rows(struct tally *t, const uint8_t *rows, size_t n)
{
    const uint8_t *at = rows, *end = rows + n;

    while (at < end) {
        const uint8_t *stop = memchr(at, '\n', (size_t)(end - at)), *tab = memchr(at, '\t', (size_t)(end - at));
        uint32_t answer = 0;

        if (stop == NULL || tab == NULL)
            return;
        for (tab++; *tab >= '0' && *tab <= '9'; tab++)
            answer = 10 * answer + (uint32_t)(*tab - '0');
        tally_row(t, answer, stop[-1] == 'd');
        at = stop + 1;
    }
}
