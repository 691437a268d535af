#include "frames.h"

#include "bench.h"
#include "say.h"

#include <stdio.h>
#include <string.h>

static const char header[] = "frame\tanswer\tfrom\tbytes\tnote\tsent\n";

void frames_start(struct frames *f, struct gwo_chip *chip, struct out *log)
{
    memset(&f->here, 0, sizeof f->here);
    memset(&f->all, 0, sizeof f->all);
    f->chip = chip;
    f->log = log;
    f->worn = bench_erases(chip);
    if (log != NULL)
        put_text(log, header);
}

/* A row as in a script's log, and the bytes that the client sent. */
static void put_frame_row(struct frames *f, const struct gwo_reply *r, size_t sent)
{
    struct out *o = f->log;

    put_number(o, f->all.frames + f->here.frames);
    put_text(o, "\t");
    put_number(o, r->answer);
    if (r->count == 0) {
        put_text(o, "\t-\t-");
    } else {
        put_text(o, "\t");
        put_number(o, r->from);
        put_text(o, "\t");
        put_hex(o, f->reply + 1 + r->from, r->count);
    }
    put_text(o, r->fold ? "\tfold\t" : "\t-\t");
    put_hex(o, f->tx, sent);
    put_text(o, sent == 0 ? "-\n" : "\n");
}

int frames_send(struct frames *f, size_t sent, size_t read)
{
    struct gwo_reply r;

    if (sent > sizeof f->tx || read > sizeof f->tx - sent)
        return 0;
    memset(f->tx + sent, 0x00, read);
    memset(f->reply + 1 + sent, 0xFF, read);
    r = gwo_chip_send(f->chip, f->tx, f->reply + 1, sent + read, 0);
    f->here.frames++;
    f->here.folds += r.fold;
    f->here.by_number[r.answer % NUMBERS]++;
    if (f->log != NULL)
        put_frame_row(f, &r, sent);
    return 1;
}

/* No operation takes longer than the longest wait. */
void frames_wait(struct frames *f, uint64_t us)
{
    gwo_chip_wait(f->chip, us > UINT32_MAX ? UINT32_MAX : (uint32_t)us);
}

/* Refusals by number: 13: 2, 11: 1. */
static void list_refusals(const struct frame_counts *c, char *to, size_t room)
{
    size_t at = 0;
    unsigned i;

    to[0] = 0;
    for (i = 1; i < NUMBERS && at < room; i++)
        if (c->by_number[i] > 0)
            at += (size_t)snprintf(to + at, room - at, "%s%u: %llu", at == 0 ? " (" : ", ", i,
                                   (unsigned long long)c->by_number[i]);
    if (at > 0 && at < room)
        snprintf(to + at, room - at, ")");
}

static void say_counts(const char *who, const struct frame_counts *c)
{
    char refusals[400];

    list_refusals(c, refusals, sizeof refusals);
    say("%s: %llu frames, %llu refused%s, %llu folds, %llu sector erases", who, (unsigned long long)c->frames,
        (unsigned long long)(c->frames - c->by_number[0]), refusals, (unsigned long long)c->folds,
        (unsigned long long)c->erases);
}

void frames_client_gone(struct frames *f, uint64_t client)
{
    const uint64_t worn = bench_erases(f->chip);
    char who[64];
    size_t i;

    f->here.erases = worn - f->worn;
    f->worn = worn;
    snprintf(who, sizeof who, "client %llu has gone", (unsigned long long)client);
    say_counts(who, &f->here);
    f->all.frames += f->here.frames;
    f->all.folds += f->here.folds;
    f->all.erases += f->here.erases;
    for (i = 0; i < NUMBERS; i++)
        f->all.by_number[i] += f->here.by_number[i];
    memset(&f->here, 0, sizeof f->here);
}

void frames_say_all(const struct frames *f)
{
    say_counts("in all", &f->all);
}
