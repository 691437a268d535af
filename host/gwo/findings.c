#include "findings.h"

#include "fault.h"
#include "gwo.h"
#include "json.h"
#include "say.h"
#include "words.h"

#include <stdio.h>
#include <string.h>

enum { MOST_BAD = 10 };

void findings_start(struct findings *f, struct out *out, const struct chip_options *chip, int named)
{
    f->out = out;
    f->chip = chip;
    f->named = named;
    if (!f->json)
        return;
    put_json_text(out, "{", "gwo", GWO_VERSION);
    put_json_number(out, ",", "model", chip->model);
    put_json_number(out, ",", "strict", chip->strict);
    put_text(out, ",\"scripts\":[");
}

void findings_begin(struct findings *f, const char *script)
{
    memset(&f->tally, 0, sizeof f->tally);
    f->script = script;
    f->shown = 0;
    if (!f->json)
        return;
    put_json_text(f->out, f->scripts == 0 ? "\n{" : ",\n{", "script", script);
    put_text(f->out, ",\"findings\":[");
}

/* ---- a finding */

static void put_what(struct out *o, const struct pair *p, const struct told *told)
{
    char words[MOST_WORDS];
    const struct text line = {p->line.at, p->whole};

    if (p->answer == GWO_BAD_LINE) {
        put_text(o, fault(line, words) ? words : gwo_text(p->answer));
        return;
    }
    put_told(o, told);
    if (p->folded) {
        put_text(o, ", ");
        put_number(o, told->past);
        put_text(o, " past the page's end");
    } else {
        put_text(o, ": ");
        put_number(o, p->answer);
        put_text(o, ", ");
        put_text(o, gwo_text(p->answer));
    }
}

static void put_in_words(struct findings *f, const struct pair *p, const struct told *told)
{
    if (f->named) {
        put_text(f->out, f->script);
        put_text(f->out, ": ");
    }
    put_text(f->out, p->folded ? "FOLD line " : p->answer == GWO_BAD_LINE ? "NOT WELL FORMED line " : "REFUSED line ");
    put_number(f->out, p->number);
    put_text(f->out, ": ");
    put_what(f->out, p, told);
    put_text(f->out, "\n");
}

/* The parts of a frame's words, each as far as it has them. */
static void put_frame_parts(struct out *o, const struct told *told)
{
    char hex[8];

    if (told->length > 0) {
        snprintf(hex, sizeof hex, "%02X", told->command & 0xFFu);
        put_json_text(o, ",", "command", hex);
    }
    put_json_text(o, ",", "name", told->name);
    if (told->addressed) {
        snprintf(hex, sizeof hex, "%06lX", (unsigned long)told->address & 0xFFFFFFu);
        put_json_text(o, ",", "address", hex);
    }
    if (told->counted)
        put_json_number(o, ",", "bytes", told->count);
    if (told->past > 0)
        put_json_number(o, ",", "past", told->past);
}

static void put_as_json(struct findings *f, const struct pair *p, const struct told *told)
{
    const struct text line = {p->line.at, p->whole};
    struct out *o = f->out;
    char words[MOST_WORDS];

    put_json_number(o, f->shown == 0 ? "\n {" : ",\n {", "line", p->number);
    put_json_text(o, ",", "kind", p->folded ? "fold" : p->answer == GWO_BAD_LINE ? "not well formed" : "refusal");
    put_json_number(o, ",", "answer", p->answer);
    if (p->answer == GWO_BAD_LINE) {
        put_json_text(o, ",", "meaning", fault(line, words) ? words : gwo_text(p->answer));
    } else {
        put_json_text(o, ",", "meaning", p->folded ? "folded" : gwo_text(p->answer));
        if (told->kind == 'F')
            put_frame_parts(o, told);
        else
            put_json_text(o, ",", "name", told->kind == 'W' ? "wait" : "power cycle");
    }
    put_text(o, "}");
}

void put_finding(struct findings *f, const struct pair *p)
{
    const struct told told = tell_line(f->chip->model, p->line);

    if (p->answer == GWO_BAD_LINE && f->tally.bad > MOST_BAD)
        return;
    if (f->json)
        put_as_json(f, p, &told);
    else
        put_in_words(f, p, &told);
    f->shown++;
}

/* ---- what it comes to */

static const char *verdict_of(struct findings *f, int whole)
{
    f->scripts++;
    if (!whole || f->tally.lines == 0 || f->tally.bad > 0) {
        f->not_judged++;
        return "not judged";
    }
    if (f->tally.refused > 0 || f->tally.folds > 0) {
        f->found++;
        return "found";
    }
    f->clean++;
    return "clean";
}

/* Why a script is not judged, after its counts. */
static const char *reason_of(const struct findings *f, int whole)
{
    if (!whole)
        return ": it cannot be read to its end";
    return f->tally.lines == 0 ? ": it has no line" : f->tally.bad > 0 ? ": lines are not well formed" : "";
}

static void end_in_words(struct findings *f, const char *verdict, const char *reason)
{
    struct out *o = f->out;

    put_text(o, f->script);
    put_text(o, ": ");
    put_counted(o, f->tally.lines, "line");
    put_text(o, ", ");
    put_counted(o, f->tally.folds, "fold");
    put_text(o, ", ");
    put_number(o, f->tally.refused);
    put_text(o, " refused, ");
    put_number(o, f->tally.bad);
    put_text(o, " not well formed: ");
    put_text(o, verdict);
    put_text(o, reason);
    put_text(o, "\n");
}

static void end_as_json(struct findings *f, const char *verdict)
{
    struct out *o = f->out;

    put_text(o, "]");
    put_json_number(o, ",", "lines", f->tally.lines);
    put_json_number(o, ",", "done", f->tally.done);
    put_json_number(o, ",", "folds", f->tally.folds);
    put_json_number(o, ",", "refused", f->tally.refused);
    put_json_number(o, ",", "not_well_formed", f->tally.bad);
    put_json_text(o, ",", "verdict", verdict);
    put_text(o, "}");
}

void findings_end(struct findings *f, int whole)
{
    const char *verdict = verdict_of(f, whole);

    if (f->json)
        end_as_json(f, verdict);
    else
        end_in_words(f, verdict, reason_of(f, whole));
}

int findings_conclude(struct findings *f)
{
    const int status = f->not_judged > 0 ? COULD_NOT : f->found > 0 ? FOUND : WELL;
    struct out *o = f->out;

    if (f->json) {
        put_json_number(o, "],", "clean", f->clean);
        put_json_number(o, ",", "found", f->found);
        put_json_number(o, ",", "not_judged", f->not_judged);
        put_json_number(o, ",", "status", (uint64_t)status);
        put_text(o, "}\n");
        return status;
    }
    put_counted(o, f->scripts, "script");
    put_text(o, ": ");
    put_number(o, f->clean);
    put_text(o, " clean, ");
    put_number(o, f->found);
    put_text(o, " with a fold or a refusal, ");
    put_number(o, f->not_judged);
    put_text(o, " not judged\n");
    return status;
}
