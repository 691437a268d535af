#include "bench.h"

#include "image.h"
#include "say.h"

#include <stdio.h>
#include <stdlib.h>

#ifdef GWO_BEHIND_MODEL
const char behind[] = " (over the independent model in C: nothing of it is proved)";
#else
const char behind[] = "";
#endif

const char *chip_name(uint32_t model)
{
    switch (model) {
    case 1: return "KH25L512";
    case 2: return "KH25L2006E";
    case 3: return "KH25L12845G";
    default: return "no chip";
    }
}

/* The nine times of a record, by place. */
static uint32_t *time_at(struct gwo_record *r, size_t i)
{
    uint32_t *const times[TIMES] = {&r->status_us, &r->page_us, &r->sector_us, &r->block_us, &r->chip_us,
                                    &r->half_us, &r->sleep_us, &r->wake_us, &r->sign_us};

    return times[i];
}

static struct gwo_record record_of(const struct chip_options *o)
{
    struct gwo_record r = *gwo_bench(o->model);
    size_t i;

    for (i = 0; i < TIMES; i++)
        if (o->time[i] != 0)
            *time_at(&r, i) = o->time[i];
    return r;
}

int bench_open(struct gwo_chip *chip, const struct chip_options *o)
{
    const struct gwo_record r = record_of(o);
    const size_t cells = gwo_array_length(o->model), sectors = gwo_sector_count(o->model);
    uint8_t *array = malloc(cells);
    uint32_t *wear = malloc(sectors * sizeof *wear), number;
    int status = WELL;

    if (array == NULL || wear == NULL)
        status = could_not("no memory for the %zu cells of a %s", cells, chip_name(o->model));
    else if ((number = gwo_chip_init(chip, &r, array, cells, wear, sectors)) != GWO_DONE)
        status = could_not("%lu, %s%s", (unsigned long)number, gwo_text(number),
                           r.half_us != 0 && o->model != 3 ? ": this chip has no time half" : "");
    else if (o->load != NULL)
        status = image_load(o->load, array, cells, chip_name(o->model));
    if (status != WELL) {
        free(array);
        free(wear);
        return status;
    }
    chip->strict = o->strict;
    return WELL;
}

void bench_close(struct gwo_chip *chip)
{
    free(chip->array);
    free(chip->wear);
}

void bench_say(const struct gwo_chip *chip, const struct chip_options *o)
{
    struct gwo_record r = chip->record;
    char times[256];
    size_t at = 0, i;

    for (i = 0; i < TIMES; i++)
        if (*time_at(&r, i) != 0)
            at += (size_t)snprintf(times + at, sizeof times - at, "%s%s %lu", at == 0 ? "" : ", ", time_names[i],
                                   (unsigned long)*time_at(&r, i));
    say("%s (model %lu), %zu cells %s%s%s; times in us: %s%s", chip_name(r.model), (unsigned long)r.model,
        chip->array_len, o->load == NULL ? "FF" : "of ", o->load == NULL ? "" : o->load,
        chip->strict ? ", strict" : "", times, behind);
}

uint64_t bench_erases(const struct gwo_chip *chip)
{
    struct gwo_sheet sheet;

    return gwo_chip_wear(chip, &sheet) == GWO_DONE ? sheet.total : 0;
}
