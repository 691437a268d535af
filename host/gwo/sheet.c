#include "sheet.h"

#include "image.h"
#include "out.h"
#include "say.h"

#include <stdio.h>
#include <stdlib.h>
#include <string.h>
#include <unistd.h>

enum { LONGEST_BAR = 50, LINE_ROOM = 80, FIGURES_ROOM = 300 };

/* A mark an erase; where a count is over 50, 50 marks for the largest, and one at least for each that is not 0. */
static size_t marks_of(uint32_t count, uint32_t largest)
{
    uint64_t marks = largest <= LONGEST_BAR ? count : (uint64_t)count * LONGEST_BAR / largest;

    return count > 0 && marks == 0 ? 1 : (size_t)marks;
}

/* The sheet in memory of its own, for the caller to free; NULL where there is none. */
static char *sheet_of(const struct gwo_chip *chip, size_t *length)
{
    static const char bar[LONGEST_BAR + 1] = "##################################################";
    char *text = malloc(chip->wear_len * LINE_ROOM + FIGURES_ROOM), *at = text;
    struct gwo_sheet s;
    size_t i;

    if (text == NULL || gwo_chip_wear(chip, &s) != GWO_DONE) {
        free(text);
        return NULL;
    }
    at += sprintf(at, "Wear sheet: erases of each sector\nsector      erases\n");
    for (i = 0; i < chip->wear_len; i++) {
        size_t marks = marks_of(chip->wear[i], s.largest);

        at += sprintf(at, "%6zu%12lu%s%.*s\n", i, (unsigned long)chip->wear[i], marks > 0 ? "  " : "", (int)marks, bar);
    }
    at += sprintf(at, "total %llu\nsmallest %lu\nlargest %lu, first in sector %lu\nmean %lu and %lu/%zu\n",
                  (unsigned long long)s.total, (unsigned long)s.smallest, (unsigned long)s.largest,
                  (unsigned long)s.sector, (unsigned long)s.mean, (unsigned long)s.remainder, chip->wear_len);
    *length = (size_t)(at - text);
    return text;
}

int sheet_save(const char *path, const struct gwo_chip *chip)
{
    size_t n;
    char *text = sheet_of(chip, &n);
    int status;

    if (text == NULL)
        return could_not("no memory for the wear sheet");
    if (strcmp(path, "-") != 0)
        status = save_whole(path, text, n);
    else
        status = write_all(STDOUT_FILENO, text, n) == 0 ? WELL : refused_by_system("standard output");
    free(text);
    return status;
}
