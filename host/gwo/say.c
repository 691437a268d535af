#include "say.h"

#include <errno.h>
#include <stdarg.h>
#include <stdio.h>
#include <string.h>

const char *said_by = "gwo";

/* In one write, so that the lines of two programs do not mix. */
static void say_list(const char *form, va_list list)
{
    char line[1024];
    int head = snprintf(line, sizeof line, "%s: ", said_by);

    if (head < 0 || (size_t)head >= sizeof line)
        return;
    vsnprintf(line + head, sizeof line - (size_t)head, form, list);
    fprintf(stderr, "%s\n", line);
}

void say(const char *form, ...)
{
    va_list list;

    va_start(list, form);
    say_list(form, list);
    va_end(list);
}

int could_not(const char *form, ...)
{
    va_list list;

    va_start(list, form);
    say_list(form, list);
    va_end(list);
    return COULD_NOT;
}

int refused_by_system(const char *name)
{
    return could_not("%s: %s", name, strerror(errno));
}
