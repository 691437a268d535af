/*
 * The form of a script line, written from 01, Script and log: F, WP#, tail, bytes; W, microseconds; P. It asks
 * no other program of the project.
 */
#include "fault.h"

#include <stdarg.h>
#include <stdio.h>
#include <string.h>

enum { FIELDS = 4, SHOWN = 16 };

/* A fault, in printf's form. */
#if defined(__GNUC__)
__attribute__((format(printf, 2, 3)))
#endif
static int because(char *words, const char *form, ...)
{
    va_list list;

    va_start(list, form);
    vsnprintf(words, MOST_WORDS, form, list);
    va_end(list);
    return 1;
}

/* One byte as one can read it; how many characters. */
static int readable_byte(unsigned char c, char *to)
{
    if (c >= 32 && c <= 126) {
        to[0] = (char)c;
        return 1;
    }
    if (c == '\t')
        return sprintf(to, "|");
    if (c == '\r')
        return sprintf(to, "\\r");
    if (c == 0)
        return sprintf(to, "\\0");
    return sprintf(to, "\\x%02X", c);
}

/* Whether all of it can be shown in so many characters. */
static int fits(struct text t, size_t most)
{
    char one[8];
    size_t used = 0, i;

    for (i = 0; i < t.n && used <= most; i++)
        used += (size_t)readable_byte((unsigned char)t.at[i], one);
    return used <= most;
}

int readable(struct text t, size_t most, char *to)
{
    char one[8];
    int whole = fits(t, most);
    size_t room = whole ? most : most - 2, used = 0, i;

    for (i = 0; i < t.n; i++) {
        size_t n = (size_t)readable_byte((unsigned char)t.at[i], one);

        if (used + n > room)
            break;
        memcpy(to + used, one, n);
        used += n;
    }
    strcpy(to + used, whole ? "" : "..");
    return whole;
}

/* The fields between the tabs; how many there are, of which the first four are kept. */
static size_t split(struct text line, struct text *field)
{
    size_t count = 0, start = 0, i;

    for (i = 0; i <= line.n; i++) {
        if (i < line.n && line.at[i] != '\t')
            continue;
        if (count < FIELDS) {
            field[count].at = line.at + start;
            field[count].n = i - start;
        }
        count++;
        start = i + 1;
    }
    return count;
}

static int has(struct text t, char c)
{
    return memchr(t.at, c, t.n) != NULL;
}

static int is(struct text t, const char *word)
{
    return t.n == strlen(word) && memcmp(t.at, word, t.n) == 0;
}

/* A field of one digit, from 0 to `last`; `range` says so in words. */
static int one_digit(const char *name, struct text t, char last, const char *range, char *words)
{
    char shown[SHOWN + 1];

    if (t.n == 1 && t.at[0] >= '0' && t.at[0] <= last)
        return 0;
    if (t.n == 0)
        return because(words, "%s is empty; it is %s", name, range);
    readable(t, SHOWN, shown);
    if (t.n > 1 && t.at[0] == '0')
        return because(words, "%s is '%s', with a leading zero; it is one digit, %s", name, shown, range);
    return because(words, "%s is '%s'; it is %s", name, shown, range);
}

/* A byte in the field of bytes that is no capital hex digit. */
static int no_digit(unsigned char c, char *words)
{
    char shown[8];
    struct text one;

    if (c >= 'a' && c <= 'f')
        return because(words, "bytes (field 4) have the small letter '%c'; hex is written in capitals", c);
    if (c == ' ')
        return because(words, "bytes (field 4) have a space; nothing stands between or after the digits");
    one.at = (const char *)&c;
    one.n = 1;
    readable(one, sizeof shown - 1, shown);
    return because(words, "bytes (field 4) have '%s', which is no hex digit", shown);
}

static int bytes_fault(struct text t, char *words)
{
    size_t i;

    for (i = 0; i < t.n; i++)
        if (t.at[i] == 0 || strchr("0123456789ABCDEF", t.at[i]) == NULL)
            return no_digit((unsigned char)t.at[i], words);
    if (t.n % 2 != 0)
        return because(words, "bytes (field 4) have an odd number of digits, %zu; a byte is two", t.n);
    if (t.n / 2 > MOST_BYTES)
        return because(words, "bytes (field 4) are %zu; a frame has at most %d", t.n / 2, MOST_BYTES);
    return 0;
}

/* Too few fields: a space where a tab belongs, or a field that is not there. */
static int missing(struct text line, size_t count, size_t wanted, const char *names, char *words)
{
    if (has(line, ' '))
        return because(words, "a space for a tab: the fields are parted by one tab each");
    if (wanted == FIELDS && count == FIELDS - 1)
        return because(words, "a missing field: it has 3 and a frame has 4 (%s); without bytes it ends in the tab after the tail", names);
    return because(words, "a missing field: it has %zu of %zu (%s)", count, wanted, names);
}

/* Too many: often a tab too many. */
static int extra(struct text line, const struct text *field, size_t count, size_t wanted, const char *names, char *words)
{
    size_t i;

    if (count == wanted + 1 && line.at[line.n - 1] == '\t')
        return because(words, "an extra tab at the end, after %zu fields (%s)", wanted, names);
    for (i = 1; i < count && i < FIELDS; i++)
        if (field[i].n == 0)
            return because(words, "an extra tab: field %zu of %zu is empty, and there are to be %zu (%s)", i + 1, count, wanted, names);
    return because(words, "an extra field: it has %zu and there are to be %zu (%s)", count, wanted, names);
}

static int frame_fault(struct text line, const struct text *field, size_t count, char *words)
{
    static const char names[] = "F, WP#, tail, bytes";

    if (count < 4)
        return missing(line, count, 4, names, words);
    if (count > 4)
        return extra(line, field, count, 4, names, words);
    if (one_digit("WP# (field 2)", field[1], '1', "0 or 1", words))
        return 1;
    return one_digit("tail (field 3)", field[2], '7', "0 to 7", words) || bytes_fault(field[3], words);
}

/* The digits of a wait: a number without leading zeros that fits 32 bits. */
static int number_fault(struct text t, char *words)
{
    static const char most[] = "4294967295";
    char shown[SHOWN + 1];
    size_t i;

    readable(t, SHOWN, shown);
    if (t.n == 0)
        return because(words, "microseconds (field 2) are missing");
    for (i = 0; i < t.n; i++)
        if (t.at[i] < '0' || t.at[i] > '9')
            return because(words, "microseconds (field 2) are '%s'; they are a whole number in decimal digits alone", shown);
    if (t.n > 1 && t.at[0] == '0')
        return because(words, "microseconds (field 2) are '%s', with leading zeros", shown);
    if (t.n > strlen(most) || (t.n == strlen(most) && memcmp(t.at, most, t.n) > 0))
        return because(words, "microseconds (field 2) are '%s', too large a number; at most %s", shown, most);
    return 0;
}

static int wait_fault(struct text line, const struct text *field, size_t count, char *words)
{
    static const char names[] = "W, microseconds";

    if (count < 2)
        return missing(line, count, 2, names, words);
    if (count > 2)
        return extra(line, field, count, 2, names, words);
    return number_fault(field[1], words);
}

static int only_blanks(struct text t)
{
    size_t i;

    for (i = 0; i < t.n; i++)
        if (t.at[i] != ' ' && t.at[i] != '\t')
            return 0;
    return 1;
}

/* Field 1 starts with the right letter and goes on. */
static int not_alone(struct text first, const char *shown, char *words)
{
    if (first.at[1] != ' ')
        return because(words, "field 1 is '%s'; it is F, W or P alone", shown);
    if (first.at[0] == 'P')
        return because(words, "a space after P; P stands alone");
    return because(words, "a space for a tab after %c: the fields are parted by one tab each", first.at[0]);
}

/* Field 1 is neither F, W nor P. */
static int letter_fault(struct text line, struct text first, char *words)
{
    char shown[SHOWN + 1];

    readable(first, SHOWN, shown);
    if (only_blanks(line))
        return because(words, "an empty line: only blanks");
    if (line.n >= 3 && memcmp(line.at, "\xEF\xBB\xBF", 3) == 0)
        return because(words, "a byte order mark stands before the letter; save the file as plain text");
    if (line.at[0] == ' ' || line.at[0] == '\t')
        return because(words, "a blank stands before the letter");
    if (is(first, "f") || is(first, "w") || is(first, "p"))
        return because(words, "the small letter '%s' in field 1; it is F, W or P", shown);
    if (line.at[0] == '#' || line.at[0] == '/')
        return because(words, "a remark: a script has none");
    if (first.at[0] == 'F' || first.at[0] == 'W' || first.at[0] == 'P')
        return not_alone(first, shown, words);
    return because(words, "unknown letter: field 1 is '%s'; it is F, W or P", shown);
}

/* A line that is neither too long, nor empty, nor ends in CR. */
static int form_fault(struct text line, char *words)
{
    struct text field[FIELDS];
    size_t count = split(line, field);

    if (is(field[0], "F"))
        return frame_fault(line, field, count, words);
    if (is(field[0], "W"))
        return wait_fault(line, field, count, words);
    if (!is(field[0], "P"))
        return letter_fault(line, field[0], words);
    return count > 1 ? because(words, "an extra field: P stands alone") : 0;
}

int fault(struct text line, char *words)
{
    char rest[MOST_WORDS];

    if (line.n > MOST_LINE)
        return because(words, "too long: %zu bytes; a line has at most %d, and a frame of %d bytes takes %d", line.n,
                       MOST_LINE, MOST_BYTES, 6 + 2 * MOST_BYTES);
    if (line.n == 0)
        return because(words, "an empty line");
    if (line.at[line.n - 1] != '\r')
        return form_fault(line, words);
    line.n--;
    if (line.n > 0 && form_fault(line, rest))
        return because(words, "CR at the end; and %.300s", rest);
    return because(words, "CR at the end, as a file from Windows has it");
}
