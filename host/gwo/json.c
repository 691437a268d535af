#include "json.h"

#include <stdio.h>

/* How many bytes the character has that begins here; 0 where none does (RFC 3629). */
static size_t character(const unsigned char *s)
{
    if (s[0] < 0x80)
        return 1;
    if (s[0] >= 0xC2 && s[0] <= 0xDF)
        return (s[1] & 0xC0) == 0x80 ? 2 : 0;
    if ((s[0] & 0xF0) == 0xE0) {
        if ((s[1] & 0xC0) != 0x80 || (s[0] == 0xE0 && s[1] < 0xA0) || (s[0] == 0xED && s[1] > 0x9F))
            return 0;
        return (s[2] & 0xC0) == 0x80 ? 3 : 0;
    }
    if (s[0] < 0xF0 || s[0] > 0xF4 || (s[1] & 0xC0) != 0x80)
        return 0;
    if ((s[0] == 0xF0 && s[1] < 0x90) || (s[0] == 0xF4 && s[1] > 0x8F))
        return 0;
    return (s[2] & 0xC0) == 0x80 && (s[3] & 0xC0) == 0x80 ? 4 : 0;
}

void put_json(struct out *o, const char *text)
{
    const unsigned char *at = (const unsigned char *)text;
    char escaped[8];

    put_text(o, "\"");
    while (*at != 0) {
        size_t n = character(at);

        if (n == 1 && (*at < 0x20 || *at == '"' || *at == '\\' || *at == 0x7F)) {
            snprintf(escaped, sizeof escaped, "\\u%04X", *at);
            put_text(o, escaped);
        } else if (n > 0) {
            put_bytes(o, at, n);
        } else {
            put_text(o, "\\uFFFD");
        }
        at += n > 0 ? n : 1;
    }
    put_text(o, "\"");
}

static void put_name(struct out *o, const char *comma, const char *name)
{
    put_text(o, comma);
    put_json(o, name);
    put_text(o, ":");
}

void put_json_number(struct out *o, const char *comma, const char *name, uint64_t number)
{
    put_name(o, comma, name);
    put_number(o, number);
}

void put_json_text(struct out *o, const char *comma, const char *name, const char *text)
{
    put_name(o, comma, name);
    put_json(o, text);
}
