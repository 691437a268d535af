#include "channels.h"

#include "gwo.h"
#include "options.h"

#include <string.h>
#include <strings.h>

enum { PINS = 5, BITS = 8, NO_PIN = PINS, UNKNOWN = -1 };
#define HIGHEST_RATE UINT64_C(1000000000000)

const char usual_channels[] = "cs,sclk,si,wp,hold";

/* By their place in a sample. */
static const char *const names[PINS] = {"cs", "sclk", "si", "wp", "hold"};

/* The place of the pin with this name; NO_PIN for -. */
static int pin_named(const char *word, size_t n)
{
    int pin;

    if (n == 1 && word[0] == '-')
        return NO_PIN;
    if (n > 1 && word[n - 1] == '#')
        n--;
    for (pin = 0; pin < PINS; pin++)
        if (strlen(names[pin]) == n && strncasecmp(names[pin], word, n) == 0)
            return pin;
    return UNKNOWN;
}

/* The bit that each pin has; BITS for one that has none. */
static const char *read_places(const char *words, unsigned places[PINS])
{
    unsigned bit = 0, pin;

    for (pin = 0; pin < PINS; pin++)
        places[pin] = BITS;
    for (;; bit++) {
        const size_t n = strcspn(words, ",");
        const int named = pin_named(words, n);

        if (bit == BITS)
            return "a sample is a byte, so there are at most 8 of them";
        if (named == UNKNOWN)
            return "the names are cs, sclk, si, wp and hold, and - for another pin";
        if (named != NO_PIN && places[named] != BITS)
            return "a pin is named twice";
        if (named != NO_PIN)
            places[named] = bit;
        if (words[n] == 0)
            return NULL;
        words += n + 1;
    }
}

const char *read_channels(const char *words, struct channels *c)
{
    unsigned places[PINS], byte, pin;
    const char *wrong = read_places(words, places);

    if (wrong != NULL)
        return wrong;
    if (places[0] == BITS || places[1] == BITS || places[2] == BITS)
        return "cs, sclk and si have to be among them";
    for (byte = 0; byte < 256; byte++) {
        c->levels[byte] = 0;
        for (pin = 0; pin < PINS; pin++)
            if (places[pin] == BITS || (byte >> places[pin] & 1) != 0)
                c->levels[byte] |= (uint8_t)(1u << pin);
    }
    return NULL;
}

int read_rate(const char *word, uint64_t *rate)
{
    static const struct { char unit; uint64_t times; } units[] = {{'k', 1000}, {'M', 1000000}, {'G', 1000000000}};
    char digits[24];
    size_t n = strlen(word), i;
    uint64_t times = 1;

    for (i = 0; i < sizeof units / sizeof units[0] && n > 1; i++)
        if (word[n - 1] == units[i].unit)
            times = units[i].times;
    n -= times != 1;
    if (n == 0 || n >= sizeof digits)
        return 0;
    memcpy(digits, word, n);
    digits[n] = 0;
    if (!read_number(digits, HIGHEST_RATE / times, rate))
        return 0;
    *rate *= times;
    return *rate > 0;
}
