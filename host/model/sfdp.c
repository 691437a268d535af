/* The independent model's reader and writer of SFDP tables (02, Req 12; the layout in 002 L546-656). */
#include "model.h"
#include "sfdp_image.h"

#include <stdbool.h>
#include <string.h>

enum { HEADER = 8, FIRST_HEADER = 8, COUNT_AT = 6, WORD = 4, FIRST_WORDS = 9, SLOTS = 4 };

/* From the start of the first table, and from there in the image. */
enum { DENSITY_AT = 4, ERASES_AT = 28, TABLE_AT = 0x30, SMALL_ERASE_AT = 0x31 };

/* 2^12 bytes, 4 KiB. */
enum { SMALL_EXPONENT = 12 };

struct header {
    uint32_t id, minor, major, words, pointer;
};

static uint32_t headers_of(const uint8_t *bytes)
{
    return bytes[COUNT_AT] + 1u; /* counted from 0 */
}

static struct header header_at(const uint8_t *bytes, uint32_t index)
{
    const uint8_t *p = bytes + FIRST_HEADER + HEADER * index;
    struct header h = {p[0], p[1], p[2], p[3], (uint32_t)p[4] | (uint32_t)p[5] << 8 | (uint32_t)p[6] << 16};

    return h;
}

/* The headers lie within the bytes; then whether each table could, wherever it starts, and the first is long enough. */
static bool lengths_ok(const uint8_t *bytes, size_t len)
{
    uint32_t i, n = headers_of(bytes);

    for (i = 0; i < n; i++)
        if (WORD * header_at(bytes, i).words > len)
            return false;
    return header_at(bytes, 0).words >= FIRST_WORDS;
}

static bool pointers_ok(const uint8_t *bytes, size_t len)
{
    uint32_t i, n = headers_of(bytes);

    for (i = 0; i < n; i++) {
        struct header h = header_at(bytes, i);

        if (h.pointer + WORD * h.words > len)
            return false;
    }
    return true;
}

static uint32_t refusal(const uint8_t *bytes, size_t len)
{
    if (len < FIRST_HEADER || memcmp(bytes, "SFDP", 4) != 0)
        return 30;
    if (FIRST_HEADER + HEADER * headers_of(bytes) > len || !lengths_ok(bytes, len))
        return 31;
    return pointers_ok(bytes, len) ? 0 : 32;
}

/* Of a table that is not refused. */
static const uint8_t *first_table(const uint8_t *bytes)
{
    return bytes + header_at(bytes, 0).pointer;
}

uint32_t ref_sfdp_read(const uint8_t *bytes, size_t len, uint32_t *headers, uint32_t *density, uint32_t *types)
{
    uint32_t number = refusal(bytes, len);
    const uint8_t *table;
    int i;

    *headers = *density = *types = 0;
    if (number != 0)
        return number;
    table = first_table(bytes);
    *headers = headers_of(bytes);
    for (i = 3; i >= 0; i--)
        *density = *density << 8 | table[DENSITY_AT + i];
    for (i = 0; i < SLOTS; i++)
        *types += table[ERASES_AT + 2 * i] != 0;
    return 0;
}

uint32_t ref_sfdp_revision(const uint8_t *bytes, size_t len, uint32_t *minor, uint32_t *major)
{
    uint32_t number = refusal(bytes, len);

    *minor = number == 0 ? bytes[4] : 0;
    *major = number == 0 ? bytes[5] : 0;
    return number;
}

uint32_t ref_sfdp_header(const uint8_t *bytes, size_t len, uint32_t index, uint32_t *id, uint32_t *minor,
                         uint32_t *major, uint32_t *words, uint32_t *pointer)
{
    uint32_t number = refusal(bytes, len);
    struct header h = {0, 0, 0, 0, 0};

    if (number == 0 && index < headers_of(bytes))
        h = header_at(bytes, index);
    *id = h.id;
    *minor = h.minor;
    *major = h.major;
    *words = h.words;
    *pointer = h.pointer;
    return number;
}

uint32_t ref_sfdp_erase(const uint8_t *bytes, size_t len, uint32_t slot, uint32_t *exponent, uint32_t *opcode)
{
    uint32_t number = refusal(bytes, len);

    *exponent = *opcode = 0;
    if (number != 0 || slot < 1 || slot > SLOTS)
        return number;
    *exponent = first_table(bytes)[ERASES_AT + 2 * (slot - 1)];
    *opcode = first_table(bytes)[ERASES_AT + 2 * (slot - 1) + 1];
    return 0;
}

static bool record_ok(uint64_t density, const uint32_t *erases, size_t erases_len)
{
    size_t i;

    if (density > UINT32_MAX || erases_len % 2 != 0 || erases_len > 2 * SLOTS)
        return false;
    for (i = 0; i < erases_len; i += 2)
        if (erases[i] == 0 || erases[i] > 255 || erases[i + 1] > 255)
            return false;
    return true;
}

/* The first type of 4 KiB is named once more, in the first double word. */
static void put_small_erase(const uint32_t *erases, size_t erases_len, uint8_t *out)
{
    size_t i = 0;

    while (i < erases_len && erases[i] != SMALL_EXPONENT)
        i += 2;
    out[TABLE_AT] = (uint8_t)((out[TABLE_AT] & ~3) | (i < erases_len ? 1 : 3));
    out[SMALL_ERASE_AT] = (uint8_t)(i < erases_len ? erases[i + 1] : 0xFF);
}

uint32_t ref_sfdp_write(uint64_t density, const uint32_t *erases, size_t erases_len, uint8_t *out, size_t out_len)
{
    size_t i;

    if (!record_ok(density, erases, erases_len) || out_len < SFDP_LENGTH)
        return 33;
    memcpy(out, sfdp_image, SFDP_LENGTH);
    for (i = 0; i < 4; i++)
        out[TABLE_AT + DENSITY_AT + i] = (uint8_t)(density >> 8 * i);
    for (i = 0; i < 2 * SLOTS; i++)
        out[TABLE_AT + ERASES_AT + i] = (uint8_t)(i < erases_len ? erases[i] : i % 2 == 0 ? 0x00 : 0xFF);
    put_small_erase(erases, erases_len, out);
    return 0;
}
