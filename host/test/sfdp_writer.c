/* 02, Req 12: the writer; that the reader reads what it writes; and the chip's own table through both. */
#include "sfdp.h"

#include "jig_sfdp.h"

#include <string.h>

/* The record of the KH25L2006E. */
static const uint32_t own[4] = {0x0C, 0x20, 0x10, 0xD8};
enum { OWN_DENSITY = 0x1FFFFF };

/* A record that is taken, at every length of the buffer that will do; its number of types is erases_len / 2. */
static void taken(uint32_t density, const uint32_t *erases, size_t erases_len, const char *label)
{
    written(density, erases, erases_len, SHEET_TABLE, wanted_table(density, erases, erases_len), label);
}

static void own_record(void)
{
    static const size_t lengths[] = {112, 113, 120, 255, 256, 4096};
    size_t i;

    for (i = 0; i < sizeof lengths / sizeof lengths[0]; i++)
        written(OWN_DENSITY, own, 4, lengths[i], sheet_table(), "the chip's own record");
}

/* The first type of exponent 0C, wherever it stands, names the 4 KiB erase; without one there is none. */
static void small_erases(void)
{
    static const uint32_t others[] = {1, 0x0B, 0x0D, 0x10, 0x1C, 0x2C, 0x8C, 0xFC, 0xFF};
    unsigned set, n, i, k;

    for (n = 0; n <= SLOTS; n++)
        for (set = 0; set < 1u << n; set++)
            for (k = 0; k < sizeof others / sizeof others[0]; k++) {
                uint32_t erases[2 * SLOTS];

                for (i = 0; i < n; i++) {
                    erases[2 * i] = set >> i & 1 ? 0x0C : others[(k + i) % (sizeof others / sizeof others[0])];
                    erases[2 * i + 1] = (0x21 + 0x36 * i + k) & 0xFF;
                }
                taken(set * 0x01020304u + k, erases, 2 * n, named("%u types, of 4 KiB those of %X", n, set));
            }
}

/* Every exponent with every opcode, in a slot by turns, the others as they are on the chip. */
static void every_pair(void)
{
    uint32_t exponent, opcode, erases[2 * SLOTS] = {0x0F, 0x52, 0x10, 0xD8, 0x0C, 0x20, 0x08, 0x81};

    for (exponent = 1; exponent < 256; exponent++)
        for (opcode = 0; opcode < 256; opcode++) {
            size_t slot = (exponent + opcode) % SLOTS;
            uint32_t kept[2] = {erases[2 * slot], erases[2 * slot + 1]};

            erases[2 * slot] = exponent;
            erases[2 * slot + 1] = opcode;
            taken(exponent * 0x1000193u + opcode, erases, 2 * SLOTS,
                  named("exponent %02lX and opcode %02lX", (unsigned long)exponent, (unsigned long)opcode));
            erases[2 * slot] = kept[0];
            erases[2 * slot + 1] = kept[1];
        }
}

void written_tables(void)
{
    unsigned bit;

    own_record();
    small_erases();
    every_pair();
    for (bit = 0; bit < 32; bit++) {
        taken((uint32_t)1 << bit, own, 4, named("bit %u of the density", bit));
        taken(~((uint32_t)1 << bit), own, 2, named("all but bit %u of the density", bit));
    }
    taken(0, NULL, 0, "an empty record");
    taken(0xFFFFFFFF, NULL, 0, "the highest density");
}

/* Numbers that do not fit a byte, some of them with a low byte that would. */
static const uint32_t too_large[] = {256, 257, 0x10C, 0x120, 0x1FF, 0x0C00, 65536, 0x1000C, 0x7FFFFFFF, 0x80000000,
                                     0x8000000C, 0xFFFFFF0C, 0xFFFFFFFF};
enum { TOO_LARGE = sizeof too_large / sizeof too_large[0] };

/* One number of a list of n types wrong: an exponent 0 or too large, an opcode too large; and the nearest that is right. */
static void wrong_numbers(unsigned n, size_t out_len)
{
    uint32_t erases[2 * SLOTS];
    unsigned at, k;

    for (at = 0; at < 2 * n; at++) {
        for (k = 0; k <= TOO_LARGE; k++) {
            memcpy(erases, own, sizeof own);
            memcpy(erases + 4, own, sizeof own);
            if (k == TOO_LARGE && at % 2 == 1)
                continue;
            erases[at] = k < TOO_LARGE ? too_large[k] : 0;
            not_written(OWN_DENSITY, erases, 2 * n, out_len,
                        named("%u types, number %u is %lu", n, at, (unsigned long)erases[at]));
        }
        erases[at] = 255;
        taken(OWN_DENSITY, erases, 2 * n, named("%u types, number %u is 255", n, at));
        erases[at] = at % 2 == 0 ? 1 : 0;
        taken(OWN_DENSITY, erases, 2 * n, named("%u types, number %u is the lowest", n, at));
    }
}

/* An odd count of numbers, and more than eight. */
static void wrong_counts(void)
{
    uint32_t erases[MOST_ERASES];
    size_t n;

    for (n = 0; n < MOST_ERASES; n++)
        erases[n] = n % 2 == 0 ? 0x0C + (uint32_t)n : 0x20 + (uint32_t)n;
    for (n = 0; n <= MOST_ERASES; n++) {
        if (n % 2 == 1 || n > 2 * SLOTS)
            not_written(OWN_DENSITY, erases, n, SHEET_TABLE, named("%lu numbers", (unsigned long)n));
        else
            taken(OWN_DENSITY, erases, n, named("%lu numbers", (unsigned long)n));
    }
}

void refused_records(void)
{
    unsigned n, bit;
    size_t out_len;

    for (n = 1; n <= SLOTS; n++) {
        wrong_numbers(n, SHEET_TABLE);
        wrong_numbers(n, 200);
    }
    wrong_counts();
    for (bit = 32; bit < 64; bit++) {
        not_written((uint64_t)1 << bit, own, 4, SHEET_TABLE, named("bit %u of the density", bit));
        not_written((uint64_t)1 << bit | OWN_DENSITY, own, 4, SHEET_TABLE, named("bit %u and the chip's own", bit));
    }
    not_written(UINT64_MAX, NULL, 0, SHEET_TABLE, "the highest number");
    not_written(UINT64_C(4294967296), NULL, 0, SHEET_TABLE, "one more than fits");
    for (out_len = 0; out_len < SHEET_TABLE; out_len++) {
        not_written(OWN_DENSITY, own, 4, out_len, named("a buffer of %lu bytes", (unsigned long)out_len));
        not_written(OWN_DENSITY, NULL, 0, out_len, named("a buffer of %lu bytes, no types", (unsigned long)out_len));
    }
}

/* Written, and read: the same density, as many types, and each of them in its slot. */
static void round_trip(uint32_t density, const uint32_t *erases, unsigned n, const char *label)
{
    uint8_t *t = table_of(SHEET_TABLE);
    uint32_t slot, exponent, opcode;

    rig_calls++;
    if (gwo_sfdp_write(density, erases, 2 * n, t, SHEET_TABLE) != 0)
        fail("%s: refused", label);
    table_read(0x30, 2, density, n, label);
    for (slot = 1; slot <= SLOTS; slot++) {
        rig_calls++;
        if (gwo_sfdp_erase(t, SHEET_TABLE, slot, &exponent, &opcode) != 0 ||
            exponent != (slot <= n ? erases[2 * slot - 2] : 0) || opcode != (slot <= n ? erases[2 * slot - 1] : 0xFF))
            fail("%s: slot %lu is read as %lu, %lu", label, (unsigned long)slot, (unsigned long)exponent,
                 (unsigned long)opcode);
    }
}

void round_trips(void)
{
    struct dice dice = {12};
    unsigned k, n, i;

    round_trip(OWN_DENSITY, own, 2, "the chip's own record");
    for (k = 0; k < 20000; k++) {
        uint32_t erases[2 * SLOTS];

        n = below(&dice, SLOTS + 1);
        for (i = 0; i < n; i++) {
            erases[2 * i] = chance(&dice, 30) ? 0x0C : 1 + below(&dice, 255);
            erases[2 * i + 1] = below(&dice, 256);
        }
        round_trip((uint32_t)roll(&dice), erases, n, named("record %u", k));
    }
}

/* A read of the chip's table by 5A, in pieces; it ends the program's group with a failure where it is refused. */
static void read_chip(uint8_t *t, size_t n, size_t piece)
{
    static uint8_t state[GWO_STATE_LENGTH], array[GWO_MODEL_2_LENGTH], frame[5 + 256], out[5 + 256];
    static uint32_t wear[GWO_MODEL_2_SECTORS];
    const struct gwo_record *r = &gwo_bench_model_2;
    uint32_t from, count, fold;
    size_t at, now;

    gwo_factory_state(state);
    frame[0] = 0x5A;
    for (at = 0; at < n; at += now) {
        now = n - at < piece ? n - at : piece;
        frame[3] = (uint8_t)at;
        rig_calls++;
        if (gwo_frame(r->model, r->status_us, r->page_us, r->sector_us, r->block_us, r->chip_us, r->half_us, r->sleep_us,
                      r->wake_us, r->sign_us, state, sizeof state, array, sizeof array, wear, GWO_MODEL_2_SECTORS, frame,
                      5 + now, 0, 1, 0, out, 5 + now, &from, &count, &fold) != 0 || from != 5 || count != now)
            fail("5A at %lu, %lu bytes: refused, or another count", (unsigned long)at, (unsigned long)now);
        memcpy(t + at, out + 5, now);
    }
}

/*
 * What a host reads of the chip is the sheet's record, and the writer of that record gives the bytes that were read. Of
 * more bytes than the table has the others are FF, and it is read as before; of fewer it is refused.
 */
void chip_tables(void)
{
    static const size_t pieces[] = {1, 2, 3, 4, 7, 8, 16, 64, 111, 112, 113, 255};
    static const size_t lengths[] = {112, 113, 128, 200, 255};
    size_t i, k;

    for (i = 0; i < sizeof pieces / sizeof pieces[0]; i++) {
        for (k = 0; k < sizeof lengths / sizeof lengths[0]; k++) {
            uint8_t *t = table_of(lengths[k]);

            read_chip(t, lengths[k], pieces[i]);
            same_bytes(t, sheet_table(), 0, SHEET_TABLE, "chip's table", "read by 5A");
            table_read(0x30, 2, OWN_DENSITY, 2, named("read by 5A, %lu bytes at a time", (unsigned long)pieces[i]));
            written(OWN_DENSITY, own, 4, SHEET_TABLE, t, "the bytes that were read, written");
        }
        read_chip(table_of(84), 84, pieces[i]);
        table_refused(32, "84 bytes read by 5A");
    }
}
