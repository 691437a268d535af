/*
 * The tables a, b and c of 002 (L546-656), a row a field: the byte address of the double word, the bits as the column
 * "DW Add (Bit)" has them, the value. Neither the archive's table nor the model's is looked at.
 */
#include "jig_sfdp.h"

#include <string.h>

static const struct {
    uint8_t at, high, low;
    uint32_t value;
} fields[] = {
    {0x00, 31, 0, 0x50444653},                                                      /* L546-549: the signature */
    {0x04, 7, 0, 0x00}, {0x04, 15, 8, 0x01}, {0x04, 23, 16, 0x01}, {0x04, 31, 24, 0xFF},            /* L550-553 */
    {0x08, 7, 0, 0x00}, {0x08, 15, 8, 0x00}, {0x08, 23, 16, 0x01}, {0x08, 31, 24, 0x09},            /* L554-557 */
    {0x0C, 23, 0, 0x30}, {0x0C, 31, 24, 0xFF},                                                      /* L558-561 */
    {0x10, 7, 0, 0xC2}, {0x10, 15, 8, 0x00}, {0x10, 23, 16, 0x01}, {0x10, 31, 24, 0x04},            /* L562-565 */
    {0x14, 23, 0, 0x60}, {0x14, 31, 24, 0xFF},                                                      /* L566-569 */
    {0x30, 1, 0, 1}, {0x30, 2, 2, 1}, {0x30, 3, 3, 0}, {0x30, 4, 4, 0}, {0x30, 7, 5, 7},            /* L576-580 */
    {0x30, 15, 8, 0x20}, {0x30, 16, 16, 1}, {0x30, 18, 17, 0}, {0x30, 19, 19, 0},                   /* L581-584 */
    {0x30, 20, 20, 0}, {0x30, 21, 21, 0}, {0x30, 22, 22, 0}, {0x30, 23, 23, 1}, {0x30, 31, 24, 0xFF}, /* L585-589 */
    {0x34, 31, 0, 0x001FFFFF},                                                                      /* L590 */
    {0x38, 4, 0, 0}, {0x38, 7, 5, 0}, {0x38, 15, 8, 0xFF},                                          /* L591-593 */
    {0x38, 20, 16, 0}, {0x38, 23, 21, 0}, {0x38, 31, 24, 0xFF},                                     /* L594-596 */
    {0x3C, 4, 0, 8}, {0x3C, 7, 5, 0}, {0x3C, 15, 8, 0x3B},                                          /* L601-603 */
    {0x3C, 20, 16, 0}, {0x3C, 23, 21, 0}, {0x3C, 31, 24, 0xFF},                                     /* L604-606 */
    {0x40, 0, 0, 0}, {0x40, 3, 1, 7}, {0x40, 4, 4, 0}, {0x40, 7, 5, 7}, {0x40, 31, 8, 0xFFFFFF},    /* L607-611 */
    {0x44, 15, 0, 0xFFFF}, {0x44, 20, 16, 0}, {0x44, 23, 21, 0}, {0x44, 31, 24, 0xFF},              /* L612-615 */
    {0x48, 15, 0, 0xFFFF}, {0x48, 20, 16, 0}, {0x48, 23, 21, 0}, {0x48, 31, 24, 0xFF},              /* L616-619 */
    {0x4C, 7, 0, 0x0C}, {0x4C, 15, 8, 0x20}, {0x4C, 23, 16, 0x10}, {0x4C, 31, 24, 0xD8},            /* L620-623 */
    {0x50, 7, 0, 0x00}, {0x50, 15, 8, 0xFF}, {0x50, 23, 16, 0x00}, {0x50, 31, 24, 0xFF},            /* L624-627 */
    {0x60, 15, 0, 0x3600}, {0x60, 31, 16, 0x2700},                                                  /* L634-635 */
    {0x64, 0, 0, 0}, {0x64, 1, 1, 1}, {0x64, 2, 2, 1}, {0x64, 3, 3, 0}, {0x64, 11, 4, 0xFF},        /* L636-640 */
    {0x64, 12, 12, 0}, {0x64, 13, 13, 0}, {0x64, 14, 14, 1}, {0x64, 15, 15, 0},                     /* L641-644 */
    {0x64, 23, 16, 0xFF}, {0x64, 31, 24, 0xFF},                                                     /* L645-646 */
    {0x68, 0, 0, 0}, {0x68, 1, 1, 1}, {0x68, 9, 2, 0xFF}, {0x68, 10, 10, 1}, {0x68, 11, 11, 0},     /* L647-651 */
    {0x68, 12, 12, 0}, {0x68, 13, 13, 0}, {0x68, 15, 14, 3}, {0x68, 31, 16, 0xFFFF},                /* L652-655 */
    {0x6C, 31, 0, 0xFFFFFFFF},                                                                      /* L656 */
};

/* A bit of the table, the lowest of a byte first. */
static void put_bit(uint8_t *table, unsigned at, unsigned value)
{
    uint8_t mask = (uint8_t)(1u << at % 8);

    table[at / 8] = (uint8_t)(value ? table[at / 8] | mask : table[at / 8] & ~mask);
}

/* What no row names is FF (L665). */
const uint8_t *sheet_table(void)
{
    static uint8_t table[SHEET_TABLE];
    size_t i;
    unsigned k;

    if (table[0] != 0)
        return table;
    memset(table, 0xFF, sizeof table);
    for (i = 0; i < sizeof fields / sizeof fields[0]; i++)
        for (k = fields[i].low; k <= fields[i].high; k++)
            put_bit(table, 8u * fields[i].at + k, fields[i].value >> (k - fields[i].low) & 1);
    return table;
}

uint8_t sheet_byte(uint32_t address)
{
    return address < SHEET_TABLE ? sheet_table()[address] : 0xFF;
}
