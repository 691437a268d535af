#include "jig_sfdp.h"

#include "jig.h"

void want_table(uint32_t from, uint32_t address)
{
    static uint8_t bytes[LONGEST_FRAME];
    size_t n = given.frame_len > from ? given.frame_len - from : 0, i;

    for (i = 0; i < n; i++)
        bytes[i] = sheet_byte(address + (uint32_t)i);
    if (n > 0)
        want_out(from, bytes, n);
}
