/* The independent model's report on a wear table (02, Req 06). */
#include "model.h"

/* As many counts as one of the three chips has sectors. */
static int is_table(size_t n)
{
    return n == 16 || n == 64 || n == 4096;
}

uint32_t ref_wear_report(const uint32_t *wear, size_t wear_len, uint64_t *total, uint32_t *smallest,
                         uint32_t *largest, uint32_t *sector, uint32_t *mean, uint32_t *remainder)
{
    uint64_t sum = 0;
    size_t low = 0, high = 0, i;

    if (!is_table(wear_len))
        return 24;
    for (i = 0; i < wear_len; i++) {
        sum += wear[i];
        if (wear[i] < wear[low])
            low = i;
        if (wear[i] > wear[high]) /* of equal ones the first stays */
            high = i;
    }
    *total = sum;
    *smallest = wear[low];
    *largest = wear[high];
    *sector = (uint32_t)high;
    *mean = (uint32_t)(sum / wear_len);
    *remainder = (uint32_t)(sum % wear_len);
    return 0;
}
