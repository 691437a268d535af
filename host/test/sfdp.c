/*
 * Every rule of the reader and the writer of SFDP tables through the C interface (02, Req 12), in buffers that end at
 * unmapped memory.
 *   sfdp [first [GROUP]]
 * With `first` it stops at a failure; with a group's name it runs that group alone.
 */
#include "sfdp.h"

static const struct group groups[] = {
    {"signatures", signatures},
    {"header counts", header_counts},
    {"table lengths", table_lengths},
    {"table pointers", table_pointers},
    {"refused in order", order_of_refusals},
    {"what is read", what_is_read},
    {"the sheet's table", sheet_tables},
    {"written tables", written_tables},
    {"refused records", refused_records},
    {"round trips", round_trips},
    {"the chip's table", chip_tables},
};

int main(int argc, char **argv)
{
    return rig_groups("sfdp", groups, sizeof groups / sizeof groups[0], NULL, argc, argv);
}
