/*
 * Every rule of 01, 02 and model 3 through the C interface, with the values that these and the sheets give.
 * Each call compares the answer, the state, the array, the counts, the whole output and the frame, in
 * buffers that end at unmapped memory; the array of model 3 is compared whole after each group.
 *   rules [first [GROUP]]
 * With `first` it stops at a failure; with a group's name it runs that group alone.
 */
#include "rules.h"

static const struct group groups[] = {
    {"refused before the command", refused_before_the_command},
    {"packed states", packed_states},
    {"refused by command", refused_by_command},
    {"refused in order", refused_in_order},
    {"lengths and tails", lengths_and_tails},
    {"state commands", state_commands},
    {"falling asleep and waking", falling_asleep_and_waking},
    {"configuration register", configuration},
    {"reading commands", reading_commands},
    {"SFDP reads", sfdp_reads},
    {"erasing", erasing},
    {"protected areas", protected_areas},
    {"programming", programming},
    {"folds", folds},
    {"strict programs", strict_programs},
    {"time and power", time_and_power},
    {"operations", operations},
    {"cuts", cuts},
    {"wear counts", wear_counts},
    {"wear reports", wear_reports},
    {"bench sheet", bench_sheet},
};

int main(int argc, char **argv)
{
    return rig_groups("rules", groups, sizeof groups / sizeof groups[0], jig_whole, argc, argv);
}
