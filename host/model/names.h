/* Given to the compiler before model.h (-include), it puts the independent model in the archive's place: its functions have the archive's names. */
#ifndef REF_NAMES_H
#define REF_NAMES_H

#define ref_frame gwo_frame
#define ref_wait gwo_wait
#define ref_power_cycle gwo_power_cycle
#define ref_cut gwo_cut
#define ref_wear_report gwo_wear_report
#define ref_sfdp_read gwo_sfdp_read
#define ref_sfdp_revision gwo_sfdp_revision
#define ref_sfdp_header gwo_sfdp_header
#define ref_sfdp_erase gwo_sfdp_erase
#define ref_sfdp_write gwo_sfdp_write
#define ref_play_lines gwo_play_lines
#define ref_play_last gwo_play_last
#define ref_sample gwo_sample
#define ref_samples gwo_samples

#endif
