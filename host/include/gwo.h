/*
 * Gwolunmade: three serial flash chips as a linkable model.
 *
 * The archive libpod.a answers frames as the Macronix KH25L512 (model 1), KH25L2006E
 * (model 2) and KH25L12845G (model 3) do. It keeps no memory of its own: the caller
 * lends the chip's state (272 packed bytes), its array and its wear table, and each call alters
 * them there. Every call is answered by a number (enum gwo_number), for any argument at all.
 *
 * A status write, program or erase takes time. The frame only starts it: the chip is busy, and the
 * state remembers what it is doing. Cells and register bits change when the time has run out, in the
 * wait that brings it to 0 and in the array that is lent to that wait; until then 05 and 15 show the
 * old bits. When the power is cut before that, the operation is left unfinished (gwo_cut).
 *
 * The wear table has a count for each sector: how often it was erased. Frames are lent it; waits, power
 * cycles and cuts are not. A frame that starts an erase adds one to the count of each sector that the
 * erase covers, at once, whether the erase then comes to its end or is cut. On a chip from the factory all
 * counts are 0. gwo_wear_report sums a table up.
 *
 * Firmware has the calls in one thing: struct gwo_chip, further down, and the functions gwo_chip_...
 * gwo_play_lines plays the text of a script on a chip. gwo_sample and gwo_samples make frames of the levels of the
 * pins, as a logic analyser records them.
 *
 * The caller's duties are those of C, and no others:
 *  - each pointer points to as many bytes as its length says, that to a wear table to as many
 *    32-bit numbers, and may be null where the length is 0;
 *  - the pointers to results (from, count and fold, the six of a report, those of a player of
 *    lines and those of samples) each point to a number of their own;
 *  - no two of the lent buffers overlap: the output is not the frame.
 *
 * A refused call changes no byte and no count that is lent to it. What it does to its results is said
 * with each: *from, *count and *fold of a refused frame become 0, and so do all results of a refused
 * reader of SFDP tables; those of a refused report are not written. The one exception is the
 * KH25L12845G's own: on model 3 a program or erase that protection refuses (17) clears the write
 * enable latch in the state, and 06 has to come again.
 *
 * The 272 bytes of a state: the status register; 1 in deep power-down, else 0; the configuration
 * register, 0 on models 1 and 2; 0; the microseconds that the chip is still busy, in four bytes,
 * low byte first; the microseconds that it still settles after B9 or AB, in four; the command of
 * the running operation; its address in the array, in three bytes, high byte first, or for a status
 * write 0, 0 and the number of its data bytes; and in the last 256 the data: of a page program by
 * their place in the page, of a status write as they were sent. What is not used of the last 260 is
 * FF, so all of them on an idle chip. gwo_factory_state lays a chip from the factory at power-on.
 *
 * A chip is in deep power-down at once after B9, and out of it at once after AB. Then it settles
 * and answers no frame (22), not even 05; a chip that was awake does not settle after AB.
 */
#ifndef GWO_H
#define GWO_H

#include <stddef.h>
#include <stdint.h>

#ifdef __cplusplus
extern "C" {
#endif

/* The version of this header, and of what is built with it. */
#define GWO_VERSION_MAJOR 1
#define GWO_VERSION_MINOR 0
#define GWO_VERSION "1.0"

/* Lengths, in bytes. */
#define GWO_STATE_LENGTH 272u   /* a packed state */
#define GWO_FRAME_LIMIT 65541u  /* the longest frame */
#define GWO_PAGE_LENGTH 256u
#define GWO_SECTOR_LENGTH 4096u
#define GWO_HALF_BLOCK_LENGTH 32768u /* erased by 52 on model 3; on models 1 and 2 it is withdrawn: 21 */
#define GWO_BLOCK_LENGTH 65536u
#define GWO_MODEL_1_LENGTH 65536u    /* the array of the KH25L512 */
#define GWO_MODEL_2_LENGTH 262144u   /* the array of the KH25L2006E */
#define GWO_MODEL_3_LENGTH 16777216u /* the array of the KH25L12845G */

#define GWO_LINE_LIMIT 640u          /* the longest script line, without its newline */
#define GWO_HELD_LENGTH 641u         /* what a player of lines is lent for a line that is not whole yet */
#define GWO_ROW_LENGTH 670u          /* the longest row of a log, with its newline */
#define GWO_FRONT_LENGTH 8u          /* what gwo_sample and gwo_samples remember between two samples */

/* Sectors: so many counts has the wear table. */
#define GWO_MODEL_1_SECTORS 16u
#define GWO_MODEL_2_SECTORS 64u
#define GWO_MODEL_3_SECTORS 4096u

#define GWO_WEAR_TOP 4294967295u /* the highest count */

#define GWO_SFDP_LENGTH 112u /* the SFDP table of the KH25L2006E, and each that gwo_sfdp_write writes */

/* What a call is answered. Of several that apply, the first in this order is given. */
enum gwo_number {
    GWO_DONE = 0,           /* taken: a status write, program or erase is started, all else is done */
    GWO_BAD_RECORD = 1,     /* the model isn't 1, 2 or 3, or a time isn't 1 to 1,000,000,000 us;
                               half_us must be 0 on models 1 and 2, and 1 to 1,000,000,000 on model 3 */
    GWO_BAD_ARRAY = 2,      /* the array's length isn't the model's */
    GWO_BAD_WEAR = 24,      /* the wear table's length isn't the model's number of sectors; of a report: no model's */
    GWO_BAD_STATE = 3,      /* the 272 bytes are not the packing of a valid state; of samples: the 8 bytes are no front's */
    GWO_IN_HOLD = 34,       /* of samples: CS# rose during a hold; the frame is dropped */
    GWO_BAD_FRAME = 4,      /* over 65,541 bytes, or over 7 tail bits; of samples: over 65,541 bytes or more than the
                               lent buffer has, and the frame is dropped */
    GWO_SHORT_OUTPUT = 5,   /* the output buffer is shorter than the frame; of a player of lines: the room for a line
                               or a row is not what it has to be */
    GWO_NO_COMMAND = 10,    /* no whole byte in the frame */
    GWO_SETTLING = 22,      /* still going into deep power-down or coming out of it, whatever the command */
    GWO_BUSY = 11,          /* busy, and the command isn't 05, nor 15 on model 3; or a power cycle while busy */
    GWO_ASLEEP = 12,        /* in deep power-down, and the command isn't AB */
    GWO_UNKNOWN = 13,       /* no command of this chip: 15 is one on model 3 only, 5A on model 2 only */
    GWO_WITHDRAWN = 21,     /* 52 on models 1 and 2, whatever its length and tail, with the write enable latch 0
                               or 1: it is not taken there any more; D8 erases the block */
    GWO_BAD_LENGTH = 14,    /* length or tail not allowed for the command */
    GWO_NOT_ENABLED = 15,   /* a write, program or erase with the write enable latch 0 */
    GWO_STATUS_LOCKED = 16, /* status write with SRWD 1 and WP# low */
    GWO_PROTECTED = 17,     /* the addressed unit is protected by BP (on model 3 by BP and TB);
                               on model 3 the write enable latch clears, and nothing else changes */
    GWO_NOT_ERASED = 19,    /* strict, and a program: a cell has a 0 where the byte that counts for it has a 1 */
    GWO_WEAR_FULL = 25,     /* an erase, and the count of a sector that it covers is 4,294,967,295 */
    GWO_NO_SFDP = 30,       /* a reader of SFDP tables: under 8 bytes, or they do not begin with 53 46 44 50 */
    GWO_SFDP_SHORT = 31,    /* the headers or one of the tables take more bytes than there are, or the first table is
                               under 36 bytes */
    GWO_SFDP_POINTER = 32,  /* a table does not end within the bytes */
    GWO_SFDP_RECORD = 33,   /* the writer: a number does not fit its place, an exponent is 0, an exponent lacks its
                               opcode, there are over four erase types, or under 112 bytes to write to */
    GWO_BAD_PATTERN = 23,   /* a cut whose pattern isn't as long as what the running operation changes */
    GWO_BAD_LINE = 20       /* a script line that is not well formed (in a row only) */
};

/* The number in words. */
static inline const char *gwo_text(uint32_t number)
{
    switch (number) {
    case GWO_DONE: return "done";
    case GWO_BAD_RECORD: return "record: model or a time out of range";
    case GWO_BAD_ARRAY: return "array length is not the model's";
    case GWO_BAD_WEAR: return "wear table's length is not the number of sectors";
    case GWO_BAD_STATE: return "state not valid";
    case GWO_IN_HOLD: return "CS# rose during a hold: the frame is dropped";
    case GWO_BAD_FRAME: return "frame over 65,541 bytes, or tail over 7 bits";
    case GWO_SHORT_OUTPUT: return "output buffer shorter than the frame";
    case GWO_NO_COMMAND: return "no whole byte in the frame";
    case GWO_SETTLING: return "still going into deep power-down, or coming out of it";
    case GWO_BUSY: return "busy";
    case GWO_ASLEEP: return "in deep power-down";
    case GWO_UNKNOWN: return "unknown command";
    case GWO_WITHDRAWN: return "command withdrawn on this chip";
    case GWO_BAD_LENGTH: return "length or tail not allowed for the command";
    case GWO_NOT_ENABLED: return "write enable latch not set";
    case GWO_STATUS_LOCKED: return "status register locked by SRWD and WP#";
    case GWO_PROTECTED: return "unit protected";
    case GWO_NOT_ERASED: return "strict: a cell would not hold the byte sent to it";
    case GWO_WEAR_FULL: return "erase count at its highest";
    case GWO_NO_SFDP: return "no SFDP signature, or under 8 bytes";
    case GWO_SFDP_SHORT: return "SFDP: more headers or a longer table than bytes, or a first table under 36 bytes";
    case GWO_SFDP_POINTER: return "SFDP: a table's pointer leads past the bytes";
    case GWO_SFDP_RECORD: return "SFDP: a field does not fit, an exponent is 0, or the buffer is under 112 bytes";
    case GWO_BAD_PATTERN: return "pattern length is not that of the running operation";
    case GWO_BAD_LINE: return "script line not well formed";
    default: return "no number of this model";
    }
}

/* Makes GWO_STATE_LENGTH bytes a chip from the factory at power-on: idle, awake, nothing protected. */
static inline void gwo_factory_state(uint8_t *state)
{
    size_t i;

    for (i = 0u; i < GWO_STATE_LENGTH; i++)
        state[i] = (uint8_t)(i < 12u ? 0x00u : 0xFFu);
}

/*
 * One frame: frame_len whole bytes clocked in while CS# is low, then tail bits;
 * wp 0 is WP# low, any other number high. out[i] is the byte driven while frame[i]
 * goes in; *from is the first driven position, *count how many are driven, both 0
 * when none. Positions not driven keep their contents. A frame takes no time, and changes no cell:
 * a program or an erase does so in the wait that ends it.
 *
 * *fold is 1 when a page program was taken that ran past the end of its page, so that it went on
 * at the start of the same page: the low address byte and the number of data bytes add up to
 * more than 256. It is 0 for every other frame.
 *
 * wear has wear_len counts, one for each sector: 16, 64 or 4,096. Where the frame starts an erase each sector that
 * it covers is counted: 1 by 20; 16 by D8; 8 by 52, which only model 3 takes; all by 60 and C7. An erase is
 * refused (25), and nothing is counted, when one of these counts could not rise. No other frame looks at the counts.
 *
 * strict 0 is off, any other number on. Off, a program clears bits of whatever the cells hold, as the chip does. On,
 * it is refused (19) unless every cell that it reaches will hold the byte that counts for it, which is the last one
 * sent to its place in the page: firmware that forgot to erase is told so. Cells that are not reached are not looked
 * at, and a cell that holds the byte already is in order. Each frame has its own setting, which no other command heeds.
 */
uint32_t gwo_frame(uint32_t model, uint32_t status_us, uint32_t page_us, uint32_t sector_us,
                   uint32_t block_us, uint32_t chip_us, uint32_t half_us,
                   uint32_t sleep_us, uint32_t wake_us, uint32_t sign_us,
                   uint8_t *state, size_t state_len, const uint8_t *array, size_t array_len,
                   uint32_t *wear, size_t wear_len,
                   const uint8_t *frame, size_t frame_len, uint32_t tail, uint32_t wp, uint32_t strict,
                   uint8_t *out, size_t out_len, uint32_t *from, uint32_t *count, uint32_t *fold);

/*
 * us microseconds pass. When they use up the time of the running operation, its change is made, in the lent
 * array or in the registers; the write enable latch clears, and the operation is forgotten. Only 1, 2 and 3 can
 * refuse it.
 */
uint32_t gwo_wait(uint32_t model, uint32_t status_us, uint32_t page_us, uint32_t sector_us,
                  uint32_t block_us, uint32_t chip_us, uint32_t half_us,
                  uint32_t sleep_us, uint32_t wake_us, uint32_t sign_us,
                  uint8_t *state, size_t state_len, uint8_t *array, size_t array_len, uint32_t us);

/*
 * Power off and on again: SRWD and BP stay, on model 3 TB too. Only 1, 3 and 11 can refuse it: to take the
 * power from a chip that is busy is to cut it (gwo_cut).
 */
uint32_t gwo_power_cycle(uint32_t model, uint32_t status_us, uint32_t page_us, uint32_t sector_us,
                         uint32_t block_us, uint32_t chip_us, uint32_t half_us,
                         uint32_t sleep_us, uint32_t wake_us, uint32_t sign_us,
                         uint8_t *state, size_t state_len);

/*
 * The power is cut at this moment, as when a board is pulled, and comes back. What a running operation leaves
 * is anybody's guess, so the caller says it, bit by bit, in the pattern:
 *  - idle, or settling: nothing is lost, and pattern_len is 0;
 *  - an erase leaves the pattern in its unit: 4,096, 32,768 or 65,536 bytes, or as many as the array has;
 *  - a program leaves the pattern's bit wherever it was to clear a bit of its page, and every other bit as it
 *    was: 256 bytes, one for each cell of the page, whatever the address and the number of data bytes;
 *  - a status write leaves the pattern's bit wherever it was to change SRWD, BP or, by a second data byte, TB,
 *    and these as they were otherwise: a byte for each data byte, its bits at their places in the register.
 * A pattern of the old contents is an operation that had not begun, one of the new contents an operation that
 * was through. Nothing outside the unit changes. Then the chip is as after a power cycle: idle, awake and
 * settled, with the write enable latch 0, and the operation is forgotten. Only 1, 2, 3 and 23 can refuse it.
 */
uint32_t gwo_cut(uint32_t model, uint32_t status_us, uint32_t page_us, uint32_t sector_us,
                 uint32_t block_us, uint32_t chip_us, uint32_t half_us,
                 uint32_t sleep_us, uint32_t wake_us, uint32_t sign_us,
                 uint8_t *state, size_t state_len, uint8_t *array, size_t array_len,
                 const uint8_t *pattern, size_t pattern_len);

/*
 * What a wear table comes to: *total is the sum of its counts, *smallest and *largest are two of them, and *sector
 * is the first sector that has the largest; *mean is the whole part of total / wear_len, and *remainder what is
 * left. The table is only read. Only 24 can refuse it, and then none of the six is written.
 */
uint32_t gwo_wear_report(const uint32_t *wear, size_t wear_len, uint64_t *total, uint32_t *smallest,
                         uint32_t *largest, uint32_t *sector, uint32_t *mean, uint32_t *remainder);

/* ---- SFDP, the table in which a chip says what it is (JESD216). On model 2 the frame 5A, three address bytes, a dummy
 * byte reads it: its 112 bytes from the address on, FF past them. The address is taken as it is sent, not modulo
 * anything. The functions below know no chip: they read such a table, any chip's, and write one. Numbers of several
 * bytes have the low byte first, and every result points to a number of its own.
 *
 * The reader: bytes are what a host has read from address 0 on. Answers 0, 30, 31 or 32, each over the whole table:
 * first the signature, then all lengths, then all pointers. At 30, 31 and 32 every result is 0. The table is only
 * read. Revisions, ids and unused bytes are not judged.
 * gwo_sfdp_read: *headers is their number, 1 to 256; *density the field as it stands, on the KH25L2006E the bits of
 *   the chip less one; *types how many of the four erase types exist, wherever they stand.
 * gwo_sfdp_revision: bytes 5 and 4, the major and minor revision, answered as the bytes are.
 * gwo_sfdp_header: the parameter header of an index from 0; *words its table's length in double words, *pointer where it
 *   starts. An index that is no header's: answered as the bytes are, all five results 0.
 * gwo_sfdp_erase: the erase type of a slot 1 to 4 as it stands: it erases 2 to the power of *exponent bytes by the
 *   command *opcode; exponent 0 where there is none. Another slot: answered as the bytes are, both results 0.
 *
 * The table says what the sheet of the KH25L2006E says, and that is more than the model plays: it names 3B, the read on
 * two wires, which is answered 13. Firmware that goes by the table must not take 3B from it. */
uint32_t gwo_sfdp_read(const uint8_t *bytes, size_t len, uint32_t *headers, uint32_t *density, uint32_t *types);
uint32_t gwo_sfdp_revision(const uint8_t *bytes, size_t len, uint32_t *minor, uint32_t *major);
uint32_t gwo_sfdp_header(const uint8_t *bytes, size_t len, uint32_t index, uint32_t *id, uint32_t *minor, uint32_t *major,
                         uint32_t *words, uint32_t *pointer);
uint32_t gwo_sfdp_erase(const uint8_t *bytes, size_t len, uint32_t slot, uint32_t *exponent, uint32_t *opcode);
/* The writer: `erases` holds erases_len numbers, an exponent and an opcode for each erase type, so 0, 2, 4, 6 or 8. It
 * writes 112 bytes at the head of out: the table of the KH25L2006E with this density and these erase types, in slots 1 on. The first type
 * with exponent 12 is also named as the erase of 4 KiB. What it writes, the reader reads as the same density and the same
 * types. Answers 0 or 33, and at 33 nothing is written; the rest of out stays always. */
uint32_t gwo_sfdp_write(uint64_t density, const uint32_t *erases, size_t erases_len, uint8_t *out, size_t out_len);

/*
 * Lines of a script, played on a chip; the text comes in blocks, which may end anywhere. The lines that end in the block
 * are played one after the other, as gwo_frame, gwo_wait and gwo_power_cycle do it, and for each a row goes into log,
 * without a header: what the line is answered stands there, a 20 for one that is not well formed, and a 1, 2, 24 or 3
 * for every line of a chip that is not in order.
 *
 * held is GWO_HELD_LENGTH lent bytes, which keep the start of a line that the blocks before left open. *used of them
 * are in use: 0 at the start, and 641 for a line that is over 640 bytes already. *line is the number of the next line,
 * 1 at the start.
 *
 * It goes on until the block is used up or the log lacks room for one more row, GWO_ROW_LENGTH bytes. *taken bytes of
 * the block are used then, and *written bytes of the log: the caller empties the log and comes again with the rest.
 *
 * Answers 0; 3 where the state is no packing (a length other than 272, a bit that is never set, WIP that is not as the
 * busy time has it); 5 where held_len is not 641, or *used is above it. At 3 and 5 nothing changes, and *taken and
 * *written are 0.
 */
uint32_t gwo_play_lines(uint32_t model, uint32_t status_us, uint32_t page_us, uint32_t sector_us,
                        uint32_t block_us, uint32_t chip_us, uint32_t half_us,
                        uint32_t sleep_us, uint32_t wake_us, uint32_t sign_us, uint32_t strict,
                        uint8_t *state, size_t state_len, uint8_t *array, size_t array_len,
                        uint32_t *wear, size_t wear_len,
                        uint8_t *held, size_t held_len, uint32_t *used, uint64_t *line,
                        const uint8_t *script, size_t script_len, uint8_t *log, size_t log_len,
                        uint64_t *taken, uint64_t *written);

/*
 * The text has ended: a line that is held lacks its newline, and is the last one. It is played, *line is one more and
 * *used 0; held is only read. Where none is held nothing is played. Answered as above, and 5 also where the log has no room for a row.
 */
uint32_t gwo_play_last(uint32_t model, uint32_t status_us, uint32_t page_us, uint32_t sector_us,
                       uint32_t block_us, uint32_t chip_us, uint32_t half_us,
                       uint32_t sleep_us, uint32_t wake_us, uint32_t sign_us, uint32_t strict,
                       uint8_t *state, size_t state_len, uint8_t *array, size_t array_len,
                       uint32_t *wear, size_t wear_len,
                       const uint8_t *held, size_t held_len, uint32_t *used, uint64_t *line,
                       uint8_t *log, size_t log_len, uint64_t *written);

/* A sample: the levels of five pins in a number, a bit each, 1 where the pin is high. Higher bits are ignored. */
#define GWO_LEVEL_CS 1u    /* CS# */
#define GWO_LEVEL_SCLK 2u
#define GWO_LEVEL_SI 4u
#define GWO_LEVEL_WP 8u    /* WP# */
#define GWO_LEVEL_HOLD 16u /* HOLD# */

/* Makes GWO_FRONT_LENGTH bytes a front before its first sample: CS# is high, SCLK low, nothing is held. */
static inline void gwo_first_front(uint8_t *front)
{
    size_t i;

    for (i = 0u; i < GWO_FRONT_LENGTH; i++)
        front[i] = (uint8_t)(i == 0u ? GWO_LEVEL_CS : 0u);
}

/*
 * One sample of the pins. A frame begins in the sample where CS# falls. It takes a bit, SI's level, at each rise of SCLK that is
 * not held, the high bit of a byte first. In the sample where CS# rises it is handed over: *ready is 1, *bytes whole bytes stand at
 * the head of `frame`, *tail bits came after them, and *wp is the level of WP# in the sample where CS# fell. That is what gwo_frame
 * takes. After any other sample *ready, *bytes, *tail and *wp are 0. No other edge counts in a sample where CS# moves.
 *
 * Held: a sample with SCLK low is held exactly if HOLD# is low, one with SCLK high if the sample before it was. CS# does not matter.
 *
 * front is GWO_FRONT_LENGTH lent bytes that go on from sample to sample, gwo_first_front at the start. frame is the buffer that the
 * bytes are collected in, the same one throughout a frame; with GWO_FRAME_LIMIT bytes it has room for every frame of the chips, and
 * tail bits need none. A sample changes at most one byte of it, and takes no time: the caller sends waits between frames.
 *
 * Answers 0; 3 where the front is no packing, and then nothing changes. When CS# rises: 34 where the sample before was held, else 4
 * where the frame had over 65,541 bytes, or more than the buffer. At 34 and 4 the frame is dropped; the next one begins at the next fall.
 *
 * The eight bytes of a front: bit 0 CS# of the last sample, 1 its SCLK, 2 whether it was held, 3 WP# at the fall, 4 whether the frame
 * has outgrown its room; the number of bits of the byte begun, 0 to 7; their value; 0; the number of whole bytes so far, in four, low
 * byte first. With CS# high all but bits 0 to 2 is 0, and of a frame that has outgrown its room all but bits 0 to 4.
 */
uint32_t gwo_sample(uint8_t *front, size_t front_len, uint8_t *frame, size_t frame_len, uint32_t levels,
                    uint32_t *ready, uint32_t *bytes, uint32_t *tail, uint32_t *wp);

/*
 * The same for a run of samples, a byte each: it goes on until one of them hands a frame over or is answered 34 or 4, or to
 * the end. *used counts the samples taken, that one included. However a capture is cut into runs, the same comes of it.
 */
uint32_t gwo_samples(uint8_t *front, size_t front_len, uint8_t *frame, size_t frame_len,
                     const uint8_t *levels, size_t levels_len,
                     uint64_t *used, uint32_t *ready, uint32_t *bytes, uint32_t *tail, uint32_t *wp);

/*
 * The chip record under one name. Firmware that fills it from a bench record, or by field names in an
 * initialiser, compiles unchanged when the record gains further times. A time that it does not name is
 * 0. half_us has to be 0 on models 1 and 2; for a sleep_us, wake_us or sign_us of 0 the functions below
 * take the model's bench value. gwo_frame, gwo_wait, gwo_power_cycle and gwo_cut themselves answer 1 to
 * a 0 there.
 */
struct gwo_record {
    uint32_t model;     /* 1, 2 or 3 */
    uint32_t status_us; /* busy after a status write, in microseconds */
    uint32_t page_us;   /* busy after a page program */
    uint32_t sector_us; /* busy after a sector erase */
    uint32_t block_us;  /* busy after a block erase */
    uint32_t chip_us;   /* busy after a chip erase */
    uint32_t half_us;   /* busy after a half block erase; 0 on models 1 and 2, which have none */
    uint32_t sleep_us;  /* settling after B9 */
    uint32_t wake_us;   /* settling after AB of 1 byte, if the chip was asleep */
    uint32_t sign_us;   /* settling after AB of 5 bytes or more, if the chip was asleep */
};

/*
 * The maximum times of the data sheets: KH25L512 (model 1), KH25L2006E (model 2) and KH25L12845G
 * (model 3). For model 2 the customer's page prints house and typical values (15,000, 3,000,
 * 40,000, 400,000, 2,000,000), but its own rule is the maximum where the sheet gives one, and the
 * KH25L2006E's sheet gives all five. The last three are rounded up to whole microseconds; those of
 * model 1 are house values. Firmware that wants other times fills a record of its own.
 */
static const struct gwo_record gwo_bench_model_1 = {1u, 15000u, 5000u, 120000u, 2000000u, 2000000u, 0u,
                                                    10u, 10u, 10u};
static const struct gwo_record gwo_bench_model_2 = {2u, 40000u, 3000u, 200000u, 2000000u, 3800000u, 0u,
                                                    10u, 9u, 9u};
static const struct gwo_record gwo_bench_model_3 = {3u, 40000u, 750u, 400000u, 2000000u, 100000000u, 1000000u,
                                                    10u, 30u, 30u};

/* The array length that a model has; 0 for a number that is no model. */
static inline size_t gwo_array_length(uint32_t model)
{
    switch (model) {
    case 1u: return GWO_MODEL_1_LENGTH;
    case 2u: return GWO_MODEL_2_LENGTH;
    case 3u: return GWO_MODEL_3_LENGTH;
    default: return 0u;
    }
}

/* The number of sectors that a model has, as many counts as its wear table; 0 for a number that is no model. */
static inline size_t gwo_sector_count(uint32_t model)
{
    return gwo_array_length(model) / GWO_SECTOR_LENGTH;
}

/* The bench record of a model; null for a number that is no model. */
static inline const struct gwo_record *gwo_bench(uint32_t model)
{
    switch (model) {
    case 1u: return &gwo_bench_model_1;
    case 2u: return &gwo_bench_model_2;
    case 3u: return &gwo_bench_model_3;
    default: return NULL;
    }
}

/* The record with every time of sleep: one that is 0 becomes the model's bench value. */
static inline struct gwo_record gwo_record_filled(const struct gwo_record *r)
{
    const struct gwo_record *bench = gwo_bench(r->model);
    struct gwo_record filled = *r;

    if (bench == NULL)
        return filled; /* no model: every call is answered 1 */
    if (filled.sleep_us == 0u)
        filled.sleep_us = bench->sleep_us;
    if (filled.wake_us == 0u)
        filled.wake_us = bench->wake_us;
    if (filled.sign_us == 0u)
        filled.sign_us = bench->sign_us;
    return filled;
}

/*
 * A chip in one thing. The caller owns all of it, the array and the wear table too, which it lends for as long as the
 * chip is used, and may look at every part between two calls. wp and strict are heeded by each frame as they stand.
 */
struct gwo_chip {
    struct gwo_record record;
    uint8_t state[GWO_STATE_LENGTH];
    uint8_t *array; /* gwo_array_length(record.model) cells */
    size_t array_len;
    uint32_t *wear; /* gwo_sector_count(record.model) counts */
    size_t wear_len;
    uint32_t wp;     /* WP#: 0 low, any other number high */
    uint32_t strict; /* 0 off, any other number on: a program over old data is refused (19) */
};

/* What a frame comes to: its answer, the first driven position and how many (0 and 0: none), and whether it folded. */
struct gwo_reply {
    uint32_t answer, from, count, fold;
};

/* What a wear table comes to, as of gwo_wear_report. */
struct gwo_sheet {
    uint64_t total;
    uint32_t smallest, largest, sector, mean, remainder;
};

/* us microseconds pass. */
static inline uint32_t gwo_chip_wait(struct gwo_chip *c, uint32_t us)
{
    const struct gwo_record *r = &c->record;

    return gwo_wait(r->model, r->status_us, r->page_us, r->sector_us, r->block_us, r->chip_us, r->half_us, r->sleep_us,
                    r->wake_us, r->sign_us, c->state, sizeof c->state, c->array, c->array_len, us);
}

/*
 * A chip from the factory at power-on: idle, awake, nothing protected, every cell FF, every count 0; WP# high, strict
 * off. Cells and counts that were kept from another run are put there after it. Answers 1, 2 or 24 where the record,
 * the array's length or the table's is not in order; no cell and no count changes then, and every frame is answered so.
 */
static inline uint32_t gwo_chip_init(struct gwo_chip *c, const struct gwo_record *record, uint8_t *array,
                                     size_t array_len, uint32_t *wear, size_t wear_len)
{
    const struct gwo_record none = {0u, 0u, 0u, 0u, 0u, 0u, 0u, 0u, 0u, 0u};
    uint32_t number;
    size_t i;

    c->record = record == NULL ? none : gwo_record_filled(record);
    gwo_factory_state(c->state);
    c->array = array;
    c->array_len = array_len;
    c->wear = wear;
    c->wear_len = wear_len;
    c->wp = 1u;
    c->strict = 0u;
    number = gwo_chip_wait(c, 0u);
    if (number == GWO_DONE && wear_len != gwo_sector_count(c->record.model))
        number = GWO_BAD_WEAR;
    if (number != GWO_DONE)
        return number;
    for (i = 0u; i < array_len; i++)
        array[i] = 0xFFu;
    for (i = 0u; i < wear_len; i++)
        wear[i] = 0u;
    return GWO_DONE;
}

/*
 * A frame: n bytes of tx and tail bits go in while CS# is low. rx has room for n bytes, and is not tx; what is driven
 * stands there at its positions, reply.from on, and the others keep their contents.
 */
static inline struct gwo_reply gwo_chip_send(struct gwo_chip *c, const void *tx, void *rx, size_t n, uint32_t tail)
{
    const struct gwo_record *r = &c->record;
    struct gwo_reply reply;

    reply.answer = gwo_frame(r->model, r->status_us, r->page_us, r->sector_us, r->block_us, r->chip_us, r->half_us,
                             r->sleep_us, r->wake_us, r->sign_us, c->state, sizeof c->state, c->array, c->array_len,
                             c->wear, c->wear_len, (const uint8_t *)tx, n, tail, c->wp, c->strict, (uint8_t *)rx,
                             rx == NULL ? 0u : n, &reply.from, &reply.count, &reply.fold);
    return reply;
}

/* How many microseconds the chip is still busy or settles; 0 where it is ready. */
static inline uint32_t gwo_chip_left(const struct gwo_chip *c)
{
    const uint8_t *s = c->state;
    const uint32_t busy = s[4] | (uint32_t)s[5] << 8 | (uint32_t)s[6] << 16 | (uint32_t)s[7] << 24;
    const uint32_t settling = s[8] | (uint32_t)s[9] << 8 | (uint32_t)s[10] << 16 | (uint32_t)s[11] << 24;

    return busy > settling ? busy : settling;
}

/* As much time passes as is left: what runs comes to its end. */
static inline uint32_t gwo_chip_finish(struct gwo_chip *c)
{
    return gwo_chip_wait(c, gwo_chip_left(c));
}

/* Power off and on again; 11 while the chip is busy. */
static inline uint32_t gwo_chip_power_cycle(struct gwo_chip *c)
{
    const struct gwo_record *r = &c->record;

    return gwo_power_cycle(r->model, r->status_us, r->page_us, r->sector_us, r->block_us, r->chip_us, r->half_us,
                           r->sleep_us, r->wake_us, r->sign_us, c->state, sizeof c->state);
}

/* The power is cut at this moment and comes back: pattern is what a running operation leaves (gwo_cut). */
static inline uint32_t gwo_chip_cut(struct gwo_chip *c, const void *pattern, size_t pattern_len)
{
    const struct gwo_record *r = &c->record;

    return gwo_cut(r->model, r->status_us, r->page_us, r->sector_us, r->block_us, r->chip_us, r->half_us, r->sleep_us,
                   r->wake_us, r->sign_us, c->state, sizeof c->state, c->array, c->array_len,
                   (const uint8_t *)pattern, pattern_len);
}

/* What the chip's wear table comes to. */
static inline uint32_t gwo_chip_wear(const struct gwo_chip *c, struct gwo_sheet *sheet)
{
    return gwo_wear_report(c->wear, c->wear_len, &sheet->total, &sheet->smallest, &sheet->largest, &sheet->sector,
                           &sheet->mean, &sheet->remainder);
}

#ifdef __cplusplus
}
#endif

/* The names that firmware used before struct gwo_chip. */
#ifndef GWO_NO_OLDER_NAMES
#include "gwo_older.h"
#endif

#endif
