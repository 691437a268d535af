/* 01, Bench sheet: each of its cases, as it stands there, model 1 unless said; the cases of 52, and of model 3. */
#include "jig.h"
#include "rules.h"

static struct condition state(unsigned srwd, unsigned bp, unsigned wel, unsigned asleep, uint32_t busy_us)
{
    struct condition c = power_on;

    c.srwd = srwd;
    c.bp = bp;
    c.wel = wel;
    c.asleep = asleep;
    c.busy_us = busy_us;
    return c;
}

/* Of a chip that is otherwise as at power-on. */
static struct condition settling(unsigned asleep, uint32_t us)
{
    struct condition c = power_on;

    c.asleep = asleep;
    c.settling_us = us;
    return c;
}

static void given_frame(uint32_t model, struct condition c, const char *frame)
{
    jig_model(model);
    jig_state(c);
    jig_frame(frame);
}

static void next_frame(const char *frame)
{
    jig_next();
    jig_frame(frame);
}

/* A frame on the chip as it is, and the one byte that it drives. */
static void next_drives(const char *frame, const char *byte, const char *label)
{
    next_frame(frame);
    want_hex(1, byte);
    frame_gives(0, label);
}

static void power_on_status(void)
{
    given_frame(1, power_on, "0500");
    want_hex(1, "00");
    frame_gives(0, "power-on, 05 00 drives 00");
}

static void tails(void)
{
    given_frame(1, power_on, "06");
    given.tail = 1;
    frame_gives(14, "06 with tail 1");
    given_frame(1, power_on, "");
    given.tail = 7;
    frame_gives(10, "empty, tail 7");
}

static void refused_programs_and_erases(void)
{
    given_frame(1, state(0, 1, 0, 0, 0), "0200000000");
    frame_gives(15, "02 with WEL 0 and BP 1");
    given_frame(1, state(0, 1, 1, 0, 0), "20000000");
    frame_gives(17, "WEL 1, BP 1, 20 at 0: WEL still 1");
    given_frame(2, state(0, 1, 1, 0, 0), "2002FFFF");
    want_state(state(0, 1, 1, 0, bench(2).sector_us));
    frame_gives(0, "model 2, WEL 1, BP 1: 20 at 02FFFF");
    want_cells(0x2F000, SECTOR, 0xFF);
    completes(state(0, 1, 0, 0, 0), "model 2, BP 1: the end of 20 at 02FFFF");
    given_frame(2, state(0, 1, 1, 0, 0), "20030000");
    frame_gives(17, "model 2, WEL 1, BP 1: 20 at 030000");
}

static void folding(void)
{
    jig_model(1);
    jig_state(enabled);
    jig_cells(0, PAGE, 0xFF);
    jig_addressed(0x02, 0, 257, 0x22);
    given.frame[4] = 0x11;
    want_fold(1);
    want_state(state(0, 0, 1, 0, 5000));
    frame_gives(0, "fresh page, 257 data bytes at 0");
    want_cells(0, PAGE, 0x22);
    completes(power_on, "after the wait all 256 hold 22");
    jig_next();
    jig_addressed(0x03, 0, PAGE, 0x00);
    want_repeated(4, "22");
    frame_gives(0, "03 drives 22 from all 256");
    given_frame(1, enabled, "020000003C");
    jig_cells(0, 1, 0xF0);
    want_state(state(0, 0, 1, 0, 5000));
    frame_gives(0, "cell F0, data 3C");
    want_cells(0, 1, 0x30);
    completes(power_on, "after the wait 30");
}

static void status_lock(void)
{
    given_frame(1, state(1, 0, 1, 0, 0), "0100");
    given.wp = 0;
    frame_gives(16, "SRWD 1, WEL 1, 01 00, WP# low");
    next_frame("0100");
    want_state(state(1, 0, 1, 0, 15000));
    frame_gives(0, "SRWD 1, WEL 1, 01 00, WP# high");
    completes(power_on, "after the wait SRWD 0");
}

static void status_03_then_8C(void)
{
    given_frame(1, enabled, "01FF");
    want_state(state(0, 0, 1, 0, 15000));
    frame_gives(0, "01 FF");
    next_frame("0500");
    want_hex(1, "03");
    frame_gives(0, "status after 01 FF");
    jig_next();
    want_state(state(0, 0, 1, 0, 1));
    wait_gives(14999, 0, "14,999 us after 01 FF");
    next_drives("0500", "03", "status 14,999 us after 01 FF");
    jig_next();
    want_state(state(1, 3, 0, 0, 0));
    wait_gives(1, 0, "the wait after 01 FF");
    next_frame("0500");
    want_hex(1, "8C");
    frame_gives(0, "status after the wait");
}

static void sleeping(void)
{
    given_frame(1, state(0, 0, 0, 1, 0), "0500");
    frame_gives(12, "deep power-down, 05 00");
    given_frame(1, state(0, 0, 0, 1, 0), "AB00000000");
    want_state(settling(0, 10));
    want_hex(4, "05");
    frame_gives(0, "deep power-down, AB and four bytes drives 05");
}

/* The same from power-on, with the waits, and what is answered before them. */
static void sleeping_with_waits(void)
{
    given_frame(1, power_on, "B9");
    want_state(settling(1, 10));
    frame_gives(0, "power-on, B9");
    next_frame("0500");
    frame_gives(22, "05 00 right after B9");
    jig_next();
    want_state(settling(1, 0));
    wait_gives(10, 0, "10 us after B9");
    next_frame("0500");
    frame_gives(12, "05 00 after the wait");
    next_frame("AB00000000");
    want_state(settling(0, 10));
    want_hex(4, "05");
    frame_gives(0, "AB and four bytes after the wait drives 05");
    next_frame("0500");
    frame_gives(22, "05 00 right after AB and four bytes");
    jig_next();
    want_state(power_on);
    wait_gives(10, 0, "10 us after AB and four bytes");
    next_drives("0500", "00", "05 00 after the second wait");
}

static void last_cell_then_first(void)
{
    given_frame(1, power_on, "0300FFFF0000");
    jig_cells(0xFFFF, 1, 0xA5);
    jig_cells(0, 1, 0x5A);
    want_hex(4, "A55A");
    frame_gives(0, "03 00FFFF and two bytes");
}

/* The wear table is from the factory: one erase is counted, in sector 0. */
static void sector_erase_time(void)
{
    static const struct report one = {1, 0, 1, 0, 0, 1};

    given_frame(1, enabled, "20000000");
    jig_wear(0, 16, 0);
    want_state(state(0, 0, 1, 0, 120000));
    frame_gives(0, "20");
    jig_next();
    want_state(state(0, 0, 1, 0, 1));
    wait_gives(119999, 0, "119,999 us after 20");
    next_frame("0500");
    want_hex(1, "03");
    frame_gives(0, "status 119,999 us after 20");
    jig_next();
    want_cells(0, SECTOR, 0xFF);
    want_state(power_on);
    wait_gives(1, 0, "one more");
    next_frame("0500");
    want_hex(1, "00");
    frame_gives(0, "status 120,000 us after 20");
    report_gives(0, one, "the report after 20");
}

static void last_line(void)
{
    given_frame(1, enabled, "20000000");
    want_state(state(0, 0, 1, 0, 120000));
    frame_gives(0, "20 of an enabled chip");
    next_frame("FF");
    frame_gives(11, "busy and unknown");
    jig_model(1);
    jig_filled(0x03, LONGEST_FRAME + 1, 0);
    given.out_len = 100;
    frame_gives(4, "65,542 bytes with a short output");
    given_frame(1, power_on, "90000001000000");
    want_hex(4, "05C205");
    frame_gives(0, "90 00 00 01 and three bytes");
}

/* The first five calls of 01's log and the two reads: the program that folded. */
static void folded_program_of_the_log(void)
{
    given_frame(1, power_on, "06");
    jig_cells(0, 65536, 0xFF);
    want_state(enabled);
    frame_gives(0, "log line 1");
    next_frame("020000FFA55A");
    want_fold(1);
    want_state(state(0, 0, 1, 0, 5000));
    frame_gives(0, "log line 3");
    jig_next();
    want_cells(0xFF, 1, 0xA5);
    want_cells(0x00, 1, 0x5A);
    want_state(power_on);
    wait_gives(5000, 0, "log line 5");
    next_frame("0300000000");
    want_hex(4, "5A");
    frame_gives(0, "log line 7");
    next_frame("030000FF0000");
    want_hex(4, "A5FF");
    frame_gives(0, "log line 8");
}

/* 52 with WEL 1 and with WEL 0, and 52 alone: 21, and nothing changes; D8 in its place erases the block. */
static void block_erase_by_d8(void)
{
    given_frame(1, enabled, "52000000");
    frame_gives(21, "WEL 1, 52 at 0: WEL still 1");
    next_frame("0500");
    want_hex(1, "02");
    frame_gives(0, "status after 52");
    next_frame("D8000000");
    want_state(state(0, 0, 1, 0, 2000000));
    frame_gives(0, "D8 at 0");
    want_cells(0, BLOCK, 0xFF);
    completes(power_on, "after the wait the block is FF");
    given_frame(1, power_on, "52000000");
    frame_gives(21, "WEL 0, 52 at 0");
    given_frame(2, enabled, "52");
    given.tail = 7;
    frame_gives(21, "model 2, 52 alone, tail 7");
}

/* Busy with 52 since an older program: no call takes the state, whatever it has left of its time. */
static void left_in_52(uint32_t model, uint32_t us)
{
    const char *label = named("model %lu, 52 is running, %lu us are left", (unsigned long)model, (unsigned long)us);

    jig_model(model);
    jig_state(state(0, 0, 1, 0, us));
    jig_runs(0x52, 0x1234, NULL, 0);
    jig_frame("0500");
    frame_gives(3, label);
    wait_gives(us, 3, label);
    power_cycle_gives(3, label);
    jig_pattern(BLOCK);
    cut_gives(3, label);
}

static void stored_in_52(void)
{
    uint32_t model;

    for (model = 1; model <= 2; model++) {
        left_in_52(model, 1);
        left_in_52(model, bench(model).block_us);
    }
}

/* On model 3 it erases half a block, as before. */
static void model_3_half_block(void)
{
    given_frame(3, enabled, "52018000");
    want_state(state(0, 0, 1, 0, 1000000));
    frame_gives(0, "model 3, 52 at 018000");
    want_cells(0x18000, HALF_BLOCK, 0xFF);
    completes(power_on, "model 3, the end of 52 at 018000");
}

/* BP 1 and WEL 1: the highest block is protected, with TB the lowest; 17 clears WEL. */
static void model_3_top_and_bottom(void)
{
    struct condition c = state(0, 1, 1, 0, 0), after = c;

    given_frame(3, c, "20FEFFFF");
    after.busy_us = 400000;
    want_state(after);
    frame_gives(0, "model 3, TB 0, BP 1: 20 at FEFFFF");
    want_cells(0xFEF000, SECTOR, 0xFF);
    completes(state(0, 1, 0, 0, 0), "model 3, TB 0, BP 1: the end of 20 at FEFFFF");
    given_frame(3, c, "20FF0000");
    want_state(state(0, 1, 0, 0, 0));
    frame_gives(17, "model 3, TB 0, BP 1: 20 at FF0000, WEL 0");
    c.config = TB;
    given_frame(3, c, "20000000");
    after = c;
    after.wel = 0;
    want_state(after);
    frame_gives(17, "model 3, TB 1, BP 1: 20 at 0, WEL 0");
}

static void model_3_status_and_register(void)
{
    struct condition c = state(1, 15, 0, 0, 0);

    given_frame(3, power_on, "06");
    want_state(enabled);
    frame_gives(0, "model 3, power-on, 06");
    next_frame("01FFFF");
    want_state(state(0, 0, 1, 0, 40000));
    frame_gives(0, "model 3, 01 FF FF");
    next_drives("0500", "03", "model 3, status after 01 FF FF");
    next_drives("1500", "00", "model 3, register after 01 FF FF");
    jig_next();
    c.config = 0xDB;
    want_state(c);
    wait_gives(40000, 0, "model 3, the wait after 01 FF FF");
    next_drives("0500", "BC", "model 3, status after the wait");
    next_drives("1500", "DB", "model 3, register after the wait");
    jig_next();
    c.config = TB;
    want_state(c);
    power_cycle_gives(0, "model 3, a power cycle");
    next_drives("1500", "08", "model 3, register after the power cycle");
}

void bench_sheet(void)
{
    power_on_status();
    tails();
    refused_programs_and_erases();
    folding();
    status_lock();
    status_03_then_8C();
    sleeping();
    sleeping_with_waits();
    last_cell_then_first();
    sector_erase_time();
    last_line();
    folded_program_of_the_log();
    block_erase_by_d8();
    stored_in_52();
    model_3_half_block();
    model_3_top_and_bottom();
    model_3_status_and_register();
}
