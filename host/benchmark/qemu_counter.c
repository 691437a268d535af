/*
 * A plugin of qemu-user that counts guest instructions between the marks of mark.h and
 * writes a line `ROW INSTRUCTIONS` for each stretch into the file of its argument
 * counts=FILE, and at the program's end one, `all INSTRUCTIONS`, for all of it. It declares the few names it needs of qemu's plugin interface, since Debian
 * ships no header for it; VERSION is the interface version that it claims.
 */
#include <stddef.h>
#include <stdint.h>
#include <stdio.h>
#include <string.h>

#include "mark_number.h"

struct qemu_plugin_tb;
struct qemu_plugin_insn;
typedef uint64_t plugin_id;
typedef void translated(plugin_id, struct qemu_plugin_tb *);
typedef void executed(unsigned, void *);
typedef void system_call(plugin_id, unsigned, int64_t, uint64_t, uint64_t, uint64_t, uint64_t, uint64_t, uint64_t,
                         uint64_t, uint64_t);

void qemu_plugin_register_vcpu_tb_trans_cb(plugin_id, translated *);
void qemu_plugin_register_vcpu_insn_exec_cb(struct qemu_plugin_insn *, executed *, int flags, void *);
void qemu_plugin_register_vcpu_syscall_cb(plugin_id, system_call *);
size_t qemu_plugin_tb_n_insns(const struct qemu_plugin_tb *);
struct qemu_plugin_insn *qemu_plugin_tb_get_insn(const struct qemu_plugin_tb *, size_t);

enum { EXIT_GROUP = 231 }; /* the system call that ends an x86-64 program */

#define EXPORTED __attribute__((visibility("default")))

EXPORTED int qemu_plugin_version = VERSION;

static uint64_t instructions, at_start;
static FILE *counts;

static void instruction_runs(unsigned cpu, void *unused)
{
    (void)cpu, (void)unused;
    instructions++;
}

/*
 * Each instruction counts itself: a block's length is one too many where qemu 7.2 took back an
 * instruction that lies across a page end.
 */
static void block_translated(plugin_id id, struct qemu_plugin_tb *block)
{
    size_t n = qemu_plugin_tb_n_insns(block), i;

    (void)id;
    for (i = 0; i < n; i++)
        qemu_plugin_register_vcpu_insn_exec_cb(qemu_plugin_tb_get_insn(block, i), instruction_runs, 0, NULL);
}

static void mark(plugin_id id, unsigned cpu, int64_t number, uint64_t row, uint64_t start, uint64_t a3, uint64_t a4,
                 uint64_t a5, uint64_t a6, uint64_t a7, uint64_t a8)
{
    (void)id, (void)cpu, (void)a3, (void)a4, (void)a5, (void)a6, (void)a7, (void)a8;
    if (number == EXIT_GROUP)
        fprintf(counts, "all %llu\n", (unsigned long long)instructions);
    if (number == EXIT_GROUP)
        fflush(counts);
    if (number != MARK_NUMBER)
        return;
    if (start) {
        at_start = instructions;
        return;
    }
    fprintf(counts, "%llu %llu\n", (unsigned long long)row, (unsigned long long)(instructions - at_start));
    fflush(counts);
}

EXPORTED int qemu_plugin_install(plugin_id id, const void *info, int argc, char **argv)
{
    (void)info;
    if (argc != 1 || strncmp(argv[0], "counts=", 7) != 0)
        return -1;
    counts = fopen(argv[0] + 7, "w");
    if (counts == NULL)
        return -1;
    qemu_plugin_register_vcpu_tb_trans_cb(id, block_translated);
    qemu_plugin_register_vcpu_syscall_cb(id, mark);
    return 0;
}
