/*
 * The start and the end of a counted stretch, for the counter that tools/host.sh has
 * on this machine: callgrind's requests, or a system call number that qemu_counter.c sees.
 */
#ifndef MARK_H
#define MARK_H

#if defined(COUNT_BY_CALLGRIND)

#include <valgrind/callgrind.h>

#define MARK_START(row) CALLGRIND_ZERO_STATS
#define MARK_END(row, name) CALLGRIND_DUMP_STATS_AT(name)

#elif defined(COUNT_BY_QEMU)

#include <unistd.h>

#include "mark_number.h"

#define MARK_START(row) syscall(MARK_NUMBER, (long)(row), 1L)
#define MARK_END(row, name) syscall(MARK_NUMBER, (long)(row), 0L)

#else
#error "tools/host.sh count-flags says which counter"
#endif

#endif
