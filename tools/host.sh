#!/bin/sh
# The one script that knows the machine. Everything that Rattle compiles is x86-64 code: on x86-64
# the native compiler makes its C hosts and they run as they are; on Arm Debian's cross compiler makes
# them, statically linked, and qemu-x86_64 runs them. A missing tool is installed with apt-get.
#
#   tools/host.sh machine              native or emulated
#   tools/host.sh cc ARG..             compile and link C for x86-64
#   tools/host.sh cxx ARG..            the same for C++
#   tools/host.sh ar ARG..             the archiver for x86-64
#   tools/host.sh here COMPILER ARG..  compile and link for this machine itself, with its gcc, g++ or clang
#   tools/host.sh run PROGRAM ARG..    run an x86-64 program that `cc` or `cxx` linked
#   tools/host.sh program PROGRAM ..   run an x86-64 program that `rt` linked
#   tools/host.sh emulator run|program the words that run one or the other, on a machine that needs them
#   tools/host.sh python ARG..         run Python
#   tools/host.sh need COMMAND PACKAGE..  install the packages, if the command is missing
#   tools/host.sh count-flags          what the benchmark is compiled with, so that its rows can be counted
#   tools/host.sh count DIR PROGRAM    run it, and print a line `ROW INSTRUCTIONS` for each stretch it
#                                      marked; DIR takes what is left over
#   tools/host.sh count-all DIR run|program PROGRAM ARG..
#                                      run it, as one of the two above, and print how many instructions it took in all;
#                                      what it writes to standard output is in DIR/out
#   tools/host.sh counter              what counts, with its version
#
# GWO_MACHINE=aarch64 on x86-64 takes Arm's way there, to try it.
set -eu

root=$(cd "$(dirname "$0")/.." && pwd)
machine=${GWO_MACHINE:-$(uname -m)}
case $machine in
x86_64) way=native ;;
aarch64) way=emulated ;;
*) echo "tools/host.sh: no way is known for a machine of kind $machine" >&2; exit 1 ;;
esac

# need COMMAND PACKAGE..: installs the packages if the command is missing.
need() {
    command -v "$1" >/dev/null 2>&1 && return 0
    wanted=$1
    shift
    echo "tools/host.sh: $wanted is missing, installing $*" >&2
    export DEBIAN_FRONTEND=noninteractive
    if ! apt-get install -y --no-install-recommends "$@" >&2; then
        apt-get update >&2
        apt-get install -y --no-install-recommends "$@" >&2
    fi
    command -v "$wanted" >/dev/null 2>&1 || { echo "tools/host.sh: $wanted is still missing" >&2; exit 1; }
}

native_cc() {
    need gcc gcc libc6-dev
}

cc() {
    if [ $way = native ]; then
        native_cc
        exec gcc "$@"
    fi
    need x86_64-linux-gnu-gcc gcc-x86-64-linux-gnu libc6-dev-amd64-cross
    exec x86_64-linux-gnu-gcc -static "$@"
}

archiver() {
    if [ $way = native ]; then
        need ar binutils
        exec ar "$@"
    fi
    need x86_64-linux-gnu-ar binutils-x86-64-linux-gnu
    exec x86_64-linux-gnu-ar "$@"
}

cxx() {
    if [ $way = native ]; then
        need g++ g++ libc6-dev
        exec g++ "$@"
    fi
    need x86_64-linux-gnu-g++ g++-x86-64-linux-gnu libc6-dev-amd64-cross
    # Debian's cross libm.a names files where the cross compiler does not keep them: link without it.
    exec x86_64-linux-gnu-g++ -static "$@" -nodefaultlibs -Wl,--start-group -lstdc++ -lgcc -lgcc_eh -lc -Wl,--end-group
}

here() {
    compiler=$1
    shift
    case $compiler in
    gcc) need gcc gcc libc6-dev ;;
    g++) need g++ g++ libc6-dev ;;
    clang) need clang clang libclang-rt-dev libc6-dev ;;
    *) echo "tools/host.sh: $compiler is not gcc, g++ or clang" >&2; exit 2 ;;
    esac
    exec "$compiler" "$@"
}

# The archive is for any x86-64. What `rt` links is for x86-64-v2, and finds the loader and the C library that come with the cross compiler.
emulator() {
    case $1 in
    run) echo 'qemu-x86_64 -cpu qemu64' ;;
    program) echo 'qemu-x86_64 -cpu Nehalem -L /usr/x86_64-linux-gnu' ;;
    esac
}

run() {
    [ $way = native ] && exec "$@"
    need qemu-x86_64 qemu-user
    exec $(emulator run) "$@"
}

program() {
    [ $way = native ] && exec "$@"
    need qemu-x86_64 qemu-user
    need x86_64-linux-gnu-gcc gcc-x86-64-linux-gnu libc6-dev-amd64-cross
    exec $(emulator program) "$@"
}

# Callgrind writes one file for each marked stretch: its mark in `desc: Trigger`, its count in `totals`.
count_native() {
    dir=$1
    shift
    need valgrind valgrind
    rm -f "$dir"/stretch.*
    valgrind --tool=callgrind --callgrind-out-file="$dir/stretch" "$@" >"$dir/valgrind.log" 2>&1 ||
        { cat "$dir/valgrind.log" >&2; exit 1; }
    awk '/^desc: Trigger: Client Request: / { row = $NF }
         /^totals: / && row != "" { print row, $2; row = "" }' "$dir"/stretch.*
}

# The plugin's interface has had several versions; qemu says no to all but those it knows.
count_emulated() {
    dir=$1
    shift
    need qemu-x86_64 qemu-user
    native_cc
    for version in 1 2 3 4 5 6; do
        gcc -O2 -shared -fPIC -DVERSION=$version -o "$dir/counter.so" "$root/host/benchmark/qemu_counter.c"
        if $(emulator run) -plugin "$dir/counter.so,counts=$dir/counts" "$@" >"$dir/qemu.log" 2>&1; then
            cat "$dir/counts"
            return 0
        fi
    done
    cat "$dir/qemu.log" >&2
    exit 1
}

# Of a program that has no marks; its standard input is this script's.
count_all_native() {
    dir=$1
    shift 2
    need valgrind valgrind
    rm -f "$dir"/stretch*
    valgrind --tool=callgrind --callgrind-out-file="$dir/stretch" "$@" >"$dir/out" 2>"$dir/valgrind.log" || { cat "$dir/valgrind.log" >&2; exit 1; }
    sed -n 's/^totals: //p' "$dir/stretch"
}

count_all_emulated() {
    dir=$1
    words=$(emulator "$2")
    shift 2
    need qemu-x86_64 qemu-user
    native_cc
    for version in 1 2 3 4 5 6; do
        gcc -O2 -shared -fPIC -DVERSION=$version -o "$dir/counter.so" "$root/host/benchmark/qemu_counter.c"
        $words -plugin "$dir/counter.so,counts=$dir/counts" "$@" </dev/null >/dev/null 2>&1 && break
    done
    $words -plugin "$dir/counter.so,counts=$dir/counts" "$@" >"$dir/out" 2>"$dir/qemu.log" || { cat "$dir/qemu.log" >&2; exit 1; }
    sed -n 's/^all //p' "$dir/counts"
}

action=${1:-}
[ $# -gt 0 ] && shift
case $action in
machine) echo $way ;;
cc) cc "$@" ;;
cxx) cxx "$@" ;;
ar) archiver "$@" ;;
here) here "$@" ;;
need) need "$@" ;;
run) run "$@" ;;
program) program "$@" ;;
emulator) emulator "$@" ;;
python)
    need python3 python3-minimal
    exec python3 "$@" ;;
count-flags)
    if [ $way = native ]; then
        need valgrind valgrind # its header too
        echo -DCOUNT_BY_CALLGRIND
    else
        echo -DCOUNT_BY_QEMU
    fi ;;
count)
    # One kind of memcpy and memset on every machine: 16 bytes at a time, as the archive's own code.
    GLIBC_TUNABLES=glibc.cpu.hwcaps=-AVX2,-AVX512F,-AVX512VL,-AVX_Fast_Unaligned_Load,-ERMS,-FSRM,-SSSE3
    export GLIBC_TUNABLES
    count_$way "$@" ;;
count-all) count_all_$way "$@" ;;
counter)
    if [ $way = native ]; then
        need valgrind valgrind
        echo "callgrind of $(valgrind --version)"
    else
        need qemu-x86_64 qemu-user
        echo "a counting plugin of $(qemu-x86_64 --version | head -n 1)"
    fi ;;
*) sed -n '2,/^set/{/^#/s/^# \{0,1\}//p}' "$0" >&2; exit 2 ;;
esac
