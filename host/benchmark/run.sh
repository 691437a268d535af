#!/bin/sh
# The benchmark: prints the table of docs/PERFORMANCE.md on standard output, in Markdown.
#   host/benchmark/run.sh [ARCHIVE]
# ARCHIVE, GWO_ARCHIVE and GWO_BUILD as in host/test.sh. The exit status is 0 when the table was made, whether
# or not every target is met.
set -eu

here=$(cd "$(dirname "$0")" && pwd)
root=$(cd "$here/../.." && pwd)
host=$root/tools/host.sh
build=${GWO_BUILD:-$root/target/host}/benchmark
archive=${1:-${GWO_ARCHIVE:-$root/target/staticlib/libpod.a}}
flags="-std=gnu99 -O2 -Wall -Wextra -I$root/host/include -I$root/host/model -I$here"
mkdir -p "$build"

"$host" cc $flags -r -nostdlib "$root"/host/model/*.c -o "$build/model.o"
"$host" cc $flags -c "$here/empty.c" -o "$build/empty.o"
"$host" cc $flags -fno-builtin $("$host" count-flags) -c "$here/benchmark.c" -o "$build/benchmark.o"
if [ "$archive" = model ]; then
    "$host" cc $flags -include "$root/host/model/names.h" -r -nostdlib "$root"/host/model/*.c -o "$build/stand_in.o"
    archive=$build/stand_in.o
elif [ ! -f "$archive" ]; then
    echo "host/benchmark/run.sh: there is no archive at $archive" >&2
    exit 1
fi
"$host" cc "$build/benchmark.o" "$build/empty.o" "$archive" "$build/model.o" -static -o "$build/benchmark"

"$host" run "$build/benchmark" rows >"$build/rows"
"$host" count "$build" "$build/benchmark" >"$build/counts.txt"
compiler=$("$host" cc --version | head -n 1)
awk -F '\t' -v counter="$("$host" counter)" -v compiler="$compiler" -f "$here/table.awk" "$build/counts.txt" "$build/rows"
