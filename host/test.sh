#!/bin/sh
# All host tests, against the archive.
#   host/test.sh [ARCHIVE]
# ARCHIVE, or GWO_ARCHIVE, is the static library (target/staticlib/libpod.a if neither is given); the word
# `model` takes the independent model in its place, to try the tests themselves. GWO_BUILD is where everything is
# built (target/host). GWO_RUNNER is the script runner, a program or a command that starts it; without it
# the runner is not compared. GWO_CALLS and GWO_SEED set the random comparison, GWO_LINES the length of the scripts.
set -eu

here=$(cd "$(dirname "$0")" && pwd)
root=$(dirname "$here")
host=$root/tools/host.sh
GWO_BUILD=${GWO_BUILD:-$root/target/host}
export GWO_BUILD
archive=${1:-${GWO_ARCHIVE:-$root/target/staticlib/libpod.a}}
if [ "$("$host" machine)" = native ]; then calls=1000000 lines=1000000; else calls=100000 lines=20000; fi
calls=${GWO_CALLS:-$calls}
lines=${GWO_LINES:-$lines}
obj=$GWO_BUILD/obj
bin=$GWO_BUILD/bin
flags="-O2 -Wall -Wextra -Wpedantic -I$here/include -I$here/model -I$here/test"
passed=0
failed=0
finished=no
# What does not compile or link is a failure as well.
trap '[ $finished = yes ] || echo "$passed passed, $((failed + 1)) failed"' EXIT
if [ "$archive" != model ] && [ ! -f "$archive" ]; then
    echo "host/test.sh: there is no archive at $archive" >&2
    exit 1
fi
rm -rf "$obj" "$bin"
mkdir -p "$obj" "$bin"

# check NAME COMMAND..: runs it; its last line stands for it, or all of it when it fails. (The shell does
# not stop at an error inside: what a function here does is joined by &&.)
check() {
    name=$1
    shift
    if "$@" >"$GWO_BUILD/$name.out" 2>&1; then
        passed=$((passed + 1))
        echo "passed  $(tail -n 1 "$GWO_BUILD/$name.out")"
    else
        failed=$((failed + 1))
        echo "FAILED  $name:"
        head -n 40 "$GWO_BUILD/$name.out"
    fi
}

compile() {
    "$host" cc -std=c99 $flags -r -nostdlib "$here"/model/*.c -o "$obj/model.o"
    for source in "$here"/test/*.c "$here"/example/*.c "$here"/benchmark/empty.c; do
        "$host" cc -std=c99 $flags -c "$source" -o "$obj/$(basename "$source" .c).o"
    done
}

# The independent model under the archive's names.
stand_in() {
    echo "the independent model stands in for the archive: this tries the tests only"
    archive=$obj/stand_in.o
    "$host" cc -std=c99 $flags -include "$here/model/names.h" -r -nostdlib "$here"/model/*.c -o "$archive"
}

link() {
    "$host" cc "$obj"/rules*.o "$obj"/jig*.o "$obj/rig.o" "$archive" "$obj/model.o" -o "$bin/rules"
    for program in compare thirteen; do
        "$host" cc "$obj/$program"*.o "$obj/rig.o" "$archive" "$obj/model.o" -o "$bin/$program"
    done
    "$host" cc "$obj/discover.o" "$archive" "$obj/model.o" -o "$bin/discover"
    for program in sfdp tables; do
        "$host" cc "$obj/$program"*.o "$obj/jig_sfdp_sheet.o" "$obj/rig.o" "$archive" "$obj/model.o" -o "$bin/$program"
    done
    "$host" cc "$obj"/stack*.o "$obj/empty.o" "$obj/rig.o" "$archive" "$obj/model.o" -o "$bin/stack"
    for program in firmware unplugged; do
        "$host" cc "$obj/$program.o" "$obj/flash.o" "$archive" "$obj/model.o" -o "$bin/$program"
    done
    "$host" cc "$obj"/scripts*.o "$obj/rig.o" "$obj/model.o" -o "$bin/scripts"
    "$host" cc "$obj/lines.o" "$obj/scripts_play.o" "$obj/rig.o" "$archive" "$obj/model.o" -o "$bin/lines"
    "$host" cc "$obj"/pins*.o "$obj/rig.o" "$archive" "$obj/model.o" -o "$bin/pins"
}

# header LANGUAGE STANDARD: without a warning, and it links with the archive and runs. As C++ it needs no more than C's
# library either.
header() {
    case $1 in c) compiler=cc ;; c++) compiler=cxx ;; esac
    "$host" $compiler -x "$1" -std="$2" -Wall -Wextra -Wpedantic -Werror -I"$here/include" \
        -c "$here/test/header.c" -o "$obj/header_$2.o" &&
        "$host" cc "$obj/header_$2.o" "$archive" "$obj/model.o" -o "$bin/header_$2" &&
        "$host" run "$bin/header_$2" "header as $2"
}

# by_names REQUEST: firmware of an earlier header, without a warning; it must not be edited.
by_names() {
    "$host" cc -std=c99 $flags -Werror "$here/test/by_names_$1.c" "$archive" "$obj/model.o" -o "$bin/by_names_$1" &&
        "$host" run "$bin/by_names_$1"
}

# Firmware that lends no wear table, with a call of its own in the archive's place.
no_sheet() {
    "$host" cc -std=c99 $flags -Werror "$here/test/no_sheet.c" -o "$bin/no_sheet" && "$host" run "$bin/no_sheet"
}

example() {
    "$host" run "$bin/firmware" >"$GWO_BUILD/example.got" && "$host" run "$bin/unplugged" >>"$GWO_BUILD/example.got" &&
        diff "$here/example/output.txt" "$GWO_BUILD/example.got" &&
        echo "example: last spring's fold, the table mended, a table lost in mid-erase and won back, and its wear sheet"
}

# Firmware that reads the SFDP table and goes by it.
discover() {
    "$host" run "$bin/discover" >"$GWO_BUILD/discover.got" && diff "$here/example/discover.txt" "$GWO_BUILD/discover.got" &&
        echo "discover: size and erases from the SFDP table; 3B, which it names, is 13"
}

# Each C program of docs/FIRMWARE.md, as it stands there, prints the block after it.
documented() {
    rm -f "$GWO_BUILD"/program.*
    awk -v to="$GWO_BUILD/program" '
        /^```c$/ { file = sprintf("%s.%d.c", to, ++count); after = 1; next }
        /^```$/ && file == "" && after { file = sprintf("%s.%d.want", to, count); after = 0; next }
        /^```/ { file = ""; next }
        file != "" { print > file }' "$root/docs/FIRMWARE.md"
    for source in "$GWO_BUILD"/program.*.c; do
        "$host" cc -std=c99 $flags -Werror "$source" "$archive" "$obj/model.o" -o "$bin/documented" &&
            "$host" run "$bin/documented" >"$GWO_BUILD/program.got" && diff "${source%.c}.want" "$GWO_BUILD/program.got" || return
    done
    echo "documented: the C programs of docs/FIRMWARE.md compile without a warning and print what is said there"
}

# The C of README.md, as it stands there, prints what is said there.
readme() {
    awk '/^```c$/ { inside = 1; next } /^```$/ { inside = 0 } inside' "$root/README.md" >"$GWO_BUILD/readme.c" &&
        "$host" cc -std=c99 $flags -Werror "$GWO_BUILD/readme.c" "$archive" "$obj/model.o" -o "$bin/readme" &&
        "$host" run "$bin/readme" >"$GWO_BUILD/readme.got" && cat "$GWO_BUILD/readme.got" &&
        [ -s "$GWO_BUILD/readme.got" ] && grep -qxF -f "$GWO_BUILD/readme.got" "$root/README.md" &&
        echo "readme: its C compiles without a warning and prints what is said there"
}

# 01's script gives 01's log: this tries the program that the runner is compared with.
sample() {
    "$host" run "$bin/scripts" expect <"$here/test/sample.script" >"$GWO_BUILD/sample.got" &&
        diff "$here/test/sample.log" "$GWO_BUILD/sample.got" &&
        echo "scripts: the model's log of 01's script is 01's log"
}

faults() {
    "$here/faults/run.sh" >"$GWO_BUILD/faults.out" 2>&1 || true
    sed '$d' "$GWO_BUILD/faults.out"
    counts=$(tail -n 1 "$GWO_BUILD/faults.out")
    case $counts in
    *" passed, "*" failed")
        passed=$((passed + ${counts%% *}))
        counts=${counts#*, }
        failed=$((failed + ${counts%% *})) ;;
    *)
        echo "FAILED  faults: the run broke off: $counts"
        failed=$((failed + 1)) ;;
    esac
}

# Script text in blocks, on each model, with the setting off and on: lines SEED..
lines_are_played() {
    for seed in "$@"; do
        for model in 1 2 3; do
            "$host" run "$bin/scripts" gen "$seed" $([ $model = 3 ] && echo 400 || echo 4000) $model >"$GWO_BUILD/lines.script" &&
                "$host" run "$bin/lines" $model "$seed" <"$GWO_BUILD/lines.script" &&
                "$host" run "$bin/lines" $model "$seed" strict <"$GWO_BUILD/lines.script" || return
        done
    done
    echo "lines: text in blocks of any length, seeds $*, strict and not, on each model: rows and chip are the model's"
}

# use NAME LANGUAGE STANDARD: struct gwo_chip (chip) or the front, without a warning.
use() {
    case $2 in c) compiler=cc ;; c++) compiler=cxx ;; esac
    "$host" $compiler -x "$2" -std="$3" -Wall -Wextra -Wconversion -pedantic -Werror -I"$here/include" \
        -c "$here/test/$1.c" -o "$obj/$1_$3.o" &&
        "$host" cc "$obj/$1_$3.o" "$archive" "$obj/model.o" -o "$bin/$1_$3" &&
        "$host" run "$bin/$1_$3" "$1 as $3"
}

compile
[ "$archive" != model ] || stand_in
link
for standard in c99 c11; do check "header-$standard" header c $standard; done
for standard in c++98 c++17; do check "header-$standard" header c++ $standard; done
for part in chip front; do
    for standard in c99 c11; do check "$part-$standard" use $part c $standard; done
    for standard in c++98 c++17; do check "$part-$standard" use $part c++ $standard; done
done
for request in 05 06; do check "by_names_$request" by_names $request; done
check no_sheet no_sheet
check example example
check discover discover
check readme readme
check documented documented
check rules "$host" run "$bin/rules"
check compare "$host" run "$bin/compare" "$calls" ${GWO_SEED:-}
check thirteen "$host" run "$bin/thirteen"
check sfdp "$host" run "$bin/sfdp"
check tables "$host" run "$bin/tables" "$((calls / 5))" ${GWO_SEED:-}
if [ "$archive" = "$obj/stand_in.o" ]; then
    echo "NOT RUN stack: its limits are the archive's; a faulty pod tries it below"
else
    check stack "$host" run "$bin/stack"
fi
check sample sample
check lines lines_are_played 1 2
check pins "$host" run "$bin/pins"
check pins-random "$host" run "$bin/pins" random 2 "$calls"
if [ -n "${GWO_RUNNER:-}" ]; then
    check runner "$here/test/runner.sh" "$bin/scripts" "$lines" 1 2
    check words "$here/test/words.sh"
else
    echo "NOT RUN runner, words: GWO_RUNNER does not say where the script runner is"
fi
faults
finished=yes
echo "$passed passed, $failed failed"
[ $failed -eq 0 ]
