#!/bin/sh
# Faulty pods (mistakes.c, mistakes_of_*.c) under the host tests: each must be caught by every test that is named for it,
# by its exit status and a message; the same pod without a fault must pass them all.
#   host/faults/run.sh
# GWO_BUILD is where host/test.sh has left the tests' object files.
set -eu

here=$(cd "$(dirname "$0")" && pwd)
root=$(cd "$here/../.." && pwd)
host=$root/tools/host.sh
build=${GWO_BUILD:-$root/target/host}
obj=$build/obj
out=$build/faults
passed=0
failed=0
rm -rf "$out"
mkdir -p "$out"

# The programs with the pod behind the archive's names; GWO_FAULT says which fault it has.
for source in "$here"/*.c; do
    "$host" cc -std=c99 -O2 -Wall -Wextra -Wpedantic -I"$root/host/include" -I"$root/host/model" -c "$source" \
        -o "$out/$(basename "$source" .c).o"
done
pod="$out/*.o $obj/model.o"
"$host" cc "$obj"/rules*.o "$obj"/jig*.o "$obj"/rig.o $pod -o "$out/rules"
for program in compare thirteen; do
    "$host" cc "$obj/$program"*.o "$obj"/rig.o $pod -o "$out/$program"
done
for program in sfdp tables; do
    "$host" cc "$obj/$program"*.o "$obj"/jig_sfdp_sheet.o "$obj"/rig.o $pod -o "$out/$program"
done
"$host" cc "$obj"/stack*.o "$obj"/empty.o "$obj"/rig.o $pod -o "$out/stack"
"$host" cc "$obj"/lines.o "$obj"/scripts_play.o "$obj"/rig.o $pod -o "$out/lines"
"$host" cc "$obj"/pins*.o "$obj"/rig.o $pod -o "$out/pins"
for program in firmware unplugged; do
    "$host" cc "$obj/$program.o" "$obj"/flash.o $pod -o "$out/$program"
done
"$host" run "$build/bin/scripts" gen 1 3000 >"$out/script"

# The bytes of stack that the twelve calls take without a fault: the limits for the faulty ones.
most=65536
own=$(GWO_FAULT=0 "$host" run "$out/stack" $most $most $most $most $most $most $most $most $most $most $most $most | awk '/^  gwo_/ { print $2 }')

# passes FAULT TEST: runs one of them, or a group of rules, of sfdp or of pins, with that fault; its words go to $out/log.
passes() {
    export GWO_FAULT="$1"
    case $2 in
    rules) "$host" run "$out/rules" first >"$out/log" 2>&1 ;;
    rules:*) "$host" run "$out/rules" first "${2#rules:}" >"$out/log" 2>&1 ;;
    sfdp) "$host" run "$out/sfdp" first >"$out/log" 2>&1 ;;
    sfdp:*) "$host" run "$out/sfdp" first "${2#sfdp:}" >"$out/log" 2>&1 ;;
    tables) "$host" run "$out/tables" 10000 >"$out/log" 2>&1 ;;
    compare) "$host" run "$out/compare" 100000 >"$out/log" 2>&1 ;;
    thirteen) "$host" run "$out/thirteen" first >"$out/log" 2>&1 ;;
    stack) "$host" run "$out/stack" $own >"$out/log" 2>&1 ;;
    pins) "$host" run "$out/pins" first >"$out/log" 2>&1 ;;
    pins:*) "$host" run "$out/pins" first "${2#pins:}" >"$out/log" 2>&1 ;;
    lines) "$host" run "$out/lines" 1 1 strict <"$out/script" >"$out/log" 2>&1 ;;
    example)
        "$host" run "$out/firmware" >"$out/log" 2>&1 && "$host" run "$out/unplugged" >>"$out/log" 2>&1 || return 1
        diff "$root/host/example/output.txt" "$out/log" >"$out/example.diff" && return 0
        echo "FAIL: the example's output differs" >>"$out/log"
        return 1 ;;
    esac
}

# caught FAULT TEST: it fails, and says so.
caught() {
    passes "$@" && return 1
    grep -q -e FAIL -e refused "$out/log"
}

say() {
    if [ "$1" = passed ]; then passed=$((passed + 1)); else failed=$((failed + 1)); fi
    echo "$1  $2"
}

# fault NUMBER NAME TEST..
fault() {
    number=$1
    name=$2
    shift 2
    missed=
    names=
    for test in "$@"; do
        names="$names${names:+, }$test"
        caught "$number" "$test" || missed="$missed${missed:+, }$test"
    done
    if [ -z "$missed" ]; then
        say passed "fault $number, $name: caught by $names"
    else
        say FAILED "fault $number, $name: not caught by $missed"
    fi
}

for test in rules compare thirteen example stack sfdp tables lines pins; do
    if passes 0 $test; then
        say passed "no fault: $test passes"
    else
        say FAILED "no fault: $test fails"
        head -n 12 "$out/log"
    fi
done
fault 1 "a pod that refuses all" rules compare thirteen example
fault 2 "one that answers the same byte each time" rules compare thirteen example
fault 3 "one that changes no cell" rules compare thirteen example
fault 4 "one that works on the first frame and then only says 0" rules compare thirteen example
fault 5 "a long program runs into the next page" rules:programming compare example
fault 6 "the first 256 bytes kept instead of the last" rules:programming compare
fault 7 "data stored in place of AND" rules:programming compare example
fault 8 "WEL cleared when the operation starts" rules:erasing rules:operations compare thirteen
fault 9 "WP# low alone blocks 01" "rules:refused by command" compare
fault 10 "03 answered while busy" "rules:refused by command" compare thirteen
fault 11 "a byte past the frame is looked at" rules compare
fault 12 "TB cleared by a status write" "rules:configuration register" compare
fault 13 "TB cleared by a power cycle" "rules:configuration register" "rules:bench sheet" compare
fault 14 "17 keeps WEL on model 3" "rules:refused by command" "rules:protected areas" "rules:bench sheet" compare
fault 15 "17 clears WEL on models 1 and 2" "rules:refused by command" "rules:bench sheet" compare
fault 16 "52 erases 64 KiB on model 3" rules:erasing "rules:lengths and tails" compare
fault 17 "the protected area one block too small" "rules:protected areas" compare
fault 18 "the protected area one block too large" "rules:protected areas" compare
fault 19 "the protected area at the top whatever TB says" "rules:protected areas" "rules:bench sheet" compare
fault 20 "a cell far from the erased sector cleared on model 3" rules:erasing compare thirteen
fault 21 "a fold is never said" rules:folds rules:programming "rules:bench sheet" compare example
fault 22 "a fold is said of exactly 256 bytes from offset 0" rules:folds rules:programming compare thirteen
fault 23 "a fold is said of a refused program" rules:folds compare
fault 24 "a fold is said of a read across a page's end" rules:folds "rules:reading commands" compare
fault 25 "a program through a copy of the page on the stack" stack
fault 26 "22 is never said" "rules:refused by command" "rules:refused in order" "rules:falling asleep and waking" compare thirteen
fault 27 "22 comes before 10" "rules:refused before the command" "rules:refused in order" compare
fault 28 "05 is taken while settling" "rules:refused by command" "rules:falling asleep and waking" compare
fault 29 "AB settles a chip that was awake" "rules:state commands" "rules:falling asleep and waking" compare thirteen
fault 30 "the short AB takes the long one's time" "rules:falling asleep and waking" compare thirteen
fault 31 "a cut changes a cell beside its unit" rules:cuts compare thirteen example
fault 32 "cells change when the frame is taken" rules:operations rules:erasing rules:programming compare thirteen
fault 33 "a cut takes the pattern for bits that were not to change" rules:cuts compare
fault 34 "a power cycle is taken while busy" "rules:time and power" "rules:refused in order" rules:operations compare
fault 35 "an operation that has ended is not forgotten" rules:operations rules:cuts "rules:bench sheet" compare thirteen example
fault 36 "sectors are counted when the erase comes to its end" "rules:wear counts" rules:erasing compare thirteen example
fault 37 "a chip erase counts one sector" "rules:wear counts" "rules:wear reports" rules:erasing compare
fault 38 "25 comes before 17" "rules:wear counts" "rules:refused in order" compare
fault 39 "24 comes after 3" "rules:wear counts" "rules:refused in order" compare
fault 40 "only the first sector of a unit can be full" "rules:wear counts" compare
fault 41 "a full count beside the unit refuses the erase" "rules:wear counts" compare thirteen
fault 42 "an erase that protection refuses is counted" "rules:protected areas" "rules:refused in order" compare
fault 43 "25 clears WEL on model 3" "rules:wear counts" "rules:refused in order" compare thirteen
fault 44 "the report has the last sector with the largest count" "rules:wear reports" compare
fault 45 "the total of a report has 32 bits" "rules:wear reports" compare
fault 46 "a refused report writes its results" "rules:wear reports" compare
fault 47 "strict looks at the first byte sent to an offset" "rules:strict programs" compare
fault 48 "strict refuses where the cell holds the byte already" "rules:strict programs" compare thirteen
fault 49 "strict looks at offsets that are not reached" "rules:strict programs" compare
fault 50 "19 clears WEL on model 3" "rules:strict programs" "rules:refused in order" rules:folds compare
fault 51 "strict looks at every byte that was sent" "rules:strict programs" compare
fault 52 "strict looks into the next page" "rules:strict programs" compare
fault 53 "19 comes before 17" "rules:strict programs" "rules:refused in order" compare
fault 54 "only the number 1 is strict" "rules:strict programs" compare
fault 55 "strict is never off" "rules:strict programs" rules:programming compare example
fault 56 "52 still erases a block on models 1 and 2" "rules:refused by command" "rules:lengths and tails" rules:erasing "rules:packed states" "rules:bench sheet" compare
fault 57 "52 is 13 on models 1 and 2" "rules:refused by command" "rules:refused in order" rules:erasing "rules:bench sheet" compare
fault 58 "52 is withdrawn on model 3 too" rules:erasing "rules:lengths and tails" "rules:wear counts" "rules:bench sheet" compare
fault 59 "21 comes after 14" "rules:refused by command" "rules:refused in order" "rules:lengths and tails" "rules:bench sheet" compare
fault 60 "21 comes before 12" "rules:refused by command" "rules:refused in order" compare
fault 61 "a 52 that an older program has started is brought to its end" "rules:packed states" "rules:bench sheet" compare
fault 62 "21 clears WEL" "rules:refused by command" rules:erasing "rules:bench sheet" compare
fault 63 "5A: the address is taken modulo the array" "rules:SFDP reads" compare
fault 64 "5A: past its end the table begins again" "rules:SFDP reads" "rules:lengths and tails" compare
fault 65 "5A: 00 past the table's end" "rules:SFDP reads" "rules:lengths and tails" rules:folds compare
fault 66 "5A: model 3 takes it too" "rules:SFDP reads" "rules:refused by command" "rules:lengths and tails" compare
fault 67 "5A: it needs six bytes" "rules:SFDP reads" "rules:lengths and tails" compare
fault 68 "5A: it is taken while busy" "rules:SFDP reads" "rules:refused by command" compare
fault 69 "5A: no dummy byte" "rules:SFDP reads" "rules:lengths and tails" "sfdp:the chip's table" compare
fault 70 "5A: it needs WEL" "rules:SFDP reads" "sfdp:the chip's table" compare
fault 71 "5A: after the last address comes the table" "rules:SFDP reads" compare
fault 72 "5A: a tail is refused" "rules:SFDP reads" "rules:lengths and tails" compare
fault 73 "5A: still 13 on model 2" "rules:SFDP reads" "rules:lengths and tails" rules:folds "sfdp:the chip's table" compare
fault 74 "SFDP reader: a table may end one byte past" "sfdp:table pointers" "sfdp:the sheet's table" tables
fault 75 "SFDP reader: a table may not end with the last byte" "sfdp:table pointers" "sfdp:the sheet's table" tables
fault 76 "SFDP reader: types are counted up to the first empty slot" "sfdp:what is read" tables
fault 77 "SFDP reader: 32 comes before 31" "sfdp:refused in order" tables
fault 78 "SFDP reader: 31 comes before 30" "sfdp:refused in order" tables
fault 79 "SFDP reader: only the first header is judged" "sfdp:table lengths" "sfdp:table pointers" "sfdp:refused in order" tables
fault 80 "SFDP reader: a first table under 36 bytes is taken" "sfdp:table lengths" "sfdp:refused in order" tables
fault 81 "SFDP reader: refused, it leaves its results" sfdp:signatures "sfdp:header counts" "sfdp:table lengths" "sfdp:table pointers" tables
fault 82 "SFDP reader: an index past the last header is read on" "sfdp:the sheet's table" "sfdp:the chip's table" tables
fault 83 "SFDP reader: slots are counted from 0" "sfdp:what is read" "sfdp:the sheet's table" "sfdp:round trips" tables
fault 84 "SFDP reader: a pointer has two bytes" "sfdp:table pointers" tables
fault 85 "SFDP reader: the density's high byte comes first" "sfdp:what is read" "sfdp:round trips" tables
fault 86 "SFDP reader: a byte past the table is looked at" sfdp tables
fault 87 "SFDP reader: a table of no words may not start at the end" "sfdp:table pointers" tables
fault 88 "SFDP reader: 256 headers are 0" "sfdp:header counts" tables
fault 89 "SFDP reader: the revisions change places" "sfdp:what is read" "sfdp:the sheet's table" tables
fault 90 "SFDP writer: it writes before it refuses" "sfdp:refused records" tables
fault 91 "SFDP writer: 31h names the last 4 KiB type" "sfdp:written tables" tables
fault 92 "SFDP writer: 30h and 31h are always the chip's own" "sfdp:written tables" tables
fault 93 "SFDP writer: 30h says 4 KiB without such a type" "sfdp:written tables" tables
fault 94 "SFDP writer: an empty slot is 00 00" "sfdp:written tables" "sfdp:round trips" "sfdp:the chip's table" tables
fault 95 "SFDP writer: the density is cut to 32 bits" "sfdp:refused records" tables
fault 96 "SFDP writer: an exponent is cut to a byte" "sfdp:refused records" tables
fault 97 "SFDP writer: an exponent 0 is taken" "sfdp:refused records" tables
fault 98 "SFDP writer: of five types four are written" "sfdp:refused records" tables
fault 99 "SFDP writer: an exponent without opcode is left out" "sfdp:refused records" tables
fault 100 "SFDP writer: the rest of the buffer is filled" "sfdp:written tables" tables
fault 101 "the start of a line in the block before is forgotten" lines
fault 102 "the next line has the number of this one" lines
fault 103 "the last row of a block is lost" lines
fault 104 "a byte more is taken than was played" lines
fault 105 "lines are never strict" lines
fault 106 "erases of lines are not counted" lines
fault 107 "a line is played without room for its row" lines
fault 108 "one line, and the rest of the block waits" lines
fault 109 "a line over 640 bytes is held as one of 640" lines
fault 110 "a refused block is taken" lines
fault 111 "5 comes before 3" lines
fault 112 "an empty line is played at the end" lines
fault 113 "the last line stays held" lines
fault 114 "the last line without room for its row is done" lines
fault 201 "bits on the falling clock" pins:steps pins:rises pins:promises pins:random
fault 202 "the low bit first" pins:steps pins:rises pins:promises pins:random
fault 203 "a bit in the sample where CS# falls" pins:steps pins:rises pins:random
fault 204 "a bit in the sample where CS# rises" pins:rises pins:promises pins:random
fault 205 "SI as it was a sample before" pins:steps pins:random
fault 206 "a bit in each sample with the clock high" pins:steps pins:rises pins:promises pins:random
fault 207 "bits are taken while held" pins:steps pins:rises pins:promises pins:random
fault 208 "HOLD# is looked at while the clock is high" pins:steps pins:rises pins:promises pins:random
fault 209 "HOLD# is looked at in every sample" pins:steps pins:rises pins:promises pins:random
fault 210 "a hold begins only within a frame" pins:steps pins:rises pins:random
fault 211 "the first bit after a hold is lost" pins:steps pins:rises pins:promises pins:random
fault 212 "a hold takes the bits begun" pins:steps pins:rises pins:promises pins:random
fault 213 "a fall in a hold begins no frame" pins:steps pins:rises pins:random
fault 214 "34 looks at the sample of the rise" pins:rises pins:random
fault 215 "34 ends the hold" pins:rises pins:promises pins:random
fault 216 "4 comes before 34" pins:rises pins:random
fault 217 "34 is never said" pins:rises pins:promises pins:random
fault 218 "4 is never said" pins:rises pins:random
fault 219 "the tail is lost" pins:rises pins:promises pins:random
fault 220 "tail bits need room" pins:rises pins:promises pins:random
fault 221 "the room at the rise is not looked at" pins:rises pins:random
fault 222 "WP# is the level at the rise" pins:rises pins:random
fault 223 "WP# is the level before the rise" pins:steps pins:random
fault 224 "WP# is high in every frame" pins:rises pins:promises pins:random
fault 225 "a frame that is dropped leaves its bits" pins:rises pins:promises pins:random
fault 226 "34 and 4 forget the clock" pins:promises pins:random
fault 227 "65,542 bytes fit" pins:rises
fault 228 "a byte less fits" pins:rises pins:promises pins:random
fault 229 "a frame that has outgrown its room goes on" pins:rises pins:promises pins:random
fault 230 "a frame that has outgrown its room forgets WP#" pins:rises pins:random
fault 231 "a byte past the buffer is written" pins:rises pins:promises pins:random
fault 232 "bits 5 to 7 of a front may be set" pins:packed pins:random
fault 233 "the bits begun may have any value" pins:packed pins:random
fault 234 "a front may have any number of bytes" pins:packed pins:random
fault 235 "a front may be idle and have bytes" pins:packed pins:random
fault 236 "a front may be longer than 8 bytes" pins:packed
fault 237 "3 makes the front a new one" pins:packed pins:random
fault 238 "3 tells bytes" pins:packed pins:random
fault 239 "a run goes on after a frame" pins:rises pins:promises pins:random
fault 240 "the sample that ends a run is not counted" pins:rises pins:promises pins:random
fault 241 "a run without samples does not judge the front" pins:packed
fault 242 "a sample past the run is looked at" pins:steps pins:rises pins:packed pins:promises pins:random
fault 243 "results of a call before stay" pins:steps pins:rises pins:packed pins:promises pins:random
fault 244 "higher bits of a sample count" pins:steps pins:random
echo "$passed passed, $failed failed"
[ $failed -eq 0 ]
