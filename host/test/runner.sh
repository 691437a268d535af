#!/bin/sh
# Random scripts through the runner, against the log that the independent model gives, with the strict setting off and on.
#   host/test/runner.sh SCRIPTS LINES SEED..
# SCRIPTS is the built host/test/scripts.c. GWO_RUNNER is the runner: a program, or a command that
# starts it. GWO_BUILD takes the scripts and logs.
set -eu

root=$(cd "$(dirname "$0")/../.." && pwd)
host=$root/tools/host.sh
build=${GWO_BUILD:-$root/target/host}
: "${GWO_RUNNER:?the runner, a program or a command that starts it}"
scripts=$1
lines=$2
shift 2

# same SEED WORD..: the log of the seed's script is the model's, where both are started with those words.
same() {
    seed=$1
    shift
    "$host" run "$scripts" expect "$@" <"$build/$seed.script" >"$build/$seed.want"
    $GWO_RUNNER "$@" <"$build/$seed.script" >"$build/$seed.log" ||
        { echo "runner: FAIL: seed $seed $*: it ended with status $?"; exit 1; }
    if ! cmp -s "$build/$seed.want" "$build/$seed.log"; then
        echo "runner: FAIL: seed $seed $*, $lines lines; the first that differ (< wanted, > the runner's):"
        diff "$build/$seed.want" "$build/$seed.log" | cut -c 1-160 | head -n 6
        exit 1
    fi
}

for seed in "$@"; do
    "$host" run "$scripts" gen "$seed" "$lines" >"$build/$seed.script"
    same "$seed"
    ! grep -q '^[0-9]*	19	' "$build/$seed.log" || { echo "runner: FAIL: seed $seed: 19 with the setting off"; exit 1; }
    same "$seed" strict
    grep -q '^[0-9]*	19	' "$build/$seed.log" || { echo "runner: FAIL: seed $seed: no program over old data"; exit 1; }
    rm -f "$build/$seed.script" "$build/$seed.want" "$build/$seed.log"
done
echo "runner: $lines lines each for seeds $*, strict and not: the log is the model's"
