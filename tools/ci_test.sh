#!/usr/bin/env bash
# What tools/ci.sh makes of what rt ci says; a stand-in for rt says it.
set -u
cd "$(dirname "$0")/.." || exit 1
. tools/tally.sh ci
mkdir -p "$work/tools" "$work/bin"
cp tools/ci.sh "$work/tools/"

# says WHAT STATUS COUNTS RT-STATUS LINE..: where rt says these lines and ends so, tools/ci.sh ends with that status and these counts, and rt was
# asked for nothing but `rt ci` at the top.
says() {
    local what=$1 wanted=$2 counts=$3 ends=$4 status
    shift 4
    { echo '#!/bin/sh'; echo "echo \"\$PWD \$*\" >>'$work/asked'"; printf "echo '%s'\n" "$@"; echo "exit $ends"; } >"$work/bin/rt"
    chmod +x "$work/bin/rt"
    rm -rf "$work/asked" "$work/target"
    PATH=$work/bin:$PATH "$work/tools/ci.sh" >"$work/said" 2>&1
    status=$?
    [ "$status" -eq "$wanted" ] && [ "$(tail -n 1 "$work/said")" = "$counts" ] && [ "$(cat "$work/asked")" = "$work ci" ] && printf '%s\n' "$@" | diff - "$work/target/ci.log"
    tell $? "$what" "$status"
}

says 'all is well' 0 '6 passed, 0 failed' 0 'rt: low proved' 'rt: ok; handles allowed: none; must-fail edits: 2 refused; every proof and must-fail edit was done in this run' '6 passed, 0 failed'
says 'no edit is bad' 0 '6 passed, 0 failed' 0 'rt: ok; handles allowed: none; must-fail edits: 2 refused, 0 bad; every proof ..' '6 passed, 0 failed'
says 'without edits' 0 '4 passed, 0 failed' 0 'rt: ok; handles allowed: none; every proof ..' '4 passed, 0 failed'
says 'bad edits' 1 '6 passed, 3 failed' 0 'rt: ok; handles allowed: none; must-fail edits: 2 refused, 3 bad; every proof ..' '6 passed, 0 failed'
says 'bad edits beside a limit' 1 '6 passed, 12 failed' 0 'rt: ok; handles allowed: none; must-fail edits: 2 refused, 1 of them only by a limit, 12 bad; every proof ..' '6 passed, 0 failed'
says 'a crate that is not proved' 1 '5 passed, 1 failed' 1 'rt: low NOT PROVED' 'rt: FAILED: low' '5 passed, 1 failed'
says 'counts without a failure, and a status' 1 '5 passed, 1 failed' 1 'rt: ok; handles allowed: none; every proof ..' '5 passed, 0 failed'
says 'no line rt: ok' 1 '5 passed, 1 failed' 0 'rt: low and the crates below passed' '5 passed, 0 failed'
says 'a run that breaks off' 1 '0 passed, 1 failed' 1 'rt: low proved'
says 'a run of some crates' 1 '0 passed, 1 failed' 0 'rt: ok; handles allowed: none' '4 passed, 0 failed (low and the crates below alone: not the gate)'
counts
