#!/usr/bin/env bash
# What the runner says on standard error: an output or an input that fails, and the words it is started with.
#   host/test/words.sh
# GWO_RUNNER is the runner: a program, or a command that starts it.
set -u

: "${GWO_RUNNER:?the runner, a program or a command that starts it}"
header=$'line\tanswer\tfrom\tbytes\tnote'
usage='usage: runner [strict] <SCRIPT >LOG'
failed=0
work=$(mktemp -d)
trap 'rm -rf "$work"' EXIT
printf 'F\t1\t0\t06\nP\n' >"$work/script"

# wrong WORDS: a failure, with what the runner wrote.
wrong() {
    echo "words: FAIL: ${1:0:120}"
    head -n 5 "$work/out" "$work/err" 2>/dev/null
    failed=1
}

# said NAME: standard error is one line, on that end of the program.
said() {
    [ "$(wc -l <"$work/err")" -eq 1 ] && grep -q "^standard $1: ." "$work/err"
}

# refused WORD..: it shows its use on standard error and runs nothing.
refused() {
    timeout 30 $GWO_RUNNER "$@" <"$work/script" >"$work/out" 2>"$work/err" || wrong "started with $* it does not end well"
    [ ! -s "$work/out" ] || wrong "started with $* it writes to standard output"
    grep -q 'knows no words but --help and strict' "$work/err" && grep -qF "$usage" "$work/err" || wrong "started with $* it does not show its use"
}

help() {
    timeout 30 $GWO_RUNNER --help <"$work/script" >"$work/out" 2>"$work/err" || wrong "with --help it does not end well"
    grep -qF "$usage" "$work/out" && ! grep -qF "$header" "$work/out" || wrong "with --help it does not show its use alone"
    [ ! -s "$work/err" ] || wrong "with --help it writes to standard error"
}

# rows WORD..: the answers of the script `over`; nothing is said on standard error.
rows() {
    timeout 30 $GWO_RUNNER "$@" <"$work/over" >"$work/out" 2>"$work/err" || wrong "started with $* it does not end well"
    [ ! -s "$work/err" ] || wrong "started with $* it writes to standard error"
    tail -n +2 "$work/out" | cut -f 2 | tr '\n' ' '
}

# A cell is programmed to 00, and then to 01, which it cannot hold.
strict() {
    printf 'F\t1\t0\t06\nF\t1\t0\t0200000000\nW\t5000\nF\t1\t0\t06\nF\t1\t0\t0200000001\n' >"$work/over"
    [ "$(rows)" = '0 0 0 0 0 ' ] || wrong "without a word the setting is on"
    [ "$(rows strict)" = '0 0 0 0 19 ' ] || wrong "with the word strict the setting is off"
}

full() {
    timeout 30 $GWO_RUNNER <"$work/script" >/dev/full 2>"$work/err" && said output || wrong "a full output is not said"
}

closed() {
    timeout 30 $GWO_RUNNER <"$work/script" >&- 2>"$work/err" && said output || wrong "a closed output is not said"
}

folder() {
    timeout 30 $GWO_RUNNER </ >"$work/out" 2>"$work/err" && said input || wrong "a folder as input is not said"
    [ "$(cat "$work/out")" = "$header" ] || wrong "a folder as input has rows"
}

# gone WHAT TEXT: the reader takes the header and goes, and then TEXT comes.
gone() {
    rm -f "$work/to" "$work/from"
    mkfifo "$work/to" "$work/from"
    (trap '' PIPE; exec timeout 30 $GWO_RUNNER <"$work/to" >"$work/from" 2>"$work/err") &
    exec 3>"$work/to" 4<"$work/from"
    IFS= read -r -t 30 -u 4 got
    exec 4<&-
    printf '%s' "$2" >&3
    exec 3>&-
    wait $!
    [ "$got" = "$header" ] && said output || wrong "a reader that has gone is not said $1"
}

help
for word in x -h --hel --helpp --HELP stric strictt Strict --strict '' "$(printf '%05000d' 0)"; do refused "$word"; done
refused --help x
refused x --help
refused strict strict
refused strict --help
strict
full
closed
folder
gone 'in a block' $'P\nP\n'
gone 'at the last line' P
[ $failed -eq 0 ] && echo "words: failing outputs and inputs are said, unknown words are answered with the runner's use, and strict turns the setting on"
exit $failed
