#!/usr/bin/env bash
# Every script of this folder goes through the runner, and its log has to be the one stored beside it; one with a strict log goes through it
# under the strict setting too, and one with a sheet through the program wear. Then what no stored log or sheet can show: empty input, lines that are typed, a line of 100 MB, an output that fails, an
# input that fails; and the words that wear is started with.
#   scripts/test.sh
# GWO_RUNNER is the runner (target/bin/runner), GWO_WEAR the other program (target/bin/wear): a program, or a command that starts it, as seen
# from the project's folder.
set -u
cd "$(dirname "$0")/.." || exit 1

runner=${GWO_RUNNER:-target/bin/runner} # never quoted: it may be several words
wear=${GWO_WEAR:-target/bin/wear}       # nor this
header=$'line\tanswer\tfrom\tbytes\tnote'
patience=30       # seconds for what has to come by itself
most_memory=65536 # kB, an emulator's own memory included; the long line has more
passed=0
failed=0
work=$(mktemp -d)
trap 'rm -rf "$work"' EXIT
trap : PIPE # a runner that has gone does not end the tests

# check NAME COMMAND..: what the command says is shown when it fails.
check() {
    local name=$1
    shift
    if "$@" >"$work/said" 2>&1; then
        passed=$((passed + 1))
        echo "ok $name"
    else
        failed=$((failed + 1))
        echo "FAILED $name"
        head -n 40 "$work/said" | cut -c 1-160
    fi
}

# same_log SCRIPT LOG WORD..: the runner is started with those words.
same_log() {
    local script=$1 log=$2
    shift 2
    timeout "$patience" $runner "$@" <"$script" >"$work/log" || { echo "the runner ended with status $?"; return 1; }
    diff -a "$log" "$work/log"
}

# strict_log NAME: the log under the strict setting is the one stored, and another than the one without it.
strict_log() {
    same_log "scripts/$1.txt" "scripts/$1.strict" strict || return 1
    ! cmp -s "scripts/$1.strict" "scripts/$1.log" || { echo "the setting shows nothing in $1"; return 1; }
}

empty_input() {
    echo "$header" >"$work/header"
    same_log /dev/null "$work/header"
}

# start, row and finish: a runner at two pipes, 3 to write lines to and 4 to read its rows from.
start() {
    rm -f "$work/in" "$work/out"
    mkfifo "$work/in" "$work/out"
    $runner <"$work/in" >"$work/out" &
    pid=$!
    exec 3>"$work/in" 4<"$work/out"
    row "$header"
}

# row WANTED: the next row is there now.
row() {
    local got
    IFS= read -r -t "$patience" -u 4 got || { echo "no row came, wanted: $1"; return 1; }
    [ "$got" = "$1" ] || { echo "the row is: $got, wanted: $1"; return 1; }
}

# The input ends, and the run with it; no row is left.
finish() {
    local ended=0
    exec 3>&-
    timeout "$patience" cat <&4 >"$work/rest" || { echo "the run did not end with its input"; ended=1; }
    exec 4<&-
    [ $ended -eq 0 ] || kill "$pid"
    wait "$pid" || { echo "the runner ended with status $?"; ended=1; }
    [ ! -s "$work/rest" ] || { echo "rows too many:"; cat "$work/rest"; ended=1; }
    return $ended
}

# Each row is there before the next line is typed; a line typed in two halves is one line.
typed_lines() {
    local well=0
    start && printf 'F\t1\t0\t06\n' >&3 && row $'1\t0\t-\t-\t-' &&
        printf 'W\t5' >&3 && sleep 0.2 && printf '\n' >&3 && row $'2\t0\t-\t-\t-' &&
        printf 'F\t1\t0\t05' >&3 && sleep 0.2 && printf '00\n' >&3 && row $'3\t0\t1\t02\t-' || well=1
    finish || well=1
    return $well
}

# 100 MB without a newline are one bad line: one row, the state as before, and the line is not kept in memory.
long_line() {
    local well=0
    start && printf 'F\t1\t0\t06\n' >&3 && row $'1\t0\t-\t-\t-' &&
        printf 'F\t1\t0\t04' >&3 && head -c 100000000 /dev/zero | timeout "$patience" tr '\0' 0 >&3 &&
        printf '\n' >&3 && row $'2\t20\t-\t-\t-' && small_enough &&
        printf 'F\t1\t0\t0500\n' >&3 && row $'3\t0\t1\t02\t-' || well=1
    finish || well=1
    return $well
}

small_enough() {
    local peak
    peak=$(awk '$1 == "VmHWM:" { print $2 }' "/proc/$pid/status")
    [ "$peak" -le "$most_memory" ] || { echo "the runner took $peak kB"; return 1; }
}

# ended STATUS: it ran and came to its end, whatever its status.
ended() {
    case $1 in
    124) echo "the run went on for $patience s"; return 1 ;;
    126 | 127) echo "the runner did not start"; return 1 ;;
    esac
}

# named END: standard error says that it failed.
named() {
    grep -q "^standard $1: ." "$work/error" && return 0
    echo "standard error does not name the $1:"
    cat "$work/error"
    return 1
}

# An endless input, and a reader that takes one line and goes.
closed_output() {
    yes P 2>/dev/null | timeout "$patience" $runner | head -n 1 >"$work/log"
    ended "${PIPESTATUS[1]}" && echo "$header" | diff -a - "$work/log"
}

# The same where the signal of a reader that has gone is ignored before the runner starts; up to rattle-kit-5b the signal ended it.
closed_output_unsignalled() (
    trap '' PIPE
    closed_output
)

full_output() {
    yes P 2>/dev/null | timeout "$patience" $runner >/dev/full 2>"$work/error"
    ended "${PIPESTATUS[1]}" && named output
}

# A folder cannot be read: the header comes, and standard error names the input.
failing_input() {
    timeout "$patience" $runner <. >"$work/log" 2>"$work/error"
    ended $? && echo "$header" | diff -a - "$work/log" && named input
}

# same_sheet SCRIPT SHEET: nothing goes to standard error.
same_sheet() {
    timeout "$patience" $wear <"$1" >"$work/sheet" 2>"$work/error" || { echo "wear ended with status $?"; return 1; }
    diff -a "$2" "$work/sheet" && diff -a /dev/null "$work/error"
}

# No line is played, so that no sector is worn; the last line counts without its newline too.
unworn() {
    same_sheet /dev/null <(sed 's/^\( *[0-9]* *\)[1-9][0-9]*  #*$/\10/; s/^total.*/total 0/; s/^largest.*/largest 0, first in sector 0/; s/^mean.*/mean 0 and 0\/16/' scripts/wear.sheet) &&
        same_sheet <(head -c -1 scripts/wear.txt) scripts/wear.sheet
}

sheet_full_output() {
    timeout "$patience" $wear <scripts/wear.txt >/dev/full 2>"$work/error"
    ended $? && named output
}

# Of a script that cannot be read there is no sheet.
sheet_failing_input() {
    timeout "$patience" $wear <. >"$work/sheet" 2>"$work/error"
    ended $? && diff -a /dev/null "$work/sheet" && named input
}

# --help alone shows the use on standard output, and no sheet.
sheet_help() {
    timeout "$patience" $wear --help <scripts/wear.txt >"$work/sheet" 2>"$work/error" &&
        head -n 1 "$work/sheet" | grep -qx 'usage: wear \[strict\] <SCRIPT >SHEET' && ! grep -q '^total' "$work/sheet" && diff -a /dev/null "$work/error"
}

# sheet_refused WORD..: it shows its use on standard error and runs nothing.
sheet_refused() {
    timeout "$patience" $wear "$@" <scripts/wear.txt >"$work/sheet" 2>"$work/error" &&
        diff -a /dev/null "$work/sheet" && grep -qx 'wear: it knows no words but --help and strict, and takes one of them' "$work/error" && grep -q '^usage: wear' "$work/error" ||
        { echo "started with ${1:0:40} it does not show its use"; return 1; }
}

sheet_words() {
    local word
    for word in x -h --hel --helpp --HELP stric strictt Strict --strict '' "$(printf '%05000d' 0)"; do
        sheet_refused "$word" || return 1
    done
    sheet_help && sheet_refused --help x && sheet_refused x --help && sheet_refused strict strict && sheet_refused strict --help
}

# Strict, a program over old data is refused, and the erase that comes at once is done and counted.
sheet_strict() {
    printf 'F\t1\t0\t%s\nW\t5000\n' 06 0200000000 06 >"$work/over"
    printf 'F\t1\t0\t%s\n' 0200000001 20000000 >>"$work/over"
    timeout "$patience" $wear strict <"$work/over" | grep -qx 'total 1' || { echo 'strict, the erase is not counted'; return 1; }
    timeout "$patience" $wear <"$work/over" | grep -qx 'total 0' || { echo 'an erase of a busy chip is counted'; return 1; }
}

no_script() {
    echo "there is no script to $1"
    return 1
}

for script in scripts/*.txt; do
    check "$(basename "$script" .txt)" same_log "$script" "${script%.txt}.log"
done
for log in scripts/*.log; do
    [ -f "${log%.log}.txt" ] || check "$(basename "$log" .log)" no_script "$log"
done
for log in scripts/*.strict; do
    check "$(basename "$log" .strict), strict" strict_log "$(basename "$log" .strict)"
done
for sheet in scripts/*.sheet; do
    check "sheet of $(basename "$sheet" .sheet)" same_sheet "${sheet%.sheet}.txt" "$sheet"
done
check 'empty input' empty_input
check 'typed lines' typed_lines
check 'line of 100 MB' long_line
check 'closed output' closed_output
check 'closed output, no signal' closed_output_unsignalled
check 'full output' full_output
check 'failing input' failing_input
check 'sheet of no line, and of a last line without its newline' unworn
check 'sheet, full output' sheet_full_output
check 'sheet, failing input' sheet_failing_input
check 'sheet, words' sheet_words
check 'sheet, strict' sheet_strict
echo "$passed passed, $failed failed"
[ "$failed" -eq 0 ]
