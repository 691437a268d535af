#!/usr/bin/env bash
# gwo run, check, explain, compare and sfdp: their logs, words and statuses.
#   host/gwo/test/scripts.sh SCRIPTS
# SCRIPTS is a command that starts host/test/scripts.c. GWO is the program under test (build/gwo); GWO_RUNNER and GWO_WEAR are the programs of
# Rattle that it is compared with, and without them it is not; GWO_SCRIPTS is how many random scripts there are (200).
cd "$(dirname "$0")/../../.." || exit 1
GWO=${GWO:-build/gwo}
. host/gwo/test/common.sh
scripts=$1
count=${GWO_SCRIPTS:-200}
header=$'line\tanswer\tfrom\tbytes\tnote'
chips='KH25L512 KH25L2006E KH25L12845G'
table=host/gwo/samples/KH25L2006E.sfdp

# ---- run

# log_is LOG WORD..
log_is() {
    local log=$1
    shift
    gwo run "$@" && ends 0 && same "$log" "$work/out"
}

every_log() {
    local script
    for script in scripts/*.txt; do
        log_is "${script%.txt}.log" "$script" || { echo "$script"; return 1; }
        [ ! -f "${script%.txt}.strict" ] || log_is "${script%.txt}.strict" --strict "$script" || { echo "$script, strict"; return 1; }
    done
}

# Byte for byte the runner's, over random scripts of all lengths; every second one strict.
as_the_runner() {
    local seed words
    for seed in $(seq "$count"); do
        $scripts gen "$seed" $((seed * 7)) >"$work/script"
        words=
        [ $((seed % 2)) -eq 0 ] || words=strict
        timeout "$patience" $GWO_RUNNER $words <"$work/script" >"$work/want"
        log_is "$work/want" ${words:+--strict} "$work/script" || { echo "seed $seed"; return 1; }
    done
}

# Each model by the independent one, strict and not.
as_the_model() {
    local seed model words
    for seed in $(seq $((count / 10 + 1))); do
        for model in 1 2 3; do
            $scripts gen "$seed" 500 $model >"$work/script"
            for words in '' strict; do
                $scripts expect $words $model <"$work/script" >"$work/want"
                log_is "$work/want" ${words:+--strict} --model $model "$work/script" || { echo "seed $seed, model $model $words"; return 1; }
            done
        done
    done
}

# From standard input, by a pipe, by a name with blanks and a dollar; the last line without its newline.
from_anywhere() {
    cp scripts/example.txt "$work/a \$b 'c'.txt"
    log_is scripts/example.log "$work/a \$b 'c'.txt" && log_is scripts/example.log - <scripts/example.txt &&
        log_is scripts/example.log <scripts/example.txt && log_is scripts/example.log <(cat scripts/example.txt) &&
        log_is scripts/example.log <(head -c -1 scripts/example.txt) && log_is <(echo "$header") /dev/null
}

# Each row is there before the next line is typed.
typed_lines() {
    local row
    mkfifo "$work/in" "$work/rows"
    $GWO run -q <"$work/in" >"$work/rows" &
    local pid=$!
    exec 3>"$work/in" 4<"$work/rows"
    read_row() { IFS= read -r -t 30 -u 4 row && [ "$row" = "$1" ] || { echo "row $row, want $1"; return 1; }; }
    read_row "$header" && printf 'F\t1\t0\t06\n' >&3 && read_row $'1\t0\t-\t-\t-' && printf 'F\t1\t0\t05' >&3 && sleep 0.2 &&
        printf '00\n' >&3 && read_row $'2\t0\t1\t02\t-'
    local well=$?
    exec 3>&- 4<&-
    wait $pid && [ $well -eq 0 ]
}

# 100 MB without a newline are one line, and are not kept.
long_line() {
    local peak
    { printf 'F\t1\t0\t06\nF\t1\t0\t04'; head -c 100000000 /dev/zero | tr '\0' 0; printf '\nF\t1\t0\t0500\n'; } >"$work/long"
    log_is <(printf '%s\n1\t0\t-\t-\t-\n2\t20\t-\t-\t-\n3\t0\t1\t02\t-\n' "$header") "$work/long" && says '3 lines: 2 done, 0 refused, 1 not well formed'
}

chip_and_counts() {
    gwo run scripts/fold.txt && ends 0 && says 'KH25L512 (model 1), 65536 cells FF; times in us: status 15000, page 5000, sector 120000, block 2000000, chip 2000000, sleep 10, wake 10, sign 10' &&
        says 'gwo run: 11 lines: 11 done, 0 refused, 0 not well formed, 1 fold, 1 sector erase' && [ "$(wc -l <"$work/err")" -eq 2 ] &&
        gwo run -m3 --strict scripts/example.txt && ends 0 && says 'KH25L12845G (model 3), 16777216 cells FF, strict;' && says 'half 1000000' &&
        gwo run --quiet scripts/fold.txt && ends 0 && [ ! -s "$work/err" ]
}

# On a terminal a run of more than a second says how far it has come; the line is taken away at the end.
progress() {
    local words
    tools/host.sh need script bsdutils || return 1
    rm -f "$work/fifo"
    mkfifo "$work/fifo"
    { cat scripts/fold.txt; sleep 1.3; cat scripts/fold.txt; sleep 0.2; } >"$work/fifo" &
    TERM=xterm timeout "$patience" script -qec "$GWO run -q $work/fifo >$work/out" "$work/terminal" </dev/null >"$work/shown"
    words=$(tr '\r' '\n' <"$work/shown")
    grep -q '^22 lines' <<<"$words" && [ "$(wc -l <"$work/out")" -eq 23 ] || { echo "$words"; return 1; }
    gwo run -q scripts/fold.txt && [ ! -s "$work/err" ]
}

# A page program that takes 7 us in place of 5000.
times() {
    printf 'F\t1\t0\t06\nF\t1\t0\t0200000000\nW\t6\nF\t1\t0\t0500\nW\t1\nF\t1\t0\t0500\n' >"$work/script"
    gwo run --time page=7 "$work/script" && ends 0 && [ "$(cut -f 4 "$work/out" | tail -n 3 | tr '\n' ' ')" = '03 - 00 ' ] && says 'page 7' &&
        gwo run --time half=9 "$work/script" && ends 2 && prints_nothing && says 'this chip has no time half' &&
        gwo run --model 3 --time half=9 "$work/script" && ends 0 && says 'half 9'
}

# Words that are not understood: 2, the use is pointed to, and nothing is run.
wrong_words() {
    local words
    while IFS= read -r words; do
        gwo $words && ends 2 && prints_nothing && says '--help' || { echo "gwo $words"; return 1; }
    done <<'END'

play
--mood
run --mood
run --model 4
run --model 0
run --model 1x
run --model
run --time page
run --time page=0
run --time page=-5
run --time page=1000000001
run --time page=99999999999999999999999
run --time pages=5
run --time =5
run a b
check
check --json
explain a b
compare
compare scripts/fold.txt
compare a b c
compare - -
serve --port 65536
serve --port x
serve word
rewrite a b
rewrite --model 1
sfdp a b
sfdp --model 2
END
}

help() {
    local command
    for command in '' run check explain compare serve rewrite sfdp pins; do
        gwo $command --help && ends 0 && prints "Usage: gwo${command:+ $command}" && gwo $command --usage && ends 0 && prints 'Usage: gwo' &&
            gwo $command --version && ends 0 && prints 'gwo 1.' || return 1
        for words in --help --usage --version; do
            status=0
            timeout "$patience" $GWO $command $words >/dev/full 2>"$work/err" || status=$?
            ends 2 && says 'standard output: No space left on device' || { echo "$command $words, full disk"; return 1; }
        done
    done
}

# ---- images

# A chip that was saved is the chip that is loaded.
load_and_save() {
    local model
    for model in 1 2 3; do
        rm -f "$work/chip" "$work/again"
        printf 'F\t1\t0\t06\nF\t1\t0\t020012348899AABB\nW\t5000\n' >"$work/script"
        gwo run -m $model --save "$work/chip" "$work/script" && ends 0 && [ "$(od -An -tx1 -j $((0x1233)) -N 6 "$work/chip" | tr -d ' ')" = ff8899aabbff ] || return 1
        printf 'F\t1\t0\t030012340000\n' >"$work/script"
        gwo run -m $model --load "$work/chip" --save "$work/again" "$work/script" && ends 0 && prints $'1\t0\t4\t8899\t-' && says "cells of $work/chip" || return 1
        same "$work/chip" "$work/again" || return 1
    done
    gwo run -m3 --load <(cat "$work/chip") "$work/script" && ends 0 && prints $'1\t0\t4\t8899\t-'
}

# Another length: both are said, and nothing is run.
other_lengths() {
    head -c 65535 /dev/zero >"$work/short"
    head -c 65537 /dev/zero >"$work/over"
    local file
    for file in "$work/short" "$work/over" /dev/null; do
        gwo run --load "$file" scripts/fold.txt && ends 2 && prints_nothing && says '65536' || return 1
    done
    gwo run --load "$work/over" scripts/fold.txt && says "$work/over has 65537 bytes, and a KH25L512 has 65536: nothing was run" &&
        gwo run --load <(cat "$work/short") scripts/fold.txt && ends 2 && says 'has 65535 bytes' &&
        gwo run --load /dev/zero scripts/fold.txt && ends 2 && says 'has over 65536 bytes' &&
        gwo run --load "$work/none" scripts/fold.txt && ends 2 && says "$work/none: No such file" && prints_nothing &&
        gwo run --load . scripts/fold.txt && ends 2 && says '.: Is a directory'
}

# The file that is there keeps its rights, a link its target; where it cannot be written that is said before anything is run.
saves() {
    echo old >"$work/kept"
    chmod 604 "$work/kept"
    ln -sf kept "$work/link"
    gwo run --save "$work/link" scripts/fold.txt && ends 0 && [ -L "$work/link" ] && [ "$(stat -c '%a %s' "$work/kept")" = '604 65536' ] || return 1
    for path in "$work/none/chip" "$work" /dev/null ''; do
        gwo run --save "$path" scripts/fold.txt && ends 2 && prints_nothing || { echo "saved to $path"; return 1; }
    done
    says ': No such file or directory'
}

# What could not be played to its end is not saved.
not_saved() {
    rm -f "$work/chip"
    gwo run --save "$work/chip" . && ends 2 && says '.: Is a directory' && [ ! -e "$work/chip" ] || return 1
    status=0
    $GWO run --save "$work/chip" scripts/fold.txt >/dev/full 2>"$work/err" || status=$?
    ends 2 && says 'standard output: No space left on device' && [ ! -e "$work/chip" ]
}

# The image does not fit: the old one stays, and nothing else is left. On a small disk of its own where one may be made, and by a limit on files.
full_disk() {
    mkdir -p "$work/disk"
    if mount -t tmpfs -o size=80k tmpfs "$work/disk" 2>/dev/null; then
        on_small_disk
        local well=$?
        umount "$work/disk"
        [ $well -eq 0 ] || return 1
    fi
    head -c 65536 /dev/zero >"$work/disk/chip"
    (trap '' XFSZ; ulimit -f 16; gwo run --save "$work/disk/chip" scripts/fold.txt; ends 2 && says "$work/disk/chip: File too large") &&
        cmp "$work/disk/chip" <(head -c 65536 /dev/zero) && [ "$(ls "$work/disk")" = chip ]
}

on_small_disk() {
    head -c 65536 /dev/zero >"$work/disk/chip"
    gwo run --save "$work/disk/chip" scripts/fold.txt && ends 2 && says "$work/disk/chip: No space left on device" &&
        cmp "$work/disk/chip" <(head -c 65536 /dev/zero) && [ "$(ls "$work/disk")" = chip ] || return 1
    head -c 30000 /dev/zero >"$work/disk/rest" 2>/dev/null
    status=0
    $GWO explain scripts/wear.txt >"$work/disk/words" 2>"$work/err" || status=$?
    ends 2 && says 'standard output: No space left on device'
}

# ---- the wear sheet

sheet() {
    gwo run --wear - scripts/wear.txt && ends 0 && same scripts/wear.sheet "$work/out" && says '77 lines: ' &&
        gwo run --wear "$work/sheet" scripts/wear.txt && ends 0 && same scripts/wear.sheet "$work/sheet" && same scripts/wear.log "$work/out" &&
        gwo run -m3 -q --wear - scripts/wear.txt && ends 0 && [ "$(wc -l <"$work/out")" -eq $((4096 + 6)) ]
}

as_the_wear_program() {
    local seed
    for seed in 1 2 3; do
        $scripts gen $seed 20000 >"$work/script"
        timeout "$patience" $GWO_WEAR <"$work/script" >"$work/want"
        gwo run -q --wear - "$work/script" && ends 0 && same "$work/want" "$work/out" || return 1
    done
    for seed in $(seq 60); do printf 'F\t1\t0\t06\nF\t1\t0\t20003000\nW\t120000\n'; done >"$work/script"
    printf 'F\t1\t0\t06\nF\t1\t0\t20000000\n' >>"$work/script"
    timeout "$patience" $GWO_WEAR <"$work/script" >"$work/want"
    gwo run -q --wear - "$work/script" && ends 0 && same "$work/want" "$work/out"
}

# ---- outputs and inputs that fail: 2, and it is said which

# fails_at WORDS COMMAND..: standard output is full, then closed.
fails_at() {
    local words=$1
    shift
    status=0
    timeout "$patience" $GWO "$@" >/dev/full 2>"$work/err" || status=$?
    ends 2 && says "$words: No space left on device" || return 1
    status=0
    timeout "$patience" $GWO "$@" >&- 2>"$work/err" || status=$?
    ends 2 && says "$words: Bad file descriptor"
}

failing_outputs() {
    fails_at 'standard output' run scripts/fold.txt && fails_at 'standard output' run --wear - scripts/fold.txt && fails_at 'standard output' check scripts/fold-mended.txt &&
        fails_at 'standard output' check --json scripts/fold.txt && fails_at 'standard output' explain scripts/fold.txt &&
        fails_at 'standard output' compare scripts/fold.txt scripts/fold.log && fails_at 'standard output' compare scripts/fold.txt scripts/fold-mended.log &&
        fails_at 'standard output' sfdp "$table" && fails_at 'standard output' sfdp scripts/fold.txt
}

# A reader that takes one line and goes.
closed_pipes() {
    local command
    $scripts gen 2 60000 >"$work/script"
    for command in run explain check; do
        timeout "$patience" $GWO $command "$work/script" 2>"$work/err" | head -n 1 >"$work/out"
        status=${PIPESTATUS[0]}
        ends 2 && says 'standard output: Broken pipe' || { echo "$command"; return 1; }
    done
}

failing_inputs() {
    local command
    for command in run explain check sfdp; do
        gwo $command "$work/none" && ends 2 && says "$work/none: No such file or directory" && gwo $command scripts && ends 2 && says 'scripts: Is a directory' || { echo "$command"; return 1; }
        status=0
        timeout "$patience" $GWO $command - <. >"$work/out" 2>"$work/err" || status=$?
        ends 2 && says 'standard input: Is a directory' || { echo "$command -"; return 1; }
        status=0
        timeout "$patience" $GWO $command - <&- >"$work/out" 2>"$work/err" || status=$?
        ends 2 && says 'standard input: Bad file descriptor' || { echo "$command, closed"; return 1; }
    done
}

# ---- check

fold_found() {
    gwo check scripts/fold.txt && ends 1 && [ "$(head -n 1 "$work/out")" = "FOLD line 8: 02 page program at 0020F8, 16 bytes, 8 past the page's end" ] &&
        prints 'scripts/fold.txt: 11 lines, 1 fold, 0 refused, 0 not well formed: found' && prints '1 script: 0 clean, 1 with a fold or a refusal, 0 not judged'
}

clean() {
    gwo check scripts/fold-mended.txt && ends 0 && prints 'scripts/fold-mended.txt: 14 lines, 0 folds, 0 refused, 0 not well formed: clean' && [ "$(wc -l <"$work/out")" -eq 2 ]
}

refusals_found() {
    gwo check scripts/refused.txt && ends 1 && prints 'REFUSED line 1: no command: 10, no whole byte in the frame' && prints 'REFUSED line 2: no command and 7 bits: 10' &&
        prints 'REFUSED line 3: 3B: 13, unknown command' && prints 'REFUSED line 12: 20 sector erase at 000000 and 4 bits: 14' &&
        prints 'REFUSED line 11: 20 sector erase, 3 bytes in all: 14, length or tail not allowed for the command' &&
        gwo check scripts/power.txt && ends 1 && prints 'REFUSED line 12: power cycle: 11, busy' &&
        gwo check scripts/wp.txt && ends 1 && prints 'REFUSED line 6: 01 status write of 00, WP# low: 16' &&
        gwo check scripts/old-data.txt && ends 0 && gwo check --strict scripts/old-data.txt && ends 1 &&
        prints 'REFUSED line 5: 02 page program at 001000, 9 bytes: 19, strict: a cell would not hold the byte sent to it'
}

# One is not judged, and so are all; each is said.
not_judged() {
    sed 's/$/\r/' scripts/fold.txt >"$work/crlf"
    { printf '\xEF\xBB\xBF'; cat scripts/fold-mended.txt; } >"$work/bom"
    { cat scripts/fold-mended.txt; echo '# a remark'; } >"$work/remark"
    : >"$work/empty"
    gwo check "$work/crlf" && ends 2 && prints 'NOT WELL FORMED line 1: CR at the end' && prints '11 not well formed: not judged: lines are not well formed' &&
        [ "$(grep -c '^NOT WELL FORMED' "$work/out")" -eq 10 ] &&
        gwo check "$work/bom" && ends 2 && prints 'NOT WELL FORMED line 1: a byte order mark' &&
        gwo check "$work/remark" && ends 2 && prints 'NOT WELL FORMED line 15: a remark' &&
        gwo check "$work/empty" && ends 2 && prints 'not judged: it has no line' &&
        gwo check "$work/none" && ends 2 && says 'No such file' && prints 'not judged: it cannot be read to its end' &&
        gwo check scripts/fold-mended.txt "$work/none" scripts/fold.txt "$work/empty" && ends 2 && prints 'scripts/fold.txt: FOLD line 8: ' &&
        prints '4 scripts: 1 clean, 1 with a fold or a refusal, 2 not judged'
}

# The options may stand behind the scripts; each script has a chip of its own.
many_scripts() {
    gwo check scripts/fold.txt scripts/example.txt scripts/fold.txt --time page=4999 && ends 1 && [ "$(grep -c '^scripts/fold.txt: FOLD line 8: ' "$work/out")" -eq 2 ] &&
        prints 'scripts/example.txt: FOLD line 3: 02 page program at 0000FF, 2 bytes, 1 past the page' && prints '3 scripts: 0 clean, 3 with' &&
        gwo check - <scripts/fold-mended.txt && ends 0 && prints '-: 14 lines'
}

# Command names of the model that is played.
names_by_model() {
    printf 'F\t1\t0\t1500\nF\t1\t0\t52000000\n' >"$work/script"
    gwo check "$work/script" && ends 1 && prints 'line 1: 15: 13, unknown command' && prints 'line 2: 52 block erase at 000000: 21, command withdrawn on this chip' &&
        gwo check -m 3 "$work/script" && ends 1 && prints '2 lines, 0 folds, 1 refused' && prints 'line 2: 52 32 KiB erase at 000000: 15' || return 1
    printf 'F\t1\t0\t5A000000FF00\nF\t1\t0\t5A000000\n' >"$work/script"
    gwo explain -m 2 "$work/script" && ends 0 && prints '0  5A SFDP table at 000000, 1 byte: done, from position 5: 53' && prints '14  5A SFDP table at 000000: length or tail not allowed' &&
        gwo explain -m 3 "$work/script" && ends 0 && prints '13  5A, 6 bytes in all: unknown command'
}

json() {
    tools/host.sh need jq jq || return 1
    ask() { [ "$(jq -c "$1" "$work/out")" = "$2" ] || { echo "$1 is $(jq -c "$1" "$work/out"), want $2"; return 1; }; }
    cp scripts/refused.txt "$work/a\"b\\c"$'\n\xff.txt'
    gwo check --json scripts/fold.txt && ends 1 && ask .status 1 && ask .model 1 && ask '.scripts[0].findings' '[{"line":8,"kind":"fold","answer":0,"meaning":"folded","command":"02","name":"page program","address":"0020F8","bytes":16,"past":8}]' &&
        ask '.scripts[0]|[.lines,.done,.folds,.refused,.not_well_formed,.verdict]' '[11,11,1,0,0,"found"]' &&
        gwo check --json --strict scripts/fold-mended.txt scripts/bad-lines.txt "$work/none" "$work/a\"b\\c"$'\n\xff.txt' && ends 2 && ask .status 2 && ask .strict 1 &&
        ask '[.clean,.found,.not_judged]' '[1,1,2]' && ask '.scripts[1].findings|length' 10 && ask '.scripts[3].script[-11:]' '"a\"b\\c\n�.txt"' &&
        ask '.scripts[1].findings[0]|[.line,.kind,.answer,.meaning]' "[2,\"not well formed\",20,\"microseconds (field 2) are '007', with leading zeros\"]"
}

# ---- explain

samples() {
    local sample
    for sample in host/gwo/samples/*.txt; do
        gwo explain "$sample" && ends 0 && diff -a "${sample%.txt}.want" "$work/out" || { echo "$sample"; return 1; }
    done
    gwo explain --strict scripts/old-data.txt && ends 0 && [ "$(grep -c ': strict: a cell would not hold the byte sent to it$' "$work/out")" -eq 2 ] &&
        prints '38 lines: 36 done, 2 refused, 0 not well formed, 0 folds'
}

# Of every line that is answered 20 it is said what is wrong with it.
faults_named() {
    $scripts bad 1 20000 >"$work/script"
    gwo explain "$work/script" && ends 0 && ! grep -a 'nothing is found wrong' "$work/out" && [ "$(tail -n 1 "$work/out" | cut -d ' ' -f 1)" -eq 20000 ]
}

# ---- compare

same_logs() {
    local script
    for script in scripts/*.txt; do
        gwo compare "$script" "${script%.txt}.log" && ends 0 && prints "gwo compare: the log of $script is ${script%.txt}.log" || { echo "$script"; return 1; }
    done
    gwo compare scripts/fold.txt - <scripts/fold.log && ends 0 && gwo compare - scripts/fold.log <scripts/fold.txt && ends 0 &&
        gwo compare --strict scripts/old-data.txt scripts/old-data.strict && ends 0 && gwo compare scripts/old-data.txt scripts/old-data.strict && ends 1
}

other_logs() {
    sed '11s/4440/5441/' scripts/fold.log >"$work/log"
    gwo compare scripts/fold.txt "$work/log" && ends 1 && printf 'line 10 differs: F\t1\t0\t030020000000000000000000\n  stored  10\t0\t4\t5441420000203231\t-\n  played  10\t0\t4\t4440420000203231\t-\ngwo compare: the log of scripts/fold.txt is not %s\n' "$work/log" | diff -a - "$work/out" || return 1
    gwo compare scripts/fold.txt scripts/fold-mended.log && ends 1 && prints '3 more rows differ' || return 1
    head -n -2 scripts/fold.log >"$work/log"
    gwo compare scripts/fold.txt "$work/log" && ends 1 && prints 'line 10 differs: F' && prints '  stored  has no such row' || return 1
    { cat scripts/fold.log; echo; } >"$work/log"
    gwo compare scripts/fold.txt "$work/log" && ends 1 && prints 'line 12 differs: the script has no such line' && prints '  played  has no such row' || return 1
    gwo compare scripts/fold.txt /dev/null && ends 1 && prints 'the header differs' && prints '9 more rows differ' || return 1
    head -c -1 scripts/fold.log >"$work/log"
    gwo compare scripts/fold.txt "$work/log" && ends 1 && prints 'only the newline at the end differs' || return 1
    sed 's/$/\r/' scripts/fold.log >"$work/log"
    gwo compare scripts/fold.txt "$work/log" && ends 1 && prints 'the header differs' && prints '\r' && prints '9 more rows differ' || return 1
    cut -f 1-4 scripts/fold.log >"$work/log"
    gwo compare scripts/fold.txt "$work/log" && ends 1 && prints 'the header differs' || return 1
    { cat scripts/fold.log; head -c 3000000 /dev/zero; } >"$work/log"
    gwo compare scripts/fold.txt "$work/log" && ends 1 && prints 'line 12 differs: the script has no such line'
}

not_compared() {
    gwo compare scripts/fold.txt "$work/none" && ends 2 && says "$work/none: No such file" && gwo compare "$work/none" scripts/fold.log && ends 2 &&
        gwo compare scripts/fold.txt . && ends 2 && says '.: Is a directory' && gwo compare . scripts/fold.log && ends 2 && says '.: Is a directory'
}

# ---- sfdp

# The table of the KH25L2006E in words, from a file, from standard input, and with bytes behind it.
table_shown() {
    printf '%s\n' 'SFDP revision 1.0, 2 parameter headers' 'header 0: id 00, revision 1.0, 9 double words at 000030' 'header 1: id C2, revision 1.0, 4 double words at 000060' \
        'density: 262144 bytes (field 001FFFFF)' 'erase type 1: 4096 bytes by 20' 'erase type 2: 65536 bytes by D8' >"$work/want"
    { cat "$table"; head -c 200000 /dev/urandom; } >"$work/longer"
    gwo sfdp "$table" && ends 0 && same "$work/want" "$work/out" && [ ! -s "$work/err" ] && gwo sfdp <"$table" && ends 0 && same "$work/want" "$work/out" &&
        gwo sfdp - < <(cat "$table") && ends 0 && same "$work/want" "$work/out" && gwo sfdp "$work/longer" && ends 0 && same "$work/want" "$work/out"
}

# The chip drives that table: a script of one frame, and the bytes of its row.
table_driven() {
    printf 'F\t1\t0\t5A00000000%0224d\n' 0 >"$work/script"
    gwo run -q -m 2 "$work/script" && ends 0 || return 1
    printf "$(cut -f 4 "$work/out" | tail -n 1 | sed 's/../\\x&/g')" >"$work/driven"
    same "$table" "$work/driven"
}

# put FILE PLACE HEX: bytes of a file in place of others.
put() {
    printf "$(sed 's/../\\x&/g' <<<"$3")" | dd of="$1" bs=1 seek="$2" conv=notrunc status=none
}

# 256 headers, the first table at 000900: other revisions, the longest and the smallest numbers, types in later slots, none at all.
odd_tables() {
    head -c 4096 /dev/zero >"$work/odd"
    put "$work/odd" 0 534644500502FF && put "$work/odd" 8 00000109000900 && put "$work/odd" 24 AA0A0BFF000400 && put "$work/odd" $((0x904)) 22000080 &&
        put "$work/odd" $((0x91C)) 000001003F11FFEE || return 1
    gwo sfdp "$work/odd" && ends 0 && prints 'SFDP revision 2.5, 256 parameter headers' && prints 'header 2: id AA, revision 11.10, 255 double words at 000400' &&
        prints 'header 255: id 00, revision 0.0, 0 double words at 000000' && prints 'density: 2147483648 bytes (field 80000022)' && ! grep 'erase type 1' "$work/out" &&
        prints 'erase type 2: 2 bytes by 00' && prints 'erase type 3: 9223372036854775808 bytes by 11' && prints 'erase type 4: 2^255 bytes by EE' || return 1
    put "$work/odd" $((0x904)) FFFFFFFF && gwo sfdp "$work/odd" && ends 0 && prints 'density: 2^2147483644 bytes (field FFFFFFFF)' &&
        put "$work/odd" $((0x904)) 02000080 && gwo sfdp "$work/odd" && ends 0 && prints 'density: 4 bits (field 80000002)' &&
        put "$work/odd" $((0x904)) 00000000 && gwo sfdp "$work/odd" && ends 0 && prints 'density: 1 bit (field 00000000)' &&
        put "$work/odd" $((0x904)) FFFFFF7F && gwo sfdp "$work/odd" && ends 0 && prints 'density: 268435456 bytes (field 7FFFFFFF)' &&
        put "$work/odd" $((0x91C)) 0000000000000000 && gwo sfdp "$work/odd" && ends 0 && [ "$(tail -n 1 "$work/out")" = 'no erase type' ]
}

# Cut short anywhere, and no table at all: 1, and the refusal with its number.
table_refused() {
    local n want
    for n in $(seq 0 111); do
        head -c "$n" "$table" >"$work/cut"
        want='30, no SFDP signature, or under 8 bytes'
        [ "$n" -lt 8 ] || want='31, SFDP: more headers or a longer table than bytes, or a first table under 36 bytes'
        [ "$n" -lt 36 ] || want="32, SFDP: a table's pointer leads past the bytes"
        [ "$n" -eq 1 ] && want="REFUSED 1 byte: $want" || want="REFUSED $n bytes: $want"
        gwo sfdp "$work/cut" && ends 1 && [ "$(cat "$work/out")" = "$want" ] && [ ! -s "$work/err" ] || { echo "$n bytes, want $want"; cat "$work/out"; return 1; }
    done
    { printf 'sfdp'; head -c 5000 /dev/urandom; } >"$work/junk"
    for n in "$work/junk" scripts/fold.txt /dev/null; do
        gwo sfdp "$n" && ends 1 && prints ': 30, ' && [ "$(wc -l <"$work/out")" -eq 1 ] || { echo "$n"; return 1; }
    done
}

# A file that is not there, and one that does not end.
table_not_read() {
    gwo sfdp "$work/none" && ends 2 && prints_nothing && says "gwo sfdp: $work/none: No such file or directory" &&
        gwo sfdp /dev/zero && ends 2 && prints_nothing && says '/dev/zero has over 16777216 bytes, and SFDP has no more addresses' &&
        head -c 16777216 /dev/zero >"$work/all" && gwo sfdp "$work/all" && ends 1 && prints 'REFUSED 16777216 bytes: 30, '
}

check 'run: every stored log, strict and not' every_log
if [ -n "${GWO_RUNNER:-}" ]; then
    check "run: $count random scripts, byte for byte as the runner" as_the_runner
else
    echo "NOT RUN: GWO_RUNNER does not say where the runner is"
fi
check 'run: random scripts on each model, as the independent model' as_the_model
check 'run: standard input, pipes, odd names' from_anywhere
check 'run: typed lines' typed_lines
check 'run: a line of 100 MB' long_line
check 'run: the chip and the counts are said' chip_and_counts
check 'run: how far it has come' progress
check 'run: times of one'"'"'s own' times
check 'words that are not understood' wrong_words
check 'help, usage and version, and a full disk' help
check 'run: images loaded and saved' load_and_save
check 'run: images of another length' other_lengths
check 'run: where an image can be saved' saves
check 'run: not saved' not_saved
check 'a disk that is full' full_disk
check 'run: the wear sheet' sheet
if [ -n "${GWO_WEAR:-}" ]; then
    check 'run: the wear sheet as the program of Rattle has it' as_the_wear_program
else
    echo "NOT RUN: GWO_WEAR does not say where the program wear is"
fi
check 'outputs that fail' failing_outputs
check 'pipes that are closed' closed_pipes
check 'inputs that fail' failing_inputs
check 'check: a fold' fold_found
check 'check: clean' clean
check 'check: refusals' refusals_found
check 'check: not judged' not_judged
check 'check: several scripts' many_scripts
check 'check: the names of each model' names_by_model
check 'check: for machines' json
check 'explain: the samples' samples
check 'explain: what is wrong with a line' faults_named
check 'compare: the same' same_logs
check 'compare: different' other_logs
check 'compare: not compared' not_compared
check 'sfdp: the table of the KH25L2006E' table_shown
check 'sfdp: the chip drives it' table_driven
check 'sfdp: odd tables' odd_tables
check 'sfdp: refused, cut short anywhere' table_refused
check 'sfdp: not read' table_not_read
conclude
