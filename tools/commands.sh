#!/usr/bin/env bash
# The Makefile's commands: what they say, and their exit status.
#   tools/commands.sh
# The archive and target/bin/run_rewrite are built; a stand-in for rt says what rt would, so that nothing is proved here.
set -u
cd "$(dirname "$0")/.." || exit 1
unset MAKEFLAGS MFLAGS MAKELEVEL SCRIPT LOG STRICT MODEL IMAGE SAVE GWO_BEHIND
passed=0
failed=0
work=$(mktemp -d)
trap 'rm -rf "$work"' EXIT

# check NAME COMMAND..: what it says is shown when it fails.
check() {
    local name=$1
    shift
    if "$@" >"$work/said" 2>&1; then
        passed=$((passed + 1))
        echo "ok $name"
    else
        failed=$((failed + 1))
        echo "FAILED $name"
        head -n 20 "$work/said" | cut -c 1-160
    fi
}

# stand_in STATUS LINE..: an rt that prints the lines, leaves a program in crates/runner and ends so.
stand_in() {
    local status=$1
    shift
    mkdir -p "$work/bin"
    { echo '#!/bin/sh'; printf "echo '%s'\n" "$@"; echo 'case $PWD in */crates/runner) mkdir -p out && echo made >out/runner ;; esac'; echo "exit $status"; } >"$work/bin/rt"
    chmod +x "$work/bin/rt"
}

# fresh: a project of three crates, in which nothing is built yet.
fresh() {
    local name
    rm -rf "$work/fresh" && mkdir "$work/fresh" && cp -r tools "$work/fresh/" || return 1
    printf '%s\n' '# below' 'units:' 'cells staticlib: units' 'runner: units cells' 'wear: units' >"$work/fresh/crates.txt"
    for name in units cells runner wear; do mkdir -p "$work/fresh/crates/$name/src" && echo "// $name" >"$work/fresh/crates/$name/src/lib.rt" || return 1; done
}

# from_fresh COMMAND..: there; what it says is in $work/err.
from_fresh() {
    (cd "$work/fresh" && PATH=$work/bin:$PATH "$@") >"$work/out" 2>"$work/err" </dev/null
}

# ends WANTED WORDS COMMAND..: with that status, and with those words on standard error, if there are any.
ends() {
    local wanted=$1 words=$2 got=0
    shift 2
    PATH=$work/bin:$PATH "$@" >"$work/out" 2>"$work/err" </dev/null || got=$?
    [ $got -eq "$wanted" ] || { echo "status $got, want $wanted"; cat "$work/err"; return 1; }
    [ -z "$words" ] || grep -qF -- "$words" "$work/err" || { echo "standard error lacks: $words"; cat "$work/err"; return 1; }
}

# gives WANTED COMMAND..: standard output is that file; standard error is empty but for the chip and the counts, which gwo says.
gives() {
    local wanted=$1
    shift
    PATH=$work/bin:$PATH "$@" >"$work/out" 2>"$work/err" || { echo "status $?"; cat "$work/err"; return 1; }
    diff -a "$wanted" "$work/out" && diff -a /dev/null <(grep -v '^gwo run: ' "$work/err")
}

# bench WORD=..: tools/bench.sh as make starts it, which has its own status.
bench() {
    env "${@:2}" tools/bench.sh "$1"
}

helps() {
    local target
    make >"$work/out" || return 1
    for target in $(sed -n 's/^\.PHONY: help //p' Makefile); do
        grep -q "make $target\b" "$work/out" || { echo "make does not name $target"; return 1; }
    done
}

through_a_pipe() {
    gives scripts/example.log make run SCRIPT=<(cat scripts/example.txt) || return 1
    mkfifo "$work/pipe"
    cat scripts/example.txt >"$work/pipe" &
    gives scripts/example.log make run SCRIPT="$work/pipe"
}

from_standard_input() {
    gives scripts/example.log make run SCRIPT=/dev/stdin <scripts/example.txt &&
        gives scripts/example.log make run SCRIPT=- <scripts/example.txt
}

# Blanks, quotes, and what make would take for a name of its own.
odd_name() {
    local name="$work/it's \"a b\" \$c \$(d) #e.txt"
    cp scripts/example.txt "$name"
    gives scripts/example.log make run SCRIPT="$name" && gives scripts/example.log env SCRIPT="$name" make run
}

# From another folder: make says nothing of its own in the log.
from_elsewhere() {
    gives scripts/example.log make -C "$PWD" run SCRIPT=scripts/example.txt && gives scripts/example.log make -C "$PWD" run SCRIPT=- <scripts/example.txt &&
        ends 2 'there is no file none' make -C "$PWD" run SCRIPT=none
}

# A word that make does not know is said, and nothing is run.
misspelt() {
    local word
    for word in Strict=1 script=x SCRIPTS=x STRIKT=1 'FOO=a b'; do
        ends 2 "${word%%=*}: no such word here" make run SCRIPT=scripts/example.txt "$word" && [ ! -s "$work/out" ] || return 1
    done
}

# Only what the scripts need is on the path, and no rt.
no_toolchain() {
    local tool got=0
    fresh && mkdir "$work/bare" || return 1
    for tool in bash sh env dirname cat mkdir awk find sort tr xargs sha256sum; do
        ln -s "$(command -v $tool)" "$work/bare/$tool" || return 1
    done
    (cd "$work/fresh" && PATH=$work/bare tools/rattle.sh 'make run' runner) >"$work/out" 2>"$work/err" || got=$?
    [ $got -eq 2 ] && echo 'make run: the Rattle toolchain is missing: there is no rt on the path' | diff - "$work/err"
}

# proves NAME [CHECKED]: what rt says of a crate that it has checked; with 0, of one that it had checked before.
proves() {
    printf '%s\n' "fn $1::wide: proved" 'statements core: modules loaded=222 checked=0' "crate $1: modules loaded=58 checked=${2:-30}" 'logic=proved functions=1 sum=d'
}

# What is proved is said, with all below it counted; what was proved before is not.
progress() {
    local said
    mapfile -t said < <(echo 'only=0 proved=0'; proves units; proves cells 0; proves runner)
    fresh && stand_in 0 "${said[@]}" && from_fresh tools/rattle.sh 'make run' runner || { cat "$work/err"; return 1; }
    printf 'make run: %s\n' 'target/bin/runner is proved and built first, which takes some minutes' 'units is proved, 1 of 3 crates' 'runner is proved, 3 of 3 crates' | diff -a - "$work/err" &&
        echo made | diff - "$work/fresh/target/bin/runner" || return 1
    # and with no file changed rt is not asked again; an edit, or what rt keeps, is no change
    mkdir "$work/fresh/crates/units/must-fail" "$work/fresh/crates/units/out" && touch "$work/fresh/crates/units/must-fail/x.edit" "$work/fresh/crates/units/out/x" && stand_in 1 &&
        from_fresh tools/rattle.sh 'make run' runner || return 1
    echo '// another' >>"$work/fresh/crates/units/src/lib.rt"
    ! from_fresh tools/rattle.sh 'make run' runner
}

# The programs as rt ci left them are taken, and rt is not asked for them then.
as_left() {
    local name
    fresh && sed -i 's/^wear:/run_rewrite: units\nwear:/' "$work/fresh/crates.txt" && mkdir -p "$work/fresh/crates/run_rewrite/src" && stand_in 1 || return 1
    ! from_fresh tools/rattle.sh 'make test' programs || { echo 'programs that are not there are taken'; return 1; }
    for name in runner wear run_rewrite; do mkdir -p "$work/fresh/crates/$name/out" && echo "$name" >"$work/fresh/crates/$name/out/$name" || return 1; done
    from_fresh tools/rattle.sh 'make test' programs || { cat "$work/err"; return 1; }
    for name in runner wear run_rewrite; do
        from_fresh tools/rattle.sh 'make test' $name && echo "$name" | diff - "$work/fresh/target/bin/$name" || return 1
    done
}

# A crate is said before the next one is done: the stand-in waits until it was.
at_once() {
    local tries=0 pid said
    rm -f "$work/err" "$work/seen"
    mapfile -t said < <(proves units)
    fresh && stand_in 0 "${said[@]}" || return 1
    sed -i '$d' "$work/bin/rt"
    echo "for i in \$(seq 100); do [ -e '$work/seen' ] && exit 0; sleep 0.1; done; exit 1" >>"$work/bin/rt"
    from_fresh tools/rattle.sh 'make run' runner &
    pid=$!
    while [ $((tries += 1)) -lt 80 ] && [ ! -e "$work/seen" ]; do
        sleep 0.1
        grep -qs 'units is proved' "$work/err" && touch "$work/seen"
    done
    wait $pid
}

not_proved() {
    fresh && stand_in 1 'fn units::wide: not proved' || return 1
    ! from_fresh tools/rattle.sh 'make run' runner && grep -q '^fn units::wide: not proved$' "$work/err" && grep -q '^make run: target/bin/runner could not be proved and built$' "$work/err"
}

differs() {
    sed '11s/4440/5441/' scripts/fold.log >"$work/log"
    ends 1 '' bench compare SCRIPT=scripts/fold.txt LOG="$work/log" || return 1
    printf 'line 10 differs: F\t1\t0\t030020000000000000000000\n' | diff -a - <(head -n 1 "$work/out") || return 1
    ends 1 '' bench compare SCRIPT=scripts/fold.txt LOG=scripts/fold-mended.log || return 1
    grep -q '3 more rows differ' "$work/out"
}

same() {
    ends 0 '' bench compare SCRIPT=scripts/fold.txt LOG=scripts/fold.log
}

sheet() {
    gives scripts/wear.sheet make wear SCRIPT=scripts/wear.txt &&
        gives scripts/wear.sheet make wear SCRIPT=<(cat scripts/wear.txt)
}

explains() {
    gives host/gwo/samples/windows.want make explain SCRIPT=host/gwo/samples/windows.txt
}

# STRICT=1 turns the setting on; empty it is off.
strict_run() {
    gives scripts/old-data.strict make run SCRIPT=scripts/old-data.txt STRICT=1 &&
        gives scripts/old-data.log make run SCRIPT=scripts/old-data.txt STRICT=
}

strict_compare() {
    ends 0 '' make compare SCRIPT=scripts/old-data.txt LOG=scripts/old-data.strict STRICT=1 &&
        ends 1 '' bench compare SCRIPT=scripts/old-data.txt LOG=scripts/old-data.strict &&
        ends 1 '' bench compare STRICT=1 SCRIPT=scripts/old-data.txt LOG=scripts/old-data.log
}

# The last line counts two refusals, and each is said in words.
strict_explain() {
    ends 0 '' make explain SCRIPT=scripts/old-data.txt STRICT=1 || return 1
    [ "$(grep -c ' 19  .*strict: a cell would not hold the byte sent to it$' "$work/out")" -eq 2 ] &&
        tail -n 1 "$work/out" | grep -qE '^38 lines: 36 done, 2 refused, 0 not well formed, 0 folds$'
}

# A program that is refused keeps no erase waiting.
strict_wear() {
    printf 'F\t1\t0\t%s\nW\t5000\n' 06 0200000000 06 >"$work/wear"
    printf 'F\t1\t0\t%s\n' 0200000001 20000000 >>"$work/wear"
    ends 0 '' make wear SCRIPT="$work/wear" STRICT=1 && grep -qx 'total 1' "$work/out" &&
        ends 0 '' make wear SCRIPT="$work/wear" && grep -qx 'total 0' "$work/out"
}

# Any other value is said, and nothing is run.
strict_unknown() {
    local value target
    for value in 0 2 11 yes strict '1 1'; do
        for target in run wear explain compare; do
            ends 2 "make $target: STRICT is 1, or is left out; it is not $value" make $target SCRIPT=scripts/old-data.txt LOG=scripts/old-data.log STRICT="$value" || return 1
            [ ! -s "$work/out" ] || { echo "make $target runs with STRICT=$value"; return 1; }
        done
    done
}

# Another chip, an image at the start, one at the end; the status is true where the disk is full.
chips() {
    printf 'F\t1\t0\t9F000000\nF\t1\t0\t06\nF\t1\t0\t0200000055\nW\t5000\nF\t1\t0\t0300000000\n' >"$work/id"
    ends 0 'KH25L12845G (model 3)' make run SCRIPT="$work/id" MODEL=3 SAVE="$work/a \$chip" && grep -q 'C22018' "$work/out" && [ "$(stat -c %s "$work/a \$chip")" -eq 16777216 ] &&
        printf 'F\t1\t0\t0300000000\n' >"$work/read" && ends 0 '' make run SCRIPT="$work/read" MODEL=3 IMAGE="$work/a \$chip" && grep -q $'1\t0\t4\t55\t-' "$work/out" &&
        ends 2 "there is no model '4'" make run SCRIPT="$work/id" MODEL=4 && ends 2 'a KH25L512 has 65536' make run SCRIPT="$work/id" IMAGE="$work/a \$chip" &&
        ends 2 'SAVE is for make run' make wear SCRIPT="$work/id" SAVE="$work/x" && ends 0 '' make compare SCRIPT=scripts/fold.txt LOG=scripts/fold.log MODEL=1
}

full_disk() {
    local target status
    for target in run wear explain compare; do
        status=0
        make $target SCRIPT=scripts/wear.txt LOG=scripts/wear.log >/dev/full 2>"$work/err" || status=$?
        [ $status -eq 2 ] && grep -q 'No space left on device' "$work/err" || { echo "make $target: status $status"; cat "$work/err"; return 1; }
    done
}

example_full_disk() {
    ! make example >/dev/full 2>"$work/err" && grep -q 'No space left on device' "$work/err"
}

# A copy of the project whose path has a blank, used by somebody who may not write there.
copied() {
    local copy="$work/a \$ copy" name
    mkdir -m 755 "$copy" && chmod 755 "$work" || return 1
    cp -a Makefile tools host scripts crates.txt "$copy/" && tar -c --exclude='crates/*/out' crates | tar -x -C "$copy" && mkdir "$copy/target" && cp -a target/bin target/staticlib target/rattle.*.sources "$copy/target/" && cp -a build "$copy/" || return 1
    touch "$copy/host/gwo/main.c" # so that it is built there
    gives scripts/example.log make -C "$copy" run SCRIPT=scripts/example.txt && gives "$work/examples" make -C "$copy" example || return 1
    [ "$(id -u)" -eq 0 ] && command -v setpriv >/dev/null || return 0
    gives scripts/example.log setpriv --reuid=65534 --regid=65534 --clear-groups make -C "$copy" run SCRIPT=scripts/example.txt &&
        gives "$work/examples" setpriv --reuid=65534 --regid=65534 --clear-groups make -C "$copy" example &&
        gives scripts/wear.sheet setpriv --reuid=65534 --regid=65534 --clear-groups make -C "$copy" wear SCRIPT=scripts/wear.txt || return 1
    touch "$copy/host/gwo/run.c"
    ends 2 'build/gwo is to be built, and the folder build cannot be written' setpriv --reuid=65534 --regid=65534 --clear-groups make -C "$copy" run SCRIPT=scripts/example.txt
}

# What is installed works from there, and what is taken away is gone.
installed() {
    local to="$work/pre fix"
    ends 0 '' make install PREFIX="$to" && "$to/bin/gwo" check scripts/fold-mended.txt && [ -s "$to/share/man/man1/gwo.1" ] &&
        "$to/bin/gwo" rewrite scripts/withdrawn.txt 2>/dev/null | diff - <(build/gwo rewrite scripts/withdrawn.txt 2>/dev/null) || return 1
    tools/host.sh need pkg-config pkg-config || return 1
    awk '/^```c$/ { inside = 1; next } /^```$/ { inside = 0 } inside' README.md >"$work/readme.c"
    eval "tools/host.sh cc \"\$work/readme.c\" $(PKG_CONFIG_PATH="$to/lib/pkgconfig" pkg-config --cflags --libs gwo) -o \"\$work/readme\"" && tools/host.sh run "$work/readme" | grep -q 'C2 20 10' || return 1
    ends 0 '' make uninstall PREFIX="$to" && [ -z "$(find "$to" -type f)" ] || return 1
    ends 0 '' make install PREFIX=/usr DESTDIR="$work/stage" && [ -x "$work/stage/usr/bin/gwo" ] && grep -q '^prefix=/usr$' "$work/stage/usr/lib/pkgconfig/gwo.pc" || return 1
    touch "$work/file"
    ends 2 "$work/file" make install PREFIX="$work/file"
}

# rt is not asked again where nothing has changed.
asked_once() {
    stand_in 1 'rt: it was asked'
    ends 0 '' make lib && ends 0 '' make gwo
}

stand_in 0
cat host/example/output.txt host/example/discover.txt >"$work/examples"
check 'make alone lists the commands' helps
check 'run: no file is named' ends 2 'make run: which file? SCRIPT=FILE is missing' make run
check 'run: a folder' ends 2 'make run: scripts is a folder, not a file' make run SCRIPT=scripts
check 'run: no such file' ends 2 'make run: there is no file none' make run SCRIPT=none
check 'run: a pipe' through_a_pipe
check 'run: standard input' from_standard_input
check 'run: a name with blanks and quotes' odd_name
check 'run: from another folder' from_elsewhere
check 'a word that is misspelt' misspelt
check 'run: no toolchain' no_toolchain
check 'compare: the same' same
check 'compare: different' differs
check 'compare: no such log' ends 2 'make compare: there is no file none' make compare SCRIPT=scripts/fold.txt LOG=none
check 'explain: a folder' ends 2 'make explain: scripts is a folder' make explain SCRIPT=scripts
check 'explain' explains
check 'wear: no file is named' ends 2 'make wear: which file? SCRIPT=FILE is missing' make wear
check 'wear: a folder' ends 2 'make wear: scripts is a folder, not a file' make wear SCRIPT=scripts
check 'wear' sheet
check 'run: strict' strict_run
check 'compare: strict' strict_compare
check 'explain: strict' strict_explain
check 'wear: strict' strict_wear
check 'an unknown STRICT' strict_unknown
check 'example' gives "$work/examples" make example
check 'example: a full disk' example_full_disk
check 'run: another chip, images' chips
check 'a full disk' full_disk
check 'a path with a blank, and somebody who may not write' copied
check 'install and uninstall' installed
check 'lib and gwo: nothing is asked for again' asked_once
check 'run: what is proved is said' progress
check 'run: it is said at once' at_once
check 'the programs of the gate' as_left
check 'run: what is not proved is said' not_proved
echo "$passed passed, $failed failed"
[ "$failed" -eq 0 ]
