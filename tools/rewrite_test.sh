#!/usr/bin/env bash
# The program behind `gwo rewrite` and `make rewrite`: on the stored cases, on scripts of random lines against tools/rewrite_reference.py; and both commands,
# where it can be done and where not.
#   tools/rewrite_test.sh
# target/bin/run_rewrite and build/gwo are built.
set -u
cd "$(dirname "$0")/.." || exit 1
passed=0
failed=0
work=$(mktemp -d)
trap 'rm -rf "$work"' EXIT
program=(tools/host.sh program "$PWD/target/bin/run_rewrite")
reference=(tools/host.sh python -B tools/rewrite_reference.py)

check() {
    local name=$1
    shift
    if "$@" >"$work/said" 2>&1; then
        passed=$((passed + 1))
        echo "ok $name"
    else
        failed=$((failed + 1))
        echo "FAILED $name"
        head -c 2000 "$work/said"
    fi
}

# same FILE [FAULT]: the program's script and numbers for that file are those of the reference, with a fault in it where one is named.
same() {
    "${program[@]}" <"$1" >"$work/out" 2>"$work/err" &&
        "${reference[@]}" rewrite "${2:-none}" <"$1" >"$work/want" 2>"$work/numbers" &&
        cmp "$work/want" "$work/out" && diff -a "$work/numbers" "$work/err"
}

stored() {
    same crates/run_rewrite/stdin && cmp crates/run_rewrite/stdout "$work/out"
}

random() {
    local seed
    for seed in 1 2 3 4 5 6 7 8; do
        "${reference[@]}" random "$seed" >"$work/script" && same "$work/script" || return 1
    done
}

twice() {
    "${program[@]}" <crates/run_rewrite/stdin 2>/dev/null >"$work/once" && "${program[@]}" <"$work/once" >"$work/twice" 2>"$work/err" &&
        cmp "$work/once" "$work/twice" && diff -a /dev/null "$work/err"
}

# A rewriter with that fault is told from ours.
told() {
    ! same crates/run_rewrite/stdin "$1"
}

# ends WANTED-STATUS WORDS COMMAND..
ends() {
    local wanted=$1 words=$2 got=0
    shift 2
    "$@" >"$work/out" 2>"$work/err" || got=$?
    [ "$got" -eq "$wanted" ] && grep -qF -- "$words" "$work/err" || { echo "status $got"; cat "$work/err"; return 1; }
}

# gwo rewrite gives what the reference gives, from a file, from standard input, by a pipe and by an odd name.
by_gwo() {
    local name="$work/it's a \$b.txt"
    cp scripts/withdrawn.txt "$name"
    "${reference[@]}" rewrite none <scripts/withdrawn.txt >"$work/want" 2>"$work/numbers" || return 1
    for script in scripts/withdrawn.txt - "$name" <(cat scripts/withdrawn.txt); do
        build/gwo rewrite "$script" <scripts/withdrawn.txt >"$work/out" 2>"$work/err" && cmp "$work/want" "$work/out" && diff -a "$work/numbers" "$work/err" || { echo "$script"; return 1; }
    done
}

by_make() {
    "${reference[@]}" rewrite none <scripts/withdrawn.txt >"$work/want" 2>"$work/numbers" || return 1
    for script in scripts/withdrawn.txt -; do
        make -s rewrite SCRIPT="$script" <scripts/withdrawn.txt >"$work/out" 2>"$work/err" && cmp "$work/want" "$work/out" && diff -a "$work/numbers" "$work/err" || { echo "$script"; return 1; }
    done
}

full_disk() {
    local command got
    for command in 'build/gwo rewrite scripts/withdrawn.txt' 'make -s rewrite SCRIPT=scripts/withdrawn.txt'; do
        got=0
        $command >/dev/full 2>"$work/err" || got=$?
        [ "$got" -eq 2 ] && grep -q '^rewrite: standard output: No space left on device' "$work/err" || { echo "$command: status $got"; cat "$work/err"; return 1; }
    done
}

# A reader that has gone, and standard files that are closed.
closed() {
    local got
    trap '' PIPE
    head -c 300000 /dev/zero | tr '\0' '\n' >"$work/long"
    build/gwo rewrite "$work/long" 2>"$work/err" | true
    got=${PIPESTATUS[0]}
    trap - PIPE
    [ "$got" -eq 2 ] && grep -q '^rewrite: standard output: Broken pipe' "$work/err" || { echo "a pipe: status $got"; head -n 3 "$work/err"; return 1; }
    got=0
    build/gwo rewrite - <&- >"$work/out" 2>"$work/err" || got=$?
    [ "$got" -eq 2 ] && grep -q '^rewrite: standard input: ' "$work/err" || { echo "standard input: status $got"; return 1; }
    got=0
    build/gwo rewrite scripts/withdrawn.txt 2>/dev/full >"$work/out" || got=$?
    [ "$got" -eq 2 ] || { echo "standard error: status $got"; return 1; }
}

# A copy of gwo that has not the program beside it.
alone() {
    mkdir -p "$work/alone" && cp build/gwo* "$work/alone/" && rm "$work/alone/gwo-rewrite" || return 1
    [ -s build/gwo.x86-64 ] || ends 2 'the program that rewrites is not where it should be' "$work/alone/gwo" rewrite scripts/withdrawn.txt
}

check 'the stored cases' stored
check 'random scripts' random
check 'twice is once' twice
for fault in second bad lower inside newline numbers; do
    check "a rewriter with the fault: $fault" told $fault
done
check 'gwo rewrite' by_gwo
check 'make rewrite' by_make
check 'a file that is not there' ends 2 'make rewrite' make rewrite SCRIPT="$work/none"
check 'gwo: a file that is not there' ends 2 "gwo rewrite: $work/none: No such file" build/gwo rewrite "$work/none"
check 'gwo: a folder' ends 2 'gwo rewrite: scripts: Is a directory' build/gwo rewrite scripts
check 'gwo: a word too many' ends 2 'is another' build/gwo rewrite a b
check 'make: words that are not for it' ends 2 'are for scripts that are played' make rewrite SCRIPT=scripts/withdrawn.txt MODEL=2
check 'a full disk' full_disk
check 'closed files' closed
check 'the program is missing' alone
echo "$passed passed, $failed failed"
[ "$failed" -eq 0 ]
