#!/usr/bin/env bash
# All tests of gwo; the last line counts them.
#   host/gwo/test.sh
# build/gwo is built first, with what tools/gwo.sh has behind it. The same tests are run with sanitizers, over the independent model on this machine
# itself; beside them run the fuzzers for GWO_FUZZ seconds (60). GWO_RUNNER and GWO_WEAR are the programs of Rattle that gwo is compared with.
set -u
cd "$(dirname "$0")/../.." || exit 1
out=target/gwo
passed=0
failed=0
warnings="-Wall -Wextra -Wconversion -pedantic -Werror"
mkdir -p $out

# check NAME COMMAND..: what the command says is shown when it fails.
check() {
    local name=$1
    shift
    if "$@" >$out/said 2>&1; then
        passed=$((passed + 1))
        echo "ok $name"
    else
        failed=$((failed + 1))
        echo "FAILED $name"
        head -n 30 $out/said | cut -c 1-200
    fi
}

# count NAME COMMAND..: a script of tests of its own, whose last line counts them.
count() {
    local name=$1
    shift
    "$@" >$out/counted 2>&1
    add "$name"
}

# add NAME: what such a script has said, in $out/counted.
add() {
    local name=$1 last
    sed "\$d; s/^\(ok\|FAILED\|NOT RUN:\) /&$name: /" $out/counted
    last=$(tail -n 1 $out/counted)
    if [[ $last =~ ^([0-9]+)\ passed,\ ([0-9]+)\ failed$ ]]; then
        passed=$((passed + BASH_REMATCH[1]))
        failed=$((failed + BASH_REMATCH[2]))
    else
        failed=$((failed + 1))
        echo "FAILED $name: it broke off: $last"
    fi
}

# What the tests themselves need, for this machine.
tools() {
    tools/host.sh here gcc -std=c11 -O2 -Ihost/model -r -nostdlib host/model/*.c -o $out/model.o &&
        tools/host.sh here gcc -std=c11 -O2 -Ihost/model -include host/model/names.h -r -nostdlib host/model/*.c -o $out/stand_in.o &&
        tools/host.sh here gcc -std=c99 -O2 -Ihost/include -Ihost/model -Ihost/test host/test/scripts*.c host/test/rig.c $out/model.o -o $out/scripts &&
        tools/host.sh here gcc -std=c11 -D_GNU_SOURCE -O2 $warnings host/gwo/test/client.c -o $out/client
}

# warns_not COMPILER: the program and what stands for the archive, without a warning.
warns_not() {
    tools/host.sh here "$1" -std=c11 -D_GNU_SOURCE -O2 $warnings -fsyntax-only -Ihost/include -Ihost/model host/gwo/*.c host/model/*.c
}

# chip COMPILER LANGUAGE STANDARD: struct gwo_chip as that, without a warning, over the independent model.
chip() {
    tools/host.sh here "$1" -x "$2" -std="$3" -O2 $warnings -Ihost/include -c host/test/chip.c -o $out/chip.o &&
        tools/host.sh here gcc $out/chip.o $out/stand_in.o -o $out/chip && $out/chip "chip, $1 as $3"
}

sanitized() {
    tools/host.sh here gcc -std=c11 -D_GNU_SOURCE -DGWO_BEHIND_MODEL -g -O1 -fsanitize=address,undefined -fno-sanitize-recover=all $warnings \
        -Ihost/include -Ihost/model -include host/model/names.h host/gwo/*.c host/model/*.c -o $out/gwo-sanitized
}

# The search for memory that nobody gave back takes seconds on some machines, so only these runs are searched.
no_leaks() {
    local command
    for command in 'run -q scripts/wear.txt' 'check --json scripts/fold.txt scripts/bad-lines.txt' 'explain scripts/example.txt' 'compare scripts/fold.txt scripts/fold-mended.log' 'sfdp host/gwo/samples/KH25L2006E.sfdp' 'pins --sent --rate 1M scripts/fold.txt'; do
        ASAN_OPTIONS=detect_leaks=1 $out/gwo-sanitized $command >$out/leaks 2>&1
        ! grep -a 'LeakSanitizer' $out/leaks || return 1
    done
}

manual() {
    tools/host.sh need groff groff-base && [ -z "$(groff -man -ww -z host/gwo/gwo.1 2>&1)" ]
}

# Every option that a command knows stands in the manual.
manual_is_whole() {
    local command option
    for command in run check explain compare serve rewrite sfdp pins; do
        for option in $(build/gwo $command --help | grep -o -- '--[a-z-]*' | grep -v -e --help -e --usage -e --version | sort -u); do
            sed 's/\\-/-/g' host/gwo/gwo.1 | grep -q -- "$option" || { echo "the manual lacks $option of $command"; return 1; }
        done
    done
}

# Where the program is this machine's own: the array and 2 MB.
memory() {
    local pid peak well=1
    rm -f $out/in
    mkfifo $out/in
    build/gwo run -q -m 3 <$out/in >$out/rows &
    pid=$!
    exec 3>$out/in
    "$out/scripts" gen 2 30000 3 >&3
    sleep 1
    peak=$(awk '$1 == "VmHWM:" { print $2 }' /proc/$pid/status)
    exec 3>&-
    wait $pid && well=0
    [ $well -eq 0 ] && [ "$peak" -le $((16384 + 2048)) ] || { echo "gwo took $peak kB"; return 1; }
}

# 64 MB of samples, frames of 06 with 41 samples at rest between them, in the same memory as a few.
pins_memory() {
    local pid peak well=1
    rm -f $out/in $out/samples
    mkfifo $out/in
    { printf '\x19%.0s' {1..41}; printf '\x18'; printf '\x18\x1a%.0s' {1..5}; printf '\x1c\x1e\x1c\x1e\x18\x1a\x18\x19\x19\x19\x19'; } >$out/samples
    for _ in {1..10}; do cat $out/samples $out/samples >$out/twice && mv $out/twice $out/samples; done
    build/gwo pins -q --rate 1M <$out/in >$out/rows &
    pid=$!
    exec 3>$out/in
    for _ in {1..1000}; do cat $out/samples; done >&3
    sleep 1
    peak=$(awk '$1 == "VmHWM:" { print $2 }' /proc/$pid/status)
    exec 3>&-
    wait $pid && well=0
    [ $well -eq 0 ] && [ "$(wc -l <$out/rows)" -eq 1024001 ] && [ "$peak" -le 4096 ] || { echo "gwo pins took $peak kB"; return 1; }
}

check 'what the tests need' tools
check 'build/gwo' tools/gwo.sh build 'make test'
host/gwo/fuzz.sh "${GWO_FUZZ:-60}" >$out/fuzzed 2>&1 &
fuzzers=$!
for compiler in gcc clang; do check "no warning of $compiler" warns_not $compiler; done
for standard in c99 c11; do
    for compiler in gcc clang; do check "struct gwo_chip, $compiler, $standard" chip $compiler c $standard; done
done
for standard in c++98 c++17; do check "struct gwo_chip, g++, $standard" chip g++ c++ $standard; done
check 'the manual page' manual
check 'the manual page has every option' manual_is_whole
[ -s build/gwo.x86-64 ] || check 'memory: the array and 2 MB' memory
[ -s build/gwo.x86-64 ] || check 'memory: 64 MB of samples in 4 MB' pins_memory
count 'gwo' env GWO=build/gwo host/gwo/test/scripts.sh $out/scripts
count 'gwo' env GWO=build/gwo host/gwo/test/shown.sh
count 'gwo' env GWO=build/gwo host/gwo/test/serve.sh $out/client
count 'gwo' env GWO=build/gwo host/gwo/test/pins.sh
count 'gwo' env GWO=build/gwo host/gwo/test/captures.sh $out/scripts
export ASAN_OPTIONS=detect_leaks=0
check 'with sanitizers' sanitized
check 'no memory is left behind' no_leaks
count 'sanitized' env GWO=$out/gwo-sanitized GWO_SCRIPTS=10 host/gwo/test/scripts.sh $out/scripts
count 'sanitized' env GWO=$out/gwo-sanitized host/gwo/test/serve.sh $out/client
count 'sanitized' env GWO=$out/gwo-sanitized host/gwo/test/pins.sh
wait $fuzzers
mv $out/fuzzed $out/counted
add 'gwo'
echo "$passed passed, $failed failed"
[ "$failed" -eq 0 ]
