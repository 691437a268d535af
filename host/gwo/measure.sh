#!/usr/bin/env bash
# What gwo costs: instructions of a long script against the runner's, explain against run, a read of 16 MiB by flashrom, memory.
#   host/gwo/measure.sh [MB]
# MB is how long the script is at least (64). build/gwo and target/bin/runner are built. The figures go to standard output, in Markdown.
set -u
cd "$(dirname "$0")/../.." || exit 1
mb=${1:-64}
work=$(mktemp -d)
trap 'rm -rf "$work"' EXIT
program=build/gwo
how=run
[ ! -s build/gwo.x86-64 ] || program=build/gwo.x86-64

# seconds COMMAND..: of the processor, the command's own and its children's.
seconds() {
    local TIMEFORMAT='%3U %3S'
    { time "$@" >/dev/null 2>&1; } 2>&1 | awk '{ printf "%.2f\n", $1 + $2 }'
}

script() {
    tools/host.sh here gcc -std=c99 -O2 -Ihost/include -Ihost/model -Ihost/test host/test/scripts*.c host/test/rig.c host/model/*.c -o "$work/scripts" || exit
    "$work/scripts" gen 4 200000 >"$work/200000"
    while [ "$(stat -c %s "$work/long" 2>/dev/null || echo 0)" -lt $((mb * 1000000)) ]; do cat "$work/200000"; done >"$work/long"
}

# A long script: all instructions that each program took.
instructions() {
    local runner gwo
    runner=$(tools/host.sh count-all "$work" program target/bin/runner <"$work/long") || exit
    mv "$work/out" "$work/runner.log"
    gwo=$(tools/host.sh count-all "$work" $how $program run -q - <"$work/long") || exit
    cmp "$work/runner.log" "$work/out" || exit
    awk -v mb="$(($(stat -c %s "$work/long") / 1000000))" -v r="$runner" -v g="$gwo" -v n="$(wc -l <"$work/long")" 'BEGIN {
        print "| " mb " MB of script, " n " lines | runner | gwo run | ratio |"
        print "|---|--:|--:|--:|"
        printf "| instructions | %.0f | %.0f | %.2f |\n| a line | %.0f | %.0f | |\n\n", r, g, g / r, r / n, g / n }'
}

explained() {
    echo "| 200,000 lines, processor seconds | gwo run | gwo explain | gwo check | gwo compare |"
    echo "|---|--:|--:|--:|--:|"
    build/gwo run -q "$work/200000" >"$work/log"
    echo "| | $(seconds build/gwo run -q "$work/200000") | $(seconds build/gwo explain "$work/200000") | $(seconds build/gwo check "$work/200000") | $(seconds build/gwo compare "$work/200000" "$work/log") |"
    echo
}

# on_processor PID: nanoseconds that it has run so far.
on_processor() {
    awk '{ print $1 }' "/proc/$1/schedstat"
}

# The server's share of a read of the largest chip, in processor time and of the time that it takes.
read_by_flashrom() {
    local server port before after own
    tools/host.sh need flashrom flashrom || exit
    head -c 16777216 /dev/urandom >"$work/chip"
    $program_words serve -m 3 --port 0 --load "$work/chip" 2>"$work/serve" &
    server=$!
    until grep -q 'waiting on' "$work/serve"; do sleep 0.1; done
    port=$(sed -n 's/.*waiting on 127.0.0.1:\([0-9]*\):.*/\1/p' "$work/serve")
    own=$(on_processor $server)
    before=$(date +%s%N)
    flashrom -p serprog:ip=127.0.0.1:$port -c MX25L12805D -r "$work/read" >"$work/rom" 2>&1 || cat "$work/rom"
    after=$(date +%s%N)
    own=$(($(on_processor $server) - own))
    cmp "$work/chip" "$work/read"
    awk -v ms=$(((after - before) / 1000000)) -v own=$((own / 1000000)) -v kb="$(awk '$1 == "VmHWM:" { print $2 }' /proc/$server/status)" 'BEGIN {
        print "| 16 MiB read by flashrom | ms | of them in gwo | |\n|---|--:|--:|--:|"
        printf "| | %d | %d | %.0f %% |\n\nMemory of the server then: %d kB, of which the array is 16384.\n", ms, own, 100 * own / ms, kb }'
    kill -INT $server
    wait $server
}

# The emulator itself is started, not the script that starts it: its times are to be had.
program_words=build/gwo
[ ! -s build/gwo.x86-64 ] || program_words="$(tools/host.sh emulator run) build/gwo.x86-64"
[ -s build/gwo.x86-64 ] || [ "$(uname -m)" = x86_64 ] || how=none
script
if [ $how = none ]; then
    echo "build/gwo is code of this machine, and the runner is not: their instructions cannot be compared."
    echo
else
    instructions
fi
explained
read_by_flashrom
