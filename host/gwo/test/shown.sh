#!/usr/bin/env bash
# What README.md and the documents show of gwo is what it says: each block of them that begins with `$ build/gwo`, command after command.
#   host/gwo/test/shown.sh
# GWO is the program under test (build/gwo).
cd "$(dirname "$0")/../../.." || exit 1
GWO=${GWO:-build/gwo}
. host/gwo/test/common.sh
root=$PWD

# A folder in which the commands find what they name.
mkdir "$work/bench" "$work/bench/build"
ln -s "$root/scripts" "$work/bench/scripts"
case $GWO in /*) ln -s "$GWO" "$work/bench/build/gwo" ;; *) ln -s "$root/$GWO" "$work/bench/build/gwo" ;; esac
sed '11s/4440420000203231/5441424C45207631/' scripts/fold.log >"$work/fold.log"
head -c 65535 /dev/zero >"$work/bench/dump.bin"
cp host/gwo/samples/KH25L2006E.sfdp "$work/bench/table.bin"
head -c 60 "$work/bench/table.bin" >"$work/bench/cut.bin"
tools/host.sh python -B makers/captures/captures.py scripts/fold.txt "$work/bench/spring.bin" "$work/account" --per 3 || exit 1

# blocks DOCUMENT: its blocks, each in a file of its own, in the document's order; those of gwo serve need a client and are tried elsewhere.
blocks() {
    awk -v to="$work/block" '
        /^```/ { inside = !inside; first = inside; if (!inside && n) { close(file); n = 0 }; next }
        inside && first { first = 0; n = /^\$ build\/gwo / && !/serve/; if (n) file = sprintf("%s.%03d", to, ++count) }
        inside && n { print > file }' "$1"
}

# as_shown BLOCK: both streams of its one command are the lines below it.
as_shown() {
    cp "$work/fold.log" "$work/bench/my.log"
    local command
    command=$(sed -n '1s/^\$ //p' "$1")
    (cd "$work/bench" && eval "timeout $patience $command" 2>&1) >"$work/said.now"
    tail -n +2 "$1" | sed 's/^\(gwo run: .*sign [0-9]*\).*/\1/' >"$work/want"
    sed 's/ (over the independent model.*)$//' "$work/said.now" | diff -a "$work/want" -
}

document() {
    local block shown=0
    rm -f "$work"/block.*
    blocks "$1"
    for block in "$work"/block.*; do
        [ -e "$block" ] || continue
        as_shown "$block" || { head -n 1 "$block"; return 1; }
        shown=$((shown + 1))
    done
    [ $shown -gt 0 ] || { echo "$1 shows nothing"; return 1; }
}

for text in README.md docs/GUIDE.md docs/BENCH.md; do
    check "what $text shows" document $text
done
conclude
