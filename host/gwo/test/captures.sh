#!/usr/bin/env bash
# gwo pins over captures that a maker draws from scripts, and sigrok-cli's decoder over the same captures.
#   host/gwo/test/captures.sh SCRIPTS
# SCRIPTS is a command that starts host/test/scripts.c. GWO is the program under test (build/gwo); GWO_CAPTURES is how many captures with holds
# there are of each form (3).
cd "$(dirname "$0")/../../.." || exit 1
GWO=${GWO:-build/gwo}
. host/gwo/test/common.sh
scripts=$1
tools/host.sh need sigrok-cli sigrok-cli || exit 1
# Scripts of frames and waits alone, that wait for less than a second.
plain='busy example fold fold-mended identify latch old-data overwrite program-300 protect read refused sleep wp'

# draw SCRIPT WORD..: the capture and its account, in $work.
draw() {
    local script=$1
    shift
    tools/host.sh python -B makers/captures/captures.py "$script" "$work/capture" "$work/account" "$@"
}

# as_accounted WORD..: every frame is handed over, or dropped, at its sample, with its WP#, tail and bytes.
as_accounted() {
    gwo pins --sent "$@" "$work/capture" && ends 0 || return 1
    awk -F '\t' -v OFS='\t' 'NR > 1 { print $1, $6 == "-" ? $2 : 0, $6, $7, $8 }' "$work/out" | diff "$work/account" - | head -n 10
    [ "${PIPESTATUS[1]}" -eq 0 ] && [ -s "$work/account" ]
}

# as_sigrok IDLE: the bytes between a fall and a rise of CS#, and where it rises, by sigrok-cli's decoder. A clock that rests high is its mode 3.
as_sigrok() {
    local mode=0
    [ "$1" = low ] || mode=1
    sigrok-cli -i "$work/capture" -I binary:numchannels=5:samplerate=1000000 -P spi:cs=0:clk=1:mosi=2:cpol=$mode:cpha=$mode \
        -A spi=mosi-transfer --protocol-decoder-samplenum >"$work/sigrok" 2>"$work/sigrok.err" || { cat "$work/sigrok.err"; return 1; }
    sed 's/^[0-9]*-\([0-9]*\) spi-1: */\1 /; s/ *$//' "$work/sigrok" | awk '{ n = $1; $1 = ""; gsub(" ", ""); print n "\t" ($0 == "" ? "-" : $0) }' >"$work/theirs"
    awk -F '\t' -v OFS='\t' 'NR > 1 { print $1, $8 }' "$work/out" | diff "$work/theirs" - | head -n 10
    [ "${PIPESTATUS[1]}" -eq 0 ] && [ -s "$work/theirs" ]
}

# Frames of every kind, without waits: those of the scripts, and random ones with any bytes, WP# and tails.
frames() {
    local name
    for name in $plain; do cat "scripts/$name.txt"; done | grep '^F' >"$work/frames"
    $scripts gen 3 60 | grep -aP '^F\t[01]\t[0-7]\t([0-9A-F]{2}){0,300}$' >>"$work/frames"
    [ "$(wc -l <"$work/frames")" -gt 190 ]
}

# form PER IDLE: the same frames by the maker, by sigrok-cli and by gwo.
form() {
    frames && draw "$work/frames" --per "$1" --idle "$2" --seed "$1" && as_accounted && as_sigrok "$2"
}

# The log of each script is that of its capture, line by line but for the waits: what the chip does, folds and times.
logs() {
    local name turn=0
    for name in $plain; do
        local per=$((2 + turn % 2)) idle=low
        [ $((turn % 4)) -lt 2 ] || idle=high
        turn=$((turn + 1))
        draw "scripts/$name.txt" --per $per --idle $idle --rate 20000000 || return 1
        gwo pins --rate 20M "$work/capture" && ends 0 || return 1
        grep '^F' -n "scripts/$name.txt" | cut -d : -f 1 | awk 'NR == FNR { wanted[$1 + 1] = 1; next } FNR in wanted' - "scripts/$name.log" | cut -f 2- >"$work/want"
        sed 1d "$work/out" | cut -f 2- | diff "$work/want" - || { echo "$name"; return 1; }
    done
}

# Last spring's firmware: the fold is there, in the row of its frame, and the table that it has spoilt.
last_spring() {
    draw scripts/fold.txt --per 3 --rate 1000000 && as_accounted --rate 1M && as_sigrok low || return 1
    [ "$(awk -F '\t' '$5 == "fold" { print $8 }' "$work/out")" = 020020F873706172652062756C62732030303331 ] && prints $'\t0\t4\t4440420000203231\t-' &&
        says '8 frames: 8 done, 0 refused, 0 dropped, 1 fold, 1 sector erase'
}

# holds PER IDLE: with holds, as the maker accounts for them; some frames are dropped.
holds() {
    local seed
    frames || return 1
    shuf -n 100 --random-source=<(yes) "$work/frames" >"$work/some"
    for seed in $(seq "${GWO_CAPTURES:-3}"); do
        draw "$work/some" --per "$1" --idle "$2" --seed "$seed" --holds && as_accounted || { echo "seed $seed"; return 1; }
        [ "$(cut -f 2 "$work/out" | grep -cx 34)" -gt 10 ] || { echo "seed $seed: hardly a frame ends in a hold"; return 1; }
    done
}

# 65,542 bytes: 4, in the row of its rise.
long_frames() {
    draw scripts/example.txt --long && as_accounted && [ "$(tail -n 1 "$work/out" | cut -f 2,8)" = $'4\t-' ] && says '1 dropped'
}

for per in 2 3 7; do
    for idle in low high; do check "captures: $per samples a bit, the clock rests $idle: as the maker and sigrok-cli have them" form $per $idle; done
done
check 'captures: the logs of scripts' logs
check "captures: last spring's firmware folds" last_spring
for per in 2 3 7; do
    for idle in low high; do check "captures: holds, $per samples a bit, the clock rests $idle" holds $per $idle; done
done
check 'captures: a frame that is too long' long_frames
conclude
