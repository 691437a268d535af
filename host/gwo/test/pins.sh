#!/usr/bin/env bash
# gwo pins: samples in, the log of the frames, its words and statuses.
#   host/gwo/test/pins.sh
# GWO is the program under test (build/gwo). What a capture is decoded to is tried in captures.sh.
cd "$(dirname "$0")/../../.." || exit 1
GWO=${GWO:-build/gwo}
. host/gwo/test/common.sh
tools/host.sh need sigrok-cli sigrok-cli || exit 1
header=$'sample\tanswer\tfrom\tbytes\tnote'

# bytes HEX..: as they are.
bytes() {
    local hex
    for hex in "$@"; do printf "\\x$hex"; done
}

# frame HEX: its samples by two a bit from the fall to the rise, in hex: 18 is low, 1A the clock high, 4 more is SI; 19 is CS# high.
frame() {
    local text=$1 digit place i
    printf '18 '
    for ((i = 0; i < ${#text}; i++)); do
        digit=$((16#${text:i:1}))
        for place in 8 4 2 1; do
            if ((digit & place)); then printf '1C 1E '; else printf '18 1A '; fi
        done
    done
    printf '18 19 '
}

# capture HEX..: the samples of these frames, three at rest before each; in $work/capture.
capture() {
    local text
    for text in "$@"; do
        bytes 19 19 19
        bytes $(frame "$text")
    done >"$work/capture"
}

# log_is ROW..: the rows after the header.
log_is() {
    { echo "$header"; for row in "$@"; do echo "$row"; done; } | diff - "$work/out"
}

# 06 ends at sample 3 + 19 - 1, 9F and three bytes 3 + 67 later.
rows() {
    capture 06 9F000000 FF
    gwo pins "$work/capture" && ends 0 && log_is $'21\t0\t-\t-\t-' $'91\t0\t1\tC22010\t-' $'113\t13\t-\t-\t-' &&
        says 'KH25L512 (model 1), 65536 cells FF; times in us:' && says 'no --rate: no time passes on the chip' &&
        says '114 samples, 3 frames: 2 done, 1 refused, 0 dropped, 0 folds, 0 sector erases' || return 1
    gwo pins --sent "$work/capture" && ends 0 && prints $'sample\tanswer\tfrom\tbytes\tnote\twp\ttail\tsent' && prints $'91\t0\t1\tC22010\t-\t1\t0\t9F000000'
}

from_anywhere() {
    capture 06 0500
    cp "$work/capture" "$work/a \$b 'c'"
    gwo pins "$work/a \$b 'c'" && ends 0 && cp "$work/out" "$work/want" && gwo pins - <"$work/capture" && ends 0 && same "$work/want" "$work/out" &&
        gwo pins <"$work/capture" && ends 0 && same "$work/want" "$work/out" && gwo pins <(cat "$work/capture") && ends 0 && same "$work/want" "$work/out" &&
        gwo pins /dev/null && ends 0 && log_is && says '0 samples, 0 frames'
}

# In pieces that end anywhere the same comes of it, and each row is there before the next sample.
in_pieces() {
    local row
    mkfifo "$work/in" "$work/rows"
    capture 06 0500
    $GWO pins -q <"$work/in" >"$work/rows" 2>"$work/err" &
    local pid=$!
    exec 3>"$work/in" 4<"$work/rows"
    read_row() { IFS= read -r -t 30 -u 4 row && [ "$row" = "$1" ] || { echo "row $row, want $1"; return 1; }; }
    head -c 7 "$work/capture" >&3 && read_row "$header" && tail -c +8 "$work/capture" | head -c 15 >&3 && read_row $'21\t0\t-\t-\t-' &&
        tail -c +23 "$work/capture" | head -c 20 >&3 && sleep 0.2 && tail -c +43 "$work/capture" >&3 && read_row $'59\t0\t1\t02\t-'
    local well=$?
    exec 3>&- 4<&-
    wait $pid && [ $well -eq 0 ]
}

# 34 and 4 are rows, and the chip has not heard the frame.
dropped() {
    { bytes 19 $(frame 06 | sed 's/18 19 $/08 19 /'); bytes 19 19 $(frame 0500); } >"$work/capture"
    gwo pins --sent "$work/capture" && ends 0 && prints $'19\t34\t-\t-\t-\t-\t-\t-' && prints $'\t0\t1\t00\t-\t1\t0\t0500' && says '2 frames: 1 done, 0 refused, 1 dropped' || return 1
    { bytes 19 18; head -c 1048672 < <(yes $'\x18\x1a' | tr -d '\n'); bytes 18 19; } >"$work/capture"
    gwo pins "$work/capture" && ends 0 && log_is $'1048675\t4\t-\t-\t-' && says '1 frame: 0 done, 0 refused, 1 dropped'
}

# WP# is the level at the fall: 01 80, then 01 00 with it low is 16.
write_protect() {
    { capture 06 0180; cat "$work/capture"; head -c 15000 < <(yes $'\x19' | tr -d '\n'); bytes 19 $(frame 06) 19 11 $(frame 0100 | sed 's/^18/10/'); } >"$work/more"
    gwo pins --rate 1M --sent "$work/more" && ends 0 && [ "$(tail -n 1 "$work/out" | cut -f 2,6,8)" = $'16\t0\t0100' ]
}

# The chip is busy for as long as CS# is high for: a program of 5000 us, at one sample a microsecond, and at two.
time_passes() {
    local left want
    for left in 4999 5000; do
        { capture 06 0200123455; cat "$work/capture"; head -c $((left - 1)) < <(yes $'\x19' | tr -d '\n'); bytes $(frame 0500); } >"$work/more"
        want=03
        [ $left -lt 5000 ] || want=00
        gwo pins --rate 1000000 "$work/more" && ends 0 && [ "$(tail -n 1 "$work/out" | cut -f 4)" = $want ] && gwo pins --rate 1000k "$work/more" && ends 0 &&
            [ "$(tail -n 1 "$work/out" | cut -f 4)" = $want ] && gwo pins --rate 1M "$work/more" && [ "$(tail -n 1 "$work/out" | cut -f 4)" = $want ] || return 1
        gwo pins --rate 2M "$work/more" && ends 0 && [ "$(tail -n 1 "$work/out" | cut -f 4)" = 03 ] && gwo pins --rate 999999 "$work/more" && ends 0 &&
            [ "$(tail -n 1 "$work/out" | cut -f 4)" = $want ] && gwo pins --rate 990000 "$work/more" && ends 0 && [ "$(tail -n 1 "$work/out" | cut -f 4)" = 00 ] || return 1
    done
    gwo pins "$work/more" && ends 0 && [ "$(tail -n 1 "$work/out" | cut -f 4)" = 03 ] && gwo pins --rate 1 "$work/more" && ends 0 && gwo pins --rate 1000G "$work/more" && ends 0
}

# The time after the last frame passes too: what was started is in the cells that are saved.
saved() {
    { capture 06 0200123455; cat "$work/capture"; head -c 5000 < <(yes $'\x19' | tr -d '\n'); } >"$work/more"
    gwo pins --rate 1M --save "$work/chip" "$work/more" && ends 0 && [ "$(od -An -tx1 -j $((0x1234)) -N 1 "$work/chip" | tr -d ' ')" = 55 ] &&
        capture 0300123400 && gwo pins --load "$work/chip" "$work/capture" && ends 0 && prints $'\t0\t4\t55\t-' &&
        gwo pins --save "$work/again" "$work/more" && ends 0 && [ "$(od -An -tx1 -j $((0x1234)) -N 1 "$work/again" | tr -d ' ')" = ff ] || return 1
    { capture 06 02001234AA; cat "$work/capture"; } >"$work/more"
    gwo pins --load "$work/chip" --strict "$work/more" && ends 0 && [ "$(tail -n 1 "$work/out" | cut -f 2)" = 19 ] &&
        gwo pins --load "$work/chip" --save "$work/none/chip" "$work/more" && ends 2 && prints_nothing && gwo pins --model 2 --load "$work/chip" "$work/more" && ends 2 && prints_nothing
}

models() {
    capture 9F000000
    gwo pins -m 1 "$work/capture" && prints C22010 && gwo pins -m 2 "$work/capture" && prints C22012 && gwo pins --model 3 "$work/capture" && prints C22018
}

# Ends and beginnings within a frame are said; the frame that lacks its end is not played.
unfinished() {
    { capture 06; cat "$work/capture"; bytes 19 19 $(frame 0500 | cut -c 1-102); } >"$work/more"
    gwo pins -q "$work/more" && ends 0 && log_is $'21\t0\t-\t-\t-' && says 'the capture ends within a frame, which is not played: CS# fell at sample 24; 2 bytes and 0 bits' || return 1
    head -c 40 "$work/more" >"$work/less"
    gwo pins -q "$work/less" && ends 0 && says 'CS# fell at sample 24; 0 bytes and 7 bits' || return 1
    tail -c +24 "$work/more" | sed 's/^\x19*//' >"$work/late"
    gwo pins -q "$work/late" && ends 0 && says 'the capture begins with CS# low: its first frame may lack its beginning' && says 'CS# fell at sample 0' || return 1
    gwo pins -q --rate 5 "$work/capture" && ends 0 && [ ! -s "$work/err" ]
}

# Other orders of the pins, by name; a pin that is not there is high.
channels() {
    capture 06 9F000000
    gwo pins --sent "$work/capture" && cp "$work/out" "$work/want"
    # hold, -, si, cs, wp, -, sclk
    LC_ALL=C tr '\030\031\032\033\034\035\036\037' '\021\031\121\131\025\035\125\135' <"$work/capture" >"$work/other"
    gwo pins --sent --channels hold,-,si,cs,wp,-,sclk "$work/other" && ends 0 && same "$work/want" "$work/out" &&
        gwo pins --sent --channels 'HOLD#,-,SI,CS#,WP#,-,SCLK,-' "$work/other" && ends 0 && same "$work/want" "$work/out" &&
        gwo pins --sent --channels -,-,si,cs,-,-,sclk "$work/other" && ends 0 && same "$work/want" "$work/out" || return 1
    LC_ALL=C tr '\030\031\032\033\034\035\036\037' '\000\001\002\003\004\005\006\007' <"$work/capture" >"$work/three"
    gwo pins --sent -c cs,sclk,si "$work/three" && ends 0 && same "$work/want" "$work/out"
}

# Words that are not understood: 2, the use is pointed to, and nothing is played.
wrong_words() {
    local words
    while IFS= read -r words; do
        gwo pins $words && ends 2 && prints_nothing && says '--help' || { echo "gwo pins $words"; return 1; }
    done <<'END'
--mood
--rate 0
--rate x
--rate
--rate 1m5
--rate -5
--rate M
--rate 1001G
--rate 99999999999999999999999999
--channels
--channels cs
--channels cs,sclk
--channels cs,sclk,si,si
--channels cs,sclk,si,wp,hold,so
--channels cs,,sclk,si
--channels cs,sclk,si,
--channels -,-,-,-,-,-,cs,sclk,si
--model 4
a b
END
}

# What sigrok-cli writes is a capture; the line of words that it writes first for some inputs is left out, and that is said.
as_sigrok_writes() {
    capture 06 9F000000
    gwo pins "$work/capture" && cp "$work/out" "$work/want"
    sigrok-cli -i "$work/capture" -I binary:numchannels=5:samplerate=1000000 -o "$work/decoded.sr" && sigrok-cli -i "$work/decoded.sr" -O binary -o "$work/file" &&
        gwo pins "$work/file" && ends 0 && same "$work/want" "$work/out" && ! grep -q 'left out' "$work/err" || return 1
    { echo 'META samplerate: 1000000'; cat "$work/capture"; } >"$work/file"
    gwo pins "$work/file" && ends 0 && same "$work/want" "$work/out" && says 'the line "META samplerate: 1000000" of sigrok-cli is left out' || return 1
    printf 'META samplerate: 5\n' >"$work/file"
    gwo pins "$work/file" && ends 0 && log_is && says '0 samples, 0 frames'
}

# Inputs and outputs that fail: 2, and it is said; an image that was there stays.
failures() {
    capture 06
    gwo pins "$work/none" && ends 2 && prints_nothing && says 'No such file' && gwo pins "$work" && ends 2 && says 'directory' || return 1
    status=0
    $GWO pins "$work/capture" >/dev/full 2>"$work/err" || status=$?
    ends 2 && says 'standard output: No space left on device' || return 1
    for _ in $(seq 14); do cat "$work/capture" "$work/capture" >"$work/twice" && mv "$work/twice" "$work/capture"; done
    $GWO pins "$work/capture" 2>"$work/err" | head -n 1 >"$work/out"
    status=${PIPESTATUS[0]}
    ends 2 && says 'standard output: Broken pipe' || return 1
    echo kept >"$work/image"
    status=0
    $GWO pins --save "$work/image" "$work/capture" >/dev/full 2>"$work/err" || status=$?
    ends 2 && [ "$(cat "$work/image")" = kept ] && $GWO pins --save "$work/image" "$work" >"$work/out" 2>"$work/err"
    [ $? -eq 2 ] && [ "$(cat "$work/image")" = kept ]
}

check 'pins: rows' rows
check 'pins: samples from anywhere' from_anywhere
check 'pins: in pieces' in_pieces
check 'pins: frames that are dropped' dropped
check 'pins: WP#' write_protect
check 'pins: time' time_passes
check 'pins: images' saved
check 'pins: models' models
check 'pins: frames without their end or beginning' unfinished
check 'pins: channels' channels
check 'pins: wrong words' wrong_words
check 'pins: as sigrok-cli writes them' as_sigrok_writes
check 'pins: failures' failures
conclude
