#!/usr/bin/env bash
# gwo serve: the protocol, hostile clients, Ctrl-C, and a real flashrom on each model.
#   host/gwo/test/serve.sh CLIENT
# CLIENT is the built host/gwo/test/client.c. GWO is the program under test (build/gwo).
cd "$(dirname "$0")/../../.." || exit 1
GWO=${GWO:-build/gwo}
. host/gwo/test/common.sh
client=$1
identify=130100000300009F
half=$(printf '%065542d' 0)
zeros=("$half" "$half") # 65,542 bytes
tools/host.sh need flashrom flashrom || exit 1

# to_server STEP..: a client that takes those steps.
to_server() {
    timeout "$patience" "$client" "$port" "$@"
}

# ---- the protocol

# Every query, what is not known, and what is known with words that are not.
protocol() {
    start_server && to_server 00 =06 10 =1506 01 =060100 02 "=06BFC9" /30 03 =0667776F207365727665 /7 04 =06FFFF 05 =0608 07 =06FFFF 08 =06000001 11 =06000001 \
        0B =06 0E10270000 =06 0F =06 1208 =06 1204 =15 1209 =15 1440420F00 =0640420F00 1400000000 =15 1500 =06 1501 =06 06 =15 09 =15 0A =15 0C =15 0D =15 16 =15 7F =15 FF =15 \
        $identify =06C22010 13000000000000 =06 13000000020000 =06FFFF || return 1
    to_server 02 =06BF "=C9" "=3F" /29 || return 1
    stop_server && ends 0 && served 'client 1 has gone: 3 frames, 2 refused \(10: 1, 13: 1\), 0 folds, 0 sector erases'
}

# Frames up to 65,541 bytes; a longer one is refused whole, and the next one is understood.
long_frames() {
    start_server || return 1
    # 03 000000 and 65,537 bytes; 0B, five bytes and 65,536; one byte more; one that sends 65,542 itself
    to_server 1304000001000103000000 =06 /65537 130500000000010B00000000 =06 /65536 130500000100010B00000000 =15 $identify =06C22010 \
        13060001000000 "${zeros[@]}" =15 $identify =06C22010 || return 1
    stop_server && ends 0 && served 'client 1 has gone: 4 frames, 0 refused'
}

# Only delays let time pass: a program of 5000 us is busy for 4999, and its cells change then.
delays() {
    start_server || return 1
    to_server 13010000000000"06" =06 130500000000000200123455 =06 1301000001000005 =0603 +4999 1301000001000005 =0603 13040000010000"03001234" =06FF +1 1301000001000005 =0600 \
        13040000010000"03001234" =0655 || return 1
    stop_server && ends 0 && served '7 frames, 1 refused \(11: 1\), 0 folds'
}

# By the clock it is over after its time, without a word of the client.
by_the_clock() {
    start_server --real-time --time page=300000 || return 1
    to_server 13010000000000"06" =06 130500000000000200123455 =06 1301000001000005 =0603 || return 1
    sleep 0.4
    to_server 1301000001000005 =0600 13040000010000"03001234" =0655 || return 1
    local before after
    before=$(date +%s%N)
    to_server +500000 || return 1
    after=$(date +%s%N)
    [ $((after - before)) -ge 500000000 ] || { echo "a delay of half a second took $((after - before)) ns"; return 1; }
    stop_server && ends 0
}

# A fold is counted, and so are sectors that were erased.
counts() {
    start_server --log "$work/log" || return 1
    to_server 13010000000000"06" =06 1306000000000002000FFFA55A =06 +5000 13010000000000"06" =06 13040000000000"D8000000" =06 +2000000 13010000000000"06" =06 13040000000000"20002000" =06 || return 1
    served 'client 1 has gone: 6 frames, 0 refused, 1 folds, 17 sector erases' && stop_server && ends 0 && served 'in all: 6 frames, 0 refused, 1 folds, 17 sector erases' &&
        printf 'frame\tanswer\tfrom\tbytes\tnote\tsent\n1\t0\t-\t-\t-\t06\n2\t0\t-\t-\tfold\t02000FFFA55A\n3\t0\t-\t-\t-\t06\n4\t0\t-\t-\t-\tD8000000\n5\t0\t-\t-\t-\t06\n6\t0\t-\t-\t-\t20002000\n' | diff - "$work/log"
}

# Rows are as long as they must be.
long_rows() {
    start_server --log "$work/log" || return 1
    to_server 130500000000010B00000000 =06 /65536 13000000010000 =06FF || return 1
    stop_server && ends 0 && [ "$(awk -F '\t' 'NR == 2 { print $2, $3, length($4), $6 }' "$work/log")" = '0 5 131072 0B00000000' ] &&
        [ "$(tail -n 1 "$work/log")" = $'2\t13\t-\t-\t-\t-' ]
}

# ---- clients that are not as they should be

# One after the other, and one that waits until the one before has gone.
one_after_another() {
    start_server || return 1
    to_server 13010000000000"06" =06 1304000000000020001000 =06 || return 1 # an erase that nobody waits for
    to_server $identify =06C22010 1301000001000005 =0600 || return 1            # it has come to its end
    (exec 5<>"/dev/tcp/127.0.0.1/$port"; sleep 1) &
    to_server $identify =06C22010 || return 1
    served 'client 4 has gone' && stop_server && ends 0
}

# In the middle of a frame, of its head, of a delay: nothing of it is done, and the next client is served.
broken_off() {
    local steps
    start_server || return 1
    for steps in 13 1304 130400000000 13040000000000 13040000000000"20" 13040000000000"200010" 0E01 1208 14; do
        to_server 13010000000000"06" =06 $steps || return 1
        to_server 13010000000000"06" =06 $steps reset || return 1
        to_server 1301000001000005 =0602 $identify =06C22010 || { echo "after $steps"; return 1; }
    done
    stop_server && ends 0
}

# A client that asks and does not read: the server waits for it and not for ever, and goes on when it has gone.
never_reads() {
    start_server || return 1
    to_server flood:1304000000000103000000:4000 reset || return 1
    to_server $identify =06C22010 || return 1
    stop_server && ends 0
}

# 10 MB of noise at once, and a little of it many times.
noise() {
    local seed
    start_server --log "$work/log" || return 1
    to_server noise:1:10000000 shut || return 1
    to_server noise:2:10000000 reset || return 1
    for seed in $(seq 100); do
        to_server noise:$seed:$((seed * 13)) shut || return 1
    done
    to_server $identify =06C22010 || { to_server 13010000000000AB =06 +100 $identify =06C22010 || return 1; }
    stop_server && ends 0 && ! grep -qE 'ERROR|runtime error' "$work/serve"
}

# ---- the end

# While nobody is there, while a client is, in the middle of its command; each time the cells are saved.
ctrl_c() {
    local signal
    for signal in INT TERM HUP; do
        rm -f "$work/chip"
        start_server --save "$work/chip" || return 1
        to_server 13010000000000"06" =06 130500000000000200123455 =06 || return 1
        (exec 5<>"/dev/tcp/127.0.0.1/$port"; printf '\x13\x04' >&5; sleep 2) &
        sleep 0.5
        kill -$signal $server
        stop_server
        ends 0 && served 'in all: 2 frames' && [ "$(od -An -tx1 -j $((0x1234)) -N 2 "$work/chip" | tr -d ' ')" = 55ff ] || { echo "signal $signal"; return 1; }
    done
}

# A port that is taken, a log and an image that cannot be written: 2, and it is said.
cannot() {
    start_server || return 1
    gwo serve --port "$port" && ends 2 && says "port $port of 127.0.0.1: Address already in use" || return 1
    stop_server
    gwo serve --log "$work/none/log" && ends 2 && says "$work/none/log: No such file" && gwo serve --save "$work/none/chip" && ends 2 &&
        gwo serve --load "$work/none" && ends 2 || return 1
    start_server --log /dev/full || return 1
    to_server $identify =06C22010
    wait "$server"
    status=$?
    server=
    ends 2 && served '/dev/full: No space left on device'
}

# Only this machine can come.
loopback() {
    start_server || return 1
    local others
    others=$(hostname -I 2>/dev/null | tr ' ' '\n' | grep -v '^127\|:' | head -n 1)
    [ -z "$others" ] || ! (exec 5<>"/dev/tcp/$others/$port") 2>/dev/null || { echo "it listens on $others"; return 1; }
    stop_server
}

# ---- flashrom

# rom WORD..: flashrom on the served chip; its words are shown where it fails.
rom() {
    timeout 600 flashrom -p "serprog:ip=127.0.0.1:$port" "$@" >"$work/rom" 2>&1 || { echo "flashrom $*"; tail -n 5 "$work/rom"; return 1; }
}

# some_sectors FILE FROM TO: an image as FROM, with bytes of its own in some sectors, one that goes over a sector's end.
some_sectors() {
    local place
    cp "$1" "$2"
    for place in 0 5000 12200 40960 65500; do
        [ $((place + 100)) -le "$(stat -c %s "$2")" ] || continue
        head -c 100 /dev/urandom | dd of="$2" bs=1 seek=$place conv=notrunc status=none
    done
    printf 'the end' | dd of="$2" bs=1 seek=$(($(stat -c %s "$2") - 7)) conv=notrunc status=none
}

# flashrom MODEL LENGTH NAME: probe, read, write over old data, verify, erase, and a client after another.
real_flashrom() {
    local model=$1 length=$2 name=$3
    head -c "$length" /dev/urandom >"$work/old"
    some_sectors "$work/old" "$work/new"
    start_server --model "$model" --load "$work/old" --save "$work/saved" --time page=50 --log "$work/log" || return 1
    rom -c "$name" && grep -q "Found Macronix flash chip \"$name\"" "$work/rom" || { echo "no chip is found"; return 1; }
    rom -c "$name" -r "$work/read" && cmp "$work/old" "$work/read" || return 1
    rom -c "$name" -w "$work/new" && grep -q VERIFIED "$work/rom" || return 1
    rom -c "$name" -v "$work/new" && rom -c "$name" -r "$work/read" && cmp "$work/new" "$work/read" || return 1
    ! timeout 600 flashrom -p "serprog:ip=127.0.0.1:$port" -c "$name" -v "$work/old" >"$work/rom" 2>&1 || { echo "the old image is verified"; return 1; }
    rom -c "$name" -E && stop_server && ends 0 || return 1
    [ "$(tr -d '\377' <"$work/saved" | wc -c)" -eq 0 ] || { echo "what was saved is not erased"; return 1; }
    served 'client 7 has gone: [0-9]+ frames, 0 refused, 0 folds' || grep -q 'client 7 has gone: [0-9]* frames, [0-9]* refused (13: [0-9]*), 0 folds' "$work/serve" || { cat "$work/serve"; return 1; }
    ! grep -qP '^\d+\t(?!0|13)' "$work/log" || { echo "frames are refused:"; grep -P '^\d+\t(?!0|13)' "$work/log" | head -n 3 | cut -c 1-100; return 1; }
}

# Without a name flashrom finds the small chips by itself, and of the large one two names that fit.
probe_alone() {
    local model
    for model in 1 2 3; do
        start_server --model $model || return 1
        timeout 600 flashrom -p "serprog:ip=127.0.0.1:$port" >"$work/rom" 2>&1
        case $model in
        1) grep -q 'Found Macronix flash chip "MX25L512' "$work/rom" ;;
        2) grep -q 'Found Macronix flash chip "MX25L2005(C)/MX25L2006E"' "$work/rom" ;;
        3) grep -q 'Found Macronix flash chip "MX25L12805D"' "$work/rom" ;;
        esac || { tail -n 5 "$work/rom"; return 1; }
        stop_server
    done
}

# flashrom knows the KH25L2006E by its SFDP table alone and asks for no id: its length and both erases are from there. It reads, writes, erases
# and verifies so, and nothing is refused.
by_sfdp() {
    local name='SFDP-capable chip'
    head -c 262144 /dev/urandom >"$work/old"
    some_sectors "$work/old" "$work/new"
    start_server --model 2 --load "$work/old" --save "$work/saved" --time page=50 --log "$work/log" || return 1
    rom -VV -c "$name" && grep -q "Found Unknown flash chip \"$name\" (256 kB, SPI)" "$work/rom" || { echo "no chip is found"; return 1; }
    grep -q '64 x 4096 B with opcode 0x20' "$work/rom" && grep -q '4 x 65536 B with opcode 0xd8' "$work/rom" || { echo "not both erases are found"; return 1; }
    rom -c "$name" -r "$work/read" && cmp "$work/old" "$work/read" || return 1
    rom -c "$name" -w "$work/new" && grep -q VERIFIED "$work/rom" || return 1
    rom -c "$name" -E && rom -c "$name" -r "$work/read" && [ "$(tr -d '\377' <"$work/read" | wc -c)" -eq 0 ] || { echo "it is not erased"; return 1; }
    rom -c "$name" -w "$work/old" && grep -q VERIFIED "$work/rom" && rom -c "$name" -v "$work/old" || return 1
    stop_server && ends 0 && cmp "$work/old" "$work/saved" || return 1
    served 'in all: [0-9]+ frames, 0 refused, 0 folds, [1-9][0-9]* sector erases' || return 1
    [ "$(sed 1d "$work/log" | cut -f 6 | cut -c 1-2 | grep -v D8 | sort -u | tr '\n' ' ')" = '02 03 05 06 20 5A ' ] || { echo "other commands were sent"; return 1; }
}

# A flashrom that is killed in the middle of a write; the next one mends the chip.
killed_flashrom() {
    head -c 65536 /dev/urandom >"$work/new"
    start_server --time page=50 || return 1
    flashrom -p "serprog:ip=127.0.0.1:$port" -w "$work/new" >"$work/rom" 2>&1 &
    local pid=$!
    sleep 2
    kill -9 $pid 2>/dev/null
    wait $pid 2>/dev/null
    rom -w "$work/new" && grep -q -e VERIFIED -e identical "$work/rom" || { tail "$work/rom"; return 1; }
    stop_server && ends 0
}

check 'serve: every command of the protocol' protocol
check 'serve: the longest frames' long_frames
check 'serve: time by delays' delays
check 'serve: time by the clock' by_the_clock
check 'serve: a fold and erases are counted' counts
check 'serve: long rows' long_rows
check 'serve: clients one after another' one_after_another
check 'serve: clients that break off' broken_off
check 'serve: a client that never reads' never_reads
check 'serve: noise' noise
check 'serve: Ctrl-C' ctrl_c
check 'serve: what cannot be had' cannot
check 'serve: this machine alone' loopback
check 'serve: flashrom finds each chip' probe_alone
check 'serve: flashrom on a KH25L512' real_flashrom 1 65536 'MX25L512(E)/MX25V512(C)'
check 'serve: flashrom on a KH25L2006E' real_flashrom 2 262144 'MX25L2005(C)/MX25L2006E'
check 'serve: flashrom finds a KH25L2006E by SFDP' by_sfdp
check 'serve: flashrom on a KH25L12845G' real_flashrom 3 16777216 'MX25L12833F/MX25L12835F/MX25L12845E/MX25L12865E/MX25L12873F'
check 'serve: a flashrom that is killed' killed_flashrom
conclude
