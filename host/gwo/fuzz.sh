#!/usr/bin/env bash
# Random files and random clients against gwo, found by libFuzzer, with the sanitizers of addresses and of undefined behaviour; behind it is the
# independent model, so that it runs on every machine as it is.
#   host/gwo/fuzz.sh SECONDS
# Each of the two has half of the time. What was found stays in target/fuzz: the corpus, and a file for each finding.
set -u
cd "$(dirname "$0")/../.." || exit 1
seconds=${1:-60}
out=target/fuzz
passed=0
failed=0
case $seconds in '' | *[!0-9]*) echo "host/gwo/fuzz.sh: how many seconds? it is not $seconds" >&2; exit 2 ;; esac
mkdir -p "$out"

# The program without its main.
build() {
    tools/host.sh here clang -std=c11 -D_GNU_SOURCE -DGWO_BEHIND_MODEL -g -O2 -fsanitize=fuzzer,address,undefined -fno-sanitize-recover=all \
        -Wall -Wextra -Wconversion -pedantic -Werror -Ihost/include -Ihost/gwo -Ihost/model -include host/model/names.h \
        $(ls host/gwo/*.c | grep -v /main.c) host/model/*.c "host/gwo/fuzz/$1.c" -o "$out/fuzz-$1"
}

# seed_files, seed_serve: something to begin with.
seed_files() {
    local script kind
    for script in scripts/*.txt host/gwo/samples/*.txt; do
        for kind in 0 1 3 4 5 12 13 20; do
            { printf "\\$(printf %o $kind)"; cat "$script"; } >"$1/$(basename "$script" .txt).$kind"
        done
        [ ! -f "${script%.txt}.log" ] || { printf '\006'; cat "$script"; printf '\0'; cat "${script%.txt}.log"; } >"$1/$(basename "$script" .txt).6"
    done
    { printf '\005'; cat host/gwo/samples/KH25L2006E.sfdp; } >"$1/table.5"
}

seed_serve() {
    printf '\000\000\020\001\002\003\004\005\007\010\013\016\020\047\000\000\017\021\022\010\024\100\102\017\000\025\001' >"$1/queries"
    printf '\001\023\001\000\000\003\000\000\237\023\004\000\000\020\000\000\003\000\000\000' >"$1/read"
    printf '\000\023\001\000\000\000\000\000\006\023\006\000\000\000\000\000\002\000\017\377\245\132\016\020\047\000\000\017' >"$1/program"
    printf '\001\023\001\000\000\000\000\000\006\023\004\000\000\000\000\000\040\000\020\000\016\100\015\003\000\017' >"$1/erase"
}

# fuzz NAME LENGTH: no finding in its time.
fuzz() {
    local name=$1 corpus=$out/$1
    mkdir -p "$corpus" "$corpus.seeds"
    seed_$name "$corpus.seeds"
    if build "$name" && "$out/fuzz-$name" -max_total_time=$(((seconds + 1) / 2)) -max_len="$2" -timeout=20 -rss_limit_mb=4096 -close_fd_mask=3 -detect_leaks=0 \
        -artifact_prefix="$out/$name-" -print_final_stats=1 "$corpus" "$corpus.seeds" >"$out/$name.log" 2>&1 && grep -q '^stat::number_of_executed_units' "$out/$name.log"; then
        passed=$((passed + 1))
        echo "ok fuzz $name: $(sed -n 's/^stat::number_of_executed_units: *//p' "$out/$name.log") runs, no finding"
    else
        failed=$((failed + 1))
        echo "FAILED fuzz $name"
        tail -n 40 "$out/$name.log" 2>/dev/null | cut -c 1-200
    fi
}

fuzz files 4096
fuzz serve 1024
echo "$passed passed, $failed failed"
[ "$failed" -eq 0 ]
