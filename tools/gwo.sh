#!/usr/bin/env bash
# gwo, the program of the bench: what stands behind it, and build/gwo.
#   tools/gwo.sh behind          archive or model
#   tools/gwo.sh build COMMAND   build/gwo, where it is older than what it is made of; COMMAND is who asks
# Beside it stands build/gwo-rewrite, which starts the proved program behind gwo rewrite.
# On a machine that is not x86-64 the archive's code runs in an emulator, and build/gwo is a script that starts it there. The independent model
# is compiled for the machine itself.
set -u
cd "$(dirname "$0")/.." || exit 2

# The switch: `archive` is target/staticlib/libpod.a, which is proved; `model` is host/model, of which nothing is.
behind=${GWO_BEHIND:-archive}

# It is linked with the C library in it: a process is smaller so, by half a megabyte and more.
flags=(-static -std=c11 -D_GNU_SOURCE -O2 -Wall -Wextra -Wconversion -pedantic -Ihost/include)

# What is newer than the program, or another thing behind it than it was built with.
is_old() {
    local made_of=(host/gwo host/include tools/gwo.sh tools/host.sh)
    [ "$behind" = archive ] && made_of+=(target/staticlib/libpod.a) || made_of+=(host/model)
    [ -x build/gwo ] && [ "$(cat build/behind 2>/dev/null)" = "$behind" ] || return 0
    [ -n "$(find "${made_of[@]}" -newer build/gwo -print -quit)" ]
}

with_model() {
    tools/host.sh here gcc -std=c11 -O2 -Ihost/model -include host/model/names.h -r -nostdlib host/model/*.c -o build/model.o &&
        tools/host.sh here gcc "${flags[@]}" -DGWO_BEHIND_MODEL host/gwo/*.c build/model.o -o build/gwo.new
}

with_archive() {
    local program=build/gwo.new
    [ "$(tools/host.sh machine)" = native ] || program=build/gwo.x86-64
    tools/host.sh cc "${flags[@]}" host/gwo/*.c target/staticlib/libpod.a -o $program || return
    [ $program = build/gwo.new ] && return
    cat >build/gwo.new <<'END'
#!/bin/sh
# gwo on a machine that is not x86-64: the program runs in an emulator.
here=$(dirname "$(readlink -f "$0")")
exec "$here/../tools/host.sh" run "$here/gwo.x86-64" "$@"
END
    chmod +x build/gwo.new
}

# What gwo rewrite starts.
with_rewrite() {
    cat >build/gwo-rewrite.new <<'END'
#!/bin/sh
# The proved program that rewrites a script, target/bin/run_rewrite.
here=$(dirname "$(readlink -f "$0")")
exec "$here/../tools/host.sh" program "$here/../target/bin/run_rewrite"
END
    chmod +x build/gwo-rewrite.new && mv -f build/gwo-rewrite.new build/gwo-rewrite
}

# build COMMAND: nothing is written where nothing is to be done, so that somebody who may not write here can use what there is.
build() {
    case $behind in
    archive) tools/rattle.sh "$1" archive || exit ;;
    model) ;;
    *) echo "$1: GWO_BEHIND is archive or model; it is not $behind" >&2; exit 2 ;;
    esac
    tools/rattle.sh "$1" run_rewrite || exit
    is_old || return 0
    mkdir -p build 2>/dev/null && [ -w build ] || { echo "$1: build/gwo is to be built, and the folder build cannot be written" >&2; exit 2; }
    rm -f build/behind build/gwo.x86-64
    with_$behind && with_rewrite && mv -f build/gwo.new build/gwo && echo $behind >build/behind && return
    echo "$1: build/gwo could not be built" >&2
    exit 2
}

case ${1:-} in
behind) echo $behind ;;
build) build "${2:-make gwo}" ;;
*) sed -n '2,/^set/{/^#/s/^# \{0,1\}//p}' "$0" >&2; exit 2 ;;
esac
