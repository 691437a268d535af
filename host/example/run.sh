#!/bin/sh
# Builds the examples against the archive and runs them.
#   host/example/run.sh [ARCHIVE]
# They are built in GWO_BUILD, or in a folder that is gone afterwards: whoever may not write here can run them too.
set -eu
here=$(cd "$(dirname "$0")" && pwd)
root=$(cd "$here/../.." && pwd)
host=$root/tools/host.sh
archive=${1:-$root/target/staticlib/libpod.a}
build=${GWO_BUILD:-}
if [ -z "$build" ]; then
    build=$(mktemp -d)
    trap 'rm -rf "$build"' EXIT
fi
mkdir -p "$build"
for program in firmware unplugged; do
    "$host" cc -std=c99 -O2 -I"$root/host/include" "$here/$program.c" "$here/flash.c" "$archive" -o "$build/$program"
    "$host" run "$build/$program"
done
"$host" cc -std=c99 -O2 -I"$root/host/include" "$here/discover.c" "$archive" -o "$build/discover"
"$host" run "$build/discover"
