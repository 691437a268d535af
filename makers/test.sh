#!/usr/bin/env bash
# Each maker writes the stored cases as they are stored.
#   makers/test.sh
set -u
root=$(cd "$(dirname "$0")/.." && pwd)
passed=0
failed=0
work=$(mktemp -d)
trap 'rm -rf "$work"' EXIT

# made NAME: the maker is run in a folder of its own, and what it wrote is compared.
made() {
    local file any=1
    mkdir -p "$work/crates/$1"
    (cd "$work" && "$root/tools/host.sh" python -B "$root/makers/$1.py") || return 1
    for file in "$work/crates/$1"/*; do
        cmp "$file" "$root/crates/$1/$(basename "$file")" || return 1
        any=0
    done
    return $any
}

for maker in "$root"/makers/*.py; do
    name=$(basename "$maker" .py)
    if made "$name"; then
        passed=$((passed + 1))
        echo "ok maker of $name"
    else
        failed=$((failed + 1))
        echo "FAILED maker of $name"
    fi
done
echo "$passed passed, $failed failed"
[ "$failed" -eq 0 ]
