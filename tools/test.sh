#!/usr/bin/env bash
# Everything that is proved and everything that is run; the last line counts both.
set -u
cd "$(dirname "$0")/.." || exit 1
passed=0
failed=0

# Runs a command, prints what it prints, and adds the counts of its last line; a command that does not end in one has failed.
count() {
    local log status last
    log=$(mktemp)
    "$@" 2>&1 | tee "$log"
    status=${PIPESTATUS[0]}
    last=$(tail -n 1 "$log")
    rm -f "$log"
    if [[ $last =~ ^([0-9]+)\ passed,\ ([0-9]+)\ failed$ ]]; then
        passed=$((passed + BASH_REMATCH[1]))
        failed=$((failed + BASH_REMATCH[2]))
        [ "$status" -eq 0 ] || [ "${BASH_REMATCH[2]}" -ne 0 ] || failed=$((failed + 1))
    else
        failed=$((failed + 1))
    fi
}

# The programs and the archive. After a gate that passed the programs are those that it ran.
built() {
    local what
    [ $failed -ne 0 ] || tools/rattle.sh 'make test' programs || return
    for what in runner wear run_rewrite archive; do tools/rattle.sh 'make test' $what || return; done
}

if ! command -v rt >/dev/null 2>&1; then
    echo "make test: the Rattle toolchain is missing: there is no rt on the path" >&2
    echo "0 passed, 1 failed"
    exit 1
fi
started=$SECONDS
count tools/ci.sh
proved=$SECONDS
if built; then
    GWO_RUNNER="$PWD/tools/host.sh program $PWD/target/bin/runner"
    GWO_WEAR="$PWD/tools/host.sh program $PWD/target/bin/wear"
    export GWO_RUNNER GWO_WEAR
    archived=$SECONDS
    count host/test.sh
    count host/gwo/test.sh
    count scripts/test.sh
    count tools/commands.sh
    count tools/rewrite_test.sh
else
    archived=$SECONDS
    failed=$((failed + 1))
fi
count tools/host.sh python -B tools/refusals.py target/ci.log
count tools/ci_test.sh
count tools/refusals_test.sh
count tools/edits_test.sh
count makers/test.sh
count tools/host.sh python -B tools/names.py
echo "rt ci took $((proved - started)) s, the archive $((archived - proved)) s, the host tests $((SECONDS - archived)) s"
echo "$passed passed, $failed failed"
[ "$failed" -eq 0 ]
