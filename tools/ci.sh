#!/usr/bin/env bash
# The toolchain's own gate: `rt ci`, plain, over the checkout as it stands. What it says is kept in target/ci.log, and the last line counts.
#   tools/ci.sh
# It lets a bad must-fail edit pass, one that cannot be applied, compiled or read, and so shows nothing: here these fail. So does a run that does not
# end in an `rt: ok`.
set -u
cd "$(dirname "$0")/.." || exit 1
log=$(mktemp)
rt ci 2>&1 | tee "$log"
status=${PIPESTATUS[0]}
mkdir -p target && mv "$log" target/ci.log || exit 1
last=$(tail -n 1 target/ci.log)
if ! [[ $last =~ ^([0-9]+)\ passed,\ ([0-9]+)\ failed$ ]]; then
    echo "rt ci broke off with status $status"
    echo "0 passed, 1 failed"
    exit 1
fi
passed=${BASH_REMATCH[1]}
failed=${BASH_REMATCH[2]}
well=$(grep '^rt: ok;' target/ci.log | tail -n 1)
if [[ $well =~ ,\ ([0-9]+)\ bad && ${BASH_REMATCH[1]} -gt 0 ]]; then
    failed=$((failed + BASH_REMATCH[1]))
    echo "${BASH_REMATCH[1]} of the must-fail edits are bad"
elif [ "$failed" -eq 0 ] && { [ "$status" -ne 0 ] || [ -z "$well" ]; }; then
    failed=1
    echo "rt ci ended with status $status, and its line rt: ok is '$well'"
fi
echo "$passed passed, $failed failed"
[ "$failed" -eq 0 ]
