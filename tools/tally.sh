# For the tests of a tool, which read this in (`. tools/tally.sh NAME`): a folder to work in, and the counts of what is as it must be.
name=$1
work=$(mktemp -d)
trap 'rm -rf "$work"' EXIT
passed=0
failed=0

# tell WELL WHAT STATUS: whether it is as it must be (0); where it is not, what was said with that status is shown.
tell() {
    if [ "$1" -eq 0 ]; then
        passed=$((passed + 1))
        echo "passed  $name: $2"
    else
        failed=$((failed + 1))
        echo "FAILED  $name: $2: status $3"
        cat "$work/said"
    fi
}

# The last line, and the status of the test.
counts() {
    echo "$passed passed, $failed failed"
    [ "$failed" -eq 0 ]
}
