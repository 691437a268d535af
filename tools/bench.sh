#!/usr/bin/env bash
# make run, make wear, make explain, make compare and make rewrite.
#   tools/bench.sh run|wear|explain|compare|rewrite
# What was typed to make is in the environment: SCRIPT, a file or - for standard input; LOG for compare; STRICT, MODEL, IMAGE and SAVE, each of
# which may be missing. The status is gwo's: 0; 1 where compare finds a difference; 2 where it could not be done.
set -u
what=$1
command="make $what"
tools=$(cd "$(dirname "$0")" && pwd)
script=${SCRIPT:-}
strict=${STRICT:-}

no() {
    echo "$command: $1" >&2
    exit 2
}

# Words that are not for this command are said, and nothing is run.
[ "$script" = - ] || "$tools/readable.sh" "$command" SCRIPT "$script" || exit 2
[ "$what" != compare ] || "$tools/readable.sh" "$command" LOG "${LOG:-}" || exit 2
[ -z "$strict" ] || [ "$strict" = 1 ] || no "STRICT is 1, or is left out; it is not $strict"
[ -z "${SAVE:-}" ] || [ "$what" = run ] || no "SAVE is for make run"
[ -z "$strict${MODEL:-}${IMAGE:-}" ] || [ "$what" != rewrite ] || no "STRICT, MODEL and IMAGE are for scripts that are played"

"$tools/gwo.sh" build "$command" || exit 2
words=()
case $what in
wear) words=(run --quiet --wear=-) ;;
*) words=("$what") ;;
esac
[ -z "$strict" ] || words+=(--strict)
[ -z "${MODEL:-}" ] || words+=("--model=$MODEL")
[ -z "${IMAGE:-}" ] || words+=("--load=$IMAGE")
[ -z "${SAVE:-}" ] || words+=("--save=$SAVE")
words+=(-- "$script")
[ "$what" != compare ] || words+=("$LOG")
exec "$tools/../build/gwo" "${words[@]}"
