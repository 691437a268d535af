#!/usr/bin/env bash
# What tools/refusals.py says of what the toolchain says: of a fact that fails, of each way in which a proof only does not fit, of a limit, of an edit that
# was not tried, and of an edit of a proof.
set -u
cd "$(dirname "$0")/.." || exit 1
. tools/tally.sh refusals
mkdir -p "$work/tools" "$work/crates/cells/must-fail"
cp tools/refusals.py "$work/tools/refusals.py"

# says WHAT STATUS TEXT FILE SAID [PAIR..]: with an edit of that file of which that is said the look ends with that status and says the text. A pair is
# three words more, a file, an old text and a new one.
says() {
    local status
    printf 'It would be 2.\nfile: %s\nold: 1\nnew: 2\n' "$4" >"$work/crates/cells/must-fail/wrong.edit"
    [ $# -le 5 ] || printf 'file: %s\nold: %s\nnew: %s\n' "${@:6}" >>"$work/crates/cells/must-fail/wrong.edit"
    {
        echo 'rt: cells proved'
        [ -z "$5" ] || echo "rt: must-fail cells/wrong.edit: $5"
        echo 'rt: must-fail cells/another.edit: refused, as it must be: note: src/lib.rt:15:1: it is not proved'
    } >"$work/log"
    tools/host.sh python -B "$work/tools/refusals.py" "$work/log" >"$work/said" 2>&1
    status=$?
    [ "$status" -eq "$2" ] && grep -qF "$3" "$work/said" && [[ $(tail -n 1 "$work/said") =~ ^[01]\ passed,\ $2\ failed$ ]]
    tell $? "$1" "$status"
}

# error TEXT: a refusal at that error of a proof.
error() {
    echo "refused, as it must be: ./proofs/fill/Answers.antt:7:13: error: \`returns\`: $1"
}

says 'a fact that is not proved' 0 'each of 1 edits is refused at a fact' src/lib.rt 'refused, as it must be: note: src/lib.rt:15:1: it is not proved that what the function ensures holds when it returns (`returns`)'
says 'a fact that fails' 0 'each of 1 edits' src/lib.rt "$(error 'as printed, the two types differ only where one has `255` (expected) and the other `0`')"
says 'a fact of a theorem' 0 'each of 1 edits' specs/Cell.antt 'refused, as it must be: ./proofs/Promises.antt:12:16: error: `as-the-sheet`: expected type `AsTheSheet`, but this has type `0 ≡ 1`'
says 'only names that are gone' 1 'only a proof that names what is gone fails' src/lib.rt 'refused, as it must be (only because a proof file names what the edit took away, so this says little of the contract: change a value and keep the names): ./proofs/fill/Answers.antt:7:13: error: x'
says 'a limit' 1 'the prover came to a limit' src/lib.rt 'refused, as it must be (only by a limit of the prover, which gave no verdict, so this says less of the contract: choose a change that it refuses sooner): ./proofs/fill/Answers.antt:7:13: error: antt ran out of stack'
says 'a missing field' 1 'a record lacks a field' specs/Cell.antt "$(error 'missing field(s) of `Sent`: strict')"
says 'no such field' 1 'a record has no such field' src/lib.rt "$(error 'record `Sent` has no field `tail` (nearest: .tails)')"
says 'a name out of scope' 1 'a name is not in scope' src/lib.rt "$(error '`torn` is not in scope')"
says 'a fact of another name' 1 'a fact that the proof names is not there' src/lib.rt "$(error '`goal.returns-3`: module `Rattle.cells.proofs.fill.Goals` has no `returns-3` that can be named from here')"
says 'what stands on one' 1 'a fact that the proof names is not there' src/lib.rt "$(error '2 declarations that depend on `goal`, which was rejected, were not checked: returns, loop-i-preserved')"
says 'another number of binders' 1 'the number of binders is another' src/lib.rt "$(error 'this has 3 binders, but its type has room for only 2')"
says 'another number of patterns' 1 'the number of patterns is another' src/lib.rt "$(error 'more patterns than the type has arguments')"
says 'a missing case' 1 'a case is missing' specs/Cell.antt 'refused, as it must be: ./specs/Cell.antt:7:11: error: `number_of`: write the clause `number_of Torn = …`'
says 'a definition that is none any more' 1 'a definition is taken apart' specs/Cell.antt "$(error 'this clause follows the signature of `is_done` but does not define it')"
says 'a refusal without an error' 1 'no error is named' src/lib.rt 'refused, as it must be'
says 'an edit that is still proved' 1 'SHOWS NOTHING: NOT REFUSED' src/lib.rt 'NOT REFUSED: the crate is still proved with this edit'
says 'an edit that cannot be applied' 1 'SHOWS NOTHING: BAD EDIT' src/lib.rt "BAD EDIT: an 'old:' text is in src/lib.rt 0 times, and not once"
says 'an edit of which nothing is known' 1 'SHOWS NOTHING: NOT TRIED' src/lib.rt 'NOT TRIED: its check was killed'
says 'an edit of which nothing is said' 1 'it was not tried' src/lib.rt ''
says 'an edit of a proof' 1 'it changes a proof' proofs/fill/Answers.antt "$(error 'expected type `0 ≡ 1`')"
fails=$(error 'expected type `0 ≡ 1`')
says 'a proof that is changed with the code' 1 'it changes a proof' src/lib.rt "$fails" proofs/fill/Answers.antt 'omega c.if-n-eq3.false' 'omega c.if-n-eq2.false'
counts
