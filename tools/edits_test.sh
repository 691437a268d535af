#!/usr/bin/env bash
# What tools/edits.py says of edits that it must not let pass: one that changes no answer, one whose text is not there, one that
# stands more than once, one that does not compile, one after which only a proof does not fit; and of a crate that is not proved or not there.
set -u
cd "$(dirname "$0")/.." || exit 1
. tools/tally.sh edits

mkdir -p "$work/crates/answers" "$work/tools"
echo 'answers:' >"$work/crates.txt"
cp -r crates/answers/src crates/answers/specs crates/answers/proofs crates/answers/must-fail "$work/crates/answers/"
# A proof that names a step of its function: the crate itself needs none.
mkdir -p "$work/crates/answers/proofs/number_of"
cat >"$work/crates/answers/proofs/number_of/Answers.antt" <<'END'
-- `answers::number_of` meets its contract.
use Rattle.answers.proofs.number_of.Goals as goal

pub returns-in-Err : goal.returns-in-Err
returns-in-Err c = rw (c.in-Err.is, c.number.ensures)
END
cp tools/edits.py tools/refusals.py "$work/tools/"
edits=$work/crates/answers/must-fail

# only NAME OLD NEW: the crate has that edit of its code alone.
only() {
    rm -f "$edits"/*.edit
    printf 'file: src/lib.rt\nold: %s\nnew: %s\n' "$2" "$3" >"$edits/$1.edit"
}

# says WHAT STATUS COUNTS TEXT [CRATE [KEPT]]: the run ends with that status, has these counts in its last line, and says the text; what is kept of
# the crate says the other text.
says() {
    local status
    tools/host.sh python -B "$work/tools/edits.py" ${5:-} >"$work/said" 2>&1
    status=$?
    [ "$status" -eq "$2" ] && [ "$(tail -n 1 "$work/said")" = "$3" ] && grep -qF "$4" "$work/said" && { [ $# -lt 6 ] || grep -qF "$6" "$work/target/edits/$5.log"; }
    tell $? "$1" "$status"
}

only wrong_number 'Refusal::Busy => 11,' 'Refusal::Busy => 12,'
says 'a wrong answer is refused' 0 '1 passed, 0 failed' 'answers/wrong_number: refused, as it must be'
says 'and is not tried again' 0 '1 passed, 0 failed' 'answers/wrong_number: refused, as it must be' answers '1 of its 1 must-fail edits were tried by an earlier run'
only another_comment '// ' '//  '
says 'a text that stands more than once' 1 '0 passed, 1 failed' 'answers/another_comment: BAD EDIT'
only same_number 'Refusal::Busy => 11,' 'Refusal::Busy => 0x0B,'
says 'an edit that changes no answer' 1 '0 passed, 1 failed' 'answers/same_number: NOT REFUSED'
only no_text 'Refusal::Bussy => 11,' 'Refusal::Bussy => 12,'
says 'a text that is not there' 1 '0 passed, 1 failed' 'answers/no_text: BAD EDIT'
only no_number 'Refusal::Busy => 11,' 'Refusal::Busy => eleven,'
says 'an edit that does not compile' 1 '0 passed, 1 failed' 'answers/no_number: BAD EDIT: it did not reach the prover'
only no_call 'Err(refusal) => refusal.number(),' 'Err(refusal) => { let n = refusal.number(); n }'
says 'an edit that the proof does not fit' 1 '0 passed, 1 failed' 'answers/no_call: SHOWS NOTHING: only a proof that names what is gone fails'
says 'a crate that is not there' 2 'edits: there is no crate answer' 'there is no crate answer' answer
sed -i 's/Refusal::Busy => 11,/Refusal::Busy => 12,/' "$work/crates/answers/src/lib.rt"
only wrong_number 'Refusal::Busy => 12,' 'Refusal::Busy => 13,'
says 'a crate that is not proved' 1 '0 passed, 1 failed' 'answers: NOT PROVED as it is'
counts
