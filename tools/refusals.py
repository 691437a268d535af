"""Why each must-fail edit was refused: a look at what `rt ci` or `rt must-fail` said of it. The last line counts one check, or those that failed.

    tools/refusals.py LOG

LOG is what the toolchain said. Of each edit it has a line, with the first error or note that is not of a proof file alone. An edit shows something
only if a fact fails with it. Where the proof merely does not fit the edited text any more (a field is missing, a name is out of scope, a fact has
another name, a function has another number of binders), it shows nothing, and counts as failed; so does one that is refused only because the prover
came to a limit of its own, one that the toolchain could not try, and an edit of a proof.
"""
import glob
import os
import re
import sys

ROOT = os.path.dirname(os.path.dirname(os.path.abspath(__file__)))
REFUSED = 'refused, as it must be'

# What the toolchain says where the proof does not fit the text, or where there is no verdict, and what that means.
SHAPES = (
    (r'^ \(only because a proof file names what the edit took away', 'only a proof that names what is gone fails'),
    (r'^ \(only by a limit of the prover', 'the prover came to a limit'),
    (r'missing field', 'a record lacks a field'),
    (r'has no field', 'a record has no such field'),
    (r'is not in scope', 'a name is not in scope'),
    (r'has no `', 'a fact that the proof names is not there'),
    (r'which was (rejected|not admitted)', 'a fact that the proof names is not there'),
    (r'binders?, but its type has room', 'the number of binders is another'),
    (r'(more|fewer) patterns than', 'the number of patterns is another'),
    (r'write the clause|no clause covers', 'a case is missing'),
    (r'does not define it', 'a definition is taken apart'),
)


def said_of(text):
    """What is said of each edit, by its crate and label; of one that is named twice, the last."""
    lines = re.findall(r'^rt: must-fail ([a-z0-9_]+)/([A-Za-z0-9_.-]+)\.edit: (.*)', text, re.M)
    return {(crate, label): said for crate, label, said in lines}


def shape(said):
    """What is wrong with that refusal, or nothing."""
    why = said[len(REFUSED):]
    if not re.search(r': \S', why):
        return 'no error is named'
    for pattern, meaning in SHAPES:
        if re.search(pattern, why):
            return meaning
    return ''


def edits(crates=None):
    """Crate, label and text of each edit, of these crates or of all."""
    for path in sorted(glob.glob(os.path.join(ROOT, 'crates', '*', 'must-fail', '*.edit'))):
        crate, label = path.split(os.sep)[-3], os.path.basename(path)[:-len('.edit')]
        if crates is None or crate in crates:
            with open(path, encoding='utf-8') as file:
                yield crate, label, file.read()


def pairs_of(text):
    """The replacements of an edit: file, old text, new text."""
    name = old = None
    for line in text.split('\n'):
        if line.startswith('file: '):
            name = line[len('file: '):].strip()
        elif line.startswith('old: '):
            old = line[len('old: '):]
        elif line.startswith('new:') and name and old:
            yield name, old, line[len('new:'):].removeprefix(' ')
            old = None


def changes_a_proof(text):
    return any(name.startswith('proofs/') for name, _, _ in pairs_of(text))


def fault(said, text):
    """What is wrong with an edit of that text, of which that was said, or nothing."""
    if changes_a_proof(text):
        return 'it changes a proof'
    if said is None:
        return 'it was not tried'
    if not said.startswith(REFUSED):
        return said[:300]
    why = shape(said)
    return f'{why}{said[len(REFUSED):][:300]}' if why else ''


def main(words):
    if len(words) != 1:
        print(__doc__, end='', file=sys.stderr)
        return 2
    with open(words[0], encoding='utf-8', errors='replace') as file:
        said = said_of(file.read())
    count = failed = 0
    for crate, label, text in edits():
        count += 1
        why = fault(said.get((crate, label)), text)
        if why:
            failed += 1
            print(f'refusals: {crate}/{label}: SHOWS NOTHING: {why}')
    if not failed:
        print(f'refusals: each of {count} edits is refused at a fact')
    print(f'{0 if failed else 1} passed, {failed} failed')
    return 1 if failed else 0


if __name__ == '__main__':
    sys.exit(main(sys.argv[1:]))
