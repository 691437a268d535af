"""Tries every must-fail edit, and says of each whether it is refused. The last line counts them.

    tools/edits.py [CRATE..]

A crate is checked as it is (`rt check`, over what earlier checks kept), and where it is proved, its edits are tried over what the check kept
(`rt must-fail`); what has not changed since it was tried is not tried again. With no name, all crates that have edits.
This is the quick loop of whoever works on a crate; `rt ci`, which tries each edit over a proof from nothing, is the verdict. What the toolchain said
of a crate stays in target/edits/CRATE.log.
"""
import os
import re
import shutil
import subprocess
import sys

import refusals

ROOT = refusals.ROOT
CRATES = os.path.join(ROOT, 'crates')
LOGS = os.path.join(ROOT, 'target', 'edits')


def say(text):
    print('edits: ' + text, flush=True)


def has_edits(crate):
    return any(True for _ in refusals.edits([crate]))


def ask(words, folder):
    """The status of a command of the toolchain, and what it said."""
    done = subprocess.run(['rt', *words], cwd=folder, stdin=subprocess.DEVNULL, stdout=subprocess.PIPE, stderr=subprocess.STDOUT)
    return done.returncode, done.stdout.decode('utf-8', 'replace')


def judge(name, label, text, said, whole):
    """Whether that edit is refused at a fact, and what to say of it."""
    why = refusals.fault(said, text)
    if not why:
        return True, f'{name}/{label}: {said}'
    if said is None:
        return False, f'{name}/{label}: NOT TRIED: {whole[-2000:]}'
    return False, f'{name}/{label}: ' + (f'SHOWS NOTHING: {why}' if said.startswith(refusals.REFUSED) else said)


def attempt(name):
    """Tries the edits of a crate: how many are as they must be, and how many not."""
    status, checked = ask(['check'], os.path.join(CRATES, name))
    proved = status == 0 and re.search(r'^logic=proved', checked, re.M)
    tried = ask(['must-fail', name], ROOT)[1] if proved else ''
    with open(os.path.join(LOGS, name + '.log'), 'w', encoding='utf-8') as log:
        log.write(checked + tried)
    if not proved:
        say(f'{name}: NOT PROVED as it is:\n{checked[-2000:]}')
        return 0, 1
    said = refusals.said_of(tried)
    passed = failed = 0
    for _, label, text in refusals.edits([name]):
        well, words = judge(name, label, text, said.get((name, label)), tried)
        say(words)
        passed, failed = passed + well, failed + (not well)
    return passed, failed


def main(words):
    lacking = [name for name in words if not os.path.isdir(os.path.join(CRATES, name))]
    if lacking:
        say(f'there is no crate {lacking[0]}')
        return 2
    shutil.rmtree(LOGS, ignore_errors=True)
    os.makedirs(LOGS)
    results = [attempt(name) for name in words or sorted(os.listdir(CRATES)) if has_edits(name)]
    passed, failed = (sum(counts) for counts in zip(*results)) if results else (0, 0)
    print(f'{passed} passed, {failed} failed')
    return 1 if failed else 0


if __name__ == '__main__':
    sys.exit(main(sys.argv[1:]))
