#!/usr/bin/env python3
"""One meaning a name: no definition of one crate's specs/ has the name of another crate's. Run from the project's root.
Also that each must-fail edit says in its first line which wrong answer it would give."""
import glob
import re
import sys

DEFINED = re.compile(r"^(?:  )?(?:abbrev|unfoldable) pub (\S+)|^(?:  )?pub (?:record|data) (\S+)")


def definitions():
    homes = {}
    for path in sorted(glob.glob("crates/*/specs/*.antt")):
        with open(path, encoding="utf-8") as lines:
            for line in lines:
                found = DEFINED.match(line)
                if found:
                    homes.setdefault(found.group(1) or found.group(2), set()).add(path.split("/")[1])
    return homes


def says(path):
    with open(path, encoding="utf-8") as lines:
        first = lines.readline().rstrip()
    return first.endswith(".") and not first.startswith(("file:", "old:", "new:"))


def main():
    twice = [f"{name} is defined in {' and '.join(sorted(crates))}" for name, crates in sorted(definitions().items()) if len(crates) > 1]
    dumb = [f"{path} does not begin with a sentence on the wrong answer" for path in sorted(glob.glob("crates/*/must-fail/*.edit")) if not says(path)]
    for bad, what in ((twice, "one meaning a name"), (dumb, "every edit says its wrong answer")):
        print("\n".join(bad + [("FAILED " if bad else "ok ") + what]))
    failed = bool(twice) + bool(dumb)
    print(f"{2 - failed} passed, {failed} failed")
    return failed


sys.exit(1 if main() else 0)
