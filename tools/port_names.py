#!/usr/bin/env python3
"""Brings the repository's own definitions and lemmas to snake case, in crates/, README.md, CONTRIBUTING.md and docs/.

usage: python3 tools/port_names.py [--dry]      at the top of the repository, once, after the kit's port.py

A name that specs/ or proofs/ of some crate declares and that has a capital after a small letter or a digit, as `unitCells`, becomes `unit_cells`.
Functions of src/, exported names, types, facts and modules keep theirs. TAKEN has the names whose plain spelling is another name where they stand.
"""
import os
import re
import sys

WORD = r"A-Za-z0-9_'₀-₉-"
DECLARED = re.compile(r"^ {0,4}(?:(?:abbrev|unfoldable|pub|ruleset) +)*((?:[%s]+ +)*[%s]+) *:(?![:=])" % (WORD, WORD))
CAMEL = re.compile(r"[a-z0-9][A-Z]")
TAKEN = {"benchKH25L512": "bench_kh25l512", "benchKH25L2006E": "bench_kh25l2006e", "benchKH25L12845G": "bench_kh25l12845g"}
# Lemmas whose name a definition takes, in the one file that has both.
ASIDE = {
    "crates/rewrite_blocks/proofs/Whole.antt": {"last_taken": "last-taken"},
    "crates/recovery/proofs/Recovery.antt": {"to_read": "to-read"},
}
# Calls whose step port.py took for a word of the library's.
GARBLED = {"number_of_lem": "number_of", "put_all_lem": "put_all"}
# Files of specs/ that today's Rattle makes a module of its own by: crates/NAME/specs/Contracts.antt.
CONTRACTS = ("chip", "counts", "effects", "operations", "time")


def snake(name):
    if name in TAKEN:
        return TAKEN[name]
    name = re.sub(r"getD(?![a-z])", "get_or", name)
    name = re.sub(r"(?<=[a-z0-9])([A-Z])(?=[a-z0-9]|\b|[-'])", lambda m: "_" + m.group(1), name)
    name = re.sub(r"(?<=[A-Z])([A-Z])(?=[a-z])", lambda m: "_" + m.group(1), name)
    return name.lower()


def files(top, ends):
    for folder, dirs, names in os.walk(top):
        dirs[:] = sorted(d for d in dirs if d not in ("out", ".git"))
        for name in sorted(names):
            if name.endswith(ends):
                yield os.path.join(folder, name)


def read(path):
    with open(path, encoding="utf-8") as f:
        return f.read()


def declared():
    found = set()
    for path in files("crates", (".antt",)):
        for line in read(path).split("\n"):
            m = DECLARED.match(line)
            found.update(m.group(1).split() if m else [])
    return found


def is_camel(name):
    return name[0].islower() and CAMEL.search(name)


def turned(word, here):
    """A word of a page or an edit, which port.py did not read: a name that it brought to snake case elsewhere."""
    return snake(word) if is_camel(word) and snake(word) in here else word


def texts():
    yield from files("crates", (".antt", ".rt", ".edit"))
    yield from files("docs", (".md",))
    yield from ("README.md", "CONTRIBUTING.md")


def main(dry):
    all_names = declared()
    names = {n: snake(n) for n in all_names if is_camel(n)}
    here = all_names | set(names.values())
    if len(set(names.values())) != len(names):
        seen = {}
        for n, s in sorted(names.items()):
            seen.setdefault(s, []).append(n)
        sys.exit("names that fall together: " + "; ".join(" ".join(v) for v in seen.values() if len(v) > 1))
    token = re.compile(r"(?<![%s])[%s]+" % (WORD, WORD))
    changed = 0
    clash = {}
    for path in texts():
        text = read(path)
        words = set(token.findall(text))
        for n in names:
            if n in words and names[n] in words:
                clash.setdefault((n, names[n]), []).append(path)
        aside = ASIDE.get(path, {})
        new = token.sub(lambda m: aside.get(m.group(0)) or names.get(m.group(0)) or GARBLED.get(m.group(0), m.group(0)), text)
        if path.endswith((".edit", ".md")):
            new = token.sub(lambda m: turned(m.group(0), here), new)
        new = re.sub(r"(?<=Rattle\.)(%s)\.specs\.Contracts(?![\w'])" % "|".join(CONTRACTS), r"\1.specs.ContractForms", new)
        new = re.sub(r"(?<=specs/)Contracts\.antt", "ContractForms.antt", new)
        if re.fullmatch(r"crates/(%s)/specs/Lib\.antt" % "|".join(CONTRACTS), path):
            new = re.sub(r"(?m)^(pub mod )Contracts$", r"\1ContractForms", new)
        if new != text:
            changed += 1
            if not dry:
                with open(path, "w", encoding="utf-8") as f:
                    f.write(new)
    for c in CONTRACTS:
        old = "crates/%s/specs/Contracts.antt" % c
        if os.path.exists(old) and not dry:
            os.rename(old, old.replace("Contracts", "ContractForms"))
    if dry:
        for n, s in sorted(names.items()):
            print(n, s)
        for (n, s), paths in sorted(clash.items()):
            print("clash", n, s, *paths)
    print(f"{len(names)} names, {changed} files", file=sys.stderr)


if __name__ == "__main__":
    main("--dry" in sys.argv[1:])
