#!/usr/bin/env python3
"""Brings the names of this repository's definitions and lemmas to today's spelling: words in snake case.

usage: python3 tools/spell.py      at the top of the repository, once, after the kit's port.py

A name that begins with a small letter and has a capital in it, and that a file of crates/*/specs or crates/*/proofs declares, is
written in snake case everywhere: in specs/, proofs/, the clauses and comments of src/, the must-fail edits and the pages. A dash
that joins two names stays. Types, which begin with a capital, and the names of src/ stay. Two names of one crate that would fall
together stop the script, and nothing is written.
"""

import glob
import re
import sys

# what a name of an antt file is made of
WORD = re.compile(r"[^\s(){}\[\];,.:`'\"|]+'*")
DECLARED = re.compile(r"^\s*(?:(?:abbrev|unfoldable|pub|data|record|ruleset)\s+)*([^\s:(){}.,;]+)\s*(?:[({].*)?:(?!=)")
CAMEL = re.compile(r"(?<=[a-z0-9])[A-Z]")
# names that would fall together with another of their crate, or with a field of a type of src/
OTHERWISE = {"inARow": "in_a_row", "leftOut": "is_left_out", "notMade": "none_made", "titleStart": "start_of_title", "titleEnd": "end_of_title", "phraseEnd": "end_of_phrase"}


def files(*patterns):
    return sorted(p for pattern in patterns for p in glob.glob(pattern, recursive=True))


def snake(name):
    """The words of a name in snake case; a part that begins with a capital, as a type's name in a lemma's, stays."""
    if name in OTHERWISE:
        return OTHERWISE[name]
    parts = name.split("-")
    return "-".join(p if p[:1].isupper() else CAMEL.sub(lambda m: "_" + m.group().lower(), p) for p in parts)


def declared():
    """The names that each crate declares."""
    names = {}
    for path in files("crates/*/specs/**/*.antt", "crates/*/proofs/**/*.antt"):
        crate = path.split("/")[1]
        with open(path, encoding="utf-8") as f:
            for line in f:
                found = DECLARED.match(line)
                if found:
                    names.setdefault(crate, set()).add(found.group(1))
    return names


def main():
    names = declared()
    turned = {}
    for crate, its in names.items():
        for name in its:
            if snake(name) != name:
                turned[name] = snake(name)
                if snake(name) in its:
                    print(f"{crate}: {name} and {snake(name)} would fall together", file=sys.stderr)
                    return 1
    if len(set(turned.values())) != len(turned):
        print("two names would fall together", file=sys.stderr)
        return 1

    def word(found):
        text = found.group()
        return turned.get(text, text)

    changed = 0
    for path in files("crates/*/specs/**/*.antt", "crates/*/proofs/**/*.antt", "crates/*/src/*.rt", "crates/*/must-fail/*.edit", "README.md", "docs/**/*.md"):
        with open(path, encoding="utf-8") as f:
            before = f.read()
        after = WORD.sub(word, before)
        if after != before:
            changed += 1
            with open(path, "w", encoding="utf-8") as f:
                f.write(after)
    print(f"{len(turned)} names, {changed} files")
    return 0


if __name__ == "__main__":
    raise SystemExit(main())
