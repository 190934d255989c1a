#!/usr/bin/env python3
"""Spells the definitions and lemmas of this repository in snake case, once, after port.py.

usage: python3 tools/snake_names.py [FOLDER]        in the repository, or in a checkout of it that port.py has turned

A name of a definition, a lemma, a field or a constructor of antt that begins with a small letter and has a capital behind a small
letter gets an underscore there: `tailClear` is `tail_clear`. In a name of several parts, joined by dashes, a part that begins with a
capital stays. A name that would meet another in some file has a spelling of its own in APART. Names of src/ (functions, fields,
constants) stay: they are in snake case. Must-fail edits get the same names in their texts.
"""

import collections
import glob
import os
import re
import sys

ROOT = sys.argv[1] if len(sys.argv) > 1 else "."
APART = {
    "allDigits": "all_are_digits",
    "byShape": "request_by_shape",
    "entryZero": "is_entry_zero",
    "inRows": "is_in_rows",
    "getD-tab": "get_or-tab",
    "getD-vectorAt": "get_or-vector_at",
    "getD-before": "get_or-before",
    "getD-within": "get_or-within",
}
DECLARED = re.compile(
    r"^\s*(?:(?:abbrev|unfoldable|pub|unfold)\s+)*((?:[^\s(){}.;,@\"«»:=]+\s+)*[^\s(){}.;,@\"«»:=]+)\s*((?:\{[^{}]*\}|\([^()]*\))\s*)*:\s",
    re.M,
)
WORD = re.compile(r"[^\s(){}.;,@\"«»\[\]⌜⌝`|]+")


def texts():
    for kind in ("specs/**/*.antt", "proofs/**/*.antt", "src/*.rt", "must-fail/*.edit"):
        yield from sorted(glob.glob(os.path.join(ROOT, "crates/*", kind), recursive=True))


def read(path):
    with open(path, encoding="utf-8") as f:
        return f.read()


def declared():
    """The names that the .antt files declare."""
    names = set()
    for path in texts():
        if path.endswith(".antt"):
            for m in DECLARED.finditer(re.sub(r"--.*", "", read(path))):
                names.update(m.group(1).split())
    return names


def snake(name):
    parts = [
        p if re.match(r"[A-Z]", p) else re.sub(r"(?<=[a-z0-9])([A-Z])", lambda m: "_" + m.group(1).lower(), p)
        for p in name.split("-")
    ]
    return "-".join(parts)


def main():
    names = declared()
    new = {n: APART.get(n) or snake(n) for n in names if re.search(r"[a-z0-9][A-Z]", n)}
    new = {a: b for a, b in new.items() if a != b}
    meets = collections.Counter(new.values())
    for a, b in sorted(new.items()):
        if meets[b] > 1:
            print(f"left: {a} and another would both be {b}")
    for path in texts():
        t = read(path)
        u = WORD.sub(lambda m: new.get(m.group(0), m.group(0)), t)
        if path.endswith(".rt"):
            # the code is Rust's: only clauses, imports and comments name what is renamed
            assert len(t.split("\n")) == len(u.split("\n"))
        if u != t:
            with open(path, "w", encoding="utf-8") as f:
                f.write(u)
    print(f"{len(new)} names")


main()
