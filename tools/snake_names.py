#!/usr/bin/env python3
"""Brings the definitions, lemmas and local names of specs/ and proofs/, and the clauses of src/, to snake case: byteBit becomes byte_bit.

usage: python3 tools/snake_names.py [FOLDER]     at the top of the repository; rewrites crates/ of FOLDER, of the working folder where none is given
       python3 tools/snake_names.py --list       prints each old name beside its new one, and writes nothing

A name is turned where it begins with a small letter and has a capital behind a small letter or a digit. A part that is a type's name keeps its capital
where it stands between dashes or underscores, as in `one-result-unit-Unit-step` and `and_T`. Quoted texts, characters and numerals stay as they are.
"""

import os
import re
import sys

# Lemmas whose names would fall together with a definition's, each in its files.
APART = {
    "promises/specs/Refuted.antt": {"writes_nothing": "writes-nothing"},
    "promises/proofs/Refuted.antt": {"writes_nothing": "writes-nothing", "at_call": "at_call_lem"},
    "promises/proofs/EveryFormat.antt": {"stays_after": "stays_after_lem"},
    "promises/proofs/Stays/Since.antt": {"stays_after": "stays_after_lem"},
    "promises/proofs/Run/Steps.antt": {"step_in": "step_in_lem"},
    "promises/proofs/Range/Ranges.antt": {"exposed_at": "exposed_at_lem"},
    "state/proofs/Signs.antt": {"minus_one": "minus_one_lem"},
}

WORD = re.compile(r"""[bc]?"(?:\\.|[^"\\])*"|b?'(?:\\.|[^'\\])'|0x[0-9A-Fa-f_]+|[A-Za-z_ℕℤ][A-Za-z0-9_'₀-₉\-ℕℤ≢≡≤]*""")
HUMP = re.compile(r"(?<=[a-z0-9])(?=[A-Z])")


def turned(name):
    if not re.match(r"[a-z]", name) or not HUMP.search(name):
        return name
    parts = re.split(r"([-_])", name)
    return "".join(p if not HUMP.search(p) or not p[0].islower() else HUMP.sub("_", p).lower() for p in parts)


def texts(root):
    for folder, dirs, files in os.walk(os.path.join(root, "crates")):
        dirs[:] = sorted(d for d in dirs if d != "out")
        yield from (os.path.join(folder, f) for f in sorted(files) if f.endswith((".rt", ".antt")))


def main(argv):
    listing = argv == ["--list"]
    root = argv[0] if argv and not listing else "."
    names = {}
    for path in texts(root):
        with open(path, encoding="utf-8") as f:
            text = f.read()
        apart = APART.get(os.path.relpath(path, os.path.join(root, "crates")), {})

        def new(m):
            word = m[0]
            if word[-1] in "\"'" and word[0] in "\"'bc" and re.match(r"[bc]?[\"']", word):
                return word
            to = apart.get(word) or turned(word)
            if to != word:
                names[word] = to
            return to

        done = WORD.sub(new, text)
        if done != text and not listing:
            with open(path, "w", encoding="utf-8") as f:
                f.write(done)
    if listing:
        print("\n".join(f"{a} {b}" for a, b in sorted(names.items())))
    print(f"{len(names)} names", file=sys.stderr)


if __name__ == "__main__":
    main(sys.argv[1:])
