#!/usr/bin/env python3
"""Brings the definitions and lemmas of this repository to the spelling of today's Rattle: words in snake case.

usage: tools/spell_names.py [ROOT]     once, after port.py: rewrites the .antt and .rt files below ROOT/crates
       tools/spell_names.py --list [ROOT]     only prints the renamings, a line each

A name is renamed if a file of specs/ or proofs/ declares it in camel case with a small first letter. Types, facts and modules keep their
capital, constructors that mirror a Rust enum's keep theirs, and no name of src/, no string and no comment's prose is touched but where it
cites such a name. A lemma that would have a definition's name ends in `_lem`; a function of src/ may share its name with the definition that it computes.
"""

import os
import re
import sys

DECLARED = re.compile(
    r"\s*(?:module _ )?(?:(?:pattern|unfoldable|abbrev|pub)\s+)*([^\s:(){}=;.,]+(?:\s+[^\s:(){}=;.,]+)*)\s+:\s"
)
CAMEL = re.compile(r"[a-z][A-Z]")
TOKEN = re.compile(r"[^\s(){}\[\];,.\"`]+")

# Lemmas and a variable that would fall together with a definition's new spelling, by the folder that they stand in: the name that each takes.
LEMMAS = {
    "crates/editor/proofs": {"room_of": "room_of_lem", "same_bytes": "same_bytes_lem", "is_newline": "is-newline"},
    "crates/window/proofs": {"last_line": "last_line_lem"},
}


def snake(name):
    """`lineEnd-above` becomes `line_end-above`; a run of capitals is one word, as in `findFOO`."""
    name = re.sub(r"([a-z0-9])([A-Z]+)(?=$|[^a-zA-Z])", lambda m: m[1] + "_" + m[2].lower(), name)
    return re.sub(r"([a-z0-9])([A-Z])", lambda m: m[1] + "_" + m[2].lower(), name)


def files(root):
    for folder, dirs, names in os.walk(os.path.join(root, "crates")):
        dirs[:] = sorted(d for d in dirs if d not in ("out", "must-fail"))
        for n in sorted(names):
            if n.endswith((".antt", ".rt")):
                yield os.path.join(folder, n)


def renamings(root):
    found = {}
    for p in files(root):
        if not p.endswith(".antt"):
            continue
        for line in open(p, encoding="utf-8"):
            m = DECLARED.match(line)
            binders = re.findall(r"[({]([^\s:(){}]+(?: [^\s:(){}]+)*) : ", line)
            for group in ([m[1]] if m else []) + binders:
                for name in group.split():
                    if name[0].islower() and CAMEL.search(name):
                        found[name] = snake(name)
    return found


def main():
    words = [w for w in sys.argv[1:] if w != "--list"]
    root = words[0] if words else "."
    new = renamings(root)
    if "--list" in sys.argv:
        for name in sorted(new):
            print(name, new[name])
        return
    for p in files(root):
        with open(p, encoding="utf-8") as f:
            old = f.read()
        lemmas = {}
        for folder, names in LEMMAS.items():
            if os.path.relpath(p, root).startswith(folder + os.sep):
                lemmas = names
        text = TOKEN.sub(lambda m: lemmas.get(m[0]) or new.get(m[0], m[0]), old)
        if text != old:
            with open(p, "w", encoding="utf-8") as f:
                f.write(text)


if __name__ == "__main__":
    main()
