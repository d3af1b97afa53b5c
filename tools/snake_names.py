#!/usr/bin/env python3
"""Turns the repository's own definitions and lemmas in specs/, proofs/, clauses and must-fail edits to snake case.

usage: python3 tools/snake_names.py [--dry]     at the top of the repository, once, behind port.py

A name is turned in each of its parts between dashes, where a part begins with a small letter and has a capital: `toldAs-quiet`
becomes `told_as-quiet`. Names of the library keep their spelling, and so do types, modules and variants, which begin with a
capital, strings, and the names of source files, which are in snake case already. It says where two names of a file fall together.
"""
import os
import re
import sys

# Names of the library, or of what it makes, that are not in snake case.
KEPT = {"getD", "leZ", "natAbs", "quotZ", "shrZ", "shr_slice_Tells", "uint_Makes", "uint_Tells", "walk_Meets"}
# Lemmas that would have their function's name, by the files that name them.
LEMMAS = {
    "crates/soundness/proofs/Tests.antt": ("value_in", "with_first", "with_second"),
    "crates/soundness/proofs/Decides.antt": ("value_in", "with_first"),
    "crates/histories/proofs/Witness.antt": ("quiet_told",),
}
PART = re.compile(r"[a-z][a-z0-9_]*(?:[A-Z][A-Za-z0-9_]*)+'?")
WORD = re.compile(r"(?<![\w'])[A-Za-z_][\w'-]*")
STRING = re.compile(r'"(?:[^"\\\n]|\\.)*"')


def snake(part):
    return re.sub(r"(?<=[a-z0-9])([A-Z])", lambda m: "_" + m.group(1).lower(), part)


def turned(word, lemmas=()):
    if word in lemmas:
        return word + "_lem"
    return "-".join(snake(p) if PART.fullmatch(p) and p not in KEPT else p for p in word.split("-"))


def is_shown(path):
    """Whether a file's strings are quotations in comments, and not strings of a program."""
    return not path.endswith(".rt")


def turn(text, path):
    kept = [] if is_shown(path) else [m.span() for m in STRING.finditer(text)]
    inside = lambda at: any(a <= at < e for a, e in kept)
    return WORD.sub(lambda m: m.group(0) if inside(m.start()) else turned(m.group(0), LEMMAS.get(path, ())), text)


def main(dry):
    for folder, dirs, files in os.walk("crates"):
        dirs[:] = sorted(d for d in dirs if d != "out")
        for f in sorted(files):
            if not f.endswith((".antt", ".rt", ".edit")):
                continue
            path = os.path.join(folder, f)
            with open(path, encoding="utf-8") as it:
                old = it.read()
            new = turn(old, path)
            if new == old:
                continue
            words = {w for w in WORD.findall(old)}
            for w in sorted(words):
                if turned(w) != w and turned(w) in words and turned(w) not in LEMMAS.get(path, ()):
                    print(f"look: {path}: {w} and {turned(w)} fall together")
            if not dry:
                with open(path, "w", encoding="utf-8") as it:
                    it.write(new)


if __name__ == "__main__":
    main("--dry" in sys.argv[1:])
