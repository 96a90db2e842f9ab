#!/usr/bin/env python3
"""Brings the names of this repository's definitions and lemmas to the spelling of today's Rattle: words in snake case.

usage: python3 tools/snake_names.py            at the top, once, after port.py

A word such as `ownBits` becomes `own_bits`, alone and behind a dash, in each .antt file and in the clauses and comments of each .rt
file. Types, facts, modules and variants keep their capital, and so do texts between quotes. A lemma that would then have its
definition's name gets `_lem`: those are named in LEMMAS. The documents are not touched.
"""
import glob
import re

# a lemma that would fall together with the definition that it speaks of: the files that name it, its name and the new one
LEMMAS = [
    (["plate/proofs/OwnPhrases.antt", "plate/proofs/Programs.antt"], "own_bits"),
    (["write_plate/proofs/ListingCode.antt"], "line_code"),
    (["write_plate/proofs/ListingCode.antt", "translate/proofs/Coded.antt", "translate/proofs/Whole.antt"], "lines_code"),
]

WORD = re.compile(r"(?<![\w'])[a-z][a-z0-9]*[A-Z][\w']*")
QUOTED = re.compile(r"b?\"(?:[^\"\\\n]|\\.)*\"")


def snake(word):
    return re.sub(r"[A-Z]+", lambda m: "_" + m.group(0).lower(), word)


def turn(text):
    return WORD.sub(lambda m: snake(m.group(0)), text)


def turn_unquoted(text):
    parts, at = [], 0
    for m in QUOTED.finditer(text):
        parts += [turn(text[at:m.start()]), m.group(0)]
        at = m.end()
    return "".join(parts) + turn(text[at:])


def main():
    for files, name in LEMMAS:
        for f in files:
            path = "crates/" + f
            text = open(path, encoding="utf-8").read()
            text = re.sub(rf"(?<![\w'.-]){name}(?![\w'-])", name + "_lem", text)
            open(path, "w", encoding="utf-8").write(text)
    for path in sorted(glob.glob("crates/*/**/*", recursive=True)):
        if not path.endswith((".rt", ".antt")) or "/out/" in path:
            continue
        old = open(path, encoding="utf-8").read()
        new = turn_unquoted(old)
        if new != old:
            open(path, "w", encoding="utf-8").write(new)


main()
