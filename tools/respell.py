#!/usr/bin/env python3
"""Spells this repository's own definitions and lemmas in snake case, by respell.tsv beside this file.

usage: python3 tools/respell.py      at the top of the repository, once, after the kit's port.py

A row has the old name and the new one. Whole names alone are turned, in .antt and .rt files and must-fail edits below crates/.
LEMMAS lists lemmas that would meet a definition under its new name: in proof files they get `_lem`, where no dot stands before them,
before the table is applied.
"""

import os
import re

HERE = os.path.dirname(os.path.abspath(__file__))
WORD = re.compile(r"(?<![\w'′-])[A-Za-z_αβγκλ][\w'′-]*")

LEMMAS = "is_up lent_row end_mark group_at made_up set_before row_words".split()


def texts(folder):
    for top, dirs, files in os.walk(folder):
        dirs[:] = sorted(d for d in dirs if d != "out")
        for name in sorted(files):
            if name.endswith((".antt", ".rt", ".edit")):
                yield os.path.join(top, name)


def main():
    with open(os.path.join(HERE, "respell.tsv"), encoding="utf-8") as rows:
        table = dict(row.rstrip("\n").split("\t") for row in rows)
    crates = os.path.join(os.path.dirname(HERE), "crates")
    bare = re.compile(r"(?<![\w'′.·/-])(" + "|".join(LEMMAS) + r")(?![\w'′.-])")
    for path in texts(crates):
        if "/proofs/" in path:
            turn(path, lambda text: bare.sub(r"\1_lem", text))
    for path in texts(crates):
        turn(path, lambda text: WORD.sub(lambda m: table.get(m.group(), m.group()), text))


def turn(path, how):
    with open(path, encoding="utf-8") as it:
        text = it.read()
    turned = how(text)
    if turned != text:
        with open(path, "w", encoding="utf-8") as it:
            it.write(turned)


main()
