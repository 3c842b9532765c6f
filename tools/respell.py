#!/usr/bin/env python3
"""Turns the names of definitions and lemmas to Rattle's spelling, once, after port.py: tools/respell.tsv has each old
name and its new one. Words are in snake case; a dash joins the names of two definitions; a lemma that would have its
definition's name ends in _lem. Names of Rattle's own library, and what stands in quotes, stay.

usage: python3 tools/respell.py [FOLDER]    FOLDER is a checkout; this one, if none is given
"""
import os
import re
import sys

here = os.path.dirname(os.path.realpath(__file__))
root = sys.argv[1] if len(sys.argv) > 1 else os.path.dirname(here)
with open(os.path.join(here, "respell.tsv"), encoding="utf-8") as f:
    names = dict(line.rstrip("\n").split("\t") for line in f)

TOKEN = re.compile(r'"[^"\n]*"|[^\W\d][\w\'-]*', re.U)
LIBRARY = re.compile(r"^\s*(?:ghost )?(?:pub )?use (?:Rattle\.(?:std|core|std_alloc)|Prim|native|mathlib|borrow|lib|base)\b[^{\n]*\{([^}]*)\}", re.M)


def respell(text):
    taken = set()
    for line in LIBRARY.findall(text):
        taken.update(word.split(" as ")[-1].strip() for word in line.split(","))
    return TOKEN.sub(lambda m: m[0] if m[0] in taken else names.get(m[0], m[0]), text)


for folder, dirs, files in os.walk(os.path.join(root, "crates")):
    dirs[:] = [d for d in dirs if d != "out"]
    for name in files:
        if name.endswith((".antt", ".rt")):
            path = os.path.join(folder, name)
            with open(path, encoding="utf-8") as f:
                old = f.read()
            new = respell(old)
            if new != old:
                with open(path, "w", encoding="utf-8") as f:
                    f.write(new)
