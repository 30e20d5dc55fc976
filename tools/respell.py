#!/usr/bin/env python3
"""Brings this repository's own words to the spelling of today's Rattle: a definition or a lemma is in snake case, a type keeps its capitals.

usage: tools/respell.py [--clashes] [ROOT]

It was run once, right after the kit's port.py, over every .rt, .antt and .edit file of crates/. Each part of a name that begins with a small
letter (parts are joined by - or a dot) loses its inner capitals: notNegative is not_negative, sameZ-is is same_z-is. Comments and the code's own
names have no such parts but the names that they cite; texts in quotation marks are left alone. With --clashes nothing is written: it lists the
files in which two different names would become one.
"""

import os
import re
import sys

TOKEN = re.compile(r"[A-Za-z_][\w'\u00b7]*")
HUMP = re.compile(r"(?<=[a-z0-9'])([A-Z])(?=([a-z])?)")
QUOTED = re.compile(r'("(?:[^"\\\n]|\\.)*")')
# Lemmas that would fall together with a definition or a constructor of the same file, by file, and what they are called instead.
LEMMAS = {
    "lattice/proofs/LatticeLaws.antt": ("not_negative", "not_negative-above"),
    "field/proofs/FieldRules.antt": ("real_kinds", "kinds-of_real"),
    "meaning/proofs/Placed.antt": ("row_kept", "row_kept-room"),
    "written/proofs/PlacesSent.antt": ("is_real", "fits-is_real"),
    "runs/proofs/RunLaws.antt": ("run_more", "block_more"),
    "runs/proofs/Ends.antt": ("run_more", "block_more"),
    "arrivals/proofs/AsSingles.antt": ("run_more", "block_more"),
}


def respelled(word):
    if not word[0].islower() or not HUMP.search(word):
        return word
    return HUMP.sub(lambda m: "_" + m.group(1).lower(), word)


def respell(text):
    out = []
    for i, piece in enumerate(QUOTED.split(text)):
        out.append(piece if i % 2 else TOKEN.sub(lambda m: respelled(m.group()), piece))
    return "".join(out)


def files(root):
    for folder, dirs, names in os.walk(os.path.join(root, "crates")):
        dirs[:] = sorted(d for d in dirs if d != "out")
        for name in sorted(names):
            if name.endswith((".rt", ".antt", ".edit")):
                yield os.path.join(folder, name)


def main(argv):
    look = "--clashes" in argv
    root = ([a for a in argv if not a.startswith("--")] or ["."])[0]
    for path in files(root):
        with open(path, encoding="utf-8") as f:
            text = f.read()
        if look:
            plain = QUOTED.sub("", text)
            words = set(TOKEN.findall(plain))
            for w in sorted(words):
                s = respelled(w)
                if s != w and s in words:
                    print(f"{path}: {w} and {s}")
            continue
        new = text
        for place, (old, name) in LEMMAS.items():
            if path.endswith("crates/" + place):
                new = re.sub(r"(?<![\w'.\-])" + old + r"(?![\w'\-])", name, new)
        new = respell(new)
        if new != text:
            with open(path, "w", encoding="utf-8") as f:
                f.write(new)


if __name__ == "__main__":
    main(sys.argv[1:])
