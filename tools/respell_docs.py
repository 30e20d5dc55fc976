#!/usr/bin/env python3
"""Brings the names in README.md, docs/ and other pages to those that the crates have since the port.

usage: tools/respell_docs.py NAMES.json FILE..

NAMES.json says what each definition and lemma of before is called now (declarations of each file of specs/ and proofs/ laid side by side, before and
after). Only what stands between backticks is touched.
"""

import json
import re
import sys

TOKEN = re.compile(r"[A-Za-z][\w'\u2032-]*")


def main(names, *files):
    with open(names, encoding="utf-8") as f:
        now = json.load(f)

    def word(m):
        w = m.group()
        return now.get(w, w)

    def span(m):
        s = m.group(1)
        s = re.sub(r"now \((\w+) \.exit\)", r"\1.new", s)
        s = re.sub(r"now \((\w+) \.entry\)", r"\1.now", s)
        s = re.sub(r"(?<![\w.])r ≡", "result ≡", s)
        s = re.sub(r" \.(?=[a-z])(?!\.)", ".", s) if " .." not in s else s
        return "`" + TOKEN.sub(word, s) + "`"

    for path in files:
        with open(path, encoding="utf-8") as f:
            text = f.read()
        new = re.sub(r"`([^`\n]+)`", span, text)
        if new != text:
            with open(path, "w", encoding="utf-8") as f:
                f.write(new)


main(*sys.argv[1:])
