#!/usr/bin/env python3
"""Respells the repository's own definitions and lemmas, from dashes and capitals inside a word to snake case.

The pairs stand in respell.txt beside this file, the old name and the new one. Names are replaced in clauses, definitions,
proofs and must-fail edits, and in what comments and documents set between backticks. Run it once, at the top.
"""
import os
import re

HERE = os.path.dirname(os.path.abspath(__file__))
PAIRS = dict(line.split() for line in open(os.path.join(HERE, "respell.txt"), encoding="utf-8"))
WORD = re.compile(r"[A-Za-z_][\w'-]*[\w']")
NOTE = {".antt": "--", ".rt": "//", ".edit": None}


def words(text):
    return WORD.sub(lambda m: PAIRS.get(m.group(0), m.group(0)), text)


def quoted(text):
    return re.sub(r"`[^`]*`", lambda m: words(m.group(0)), text)


def line(text, note):
    mark = re.search(r"(^|\s)" + note + r"(\s|$)", text) if note else None
    at = mark.start() if mark else len(text)
    return words(text[:at]) + quoted(text[at:])


def main():
    for top in ("crates", "docs", "README.md"):
        files = [top] if os.path.isfile(top) else [os.path.join(d, f) for d, _, fs in os.walk(top) for f in fs]
        for path in sorted(files):
            kind = os.path.splitext(path)[1]
            if kind not in NOTE and kind != ".md":
                continue
            with open(path, encoding="utf-8") as file:
                old = file.read()
            new = quoted(old) if kind == ".md" else "".join(line(l, NOTE[kind]) for l in old.splitlines(keepends=True))
            if new != old:
                with open(path, "w", encoding="utf-8") as file:
                    file.write(new)


main()
