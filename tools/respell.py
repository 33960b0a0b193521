#!/usr/bin/env python3
"""Gives the definitions and lemmas of this repository the spelling of today's Rattle.

usage: python3 tools/respell.py        at the top of the repository, once, behind the kit's port.py

respellings.txt beside this file has a line 'OLD NEW' for each name. A name is replaced where it stands as a whole word
of a proof file, a specification, or a clause of a source; comments and texts in quotes keep theirs.
"""

import os
import re

HERE = os.path.dirname(os.path.realpath(__file__))
WORD = re.compile(r"[^\s(){}\[\];,.«»\"]+")
SOURCE_TEXT = re.compile(r'//[^\n]*|b?"(?:[^"\\\n]|\\.)*"')
PROOF_TEXT = re.compile(r'(?:(?<=\s)|^)--[^\n]*|"[^"\n]*"', re.M)


def respelled(text, aside, names):
    """The text with the names replaced outside of what `aside` matches."""
    parts, at = [], 0
    swap = lambda piece: WORD.sub(lambda m: names.get(m.group(0), m.group(0)), piece)
    for m in aside.finditer(text):
        parts += [swap(text[at:m.start()]), m.group(0)]
        at = m.end()
    return "".join(parts) + swap(text[at:])


def main():
    with open(os.path.join(HERE, "respellings.txt"), encoding="utf-8") as f:
        names = dict(line.split() for line in f if line.strip())
    for folder, dirs, files in os.walk("crates"):
        dirs[:] = [d for d in dirs if d != "out"]
        for name in files:
            aside = SOURCE_TEXT if name.endswith(".rt") else PROOF_TEXT if name.endswith(".antt") else None
            if aside is None:
                continue
            path = os.path.join(folder, name)
            with open(path, encoding="utf-8") as f:
                before = f.read()
            after = respelled(before, aside, names)
            if after != before:
                with open(path, "w", encoding="utf-8") as f:
                    f.write(after)


if __name__ == "__main__":
    main()
