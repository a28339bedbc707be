#!/usr/bin/env python3
"""Gives the repository's own definitions and lemmas the spelling of the newer toolchain.

usage: python3 tools/respell.py [FOLDER]     at the top of a checkout, after port.py; run once

respell.tsv, beside this file, has each old name with its new one: what states a fact or is a type in camel case,
every other word in snake case. A name is turned wherever it stands as a whole word in specs/, proofs/ and src/ but
for comments and strings, in must-fail edits, and between backquotes in README.md and docs/.
"""

import re
import sys
from pathlib import Path

HERE = Path(__file__).resolve().parent
NAMES = dict(line.split("\t") for line in (HERE / "respell.tsv").read_text().splitlines())
WORD = re.compile(r"(?<![\w'-])[A-Za-z][\w'-]*-[\w'-]*")


def respelled(text):
    return WORD.sub(lambda m: NAMES.get(m.group(0), m.group(0)), text)


def code(text, apart):
    """The text with its names turned, but for the parts that `apart` finds."""
    out, at = [], 0
    for m in apart.finditer(text):
        out += [respelled(text[at : m.start()]), m.group(0)]
        at = m.end()
    return "".join(out) + respelled(text[at:])


def page(text):
    return re.sub(r"`[^`\n]*`", lambda m: respelled(m.group(0)), text)


ANTT = re.compile(r"(?m)(?:^|(?<=\s))--.*$")
RT = re.compile(r'(?m)//.*$|"(?:[^"\\\n]|\\.)*"')


def main(root):
    crates = root / "crates"
    turns = [
        (crates.glob("*/specs/**/*.antt"), lambda t: code(t, ANTT)),
        (crates.glob("*/proofs/**/*.antt"), lambda t: code(t, ANTT)),
        (crates.glob("*/src/**/*.rt"), lambda t: code(t, RT)),
        (crates.glob("*/must-fail/*.edit"), respelled),
        ([root / "README.md", *root.glob("docs/*.md")], page),
    ]
    for paths, turn in turns:
        for path in sorted(paths):
            old = path.read_text()
            new = turn(old)
            if new != old:
                path.write_text(new)


main(Path(sys.argv[1] if len(sys.argv) > 1 else "."))
