#!/usr/bin/env python3
"""Brings this repository's own names in specs/ and proofs/ to the spelling of the installed kit: words in snake case, facts and types in camel case, a
dash only between the names of two definitions. The table beside it, respell.tsv, has a line for each name, old and new.

    tools/respell.py [FOLDER]      rewrites crates/ below FOLDER (or here), and the edits of tools/planted/; run once, on the older spelling

It changes contracts, definitions, proofs and must-fail edits. Comments, texts in quotes, code, and the names that the checker makes stay as they are.
"""
import glob
import os
import re
import sys

HERE = os.path.dirname(os.path.abspath(__file__))
TABLE = dict(line.rstrip("\n").split("\t") for line in open(os.path.join(HERE, "respell.tsv"), encoding="utf-8"))
WORD = re.compile(r"[A-Za-z][\w'-]*")
# What is left alone: comments, texts, and in a path the part that names the code (proofs.NAME of a function).
ASIDE = re.compile(r'//[^\n]*|"(?:[^"\\\n]|\\.)*"', re.S)
ASIDE_ANTT = re.compile(r'--(?=[ \n-])[^\n]*|"(?:[^"\\\n]|\\.)*"', re.S)


def respelled(text):
    return WORD.sub(lambda m: TABLE.get(m.group(0), m.group(0)), text)


def turned(text, aside):
    out, at = [], 0
    for m in aside.finditer(text):
        out.append(respelled(text[at:m.start()]))
        out.append(m.group(0))
        at = m.end()
    return "".join(out) + respelled(text[at:])


def main():
    root = sys.argv[1] if len(sys.argv) > 1 else os.path.dirname(HERE)
    kinds = {"crates/*/src/**/*.rt": ASIDE, "crates/*/specs/**/*.antt": ASIDE_ANTT, "crates/*/proofs/**/*.antt": ASIDE_ANTT, "crates/*/must-fail/*.edit": ASIDE, "tools/planted/*.edits": ASIDE}
    for kind, aside in kinds.items():
        for path in sorted(glob.glob(os.path.join(root, kind), recursive=True)):
            text = open(path, encoding="utf-8").read()
            new = turned(text, aside)
            if new != text:
                open(path, "w", encoding="utf-8").write(new)


main()
