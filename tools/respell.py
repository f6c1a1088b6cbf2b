#!/usr/bin/env python3
"""Brings this repository's own definitions, lemmas and record fields to today's spelling: tools/respell.tsv, a line for each name, old and new.

usage: tools/respell.py [ROOT]     once, after /opt/rattle/port/port.py

A name stands for itself between the characters that no name of antt has. It is changed in proofs, specs, must-fail edits and the clauses of sources (no
name of a source's code is in the table), and in pages between backquotes.
"""
import os
import re
import sys

HERE = os.path.dirname(os.path.realpath(__file__))
NAME = re.compile(r"[^\s(){}\[\].,;:λ→≡∷⊎×↔|∙=<>≤+*/%^&!\"`]+")


def table():
    with open(os.path.join(HERE, "respell.tsv"), encoding="utf-8") as f:
        return dict(line.rstrip("\n").split("\t") for line in f)


def respelled(text, names):
    return NAME.sub(lambda m: names.get(m.group(0), m.group(0)), text)


def main():
    root = sys.argv[1] if len(sys.argv) > 1 else os.path.dirname(HERE)
    names = table()
    for folder, dirs, files in os.walk(root):
        dirs[:] = sorted(d for d in dirs if d not in ("out", "target", ".git"))
        for name in sorted(files):
            path = os.path.join(folder, name)
            inside = os.path.relpath(path, root)
            if name.endswith((".antt", ".rt", ".edit")) and inside.startswith("crates"):
                change = lambda text: respelled(text, names)
            elif name.endswith(".md") and not inside.startswith(os.path.join("docs", "PORT")):
                change = lambda text: re.sub(r"`[^`\n]*`", lambda m: respelled(m.group(0), names), text)
            else:
                continue
            with open(path, encoding="utf-8") as f:
                old = f.read()
            new = change(old)
            if new != old:
                with open(path, "w", encoding="utf-8") as f:
                    f.write(new)


main()
