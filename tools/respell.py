#!/usr/bin/env python3
"""Brings the repository's own definitions and lemmas to today's spelling, by the table tools/names.tsv (old name, tab, new name).

usage: python3 tools/respell.py [ROOT]     once, after port.py: crates/ (.antt, .rt, .edit), docs/ and README.md are rewritten in place

A name is a whole word of antt. In prose, that is in a .md file, only what stands in back quotes is respelled. In a .rt file only names
that no Rattle source can have: those with a dash or a capital inside. Generated names in proof files (tie.Need-.., goal.X) are left alone.
"""
import os
import re
import sys

HERE = os.path.dirname(os.path.realpath(__file__))
ROOT = sys.argv[1] if len(sys.argv) > 1 else os.path.dirname(HERE)
TOKEN = re.compile(r"[^\s(){}\[\];,.\"`|]+")


def table():
    with open(os.path.join(HERE, "names.tsv"), encoding="utf-8") as f:
        return dict(line.rstrip("\n").split("\t") for line in f if line.strip())


NAMES = table()
SOURCE = {k: v for k, v in NAMES.items() if "-" in k or "·" in k or re.search("[A-Z]", k)}


def turn(text, names):
    def one(m):
        word = m.group(0)
        tail = ""
        while word and word not in names and word[-1] in ":?!'’":
            word, tail = word[:-1], word[-1] + tail
        return names.get(word, word) + tail

    return TOKEN.sub(one, text)


def prose(text):
    return re.sub(r"`[^`\n]*`", lambda m: turn(m.group(0), SOURCE), text)


def kit(text):
    # aliases of the library's names that are the name itself
    text = re.sub(r"(?<![\w-])([\w'ᴰ-]+) as \1(?![\w'ᴰ-])", r"\1", text)
    return text.replace("Math.Logic.{Iff-symm, Iff-trans}", "Math.Logic.Iff.{symm as Iff-symm, trans as Iff-trans}")


def main():
    for folder, dirs, files in os.walk(os.path.join(ROOT, "crates")):
        dirs[:] = [d for d in dirs if d != "out"]
        for f in files:
            p = os.path.join(folder, f)
            if f.endswith((".antt", ".rt", ".edit")):
                old = open(p, encoding="utf-8").read()
                new = turn(old, NAMES if f.endswith(".antt") else SOURCE)
                if f == "Kit.antt":
                    new = kit(new)
                if new != old:
                    open(p, "w", encoding="utf-8").write(new)
    docs = [os.path.join(ROOT, "README.md")] + [os.path.join(ROOT, "docs", f) for f in os.listdir(os.path.join(ROOT, "docs")) if f.endswith(".md") and not f.startswith("PORT")]
    for p in docs:
        if os.path.exists(p):
            old = open(p, encoding="utf-8").read()
            new = prose(old)
            if new != old:
                open(p, "w", encoding="utf-8").write(new)


main()
