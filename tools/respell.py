#!/usr/bin/env python3
"""Gives the definitions and lemmas of this repository the spelling of today's Rattle, after port.py: words in snake case.

usage: tools/respell.py            at the top of the repository, once

tools/respell.tsv has a row for each name: the older spelling, a tab, today's. In .antt files each word of the code turns, and in a
comment each word in backquotes or asterisks. In .rt files the clauses and the `ghost use` items turn, and in comments the names
with capitals. Functions of src/, strings, inputs and outputs keep their names.
"""

import os
import re

HERE = os.path.dirname(os.path.realpath(__file__))
WORD = re.compile(r'[^\s(){}.;,@"«»\[\]|`*]+')
QUOTED = re.compile(r"(`[^`\n]*`|\*[^*\n]*\*)")
CLAUSE = re.compile(r"^ *(?:requires|ensures|ghost) .*$", re.M)
CAMEL = re.compile(r"\b[a-z]+[a-z0-9]*(?:[A-Z][A-Za-z0-9]*)+\b")


def table():
    with open(os.path.join(HERE, "respell.tsv"), encoding="utf-8") as f:
        return dict(line.rstrip("\n").split("\t") for line in f)


def in_antt(text, names):
    def words(t):
        return WORD.sub(lambda m: names.get(m.group(), m.group()), t)

    def comment(t):
        t = QUOTED.sub(lambda m: words(m.group()), t)
        return CAMEL.sub(lambda m: names.get(m.group(), m.group()), t)

    out = []
    for line in text.split("\n"):
        at = re.search(r"(?:^|(?<=[\s(){}]))--(?=\s|-)", line)
        out.append(line if not line else words(line[: at.start()]) + comment(line[at.start() :]) if at else words(line))
    return "\n".join(out)


def in_rt(text, names):
    def clause(m):
        return WORD.sub(lambda w: names.get(w.group(), w.group()) if "-" in w.group() else w.group(), m.group())

    text = CLAUSE.sub(clause, text)
    return CAMEL.sub(lambda m: names.get(m.group(), m.group()), text)


def files():
    for folder, dirs, names in os.walk("crates"):
        dirs[:] = [d for d in dirs if d != "out"]
        for name in sorted(names):
            if name.endswith((".antt", ".rt")):
                yield os.path.join(folder, name)


def main():
    names = table()
    texts = {}
    for path in files():
        with open(path, encoding="utf-8") as f:
            texts[path] = f.read()
    # a name may be another's older spelling, so a second run would turn it again
    if not any(names.get(word) for text in texts.values() for word in CAMEL.findall(text)):
        raise SystemExit("no name has an older spelling: nothing to do")
    for path, text in texts.items():
        new = in_antt(text, names) if path.endswith(".antt") else in_rt(text, names)
        if new != text:
            with open(path, "w", encoding="utf-8") as f:
                f.write(new)


main()
