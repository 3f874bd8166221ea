#!/usr/bin/env python3
"""Respells the definitions, fields, constructors and lemmas of crates/*/specs and crates/*/proofs in snake case.

usage: python3 tools/respell.py [--list]      at the top of the repository

Run once, on the files as the kit's port.py leaves them. A name with a dash that this repository gives (and that is no
goal's name) gets underscores for its dashes, in every .antt file and in the clauses of every .rt file; text between
double quotes stays. With --list it only prints the names, and those that would fall together with another name.
What port.py imports of std under another name, as `AllByRecursion as All`, gets its own name.
"""

import os
import re
import sys

IDENT = r"[^\s(){}.;,:«»\"λ\[\]|→×⊎≡≤<∷]+"
WORDS = r"(?:(?:abbrev|unfoldable|pub|mutual)\s+)*"
GIVEN = re.compile(r"^\s*" + WORDS + "(" + IDENT + r")(?:\s+[^:\n]*)?\s:\s", re.M)
GOAL = re.compile(r"goal\.(" + IDENT + ")")
TOKEN = re.compile(r"\"(?:[^\"\\\n]|\\.)*\"|" + IDENT)
MADE = ("invariant-", "decreases-")
ALIASES = {"All": "AllByRecursion", "Has": "ContainsAt"}


def texts(ending):
    for folder, dirs, files in os.walk("crates"):
        dirs[:] = sorted(d for d in dirs if d != "out")
        for name in sorted(files):
            if name.endswith(ending):
                path = os.path.join(folder, name)
                with open(path, encoding="utf-8") as f:
                    yield path, f.read()


def given():
    names, goals, others = set(), set(), set()
    for path, text in texts(".antt"):
        goals |= set(GOAL.findall(text))
        for name in GIVEN.findall(text):
            (names if "-" in name else others).add(name)
    for path, text in texts(".rt"):
        others |= set(re.findall(r"\b(?:fn|let|mut|mod|const|struct|enum)\s+(\w+)", text))
        others |= set(re.findall(r"\b(\w+)\s*:\s*[&A-Z\[u]", text))
    names = {n for n in names if n not in goals and not n.startswith(MADE)}
    return names, others


def main():
    names, others = given()
    turned = {n: n.replace("-", "_") for n in names}
    if sys.argv[1:] == ["--list"]:
        for n in sorted(names):
            print(n, "FALLS TOGETHER" if turned[n] in others else "")
        return
    for ending in (".antt", ".rt"):
        for path, text in list(texts(ending)):
            new = TOKEN.sub(lambda m: turned.get(m.group(0), m.group(0)), text)
            for short, long in ALIASES.items():
                if f"{long} as {short}" in new:
                    new = new.replace(f"{long} as {short}", long)
                    new = TOKEN.sub(lambda m: long if m.group(0) == short else m.group(0), new)
            if new != text:
                with open(path, "w", encoding="utf-8") as f:
                    f.write(new)


main()
