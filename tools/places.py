#!/usr/bin/env python3
"""Counts, in crates/*/src, the places that each point of docs/DESIGN-PASS.md is about.

With a word, as `python3 tools/places.py loops`, it lists the places of that kind.
"""
import collections
import pathlib
import re
import sys

ROOT = pathlib.Path(__file__).resolve().parent.parent / "crates"


def files():
    for path in sorted(ROOT.glob("*/src/**/*.rt")):
        yield path.relative_to(ROOT), path.read_text()


def lines():
    for name, text in files():
        for number, line in enumerate(text.split("\n"), 1):
            code = line.split("//")[0]
            if not re.match(r"\s*(requires|ensures|ghost)\b", code):
                yield f"{name}:{number}", code


def grep(pattern):
    return [f"{at}: {code.strip()}" for at, code in lines() if re.search(pattern, code)]


def functions():
    """Each function: where it stands, its head, its clauses, its body."""
    for name, text in files():
        for m in re.finditer(r"^( *)(?:pub(?:\([a-z]+\))? )?(?:const )?fn (\w+)", text, re.M):
            head, body = [], None
            for line in text[m.start():].split("\n"):
                if body is not None:
                    if line == m[1] + "}":
                        break
                    body.append(line)
                elif line.endswith("{}"):
                    head.append(line)
                    break
                elif line.endswith("{"):
                    head.append(line)
                    body = []
                else:
                    head.append(line)
                    if line.endswith(";"):
                        break
            head, rest = "\n".join(head), "\n".join(body or [])
            number = text.count("\n", 0, m.start()) + 1
            clauses = re.findall(r"^\s*(?:requires|ensures)\b[^{]*(\{.*\})\s*;?$", head, re.M)
            yield f"{name}:{number}", m[2], re.split(r"\b(?:requires|ensures)\b", head)[0].rstrip(" {\n;"), clauses, rest


def twins():
    """Pairs of functions whose bodies differ in two words at most, once names of types, numbers and texts are blanked."""
    bodies = []
    for at, name, head, _, body in functions():
        blank = re.sub(r'b?"[^"]*"', '"', body)
        blank = re.sub(r"\b[A-Z]\w*\b", "T", blank)
        blank = re.sub(r"\b\d[\d_]*\b", "0", blank)
        tokens = re.findall(r"\w+|[^\w\s]", blank)
        if len(tokens) >= 6:
            bodies.append((f"{at}: {name}", tokens))
    found = []
    for i, (one, these) in enumerate(bodies):
        for other, those in bodies[i + 1:]:
            if len(these) == len(those) and sum(a != b for a, b in zip(these, those)) <= min(2, len(these) // 8):
                found.append(f"{one}, {other}")
    return found


def long_heads():
    found = []
    for at, name, head, _, _ in functions():
        count = len(re.findall(r"(?<!:):(?!:)", head)) + len(re.findall(r"&?(?:mut )?self\b", head))
        if count >= 6:
            found.append(f"{at}: {name}, {count} parameters")
    return found


def repeated_clauses():
    """Facts that stand in the clauses of three or more functions: the whole clause, with the names of values blanked."""
    groups = collections.defaultdict(list)
    for at, name, _, clauses, _ in functions():
        for clause in set(clauses):
            groups[re.sub(r"\s+", " ", clause)].append(f"{at}: {name}")
    return [f"{len(g)} times {c[:120]}" for c, g in groups.items() if len(g) > 2]


KINDS = {
    "enums": lambda: grep(r"\benum \w+"),
    "flags": lambda: [f"{at}: {name}" for at, name, head, _, _ in functions() if "&mut" in head and head.rstrip().endswith("-> bool")],
    "numbers": lambda: grep(r"^\s*[\w:]+(?:\([^)]*\))? => \d+,"),
    "twins": twins,
    "loops": lambda: grep(r"\bfor \w+ in [^{]*\.\.|\bwhile\b|\bloop\b"),
    "by-hand": lambda: grep(r"\bimpl\b.*\b(?:Display|Debug|PartialEq|PartialOrd|Ord|Clone|Copy|From|TryFrom|FromStr)\b.*\bfor\b|-> &'static str|\b(\w+)\.(\w+) == \w+\.\2\b|^\s*Some\((\w+)\) => Some\(|^\s*None => None,"),
    "long-heads": long_heads,
    "repeated-clauses": repeated_clauses,
    "buffers": lambda: grep(r"^\s*(?:pub )?\w+: (?:\[[^\]]*; \w+\]|Fixed<|Vec<|&'?\w* ?\[)"),
    "steps": lambda: grep(r"\bmatch \*?(?:self\.(?:mode|phase|kind)|step|level\.phase|query\.kind|kind|tables\.class_kind|action)\b|\bfn\(|\bdyn\b"),
}


def main():
    if len(sys.argv) > 1:
        for kind in sys.argv[1:]:
            print("\n".join(KINDS[kind]()))
        return
    for kind, find in KINDS.items():
        print(f"{kind}: {len(find())}")


if __name__ == "__main__":
    main()
