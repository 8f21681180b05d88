#!/usr/bin/env python3
"""Spells this repository's own names as today's Rattle does: definitions, fields, constructors and lemmas in snake
case, facts that are types in camel case. Run once at the top, after the kit's port.py. Functions of src/, strings,
comments, inputs and outputs keep their words; names that Rattle makes (goals, steps, invariants) are left alone.
It stops, and writes nothing, where two names would fall together."""

import re
import sys
from pathlib import Path

NAME = r"[A-Za-z_ℕ][\w'ℕ]*(?:-[\w'ℕ]+)+"
DECLARED = re.compile(
    rf"^\s*(?:(?:abbrev|unfoldable)\s+)?(?:pub\s+)?({NAME})\s*:(?!\s*goal\.)", re.M
)
# a name, and not a part of a longer one, a number or a path of generated parts
USED = re.compile(rf"(?<![\w'ℕ◌-])({NAME})(?![\w'ℕ◌-])")
GENERATED = re.compile(r"^(invariant|decreases|returns|loop|overflow|bounds|prove)-")


def new_name(name):
    parts = name.split("-")
    if name[0].isupper():
        return "".join(p[0].upper() + p[1:] for p in parts)
    return "_".join(parts)


def without_comments(text, mark):
    return re.sub(rf"{mark}.*", "", text)


def respell(text, names, mark):
    """The text with the names turned, outside comments and, in .rt files, outside strings."""
    lines = []
    for line in text.split("\n"):
        code, sep, comment = line.partition(mark)
        pieces = re.split(r'("(?:[^"\\]|\\.)*")', code) if mark == "//" else [code]
        for i in range(0, len(pieces), 2):
            pieces[i] = USED.sub(lambda m: names.get(m[1], m[1]), pieces[i])
        lines.append("".join(pieces) + sep + comment)
    return "\n".join(lines)


def main():
    crates = Path("crates")
    antt = sorted(p for p in crates.glob("*/*/**/*.antt") if "out" not in p.parts)
    source = sorted(p for p in crates.glob("*/src/**/*.rt"))
    declared = set()
    for path in antt:
        declared |= set(DECLARED.findall(without_comments(path.read_text(), "--")))
    names = {n: new_name(n) for n in declared if not GENERATED.match(n)}
    known = set()
    for path in antt:
        known |= set(re.findall(r"[A-Za-z_ℕ][\w'ℕ]*(?:-[\w'ℕ]+)*", without_comments(path.read_text(), "--")))
    together = sorted(n for n, m in names.items() if list(names.values()).count(m) > 1)
    together += sorted(n for n, m in names.items() if m in known and not keeps_apart(m, source))
    if together:
        print("these names would fall together with others: " + ", ".join(together))
        return 1
    for path, mark in [(p, "--") for p in antt] + [(p, "//") for p in source]:
        old = path.read_text()
        new = respell(old, names, mark)
        if new != old:
            path.write_text(new)
    print(f"{len(names)} names")
    return 0


def keeps_apart(name, source):
    """A name that antt files have only as a folder of the proofs of a function: no definition is called so."""
    return any(re.search(rf"\bfn {name}\b", p.read_text()) for p in source)


if __name__ == "__main__":
    sys.exit(main())
