#!/usr/bin/env python3
"""Respells this repository's own definitions and lemmas: words in snake case, types and facts in camel case.

usage: tools/respell.py [--list] [FOLDER]     over FOLDER/crates (here by default); with --list it only prints the names that change

A name is one that a file of specs/ or proofs/ declares. Goals keep the names that Rattle gives them, and functions of src/, labels,
strings, inputs and outputs keep theirs. It changes nothing a second time.
"""

import os
import re
import sys

IDENT = re.compile(r"[^\s(){};,.\"«»\[\]`]+")
SIGNATURE = re.compile(r"^\s*(?:abbrev |unfoldable |pub )*([^\s(){};,.\"«»\[\]]+) : ?(.*)$")
RECORD = re.compile(r"^\s*(?:pub )?(?:record|data) ([^\s(){};,.\"]+)")
BINDER = re.compile(r"[({]((?:[^\s(){};,.\"«»\[\]:]+ )+): ")
LET = re.compile(r"(?<![^\s(])let ([^\s(){};,.\"«»\[\]]+) (?::|=)")
# Roots of paths whose next word is a name that Rattle makes.
MADE = {"c", "w", "l", "g", "goal", "goals", "given", "need"}


def files(root):
    for folder, dirs, names in os.walk(os.path.join(root, "crates")):
        dirs[:] = sorted(d for d in dirs if d != "out")
        for name in sorted(names):
            if name.endswith((".antt", ".rt")):
                yield os.path.join(folder, name)


def read(path):
    with open(path, encoding="utf-8") as f:
        return f.read()


def code(line):
    """The line without its comment."""
    if line.lstrip().startswith("--"):
        return ""
    return line.split(" -- ")[0]


def respelled(name):
    parts = name.removesuffix("-++").split("-") + (["append"] if name.endswith("-++") else [])
    if name[0].isupper():
        return "".join(p[:1].upper() + p[1:] for p in parts)
    return "_".join(parts)


def declared(root):
    """The names with a dash that files of specs/ and proofs/ declare."""
    names = set()
    for path in files(root):
        if not path.endswith(".antt"):
            continue
        for line in map(code, read(path).splitlines()):
            m = SIGNATURE.match(line)
            if m and not re.match(r"(goal|goals|given|need)\.", m.group(2)):
                names.add(m.group(1))
            m = RECORD.match(line)
            if m:
                names.add(m.group(1))
            names.update(LET.findall(line))
            for bound in BINDER.findall(line):
                names.update(bound.split())
    return {n for n in names if re.search(r"[^-]-[^-]|-\+\+", n)}


def turned(line, spelling):
    out, at = [], 0
    for m in IDENT.finditer(line):
        word = m.group()
        if word in spelling:
            before = line[: m.start()]
            root = re.search(r"([^\s(){};,.\"«»\[\]]+)\.$", before)
            if not (root and root.group(1) in MADE and not before[: root.start()].endswith(".")):
                out += [line[at : m.start()], spelling[word]]
                at = m.end()
    return "".join(out) + line[at:]


def main(argv):
    only_list = "--list" in argv
    rest = [a for a in argv if a != "--list"]
    root = rest[0] if rest else "."
    spelling = {n: respelled(n) for n in declared(root)}
    if only_list:
        for n in sorted(spelling):
            print(n, spelling[n])
        return
    changed = 0
    for path in files(root):
        text = read(path)
        lines = text.split("\n")
        new = "\n".join(turned(l, spelling) for l in lines)
        if new != text:
            with open(path, "w", encoding="utf-8") as f:
                f.write(new)
            changed += 1
    print(f"respell: {len(spelling)} names, {changed} files")


if __name__ == "__main__":
    main(sys.argv[1:])
