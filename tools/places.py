#!/usr/bin/env python3
"""Counts the places of src/ that may be written in a plainer form, point by point, as docs/DESIGN-PASS.md lists them.

usage: tools/places.py [--list] [FOLDER]     over FOLDER/crates (here by default); with --list it prints each place too

It goes by text, so that a count is a number of places to read, and not of faults.
"""

import collections
import pathlib
import re
import sys

FUNCTION = re.compile(r"^(?P<indent> *)(?:pub(?:\(crate\))? )?(?:extern \"C\" )?fn (?P<name>\w+)", re.M)
CLAUSE = re.compile(r"^\s+requires (?:\w+ )?\{ (.*) \}$", re.M)
KEYWORDS = {"match", "if", "else", "for", "in", "while", "let", "mut", "return", "as", "true", "false", "self", "Some", "None", "Ok", "Err"}


def sources(root):
    return sorted(pathlib.Path(root, "crates").glob("*/src/**/*.rt"))


def close(text, at, opening, closing):
    depth = 0
    for i in range(at, len(text)):
        if text[i] == opening:
            depth += 1
        elif text[i] == closing:
            depth -= 1
            if depth == 0:
                return i
    return len(text)


class Function:
    def __init__(self, path, text, found):
        self.path = path
        self.name = found["name"]
        self.line = text.count("\n", 0, found.start()) + 1
        opening = text.index("(", found.end())
        closing = close(text, opening, "(", ")")
        self.params = re.findall(r"(\w+): ", text[opening:closing])
        self.typed = [p.strip() for p in re.split(r",(?![^<\[(]*[>\])])", text[opening + 1:closing]) if ":" in p]
        ending = re.compile(r"^" + found["indent"] + r"\}|^[^\n]*;$|\{\}$", re.M)
        stop = ending.search(text, closing)
        whole = text[closing:stop.end() if stop else len(text)]
        start = re.search(r"^" + found["indent"] + r"\{", whole, re.M)
        self.contract = whole[:start.start()] if start else whole
        self.body = whole[start.start():] if start else ""

    def place(self):
        return f"{self.path}:{self.line}: {self.name}"

    def shape(self):
        body = re.sub(r"//.*", "", self.body)
        body = re.sub(r'b?"[^"]*"', '"', body)
        words = re.findall(r"\w+|[^\w\s]", body)
        return " ".join(w if w in KEYWORDS else "0" if w[0].isdigit() else "a" if w[0].islower() or w[0] == "_" else "A" if w[0].isupper() else w for w in words)


def functions(root):
    for path in sources(root):
        text = path.read_text()
        for found in FUNCTION.finditer(text):
            yield Function(path.relative_to(root), text, found)


def lines(root, *patterns):
    wanted = [re.compile(p) for p in patterns]
    for path in sources(root):
        for number, line in enumerate(path.read_text().split("\n"), 1):
            if line.lstrip().startswith(("//", "ghost use")):
                continue
            if any(p.search(line) for p in wanted):
                yield f"{path.relative_to(root)}:{number}: {line.strip()}"


def option_shapes(root):
    for path in sources(root):
        text = path.read_text()
        for found in re.finditer(r"^(?:pub )?enum (\w+)(?:<[^>]*>)? \{\n(.*?)^\}", text, re.M | re.S):
            variants = re.findall(r"^    (\w+)(.*)$", found[2], re.M)
            shape = len(variants) == 2 and any(v[1].startswith(("(", " {")) for v in variants)
            if shape or "(Refusal)" in found[2] or "(Fault)" in found[2]:
                yield f"{path.relative_to(root)}: enum {found[1]}"
        for found in re.finditer(r"^(?:pub )?struct (\w+)(?:<[^>]*>)? \{\n(.*?)^\}", text, re.M | re.S):
            if re.search(r": (bool|Result<|Option<)", found[2]):
                yield f"{path.relative_to(root)}: struct {found[1]}"


def numbers_for_kinds(root):
    for place in lines(root, r"^(?:pub(?:\(crate\))? )?const (?!MOST_|ROWS)[A-Z_]+: (?:u8|u32|usize) = \d{1,2};$"):
        if "/main.rt:" not in place:
            yield place
    yield from lines(root, r"^\s*\d+ => ", r"=> \(\d+, ", r"\b(?:kind|KIND)\b.*(?:==|!=|<|>) ?\w+", r"=> refusal\.number\(\)|=> 0,$|refusal: 0")


def twins(root):
    groups = collections.defaultdict(list)
    for f in functions(root):
        shape = f.shape()
        if len(shape.split()) > 8:
            groups[shape].append(f)
    for group in groups.values():
        if len(group) > 1:
            for f in group[1:]:
                yield f"{f.place()} (as {group[0].name})"


def loops(root):
    yield from lines(root, r"\bwhile\b", r"\bfor \w+ in [^{]*\.\.", r"\.enumerate\(\)")


def by_hand(root):
    yield from lines(root, r"=> (?:true|false),$", r"None => (?:\d+|false|\w+::\w+\(\w+\)),$", r"^\s*fn of_\w+|pub fn of_\w+|fn (?:encoded|decoded|report_of)\b", r"\b(?:b|\*b|text\[at\]) (?:==|>=|<=) \d+|put_byte\(.*, (?:32|10)\)|48 \+", r"REFUSED \{number\}")


def repeated_facts(root):
    facts = collections.defaultdict(list)
    for f in functions(root):
        crate = f.path.parts[1]
        for text in set(CLAUSE.findall(f.contract)):
            facts[crate, re.sub(r"\b(?:self|\w+)\.(?:old|now)\b", "it", text)].append(f)
    for (crate, text), found in sorted(facts.items(), key=lambda item: -len(item[1])):
        if len(found) >= 3:
            yield f"{crate}: {len(found)} contracts: {text}"


def travelling(root):
    pairs = collections.defaultdict(set)
    for f in functions(root):
        names = [p for p in f.params if p not in ("rt",)]
        for i, a in enumerate(names):
            for b in names[i + 1:]:
                pairs[f.path.parts[1], a, b].add(f.name)
    for (crate, a, b), found in sorted(pairs.items(), key=lambda item: -len(item[1])):
        if len(found) >= 4:
            yield f"{crate}: {len(found)} functions: {a}, {b}"


def buffers(root):
    for f in functions(root):
        if any(re.search(r": &mut \[", p) for p in f.typed):
            yield f.place()


def switches(root):
    for f in functions(root):
        if any(re.search(r": bool$", p) for p in f.typed):
            yield f.place()
    yield from lines(root, r"\bfor \w+ in \[")


def answers(root):
    for crate in sorted(p for p in pathlib.Path(root, "crates").iterdir() if p.is_dir()):
        total = sum(len(p.read_text().split("\n")) for p in crate.glob("proofs/**/Answers.antt"))
        if total:
            yield f"{crate.name}: {total} lines"


POINTS = [
    ("1 shapes of Option or Result, a flag beside a value", option_shapes),
    ("1 numbers for kinds and refusals", numbers_for_kinds),
    ("2 functions of the same shape", twins),
    ("3 loops over numbers", loops),
    ("4 tests, defaults, conversions and bytes by hand", by_hand),
    ("5 facts in three contracts or more", repeated_facts),
    ("5 parameters together in four functions or more", travelling),
    ("6 functions that are lent a slice to write", buffers),
    ("7 switches", switches),
    ("8 crates with answers", answers),
]


def main(args):
    listed = "--list" in args
    folders = [a for a in args if not a.startswith("--")]
    root = pathlib.Path(folders[0] if folders else pathlib.Path(__file__).parent.parent)
    for title, search in POINTS:
        found = list(search(root))
        print(f"{title}: {len(found)}")
        if listed:
            for place in found:
                print(f"    {place}")


main(sys.argv[1:])
