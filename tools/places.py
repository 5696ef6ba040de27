#!/usr/bin/env python3
"""Counts the places in crates/*/src that docs/DESIGN-PASS.md speaks of, point by point, in a commit or in the tree as it stands.

    tools/places.py [COMMIT]         the counts
    tools/places.py [COMMIT] -v      and each place

A place is found by its form alone, so a count is of what may be written otherwise, not of what has to be.
"""
import collections
import pathlib
import re
import subprocess
import sys

arguments = [a for a in sys.argv[1:] if a != "-v"]
verbose = "-v" in sys.argv[1:]
top = pathlib.Path(__file__).resolve().parent.parent


def git(*words):
    return subprocess.run(["git", *words], cwd=top, capture_output=True, text=True, check=True).stdout


def files():
    if arguments:
        return git("ls-tree", "-r", "--name-only", arguments[0], "crates").split()
    return git("ls-files", "crates").split()


def sources():
    """Each source file by its name, without comments."""
    for name in files():
        if re.fullmatch(r"crates/\w+/src/.*\.rt", name):
            text = git("show", f"{arguments[0]}:{name}") if arguments else (top / name).read_text()
            yield name, re.sub(r"//.*", "", text)


FUNCTION = re.compile(r"^( *)(?:pub )?(?:extern \"C\" )?fn (\w+)(.*?)^\1\}", re.M | re.S)


def functions(text):
    """Name, parameters, clauses and body of each function."""
    for m in FUNCTION.finditer(text):
        head, _, body = m[3].partition("\n" + m[1] + "{\n")
        yield m[2], head, body, m[0]


LINES = {
    1: [
        # a flag, or the number of a refusal, beside a value; a number that stands for none; the number of a refusal given back
        r"^ +(?:pub )?(?:no|more|whole|good|ended|over|bit): (?:usize|bool|u16),",
        r"(?:==|!=|<=) Limits::\w+ \{|Limits::\w+ <= \w+ \{|return Limits::\w+;|^ +Limits::\w+$",
        r"\.no != 0|\bno != 0|return \d+;|(?:refused|stopped|telling)\(\d+",
        r"\b(?:code|side|kind|category|back|which): usize|-> usize .*\b0 where",
    ],
    3: [r"\bwhile "],
    4: [r"\bas (?:u8|u16|u32|u64|usize)\b", r"wrapping_\w+_u\d"],
    6: [r"\[0(?:u8|u16)?; ", r"&mut \[u8\], (?:n|at|from): usize"],
    7: [r"is_equal\(call, b\"|begins\(line, b\"", r"^ +match (?:which|code|i) \{", r"if (?:code|which) (?:==|<) "],
}


def normal(body):
    """A body less its names and numbers: alike in twins."""
    tokens = re.findall(r"[A-Za-z_][\w:]*|\d\w*|\S", re.sub(r"b?\"[^\"]*\"", "9", body))
    return " ".join("x" if re.match(r"[A-Za-z_]", t) and t not in ("if", "while", "for", "return", "let", "mut") else "0" if t[0].isdigit() else t for t in tokens)


places = collections.defaultdict(list)
twins = collections.defaultdict(list)
facts = collections.defaultdict(list)
together = collections.defaultdict(list)
for name, text in sources():
    for number, line in enumerate(text.split("\n"), 1):
        if line.startswith("ghost use"):
            continue
        for point, forms in LINES.items():
            if any(re.search(form, line) for form in forms):
                places[point].append(f"{name}:{number}: {line.strip()}")
    for function, head, body, whole in functions(text):
        where = f"{name}: {function}"
        if len(normal(body).split()) >= 24:
            twins[normal(body)].append(where)
        if re.search(r"-> bool", head) and re.match(r"(?:is_)?(?:equal|same\w*|\w*before|above|\w*_above|lesser|lower|either)$", function):
            places[4].append(f"{where}: an order, an equality or a choice by hand")
        for clause in re.findall(r"requires (?:\w+ )?\{(.*?)\}", head, re.S):
            for fact in re.split(r" × ", clause):
                fact = fact.strip().strip("()").strip()
                if fact:
                    facts[fact].append(where)
        parameters = re.findall(r"(\w+): (?:usize|u16|&\[u16\]|&mut \[u16\])", head)
        for i in range(len(parameters) - 1):
            for j in range(i + 2, len(parameters) + 1):
                together[tuple(parameters[i:j])].append(where)

for body, names in twins.items():
    if len(names) > 1:
        places[2].append(", ".join(names))
for fact, names in facts.items():
    if len(set(names)) >= 3:
        places[5].append(f"{len(set(names))} functions: {fact}")
longest = {}
for group, names in together.items():
    if len(set(names)) >= 3 and not any(set(group) < set(g) and len(set(n)) >= len(set(names)) for g, n in together.items()):
        places[5].append(f"{len(set(names))} functions take together: {', '.join(group)}")
proofs = sum(name.endswith("/Proof.antt") for name in files())

TITLES = {
    1: "flags, sentinels and numbers for kinds or refusals (lines)",
    2: "twins (groups of functions with one body but for names and numbers)",
    3: "loops by `while` (lines)",
    4: "conversions, equalities and orders by hand (lines)",
    5: "facts in the contracts of three or more functions, and parameters that go together",
    6: "buffers with a length beside (lines)",
    7: "switches on a step (lines)",
    8: "proofs in the form of a whole, with every goal answered (files)",
}
places[8] = ["Proof.antt"] * proofs
for point, title in TITLES.items():
    print(f"{point}. {title}: {len(places[point])}")
    if verbose and point != 8:
        for place in places[point]:
            print("    " + place)
