#!/usr/bin/env python3
"""Brings the names of specs/ and proofs/ to the spelling of Rattle: words in snake case, types in camel case.

usage: tools/respell.py          at the top of the repository, once, right behind the kit's port.py
       tools/respell.py --list   says what it would rename, and what would fall together, and writes nothing

A name is the repository's own where a file of specs/ or proofs/ declares or binds it; what a file takes from the library keeps its
spelling there, and so do modules, the names that Rattle makes (in proofs/F/Proof.antt), strings, and text outside of backquotes.
"""
import os
import re
import sys

ROOT = os.path.realpath(os.path.join(os.path.dirname(os.path.realpath(__file__)), ".."))
CRATES = os.path.join(ROOT, "crates")
NAME = r"""[^\s(){}\[\];,.:"`⌜⌝@]+"""
TOKEN = re.compile(NAME)
JOINED = re.compile(r"[A-Za-z0-9_'₀-₉]-[A-Za-z0-9]|^[A-Z][a-z]+_[a-z]")
USE = re.compile(r"^\s*(?:pub )?(?:ghost )?use ([^\s;{]+)\.\{([^}]*)\}", re.M)
# in a Proof.antt, what answers a need of Rattle's is named after it, and so is the proof itself
ANSWER = re.compile(r"^(?:(?:abbrev|pub)\s+)*(" + NAME + r")\s+:\s+(?:tie\.(?:Need-|invariant-|decreases-)|\{M : Type 1\} → statement)", re.M)
# lemmas on the bit of a `bit_and` and of a `bit_or`, which are the library's words
KEPT = {"bit-and", "bit-or"}


def files(*ends):
    for folder, dirs, names in os.walk(CRATES):
        dirs[:] = sorted(d for d in dirs if d != "out")
        for name in sorted(names):
            if name.endswith(ends):
                yield os.path.join(folder, name)


def others():
    yield from files(".edit")
    bent = os.path.join(ROOT, "tests", "bent")
    for name in sorted(os.listdir(bent)):
        yield os.path.join(bent, name)
    yield os.path.join(ROOT, "README.md")
    for folder, _, names in os.walk(os.path.join(ROOT, "docs")):
        for name in sorted(names):
            if name.endswith(".md") and not name.startswith("PORT"):
                yield os.path.join(folder, name)


def read(path):
    with open(path, encoding="utf-8") as f:
        return f.read()


def parts(text, line_comment):
    """The text in turns: code, and what is no code (a string, a comment)."""
    for m in re.finditer(r'"(?:[^"\\\n]|\\.)*"|(?:(?<=\s)|^)' + line_comment + r'[^\n]*|(?:(?!"|(?:(?<=\s)|^)' + line_comment + r').)+', text, re.S | re.M):
        piece = m.group(0)
        yield piece, not (piece.startswith('"') or piece.startswith(line_comment))


def comment_of(path):
    return "--" if path.endswith(".antt") else "//"


def code_of(path, text):
    return "".join(piece if code else " " for piece, code in parts(text, comment_of(path)))


def respelled(name):
    """◌held-by◌ is ◌held_by◌, Well-formed is WellFormed."""
    body = name.strip("◌")
    if body[:1].isupper():
        first, *rest = re.split("[-_]", body)
        new = first + "".join(w[:1].upper() + w[1:] for w in rest)
    else:
        new = body.replace("-", "_")
    return name.replace(body, new)


def library_names(code):
    taken = set()
    for module, names in USE.findall(code):
        if not module.startswith("Rattle.") or module.startswith("Rattle.std."):
            taken |= set(re.split(r"[,\s]+", names))
    return taken


def gather():
    own, library, modules = set(), set(), set()
    for path in files(".antt", ".rt"):
        modules.add(os.path.basename(path).rsplit(".", 1)[0])
    for path in files(".antt"):
        code = code_of(path, read(path))
        taken = library_names(code)
        library |= taken
        proof = os.path.basename(path) == "Proof.antt"
        taken = taken | set(ANSWER.findall(code))
        for m in re.finditer(r"(?:^|[({])\s*((?:(?:abbrev|unfoldable|pub|data|record|let|λ)\s+)*)((?:" + NAME + r"\s+)*?" + NAME + r")(?=[^\n]*?\s:(?:\s|$))", code, re.M):
            for name in m.group(2).split():
                if JOINED.search(name) and name not in taken:
                    own.add(name)
        for m in re.finditer(r"(?:^\s*(?:(?:abbrev|unfoldable|pub|data|record)\s+)*|\blet\s+|λ\s*\(?)(" + NAME + r")", code, re.M):
            name = m.group(1)
            if JOINED.search(name) and name not in taken and not proof:
                own.add(name)
    return own - modules - KEPT, library


def main(argv):
    own, library = gather()
    signed = set()
    for path in files(".antt"):
        if os.path.basename(path) != "Proof.antt":
            code = code_of(path, read(path))
            for m in re.finditer(r"^\s*(?:(?:abbrev|unfoldable|pub|data|record)\s+)*(" + NAME + r")(?:\s+[^\n]*)?\s:(?:\s|$)", code, re.M):
                signed.add(m.group(1))
    names = {n: respelled(n) for n in own if n not in library or n in signed}
    infix = {n.strip("◌"): new.strip("◌") for n, new in names.items() if n.startswith("◌")}
    names |= infix
    if "--list" in argv:
        for n in sorted(names):
            print(n, names[n])
        by_new = {}
        for n, new in names.items():
            by_new.setdefault(new, []).append(n)
        for new, olds in by_new.items():
            if len(olds) > 1:
                print("together:", new, olds)
    clashes = 0
    changed = 0
    for path in files(".antt", ".rt"):
        text = read(path)
        code = code_of(path, text)
        kept = library_names(code) | set(ANSWER.findall(code))
        tokens = set(TOKEN.findall(code))
        mine = {n: new for n, new in names.items() if n in tokens and n not in kept}
        olds = {}
        for n, new in mine.items():
            olds.setdefault(new, set()).add(n)
            if new in tokens:
                olds[new].add(new)
        for new, those in olds.items():
            if len(those) > 1:
                clashes += 1
                print(f"look: {os.path.relpath(path, ROOT)}: {new} for {', '.join(sorted(those))}")
        backquoted = {n: new for n, new in names.items() if n not in kept}

        def in_code(piece):
            return TOKEN.sub(lambda m: mine.get(m.group(0), m.group(0)), piece)

        def in_comment(piece):
            return re.sub(r"`[^`\n]*`", lambda m: TOKEN.sub(lambda t: backquoted.get(t.group(0), t.group(0)), m.group(0)), piece)

        comment = comment_of(path)
        new_text = "".join(in_code(p) if code else (in_comment(p) if p.startswith(comment) else p) for p, code in parts(text, comment))
        if new_text != text:
            changed += 1
            if "--list" not in argv:
                with open(path, "w", encoding="utf-8") as f:
                    f.write(new_text)
    # the edits that must be refused, and the pages
    for path in others():
        text = read(path)
        edit = path.endswith(".edit")

        def line_of(line):
            if edit and re.match(r"(?:old|new): ", line):
                return line[:5] + TOKEN.sub(lambda m: names.get(m.group(0), m.group(0)), line[5:])
            return re.sub(r"`[^`\n]*`", lambda m: TOKEN.sub(lambda w: names.get(w.group(0), w.group(0)), m.group(0)), line)

        new_text = "\n".join(line_of(line) for line in text.split("\n"))
        if new_text != text:
            changed += 1
            if "--list" not in argv:
                with open(path, "w", encoding="utf-8") as f:
                    f.write(new_text)
    print(f"respell: {len(names)} names, {changed} files, {clashes} to look at")


if __name__ == "__main__":
    main(sys.argv[1:])
