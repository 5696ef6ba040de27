#!/usr/bin/env python3
"""A reader and a writer of the exchange file, made from docs/FILE.md alone: a second hand, and an example for others.

`tests/file.py PROGRAM..` holds the library to them. PROGRAM, made of tests/c/files.c, is sent files at random, sound
and spoiled, and tells what cf_read_file and cf_write_file make of each; what differs from the answers here is shown."""

import collections
import random
import re
import struct
import subprocess
import sys

Tables = collections.namedtuple("Tables", "sdss types parents presences applications ends")
FORMS = Tables(*map(struct.Struct, ("<B16s", "<4B", "<2B", "<2B16s2B", "<3B", "<4B")))
MOST = Tables(16, 128, 512, 512, 256, 512)
OBJECT, ATTRIBUTE, LINK = 1, 2, 3
IMPLICIT, DESIGNATION = 3, 4
NAME = re.compile("[A-Za-z][A-Za-z0-9_]*")


def write(tables):
    """The file of a sound schema: six lists of tuples, in any order. A name is a str, empty for a nameless presence."""
    data = b""
    for form, rows in zip(FORMS, tables):
        entries = sorted(form.pack(*(f.encode() if isinstance(f, str) else f for f in row)) for row in rows)
        data += struct.pack("<H", len(entries)) + b"".join(entries)
    return data


def read(data):
    """(0, 0, tables) of an accepted file, tables as `write` takes them; else (20, one, None) or (21, 0, None)."""
    sections, one = split(data)
    if sections is None:
        return 20, one, None
    # latin-1 takes any byte, and a zero within a name stays in it: `rules` refuses what is no name.
    tables = Tables(*([tuple(f if isinstance(f, int) else f.rstrip(b"\0").decode("latin-1") for f in form.unpack(entry))
                       for entry in entries] for form, entries in zip(FORMS, sections)))
    return (0, 0, tables) if all(rules(tables)) else (21, 0, None)


def split(data):
    """The six lists of entries of a well-formed file, and its length; else None and the length of the longest start
    that the bytes share with one. The walk ends at what comes first, a wrong byte or the end of the bytes."""
    at, sections = 0, []
    for form in FORMS:
        if at + 2 > len(data):
            return None, len(data)
        count, = struct.unpack_from("<H", data, at)
        at, width, entries, low = at + 2, form.size, [], 0
        for to_come in reversed(range(count)):
            # Strings of one width stand as numbers do. This one is above the last, and has to_come others above it.
            entry, high = data[at:at + width], 256 ** width - 1 - to_come
            value = int.from_bytes(entry, "big")
            if len(entry) < width or not low <= value <= high:
                # A start can be completed to a string from low to high if it lies between the starts of these two.
                low, high = low.to_bytes(width, "big"), high.to_bytes(width, "big")
                return None, at + max(n for n in range(len(entry) + 1) if low[:n] <= entry[:n] <= high[:n])
            entries.append(entry)
            at, low = at + width, value + 1
        sections.append(entries)
    return (sections, at) if at == len(data) else (None, at)


def rules(tables):
    """Whether each rule of the page is kept, in an order in which a rule may lean on those before it."""
    yield all(len(rows) <= most for rows, most in zip(tables, MOST))
    sdss, types = dict(tables.sdss), {n: fields for n, *fields in tables.types}
    yield len(sdss) == len(tables.sdss) and len(types) == len(tables.types)
    yield all(sds < 16 and NAME.fullmatch(name) for sds, name in tables.sdss)
    yield len({name.lower() for name in sdss.values()}) == len(sdss)
    yield all(n < 128 and 1 <= kind <= 3 and value <= (0, 5, 4)[kind - 1] for n, kind, value, _ in tables.types)
    objects, attributes, links = ({n for n in types if types[n][0] == kind} for kind in (OBJECT, ATTRIBUTE, LINK))
    reverse = {n: types[n][2] for n in links if types[n][1] != DESIGNATION}  # of those that have one
    yield all(types[n][2] == 0 for n in types if n not in reverse)
    yield all(other != n and reverse.get(other) == n for n, other in reverse.items())
    yield not any(types[n][1] == types[other][1] == IMPLICIT for n, other in reverse.items())

    # The page asks for parents of object types only, and it gives parents to no others.
    yield all(child in objects and parent in objects for child, parent in tables.parents)
    parents = {n: {parent for child, parent in tables.parents if child == n} for n in objects}
    yield 0 in objects and all(len(up) == 0 if n == 0 else 1 <= len(up) <= 4 for n, up in parents.items())
    below = {0}  # then all whose parents are in it, again and again; what is its own ancestor never comes in
    while more := {n for n in objects - below if parents[n] <= below}:
        below |= more
    yield below == objects

    held = {(sds, n): (name, modes) for sds, n, name, *modes in tables.presences}
    yield len(held) == len(tables.presences) and {n for _, n in held} == set(types)
    yield all(sds in sdss and max(modes) <= 31 for (sds, _), (_, modes) in held.items())
    yield all(NAME.fullmatch(name) or name == "" and n in objects for (_, n), (name, _) in held.items())
    named = [(sds, name.lower()) for (sds, _), (name, _) in held.items() if name]
    yield len(set(named)) == len(named)
    yield sdss.get(0) == "system" and [row for row in tables.presences if row[0] == 0] == [(0, 0, "object", 31, 31)]
    yield all((sds, parent) in held for sds, n in held for parent in parents.get(n, ()))
    # The same modes are asked of a reverse, not of parents.
    yield all(held.get((sds, reverse[n]), ("", None))[1] == held[sds, n][1] for sds, n in held if n in reverse)

    yield all((sds, n) in held and (sds, a) in held and n not in attributes and a in attributes
              for sds, n, a in tables.applications)
    yield all((sds, n) in held and (sds, o) in held and n in links and side <= 1 and o in objects
              for sds, n, side, o in tables.ends)
    ends = set(tables.ends)
    yield all((sds, reverse[n], 1 - side, o) in ends for sds, n, side, o in ends if n in reverse)


def schema(rng, full=False, slip=None):
    """A sound schema at random, but for a slip. A full one has as many presences, applications and ends as there may
    be, or of one of these one more."""
    over = rng.randrange(6)
    most = Tables(*(MOST[i] + (i == over) if full else rng.choice((0, 5, 25, 150)) for i in range(6)))
    sdss = rng.sample(range(1, 16 + (slip == "SDS")), 15 if full else rng.randint(1, 5))
    spare = rng.sample(range(1, 128 + (slip == "type")), 127 if full else rng.choice((3, 8, 25)))
    types, parents, held = {0: (OBJECT, 0, 0)}, [], {sds: {0} if rng.random() < .9 else set() for sds in sdss}
    while spare:
        n, home, up = spare.pop(), rng.choice(sdss), []
        objects = [o for o in held[home] if types[o][0] == OBJECT]
        kind = rng.choice("ooaddp" if objects else "adp")
        if kind == "o":
            made = {n: (OBJECT, 0, 0)}
            up = rng.sample(objects, min(len(objects), rng.randint(1, 4 + (slip == "parents"))))
        elif kind == "a":
            made = {n: (ATTRIBUTE, rng.randrange(6 + (slip == "value kind")), 0)}
        elif kind == "p" and len(spare) > 1:  # a pair; by a slip one that is its own reverse, or three in a ring
            low, high = {"implicit": (IMPLICIT, IMPLICIT), "category": (5, 5)}.get(slip, (0, 2))
            ring = [n] + [spare.pop() for _ in range(rng.choice((0, 2)) if slip == "reverse" else 1)]
            made = {a: (LINK, rng.randint(low, high), b) for a, b in zip(ring, ring[1:] + [n])}
            made[n] = LINK, rng.randint(low, max(high, IMPLICIT)), made[n][2]
        else:
            made = {n: (LINK, DESIGNATION, 0)}
        types.update(made)
        parents += ((n, parent) for parent in up)
        held[home].update(made)
        for sds in sdss:  # others hold it too, where its parents are and room is left for the types still to come
            room = most.presences - 1 - sum(map(len, held.values())) - len(spare)
            if held[sds].issuperset(up) and len(made) <= room and rng.random() < .6:
                held[sds].update(made)
    presences, modes, ends = [(0, 0, "Object" if slip == "object" else "object", 31, 31)], {}, set()
    presences += [(0, max(types), "also", 31, 31)] if slip == "also" else []
    letters, least = rng.choice("_09@[`{") if slip == "letter" else "AZaz", rng.choice((0, 31))
    for sds, n in ((sds, n) for sds in sdss for n in held[sds]):
        name = rng.choice(letters) + "".join(rng.choices("AZaz09_", k=rng.randrange(12))) + f"_{n}"
        both = modes.setdefault((sds, max(n, types[n][2])), (rng.randint(least, 31), rng.randint(least, 31)))
        presences.append((sds, n, "" if types[n][0] == OBJECT and rng.random() < .2 else name, *both))
    couples = [(sds, n, m) for sds in sdss for n in held[sds] for m in held[sds]]
    rng.shuffle(couples)
    applications = [row for row in couples if types[row[1]][0] != ATTRIBUTE == types[row[2]][0]][:most.applications]
    for sds, n, o in couples:
        if types[n][0] == LINK and types[o][0] == OBJECT:
            side, other = rng.randrange(2), types[n][2]
            both = {(sds, n, side, o), (sds, other, 1 - side, o)} if other else {(sds, n, side, o)}
            ends |= both if len(ends | both) <= most.ends else set()
    return Tables([(0, "system")] + [(sds, f"{rng.choice('SsTt')}_{sds}") for sds in sdss],
                  [(n, *fields) for n, fields in types.items()], parents, presences, applications, ends)


SLIPS = "SDS", "type", "parents", "value kind", "category", "implicit", "reverse", "letter", "object", "also"
KINDS = ("cut", "byte", "behind", "count", "moved", "removed", "doubled", "255s", "many", "field", "field sorted",
         "field sorted", "field sorted", "added", "added")


def spoil(rng, kind, sections, more):
    """Spoils an entry of a section, or by how much its count is more than its entries."""
    i = rng.choice([i for i in range(6) if sections[i]])
    form, entries, types = FORMS[i], sections[i], sections[1] or [b"\0"]
    at = 0 if rng.random() < .3 else rng.randrange(len(entries))  # the first is often of SDS 0 or type 0
    entry, fields, others = entries[at], list(form.unpack(entries[at])), form.unpack(rng.choice(entries))
    field = rng.randrange(len(fields))
    old, other = fields[field], others[field]
    if isinstance(old, int):
        some = rng.choice(types)[0]
        fields[field] = rng.choice((other, some, old ^ 1, (old + 1) % 256, rng.randrange(7), 16, 32, 255))
    else:
        fields[field] = rng.choice((other, other.swapcase(), b"", b"9", b"a\0b", b"a-", b"a\n", b"q" * 16))
    changed, start = form.pack(*fields), entry[:rng.randrange(form.size)]
    entries[at:at + 1] = {
        "removed": [], "doubled": [entry] * 2, "255s": [start.ljust(form.size, b"\xff")], "field": [changed],
        "field sorted": [changed], "added": [entry, changed],
        "many": [entry] + [rng.randbytes(form.size) for _ in range(200 if kind == "many" else 0)]}.get(kind, [entry])
    if kind in ("field sorted", "added", "many"):
        entries.sort()
    elif kind == "moved":
        entries.insert(rng.randrange(len(entries)), entries.pop(at))
    elif kind == "count":
        more[i] += rng.choice((-1, -1, 1, 1, 2, 255, 65535 - len(entries)))


def files(rng, schemas):
    """Files of sound schemas, each then spoiled in each way, every other time in a second way too; and of slips."""
    for turn in range(schemas):
        sound = write(schema(rng, full=turn % 40 == 0))
        yield sound
        yield write(schema(rng, slip=SLIPS[turn % len(SLIPS)]))
        for kind in KINDS:
            kinds, sections, more = [kind] + rng.choices(KINDS, k=rng.randrange(2)), split(sound)[0], [0] * 6
            for each in kinds:
                spoil(rng, each, sections, more)
            data = b"".join(struct.pack("<H", (len(entries) + by) % 65536) + b"".join(entries)
                            for entries, by in zip(sections, more))
            if "byte" in kinds:
                at = rng.randrange(len(data))
                data = data[:at] + rng.randbytes(1) + data[at + 1:]
            if "cut" in kinds:
                data = data[:rng.randrange(len(data))]
            if "behind" in kinds:
                data += rng.choice((b"\0", b"\0\0", b"\xff", sound))
            yield data[:14876 + 4096]  # PROGRAM takes no more


def ask(program, data):
    """What PROGRAM answers to a file: the number, `one`, and the file that it writes back."""
    program.stdin.write(struct.pack("<I", len(data)) + data)
    program.stdin.flush()
    number, one, length = struct.unpack("<3Q", program.stdout.read(24))
    return number, one, program.stdout.read(length)


def main(command):
    counts, differences = collections.Counter(), 0
    with subprocess.Popen(command, stdin=subprocess.PIPE, stdout=subprocess.PIPE) as program:
        for data in files(random.Random(1), 1600):
            number, one, tables = read(data)
            mine = number, one, write(tables) if number == 0 else b""
            try:
                theirs = ask(program, data)
            except (BrokenPipeError, struct.error):
                sys.exit(f"{data.hex()}\nfile.py: PROGRAM ended without an answer to these bytes")
            counts[number] += 1
            if mine != theirs or number == 0 and mine[2] != data:
                differences += 1
                if differences <= 5:
                    print(data.hex(), *(f"{who}: {no}, one {one}, {back.hex() or 'no file'}"
                                        for who, (no, one, back) in (("file.py", mine), ("PROGRAM", theirs))), sep="\n")
    print(f"file.py: {sum(counts.values())} files, {counts[0]} accepted, {counts[20]} of 20, {counts[21]} of 21, "
          f"{differences} differences")
    return int(differences > 0 or min(counts[0], counts[20], counts[21]) < 1000 or program.returncode != 0)


if __name__ == "__main__":
    sys.exit(main(sys.argv[1:]) if sys.argv[1:] else "usage: tests/file.py PROGRAM..")
