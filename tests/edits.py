"""What a must-fail edit says: its bends, in the form that rt reads (crates/NAME/must-fail/*.edit, tests/bent/*.edit).

A proof cites the places of its function's code by name, and a condition is named after what it compares: with a literal or a constant, after
that and how it is compared too (`c-gt90`, `d-ge-SDSS`). Where a bend takes such a name away and no fact falls beside it, the other side is
bent, to the same meaning: `if d / 17 << 4 >= 16` for `if d > 16`.
"""


def bends(edit):
    """Each bend of an edit file, as (the comment above it, the file, the old text, the new text).

    A 'file:' line holds until the next, as in rt, and so does a comment.
    """
    said = file = old = ""
    with open(edit, encoding="utf-8") as lines:
        for line in lines.read().splitlines():
            if line.startswith("# "):
                said = line.removeprefix("# ")
            elif line.startswith("file: "):
                file = line.removeprefix("file: ")
            elif line.startswith("old: "):
                old = line.removeprefix("old: ")
            elif line.startswith("new:"):
                yield said, file, old, line.removeprefix("new:").removeprefix(" ")
