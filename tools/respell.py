#!/usr/bin/env python3
"""Brings the names of definitions and lemmas to today's spelling: words in snake case, facts in camel case.

usage: python3 tools/respell.py      at the top of the repository, once, right after /opt/rattle/port/port.py

tools/names.tsv has a row for each name: old, new, and 'field' for a field of a record. Whole words turn: in specs/, proofs/, the
clauses and the `ghost use` items of src/, the edits of must-fail/, and the code spans of README.md and docs/. Behind a dot a name
with a dash turns only if it is a field, for a proof's labels stand there too. BEFORE has the lemmas whose name would fall together
with that of a definition in one file: they keep the dash. At the end rt fmt lays every crate out.
"""

import os
import re
import subprocess

ROOT = os.path.dirname(os.path.dirname(os.path.realpath(__file__)))
WORD = re.compile(r"[^\s(){}.;,@\"«»\x60\[\]|]+")
SPAN = re.compile(r"\x60[^\x60\n]+\x60")
TEXT = re.compile(r'"(?:[^"\\\n]|\\.)*"')
GHOST = re.compile(r"ghost\s+use\b[^;]*;|(?:requires|ensures)\*?\s*(?:\w+\s*)?\{[^\n]*")

BEFORE = [
    ("rules/specs/ValueTextLaws.antt", "store_line", "store-line"),
    ("rows/specs/WordLaws.antt", "joined_word", "joined-word"),
    ("union/specs/UnionLaws.antt", "joined_word", "joined-word"),
    ("rows/specs/WordLaws.antt", "next_word", "next-word"),
    ("union/specs/UnionLaws.antt", "next_word", "next-word"),
    ("union/specs/MergeLaws.antt", "below_at", "below-at"),
    ("union/proofs/copy_below/Proof.antt", "below_at", "below-at"),
    ("rules/specs/NameExamples.antt", "read_names", "names_read"),
    ("name_table/specs/NameLaws.antt", "is_name", "named"),
    ("rules/specs/WalkRowLaws.antt", "walk_rows", "walk-rows"),
    ("rules/specs/WalkRowLaws.antt", "field_row", "field-row"),
    ("rules/specs/WalkRowLaws.antt", "ids_at", "ids-at"),
    ("rules/specs/TripLaws.antt", "is_field", "a_field"),
    ("in_steps/specs/AncestorLaws.antt", "below_word", "below-word"),
    ("value_text/proofs/rows/take_row/Proof.antt", "row_read", "row-read"),
    ("listing/proofs/reading/read_rows/Proof.antt", "row_read", "row-read"),
    ("rules/specs/TripExamples.antt", "reached", "Reached"),
]


def table():
    names, fields = {}, set()
    with open(os.path.join(ROOT, "tools", "names.tsv"), encoding="utf-8") as f:
        for line in f:
            old, new, *field = line.rstrip("\n").split("\t")
            names[old] = new
            if field:
                fields.add(old)
    return names, fields


NAMES, FIELDS = table()


def respell(text, dashes=True):
    def one(m):
        word = m[0]
        if word not in NAMES:
            bare = word.rstrip("'")
            if bare != word and bare in NAMES and re.search("[a-z0-9][A-Z]", bare):
                return NAMES[bare] + word[len(bare):]
            return word
        if "-" in word:
            behind_dot = m.start() and text[m.start() - 1] == "."
            if not dashes or behind_dot and word not in FIELDS:
                return word
        return NAMES[word]

    out = WORD.sub(one, text)
    return re.sub(r"(?<![^\s{,])(\S+) as \1(?=[\s,};])", r"\1", out)


def outside(pattern, text, turn, inside=lambda t: t):
    out, at = [], 0
    for m in pattern.finditer(text):
        out += [turn(text[at : m.start()]), inside(m[0])]
        at = m.end()
    return "".join(out + [turn(text[at:])])


def turned(path, text):
    if path.endswith(".antt"):
        for where, old, new in BEFORE:
            if path.endswith(os.path.join("crates", where)):
                text = re.sub(rf"(?<![^\s(){{}}.;,@\"«»]){old}(?![^\s(){{}}.;,@\"«»])", new, text)
        return outside(TEXT, text, respell)
    if path.endswith(".rt"):
        text = outside(TEXT, text, lambda t: respell(t, False))
        return GHOST.sub(lambda m: respell(m[0]), text)
    if path.endswith(".edit"):
        return respell(text)
    return SPAN.sub(lambda m: respell(m[0]), text)


def main():
    crates = os.path.join(ROOT, "crates")
    paths = [os.path.join(ROOT, "README.md")]
    for top in (crates, os.path.join(ROOT, "docs")):
        for folder, dirs, files in os.walk(top):
            dirs[:] = sorted(d for d in dirs if d != "out")
            paths += [os.path.join(folder, f) for f in sorted(files) if f.endswith((".antt", ".rt", ".edit", ".md"))]
    for path in paths:
        with open(path, encoding="utf-8") as f:
            text = f.read()
        new = turned(path, text)
        if new != text:
            with open(path, "w", encoding="utf-8") as f:
                f.write(new)
    for crate in sorted(os.listdir(crates)):
        subprocess.run(["rt", "fmt"], cwd=os.path.join(crates, crate), stdout=subprocess.DEVNULL, stderr=subprocess.DEVNULL)


if __name__ == "__main__":
    main()
