#!/usr/bin/env python3
"""Brings the repository's own definitions and lemmas to today's spelling: words in snake case, a dash only between two
names. Run once at the root, after the toolchain's port.py. Each row of respell.tsv is a name as it was, as port.py left
it, and as it is from now on; no two names fall together.

Definitions, lemmas, clauses and proofs are turned from port.py's spelling, edits and documents from the old one.
Functions of src/ have no capital letter and no dash, and keep their names.
"""
import pathlib
import re

ROOT = pathlib.Path(__file__).resolve().parent.parent
ROWS = [line.split("\t") for line in (ROOT / "tools/respell.tsv").read_text(encoding="utf-8").splitlines()]
CALLS = {"write-tonnage", "read-tonnage", "closes-cycle"}  # in a function's proof, behind a dot, these are its calls


def turn(text, names, calls=frozenset()):
    """The text with each whole name in its new spelling."""
    word = re.compile(r"(?<![\w'\-])(\.?)([^\W\d][\w']*(?:-[\w']+)*)")

    def new(found):
        dot, name = found.groups()
        return found[0] if dot and name in calls else dot + names.get(name, name)

    return word.sub(new, text)


def main():
    code = {port: new for _, port, new in ROWS}
    clauses = {port: new for _, port, new in ROWS if re.search("[A-Z]", port)}
    texts = {old: new for old, _, new in ROWS}
    for path in sorted((ROOT / "crates").rglob("*")):
        if path.suffix not in (".antt", ".rt", ".edit"):
            continue
        old = path.read_text(encoding="utf-8")
        if path.suffix == ".edit":
            new = turn(old, texts)
        elif path.suffix == ".rt":
            new = turn(old, clauses)
        else:
            inside = path.relative_to(ROOT).parts[2] == "proofs" and len(path.relative_to(ROOT).parts) > 4
            new = turn(old, code, CALLS if inside else frozenset())
        if new != old:
            path.write_text(new, encoding="utf-8")
    for path in [ROOT / "README.md", *sorted((ROOT / "docs").glob("*.md"))]:
        old = path.read_text(encoding="utf-8")
        new = re.sub(r"`[^`\n]+`", lambda m: turn(m[0], texts), old)
        if new != old:
            path.write_text(new, encoding="utf-8")


main()
