#!/usr/bin/env python3
"""Checks docs/CLAIMS.md, CERTAIN.md and GLOSSARY.md against the files that they cite. Run it at the root of the repository:
python3 tools/claims.py

Every file in backquotes is there, below crates/ or at the root. Every name in backquotes is declared in a file that its
row or paragraph cites, or else in one that its section cites; a folder stands for the files in it, and a name is also
found where a file of the folder has it as its name (an edit of must-fail/). Of a row the last column is looked at.
A name of a crate is a program or a library, and needs no file. Prints a line for each fault; the exit status is then 1.
"""
import re
import sys
from pathlib import Path

DOCS = [Path("docs/CLAIMS.md"), Path("docs/CERTAIN.md"), Path("docs/GLOSSARY.md")]
WORDS = {"requires", "ensures"}  # of the language
SUFFIXES = (".antt", ".rt", ".h", ".py", ".md")
ANTT = re.compile(r"^\s*(?:(?:abbrev|unfoldable|pub|record|data|infix[lr]?\s+\d+)\s+)*([^\s:(){}.]+)\s*(?=[:({]|$)", re.M)
RT = re.compile(r"\b(?:fn|const|struct|enum|mod)\s+(\w+)")
WORD = re.compile(r"[\w-]+")


def place(token):
    """The file or folder that a token names."""
    for path in (Path("crates") / token, Path(token)):
        if path.exists():
            return path
    return None


def declared(path, known={}):
    """The names that a file declares, or the files of a folder, with their own names."""
    if path not in known:
        if path.is_dir():
            files = [f for f in sorted(path.iterdir()) if f.is_file()]
            known[path] = {f.stem for f in files}.union(*(declared(f) for f in files))
        else:
            text = path.read_text(encoding="utf-8", errors="replace")
            rule = ANTT if path.suffix == ".antt" else RT if path.suffix == ".rt" else WORD
            known[path] = set(rule.findall(text))
    return known[path]


def parts(text):
    """The files and the names that a text cites in backquotes."""
    files, names = [], []
    for token in re.findall(r"`([^`]+)`", text):
        if "/" in token or token.endswith(SUFFIXES):
            files.append(token)
        else:
            name = token.split()[0]
            if name != "rt" and name not in WORDS and not (Path("crates") / name).is_dir():
                names.append(name)
    return files, names


def sections(lines):
    """Each section as its rows and paragraphs: the number of the line, and what is looked at."""
    found = []
    for number, line in enumerate(lines, 1):
        if line.startswith("## "):
            found.append([])
        elif found and line.strip() and not line.startswith("|---"):
            found[-1].append((number, line.strip().strip("|").split(" | ")[-1] if line.startswith("|") else line))
    return found


def checked(doc):
    """The faults of a document, and how many names it cites."""
    faults, count = [], 0
    for units in sections(doc.read_text(encoding="utf-8").splitlines()):
        cited = [(number, *parts(text)) for number, text in units]
        section = [path for _, files, _ in cited for path in map(place, files) if path]
        for number, files, names in cited:
            for token in files:
                if place(token) is None:
                    faults.append(f"{doc}:{number}: there is no {token}")
            row = [path for path in map(place, files) if path]
            for name in names:
                count += 1
                if not any(name in declared(path) for path in row + section):
                    where = ", ".join(map(str, row)) or "any file that the section cites"
                    faults.append(f"{doc}:{number}: {name} is not declared in {where}")
    return faults, count


def main():
    right = True
    for doc in DOCS:
        faults, count = checked(doc)
        print(*faults, sep="\n") if faults else print(f"{doc}: {count} names stand where they are cited")
        right = right and not faults and count > 0
    return 0 if right else 1


if __name__ == "__main__":
    sys.exit(main())
