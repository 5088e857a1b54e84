#!/usr/bin/env python3
"""python3 tools/believed.py: the table of README that says what a reader has to believe, and what is inner.

With --check it only says whether README has that table. A line of definition is one that is no comment, no `use` and not
empty. Every file of specs/ must stand in one of the lists.
"""
import pathlib
import sys

ROOT = pathlib.Path(__file__).resolve().parent.parent
BELIEVED = {
    "refusals and lists": "refusals/Outcome refusals/Fault lists/Members lists/Tables lists/Search lists/Ascii",
    "pages, state, gate and commit": "octets/Bytes ledger/Version ledger/Value ledger/Tx ledger/Page ledger/State "
    "ledger/Gate ledger/Commit ledger/Services",
    "planning": "orders/Chain orders/Admission orders/Arrange planning/Plan planning/Joined",
    "tonnage texts": "tonnage/Text tonnage/Services",
    "the listing": "report/Listing report/Program",
    "the services for C": "node/Word node/Lent",
    "the demands as statements": "claims/Serial claims/Third claims/Joined claims/Closed claims/Clerk tonnage/Grammar ledger/Byte "
    "claims/Programs claims/Cases claims/Shown claims/Letter",
}
INNER = {
    "inner: what only contracts between functions say": "octets/Columns ledger/Inner ledger/Listed ledger/Good orders/Walk sets/Set "
    "planner/Ranks report/Put",
}


def path(name):
    crate, file = name.split("/")
    return ROOT / "crates" / crate / "specs" / f"{file}.antt"


def lines(name):
    rows = (row.strip() for row in path(name).read_text(encoding="utf-8").splitlines())
    return sum(1 for row in rows if row and not row.startswith(("--", "use ")))


def rows(groups):
    for what, names in groups.items():
        counts = [(name, lines(name)) for name in names.split()]
        cited = ", ".join(f"`{name.replace('/', '/specs/')}.antt` {count}" for name, count in counts)
        yield f"| {what} | {cited} | {sum(count for _, count in counts)} |"


def table():
    said = [name for names in BELIEVED.values() for name in names.split()]
    services = sum(lines(name) for what, names in BELIEVED.items() if "demands" not in what for name in names.split())
    whole = sum(map(lines, said))
    return "\n".join(
        ["| What | Files, with their lines of definition | Lines |", "|---|---|---:|"]
        + list(rows(BELIEVED))
        + [f"| all of these | {services} without the demands | {whole} |"]
        + list(rows(INNER))
    )


def main(words):
    listed = [name for groups in (BELIEVED, INNER) for names in groups.values() for name in names.split()]
    there = {f"{file.parts[-3]}/{file.stem}" for file in ROOT.glob("crates/*/specs/*.antt") if file.stem != "Lib"}
    if sorted(listed) != sorted(there):
        return f"not in one list: {' '.join(sorted(set(listed) ^ there))}"
    if words != ["--check"]:
        print(table())
        return 0
    return 0 if table() in (ROOT / "README.md").read_text(encoding="utf-8") else "README has another table: python3 tools/believed.py"


if __name__ == "__main__":
    sys.exit(main(sys.argv[1:]))
