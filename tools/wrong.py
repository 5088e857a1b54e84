#!/usr/bin/env python3
"""Tries the wrong programs of crates/CRATE/wrong/ and says by which fact each is refused.

    python3 tools/wrong.py [CRATE [NAME..]]

An edit has the form of one in must-fail/ (file:, old:, new:) and one line more:

    by: page/entries/Entries/first_key loop-i-preserved

the first fact that fails: a function, by its folder below the crate's proofs/, and a goal of it, or a lemma beside its
answers. It is the same fact whether an answer is refused or the goal has none and is left over. A lemma of a file of
proofs/ goes by that file: `by: Sentence.antt worded`. A proof that names what the edit took away tells of no fact and is
passed over. In old: and new: `\\n` is the end of a line. The crate is checked once as it is, then with each edit, in a copy
and over what a check keeps in out/: an edit costs seconds and not a check of its whole crate. The copy takes what out/
keeps already; run `rt check` before, or it is proved there. A few edits at a time have a copy of that copy, so that the
edits of one crate are tried side by side.
"""
import concurrent.futures
import pathlib
import re
import shutil
import subprocess
import sys
import tempfile

ROOT = pathlib.Path(__file__).resolve().parent.parent
AT_ONCE = 2
SHARE = 7  # the most edits that are tried in one copy
ERROR = re.compile(r"^(?:\./)?proofs/(\S+?):\d+:\d+: error: `([^`]+)`: (.*)")
TAKEN = re.compile(r"has no field|is not in scope(?! here)|has no `|was not admitted|was rejected")
LEFT = re.compile(r"^note: (src/\S+?):(\d+):\d+: .*?\(`([^`]+)`\)")
UNPROVED = re.compile(r"^fn [^:\s]+::(\S+): (?:not proved|no proof: expected)")
ASKED = re.compile(r"^fn \S+: no proof: expected answers in (?:\./)?proofs/(\S+)/Answers\.antt; `search` did not prove (.*)")


def parse(edit):
    """The replacements of an edit, as (file, old, new), and what refuses it."""
    file = old = by = None
    pairs = []
    for line in edit.read_text().splitlines():
        word, _, rest = line.replace("\\n", "\n").partition(": ")
        if word == "file":
            file = rest
        elif word == "old":
            old = rest
        elif word == "new":
            pairs.append((file, old, rest))
        elif word == "by":
            by = tuple(rest.split())
    return pairs, by


def below(crate):
    """The crate and those that it stands on."""
    rows = (line.partition(":") for line in (ROOT / "crates.txt").read_text().splitlines() if not line.startswith("#"))
    libraries = {head.split()[0]: rest.split() for head, _, rest in rows if head.strip()}
    found, todo = set(), [crate]
    while todo:
        name = todo.pop()
        if name in libraries and name not in found:
            found.add(name)
            todo += libraries[name]
    return found


def copy_of(crate, work):
    """The crates and what is proved of them, apart from what another check may be writing."""
    place = pathlib.Path(work) / crate
    shutil.copytree(ROOT / "crates", place / "crates", ignore=shutil.ignore_patterns("out", "must-fail", "wrong"))
    shutil.copy(ROOT / "crates.txt", place)
    for name in below(crate):
        if (ROOT / "crates" / name / "out").exists():
            shutil.copytree(ROOT / "crates" / name / "out", place / "crates" / name / "out")
    return place


def errors_of(lines):
    """Where an answer or a lemma is refused by a fact, each as (function or file, declaration)."""
    for at, line in enumerate(lines):
        error = ERROR.match(line)
        more = at + 1
        while more < len(lines) and lines[more].startswith("  "):
            more += 1
        if error and not any(map(TAKEN.search, [error[3], *lines[at + 1 : more]])):
            yield error[1].removesuffix("/Answers.antt").removesuffix("/Invariants.antt"), error[2]


def left_over(lines, folder):
    """The goals that have no answer and are not proved, each as (function, goal)."""
    unproved = [m[1].replace("::", "/") for m in map(UNPROVED.match, lines) if m]
    for line in lines:
        note, asked = LEFT.match(line), ASKED.match(line)
        if note:
            above = (folder / note[1]).read_text().splitlines()[: int(note[2])]
            names = re.findall(r"\bfn (\w+)", "\n".join(above))
            of = [path for path in unproved if names and path.split("/")[-1] == names[-1]]
            yield of[0] if of else note[1], note[3]
        elif asked:
            yield from ((asked[1], goal) for goal in re.findall("`([^`]+)`", asked[2]))


def check(place, crate):
    """Whether the crate is proved, whether it is refused, and by which facts, each as (function or file, goal or lemma)."""
    folder = place / "crates" / crate
    run = subprocess.run(["rt", "check"], cwd=folder, capture_output=True, text=True)
    lines = (run.stdout + run.stderr).splitlines()
    refused = run.returncode == 1 and any(line.startswith("logic=not-proved") for line in lines)
    return run.returncode == 0, refused, [*errors_of(lines), *left_over(lines, folder)]


def try_edit(place, crate, edit):
    """None where the edit is refused by the fact that it names, else what happened instead."""
    pairs, by = parse(edit)
    if not pairs or not by:
        return "has no replacement or no `by:`"
    before = {}
    try:
        for file, old, new in pairs:
            path = place / "crates" / crate / file
            text = path.read_text()
            before.setdefault(path, text)
            if text.count(old) != 1:
                return f"`old:` stands {text.count(old)} times in {file}"
            path.write_text(text.replace(old, new))
        proved, refused, facts = check(place, crate)
        if proved:
            return "NOT REFUSED"
        if not refused:
            return "did not reach the prover"
        if not facts:
            return "refused by no fact"
        return None if facts[0] == by else f"refused first by {' '.join(facts[0])}, not by {' '.join(by)}"
    finally:
        for path, text in before.items():
            path.write_text(text)


def try_edits(place, crate, edits):
    """One line for each of these edits of a crate that is proved in a place, and how many did not come out as they say."""
    said, failed = [], 0
    with tempfile.TemporaryDirectory() as work:
        own = pathlib.Path(shutil.copytree(place, pathlib.Path(work) / crate))
        for edit in edits:
            what = try_edit(own, crate, edit)
            failed += what is not None
            said.append(f"wrong {crate}/{edit.stem}: " + (what or "refused by " + " ".join(parse(edit)[1])))
    return said, failed


def try_all(found):
    """What try_edits says of every crate's edits: each crate is checked as it is, then its edits are shared out."""
    with tempfile.TemporaryDirectory() as work, concurrent.futures.ThreadPoolExecutor(AT_ONCE) as pool:
        places = {crate: copy_of(crate, work) for crate in found}
        proved = dict(zip(found, pool.map(lambda crate: check(places[crate], crate)[0], found)))
        parts = [
            (places[crate], crate, edits[at : at + SHARE])
            for crate, edits in found.items()
            if proved[crate]
            for at in range(0, len(edits), SHARE)
        ]
        unproved = [([f"wrong {crate}: not proved as it is"], len(found[crate])) for crate in found if not proved[crate]]
        return unproved + list(pool.map(lambda part: try_edits(*part), parts))


def main(crate=None, *names):
    found = {}
    for edit in sorted(ROOT.glob("crates/*/wrong/*.edit")):
        if crate in (None, edit.parts[-3]) and (not names or edit.stem in names):
            found.setdefault(edit.parts[-3], []).append(edit)
    results = try_all(found)
    for said, _ in results:
        print("\n".join(said))
    tried = sum(len(edits) for edits in found.values())
    failed = sum(count for _, count in results)
    print(f"{tried - failed} of {tried} wrong programs refused by the fact they name")
    return 1 if failed or not tried else 0


if __name__ == "__main__":
    sys.exit(main(*sys.argv[1:]))
