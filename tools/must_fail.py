#!/usr/bin/env python3
"""Wrong bodies that the checker must refuse, as it must those of crates/*/must-fail, which the gate tries. Each of these costs a check of
its crate more, so only this command tries them, on a copy of the crates, by `rt must-fail`.

    tools/must_fail.py [--in FOLDER] [CRATE[/NAME]..]   tries all, or those that are named, and prints rt's lines
    tools/must_fail.py --list [CRATE[/NAME]..]          says what a user would have seen by each

An edit is tools/must_fail/CRATE/NAME.edit, written as docs/GATE.md says. What rt has tried, and what hasn't changed since, isn't tried
again. The copy, with what was proved there, stays in FOLDER for the next call, if one is named: outside of the repository, since
`rt ci` allows no second crates.txt. Ends with status 1 where one isn't refused, or doesn't apply any more, which is told on standard error.

Bodies that every contract allows, which only tests can find, are those of tools/giving_up.py.
"""
import argparse
import shutil
import subprocess
import sys
import tempfile
from pathlib import Path

from edits import meaning, unfit

TOP = Path(__file__).resolve().parent.parent
EDITS = TOP / "tools" / "must_fail"
# The parts of a crate. What else stands in its folder is what rt keeps there.
PARTS = ("src", "specs", "proofs", "must-fail")


def chosen(words):
    """The edits that the words name: those of a crate, or one. All of them where there is no word."""
    edits = []
    for word in words or ["*"]:
        found = EDITS.glob(f"{word}.edit" if "/" in word else f"{word}/*.edit")
        edits += sorted(found) or sys.exit(f"tools/must_fail has no {word}")
    return edits


def listed(edits):
    """Prints what each edit is, and tells of those that don't apply. The status to end with."""
    status = 0
    for edit in edits:
        name = f"{edit.parent.name}/{edit.stem}"
        why = unfit(edit, TOP / "crates" / edit.parent.name)
        if why:
            status = 1
            print(f"{name} doesn't apply: {why}", file=sys.stderr)
        print(f"{name}: {meaning(edit)}")
    return status


def tried(edits, folder):
    """Tries the edits on a copy of the crates in this folder that has no others. The status that rt ends with."""
    for crate in (folder / "crates").glob("*"):
        for part in PARTS:
            shutil.rmtree(crate / part, ignore_errors=True)
    shutil.copytree(TOP / "crates", folder / "crates", ignore=shutil.ignore_patterns("out", "must-fail"), dirs_exist_ok=True)
    for name in ("crates.txt", "HANDLES"):
        shutil.copy(TOP / name, folder)
    for edit in edits:
        to = folder / "crates" / edit.parent.name / "must-fail"
        to.mkdir(exist_ok=True)
        shutil.copy(edit, to)
    return subprocess.run(["rt", "must-fail", *sorted({it.parent.name for it in edits})], cwd=folder).returncode


def main():
    words = argparse.ArgumentParser(usage="tools/must_fail.py [--list] [--in FOLDER] [CRATE[/NAME]..]")
    words.add_argument("--list", action="store_true")
    words.add_argument("--in", dest="folder", type=Path)
    words.add_argument("edits", nargs="*")
    words = words.parse_args()
    edits = chosen(words.edits)
    if words.list or any(unfit(it, TOP / "crates" / it.parent.name) for it in edits):
        sys.exit(listed(edits))
    if words.folder:
        words.folder.mkdir(parents=True, exist_ok=True)
        sys.exit(tried(edits, words.folder))
    with tempfile.TemporaryDirectory(prefix="must-fail-") as folder:
        sys.exit(tried(edits, Path(folder)))


main()
