#!/usr/bin/env python3
"""Bodies that give up where they needn't, which only a test can tell from the right ones: a contract allows the error of a
refused growth always. Those that the checker must refuse are tried by the gate and by tools/must_fail.py.

Makes the edits of tools/giving_up in copies of the repository, tries tests of loom_tests and of loom_rows there, and prints a line
for each edit with the tests that fail by it. Ends with status 1 where a test passes that is to fail by an edit, where one fails that
isn't, or where the tests didn't run.

    tools/giving_up.py [NAME..]
    tools/giving_up.py --list       tries nothing, and says on standard error which don't apply any more

An edit is written as those of must-fail, with files named from the top of the repository. Above it are lines `test: CRATE::NAME`,
one for each test that fails by it among those that any edit names. Edits that name no test in common are tried in one copy, and a
copy has only the tests that are named.
"""
import re
import shutil
import subprocess
import sys
import tempfile
from pathlib import Path

from edits import changed, unfit

TOP = Path(__file__).resolve().parent.parent
EDITS = TOP / "tools" / "giving_up"
TEST = re.compile(r"^((?:///?[^\n]*\n)*)#\[test\]\nfn (\w+)\(.*?^}\n", re.M | re.S)
MODULE = re.compile(r"^#\[cfg\(test\)\]\nmod (\w+);\n", re.M)


def tests_of(edit):
    """The tests that fail by the edit."""
    tests = set(re.findall(r"^test: (.*)$", edit.read_text(), re.M))
    return tests or sys.exit(f"{edit.name} names no test")


def apply(edit, copy):
    """Writes what the edit makes into the copy."""
    for path, text in changed(edit, copy, ["test"]).items():
        (copy / path).write_text(text)


def keep_tests(copy, crate, names):
    """Leaves out each test of the crate but these, and the modules of tests at its top that have none of them and that no other one
    needs."""
    source = copy / "crates" / crate / "src"
    found = set()
    for file in source.rglob("*.rt"):
        module = "::".join(file.relative_to(source).with_suffix("").parts)

        def kept(test):
            name = f"{crate}::{module}::{test[2]}"
            found.update({name} & names)
            return test[0] if name in names else ""

        file.write_text(TEST.sub(kept, file.read_text()))
    if found != names:
        sys.exit(f"no test {', '.join(sorted(names - found))}")
    needed = {name.split("::")[1] for name in names}
    grows = True
    while grows:
        files = [it for name in needed for it in (source / f"{name}.rt", *(source / name).rglob("*.rt")) if it.is_file()]
        more = {name for it in files for name in re.findall(r"\bcrate::(\w+)", it.read_text())} - needed
        needed, grows = needed | more, bool(more)
    root = next(it for it in (source / "lib.rt", source / "main.rt") if it.is_file())
    for name in set(MODULE.findall(root.read_text())) - needed:
        drop_module(root, name)


def drop_module(root, name):
    """Leaves out a module at the top, with its files."""
    source = root.parent
    root.write_text(root.read_text().replace(f"#[cfg(test)]\nmod {name};\n", ""))
    (source / f"{name}.rt").unlink()
    shutil.rmtree(source / name, ignore_errors=True)


def failing(edits, names):
    """The tests that fail under these edits, or None where they didn't run: then what was said instead is printed."""
    with tempfile.TemporaryDirectory(prefix="giving-up-") as folder:
        copy = Path(folder) / "copy"
        shutil.copytree(TOP, copy, ignore=shutil.ignore_patterns("out", ".git"))
        for edit in edits:
            apply(edit, copy)
        failed = set()
        for crate in sorted({it.partition("::")[0] for it in names}):
            keep_tests(copy, crate, {it for it in names if it.startswith(f"{crate}::")})
            tried = subprocess.run(["rt", "try", "--test"], cwd=copy / "crates" / crate, capture_output=True, text=True)
            if "test result: " not in tried.stdout:
                print(tried.stdout[-2000:] + tried.stderr[-2000:], file=sys.stderr)
                return None
            failed |= {f"{crate}::{it}" for it in re.findall(r"^test (\S+) \.\.\. FAILED", tried.stdout, re.M)}
    return failed


def groups_of(edits):
    """The edits, each with those before it that name no test in common."""
    groups = []
    for edit in sorted(edits, key=lambda it: -len(tests_of(it))):
        apart = [it for it in groups if all(tests_of(edit).isdisjoint(tests_of(other)) for other in it)]
        if apart:
            apart[0].append(edit)
        else:
            groups.append([edit])
    return groups


def listed(edits):
    """Prints the edits, and tells of those that don't apply. The status to end with."""
    status = 0
    for edit in edits:
        why = unfit(edit, TOP, ["test"])
        if why:
            status = 1
            print(f"{edit.stem} doesn't apply: {why}", file=sys.stderr)
        print(f"{edit.stem}: {', '.join(sorted(tests_of(edit)))}")
    return status


def main():
    if sys.argv[1:] == ["--list"]:
        sys.exit(listed(sorted(EDITS.glob("*.edit"))))
    edits = [EDITS / f"{it}.edit" for it in sys.argv[1:]] or sorted(EDITS.glob("*.edit"))
    names = set().union(*(tests_of(it) for it in edits))
    wrong = 0
    for group in groups_of(edits):
        failed = failing(group, names)
        if failed is None:
            wrong += len(group)
            continue
        for edit in group:
            passed = tests_of(edit) - failed
            wrong += bool(passed)
            unseen = f", and NOT {', '.join(sorted(passed))}" if passed else ""
            print(f"{edit.stem}: fails {', '.join(sorted(tests_of(edit) & failed))}{unseen}", flush=True)
        others = failed.difference(*(tests_of(it) for it in group))
        if others:
            wrong += 1
            print(f"by {', '.join(it.stem for it in group)} FAILS TOO {', '.join(sorted(others))}", flush=True)
    sys.exit(1 if wrong else 0)


main()
