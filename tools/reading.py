#!/usr/bin/env python3
"""How much there is to read, to know what a check promises.

Follows the imports from the file that says what a check from the beginning promises, and from the definition of a body's runs,
and prints each file of this repository that they come to, with its lines, and the sum. Then it prints what there is to read
besides, to know what is promised of a check that begins with a path's text. A file of `specs` counts whole. A type of the code
counts with the lines of its declaration, and so do the types that it names. The rules of the operations, with the state that
they are about, and the operations of each kind of object are named apart and not followed: the files that are read hand them on
and never look into them.

Ends with status 1 where a sum is above its limit, or where what is said of a check from the beginning speaks of how the code
keeps a path or a run.

    tools/reading.py
"""
import re
import sys
from pathlib import Path

CRATES = Path(__file__).resolve().parent.parent / "crates"
# where to begin, and how many lines there may be to read
BEGINNING = ["loom/specs/Model/Fresh.antt", "loom_engine/specs/Runs/Body.antt"], 1400
WITH_A_PATH = ["loom/specs/Model/Check.antt"], 2000
# what each operation does to the state of the machine, and that state
RULES = {
    f"loom_objects/specs/{name}.antt"
    for name in [
        "Rules/Alloc", "Rules/Arc", "Rules/Atomic", "Rules/Cell", "Rules/Condvar", "Rules/Ending", "Rules/Leaks",
        "Rules/Locals", "Rules/Moves", "Rules/Mpsc", "Rules/Mutex", "Rules/Notify", "Rules/Replied",
        "Rules/Rule", "Rules/RwLock", "Rules/Steps", "Rules/Tables", "Rules/Thread", "Rules/Uses", "Rules/Waker",
        "Scene/Lookup", "Schedule/Defaults", "Schedule/Offers", "Lent", "World",
    ]
}
RULES |= {"loom_objects/specs/Dependence/Depends.antt", "loom_objects/specs/Exploring.antt", "loom_views/specs/Graph.antt"}
# the operations of one kind of object each: a body's runs hand them on to those rules
OPERATIONS = re.compile(r"^(?!Op$)\w+Op$|^Exchange$|^Change$|^Numbers$")
# how the code keeps the nodes of a path and the state of a run
LAYOUT = {"Execution", "Load", "Node", "Path", "RunState", "Schedule", "Spurious", "Views"}

IMPORT = re.compile(r"^\s*(?:unfoldable )?(?:pub )?use Rattle\.(\w+)\.specs\.([\w.]+)", re.M)
DECLARATION = r"^(?:pub )?(?:enum|struct|trait|type) {name}\b"


def spec_file(crate, path):
    """The file of `specs` that an import names: its longest beginning that is one."""
    parts = path.split(".")
    for size in range(len(parts), 0, -1):
        file = CRATES / crate / "specs" / ("/".join(parts[:size]) + ".antt")
        if file.is_file():
            return file
    return None


def source_file(crate, modules):
    """The file of `src` that keeps a module, also one that is handed on from another crate."""
    source = CRATES / crate / "src"
    if not modules:
        return source / "lib.rt"
    file = source / ("/".join(modules) + ".rt")
    above = source_file(crate, modules[:-1])
    if file.is_file() or not above.is_file():
        return file
    for use in re.finditer(r"^pub use (loom_\w+)((?:::\w+)*)::(?:\{([^}]*)\}|(\w+));", above.read_text(), re.M):
        if modules[-1] in re.findall(r"\w+", use.group(3) or use.group(4)):
            return source_file(use.group(1), [*use.group(2).split("::")[1:], modules[-1]])
    return file


def declared(crate, path):
    """The declaration that an import of a declared type names: its file and its name."""
    parts = [part for part in path.split(".") if part]
    modules = [part for part in parts if part[0].islower()]
    return source_file(crate, modules), parts[len(modules)]


def block(text, name):
    """The lines of a type's declaration, with what is said of it."""
    lines = text.split("\n")
    at = next((i for i, line in enumerate(lines) if re.match(DECLARATION.format(name=name), line)), None)
    if at is None:
        return []
    first = at
    while first > 0 and re.match(r"(///|#\[)", lines[first - 1]):
        first -= 1
    last = at
    if "{" in lines[at] and "}" not in lines[at]:
        while lines[last] != "}":
            last += 1
    return lines[first : last + 1]


def named(crate, file, lines):
    """The types of this repository that a declaration names."""
    text = file.read_text()
    code = "\n".join(line for line in lines if not re.match(r"\s*(///|#\[)", line))
    for name in sorted(set(re.findall(r"\b[A-Z]\w*", code))):
        if re.search(DECLARATION.format(name=name), text, re.M):
            yield file, name
            continue
        for use in re.finditer(r"^(?:pub )?use (crate|loom_\w+)((?:::\w+)*)::(?:\{([^}]*)\}|(\w+));", text, re.M):
            if name in re.findall(r"\w+", use.group(3) or use.group(4)):
                home = crate if use.group(1) == "crate" else use.group(1)
                yield from reexported(source_file(home, use.group(2).split("::")[1:]), name)


def reexported(file, name):
    """Where a name stands that a module declares or hands on."""
    if not file.is_file():
        return
    text = file.read_text()
    if re.search(DECLARATION.format(name=name), text, re.M):
        yield file, name
        return
    for use in re.finditer(r"^pub use (?:self::)?(\w+)((?:::\w+)*)::(?:\{([^}]*)\}|(\w+));", text, re.M):
        if name in re.findall(r"\w+", use.group(3) or use.group(4)):
            modules = use.group(2).split("::")[1:]
            if use.group(1).startswith("loom_"):
                inner = source_file(use.group(1), modules)
            else:
                inner = file.with_suffix("") / ("/".join([use.group(1), *modules]) + ".rt")
            yield from reexported(inner, name)


def imports(crate, text, specs, types):
    """Puts what the text imports into the two lists."""
    for crate, path in IMPORT.findall(text):
        if not (CRATES / crate).is_dir():
            continue
        if path.startswith("declared."):
            types.append(declared(crate, path[len("declared.") :]))
        else:
            file = spec_file(crate, path)
            if file is not None:
                specs.append(file)


class Reading:
    """What is to be read, and how many lines it has."""

    def __init__(self):
        self.specs, self.types, self.rules = {}, {}, set()

    def total(self):
        return sum(self.specs.values()) + sum(self.types.values())

    def follow(self, start):
        specs, types = [CRATES / name for name in start], []
        while specs or types:
            if specs:
                self.read_file(specs.pop(0), specs, types)
            else:
                self.read_type(*types.pop(0), types)

    def read_file(self, file, specs, types):
        name = str(file.relative_to(CRATES))
        if name in RULES:
            self.rules.add(name)
        elif name not in self.specs:
            text = file.read_text()
            self.specs[name] = text.count("\n")
            imports(name.split("/")[0], text, specs, types)

    def read_type(self, file, name, types):
        key = (str(file.relative_to(CRATES)), name)
        if OPERATIONS.match(name):
            self.rules.add(f"{key[0]}: {name}")
        elif key not in self.types:
            lines = block(file.read_text(), name)
            self.types[key] = len(lines)
            types.extend(named(key[0].split("/")[0], file, lines))

    def print_since(self, specs, types):
        """Prints what isn't among these."""
        for name, lines in self.specs.items():
            if name not in specs:
                print(f"{lines:5} {name}")
        new = {key: lines for key, lines in self.types.items() if key not in types}
        for file in sorted({file for file, _ in new}):
            parts = {name: lines for (of, name), lines in new.items() if of == file}
            print(f"{sum(parts.values()):5} {file}: {', '.join(sorted(parts))}")


def main():
    reading = Reading()
    (start, most), (further, most_besides) = BEGINNING, WITH_A_PATH
    print("a check from the beginning")
    reading.follow(start)
    reading.print_since({}, {})
    total = reading.total()
    print(f"{total:5} in all, of at most {most}")
    print(f"apart from the rules of the operations: {', '.join(sorted(reading.rules))}")
    layout = sorted({name for _, name in reading.types} & LAYOUT)
    if layout:
        print(f"how the code keeps things: {', '.join(layout)}")
    print("besides, a check that begins with a path's text")
    specs, types = dict(reading.specs), dict(reading.types)
    reading.follow(further)
    reading.print_since(specs, types)
    besides = reading.total() - total
    print(f"{besides:5} in all, of at most {most_besides}")
    return 1 if total > most or besides > most_besides or layout else 0


if __name__ == "__main__":
    sys.exit(main())
