#!/usr/bin/env python3
"""The files of definitions in reading order, with their lines, as the table of believe.md.

usage: definitions.py [--check]      (without: print the table; --check: only say whether believe.md has it)

A file of definitions is one whose first line says "Definitions only". Its lines are all its lines, as `wc -l` counts them. A file is
cited where the imports of the exported calls' contracts (crates/tanglepunt/src/lib.rt) lead to it, from file to file.
"""
import glob
import os
import re
import sys

here = os.path.dirname(os.path.abspath(__file__))
root = os.path.normpath(os.path.join(here, "..", ".."))
IMPORT = re.compile(r"^(?:ghost )?use Rattle\.(\w+)\.(specs|proofs)\.(\w+)", re.M)
MARK = "Definitions only"


def content(path):
    with open(os.path.join(root, path), encoding="utf-8") as f:
        return f.read()


def reached(path):
    """The repository's files to which a file's imports lead, itself left out. What is `declared` in the code as a type has no file."""
    found, todo, ours = set(), [path], crates()
    while todo:
        for crate, folder, name in IMPORT.findall(content(todo.pop())):
            to = f"crates/{crate}/{folder}/{name}.antt"
            if crate in ours and to not in found and name != "declared":
                found.add(to)
                todo.append(to)
    return found


def lines(paths):
    return sum(content(path).count("\n") for path in paths)


def crates():
    return [line.split(":")[0].split()[0] for line in content("crates.txt").splitlines() if ":" in line and not line.startswith("#")]


def table():
    """The files that the contracts reach, then the others, each part from the lowest crate up."""
    order = crates()
    files = [p[len(root) + 1 :] for p in glob.glob(os.path.join(root, "crates", "*", "specs", "*.antt"))]
    files = sorted(files, key=lambda p: (order.index(p.split("/")[1]), p))
    definitions = [p for p in files if MARK in content(p).splitlines()[0]]
    cited = reached("crates/tanglepunt/src/lib.rt")
    strangers = sorted(cited - set(definitions))
    if strangers:
        sys.exit("the contracts reach files that are not definitions only: " + ", ".join(strangers))
    for part, title in [([p for p in definitions if p in cited], "cited"), ([p for p in definitions if p not in cited], "inner")]:
        yield f"| {title} | lines | what it says |"
        yield "|---|---|---|"
        for path in part:
            crate, _, name = path.split("/")[1:]
            says = content(path).splitlines()[0].removeprefix("-- ").split(MARK)[0].strip()
            yield f"| `{crate}/{name.removesuffix('.antt')}` | {lines([path])} | {says} |"
        yield f"| {len(part)} files | {lines(part)} | |"
        yield ""
    yield f"Together {len(definitions)} files, {lines(definitions)} lines."


def main():
    rows = "\n".join(table())
    if "--check" not in sys.argv:
        print(rows)
    elif rows not in content("docs/lessons/believe.md"):
        sys.exit("docs/lessons/believe.md has another table than definitions.py prints")
    else:
        print("docs/lessons/believe.md lists every file of definitions")


if __name__ == "__main__":
    main()
