#!/usr/bin/env python3
"""Spells the repository's own definitions, lemmas, fields and constructors in snake case: howMany and size-drop become how_many and size_drop.

usage: tools/respell.py [--list]      at the top of the repository, once, on the tree that port.py left; --list only prints the rows

What turns: each name that begins with a small letter, has a dash or a capital inside, and is declared in specs/ or in a lemma file of proofs/, or as a
helper of a function's proof. It turns in .antt files, in the clauses and `ghost use` lines of .rt files, and in must-fail/*.edit. It stays in a file that
imports a name so spelled from a library, in strings, and behind a dot in a function's proof where it is no field of the repository's. A dashed word of
a comment is English and stays; a camelCase one turns.
"""

import glob
import os
import re
import sys

NAME = r"[^\s(){}.;,@\"«»:`]+"
WORD = re.compile(r"\"(?:[^\"\\\n]|\\.)*\"|--[^\n]*|//[^\n]*|[^\s(){}.;,@\"«»:`]+|.", re.S)
DECLARED = re.compile(rf"(?m)^ *(?:(?:abbrev|unfoldable|pub|data|record|ruleset|mutual) +)*({NAME})(?: +\{{[^\n]*?\}})? (?::|=)([^\n]*)")
TURNS = re.compile(r"[a-z][A-Za-z0-9'-]*$")
# What the prover makes of the code; a function's proof declares them under the same names.
MADE = re.compile(r"tie\.|statement|goal\.")
# A dash between plain words, or a capital inside a word.
SPELLED = re.compile(r"-|[a-z0-9][A-Z]")
# The prover's own parts, which a function's proof names behind a dot or imports.
LIBRARY = re.compile(r"(?m)^\s*(?:ghost )?use ([A-Za-z_]+(?:\.[^\s{]+)?)\.\{([^}]*)\}")
# A law that would have the name of what it speaks of gets the library's ending for that.
LAWS = ("by-cell", "file-size", "layer-at", "some-empty", "bit-and", "bit-or", "in-float", "settled-of", "by_value", "on_none", "one_left")


def new_name(old):
    words = re.sub(r"(?<=[a-z0-9])([A-Z])", lambda m: "_" + m[1].lower(), old)
    return words.replace("-", "_") + ("_lem" if old in LAWS else "")


def texts(kinds):
    for kind in kinds:
        yield from sorted(glob.glob(f"crates/*/{kind}", recursive=True))


# The fields of the records that the repository declares; behind a dot in a function's proof stand the prover's own fields too.
RECORD = re.compile(r"(?m)^( *)(?:pub )?record [^\n]*where\n((?:\1 +[^\n]*\n|\n)*)")
FIELD = re.compile(rf"(?m)^ +(?:pub )?({NAME}) :")


def read(path):
    with open(path, encoding="utf-8") as f:
        return f.read()


def table():
    rows = {old: new_name(old) for old in LAWS}
    for path in texts(["specs/**/*.antt", "proofs/**/*.antt"]):
        for m in DECLARED.finditer(read(path)):
            old = m[1]
            if TURNS.match(old) and SPELLED.search(old) and not MADE.search(m[2]):
                rows[old] = new_name(old)
    return rows


def fields():
    found = set()
    for path in texts(["specs/**/*.antt", "proofs/**/*.antt"]):
        for m in RECORD.finditer(read(path)):
            found |= {f[1] for f in FIELD.finditer(m[2])}
    return found


def ours(module, crates):
    parts = module.split(".")
    return parts[0] == "Rattle" and len(parts) > 1 and parts[1] in crates and "proofs" != parts[2:3] and parts[-1] not in ("Statement", "Tie")


def foreign(text, crates):
    """The names that a file takes from a library or from what the prover makes."""
    names = set()
    for m in LIBRARY.finditer(text):
        if not ours(m[1], crates):
            names |= {w for it in m[2].split(",") for w in it.split()}
    return names


def turned(text, rows, behind_dot):
    out, last, dot = [], "", ""
    for m in WORD.finditer(text):
        w = m[0]
        if w.startswith(("--", "//")):
            w = re.sub(r"[A-Za-z][A-Za-z0-9]*", lambda k: rows.get(k[0], k[0]) if re.search(r"[a-z0-9][A-Z]", k[0]) else k[0], w)
        elif not w.startswith('"') and w in rows and (dot != "." or last not in ("tie", "goal") and w in behind_dot):
            w = rows[w]
        if w == ".":
            dot = "."
        elif not w.isspace():
            last, dot = w, ""
        else:
            dot = ""
        out.append(w)
    return "".join(out)


def main():
    rows = table()
    if "--list" in sys.argv:
        for old in sorted(rows):
            print(f"{old}\t{rows[old]}")
        return 0
    crates = set(os.listdir("crates"))
    # port.py respelled some of the names before, but in no must-fail edit.
    declared = {m[1] for path in texts(["specs/**/*.antt", "proofs/**/*.antt"]) for m in DECLARED.finditer(read(path))} | set(rows.values())
    behind = {True: fields(), False: set(rows)}
    for path in texts(["specs/**/*.antt", "proofs/**/*.antt", "src/**/*.rt", "must-fail/*.edit"]):
        text = read(path)
        here = {k: v for k, v in rows.items() if k not in foreign(text, crates)}
        if path.endswith(".edit"):
            here |= {w: new_name(w) for w in re.findall(NAME, text) if TURNS.match(w) and SPELLED.search(w) and new_name(w) in declared}
        new = turned(text, here, behind["/proofs/" in path and path.endswith("/Proof.antt")])
        if new != text:
            with open(path, "w", encoding="utf-8") as f:
                f.write(new)
            print(path)
    return 0


if __name__ == "__main__":
    raise SystemExit(main())
