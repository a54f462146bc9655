#!/usr/bin/env python3
"""Holds the lessons to what they quote.

usage: check.py [--program PATH] [--search PATH] [--log PATH]

A fenced block of a page opens with what it holds and a name:
  hex NAME                     the bytes of boards/NAME.board
  board NAME                   boards/NAME.txt, which is what boards/text.py prints of the file
  right NAME                   what the report program prints on it
  wrong NAME                   what the wrong idea NAME of ideas.py prints on it; it must be another call
  search NAME CHOICES          what the search program prints on it, with so many choices
  wrong-search NAME CHOICES    what the wrong idea NAME of ideas.py prints then; it must end otherwise
  definition PATH              lines that stand together in that file
  edit CRATE/LABEL             the whole of that must-fail edit
  says CRATE/LABEL             what the prover says of it first; parts left out are marked by ' .. '. Compared where a log of `rt ci` is given,
                               which has the beginning of it
"""
import argparse
import glob
import os
import re
import subprocess
import sys
from collections import Counter

import ideas

root = os.path.normpath(os.path.join(ideas.here, "..", ".."))
options = argparse.ArgumentParser()
options.add_argument("--program", default=os.path.join(root, "target", "bin", "report"))
options.add_argument("--search", default=os.path.join(root, "target", "bin", "finish"))
options.add_argument("--log")
options = options.parse_args()

BLOCK = re.compile(r"^```(hex|board|right|wrong|search|wrong-search|definition|edit|says) (\S+(?: \d+)?)\n(.*?)^```$", re.M | re.S)


def content(*path):
    with open(os.path.join(root, *path), "rb") as f:
        return f.read()


def board(name, kind="board"):
    return content("docs", "lessons", "boards", f"{name}.{kind}")


def printed(command, data):
    return subprocess.run(command, input=data, stdout=subprocess.PIPE, check=True).stdout.decode()


def same_hex(name, text):
    return bytes.fromhex(text) == board(name)


def same_board(name, text):
    tool = [sys.executable, os.path.join(root, "boards", "text.py"), "to-text"]
    return text == board(name, "txt").decode() == printed(tool, board(name))


def same_right(name, text):
    return text == printed([options.program], board(name))


def same_wrong(name, text):
    right = ideas.second.report(board(name))
    return text == ideas.report(ideas.WRONG[name], board(name)) and ideas.call(text) != ideas.call(right)


def right_search(name, choices):
    """What the search program prints, which ideas.py must print with no wrong idea."""
    right = printed([options.search, choices], board(name))
    if ideas.search(ideas.Right(), board(name), int(choices)) != right:
        sys.exit(f"ideas.py and the search program differ on {name} with {choices} choices")
    return right


def same_search(name, text):
    return text == right_search(*name.split())


def same_wrong_search(name, text):
    name, choices = name.split()
    right = right_search(name, choices)
    return text == ideas.search(ideas.WRONG_SEARCH[name], board(name), int(choices)) and ideas.ending(text) != ideas.ending(right)


def same_definition(name, text):
    return text in content(*name.split("/")).decode()


def edit_path(name):
    crate, label = name.split("/")
    return "crates", crate, "must-fail", label + ".edit"


def same_edit(name, text):
    return text == content(*edit_path(name)).decode()


def same_says(name, text):
    """Each part stands in the log's line of that edit, after the part before it."""
    if options.log is None:
        return None
    with open(options.log, encoding="utf-8", errors="replace") as f:
        said = "".join(line for line in f if f"must-fail {name}.edit: refused" in line)
    at = 0
    for part in re.split(r" \.\. |\n", text.strip()):
        at = said.find(part.strip(), at)
        if at < 0:
            return False
        at += len(part.strip())
    return True


TESTS = {"hex": same_hex, "board": same_board, "right": same_right, "wrong": same_wrong, "search": same_search, "wrong-search": same_wrong_search}
TESTS |= {"definition": same_definition, "edit": same_edit, "says": same_says}
done, wrong, shown = Counter(), 0, set()
for path in sorted(glob.glob(os.path.join(ideas.here, "*.md"))):
    with open(path, encoding="utf-8") as f:
        page = f.read()
    for kind, name, text in BLOCK.findall(page):
        held = TESTS[kind](name, text)
        done[kind if held is not None else kind + " (no log)"] += 1
        shown.add((kind, name.split()[0]))
        if held is False:
            wrong += 1
            print(f"{os.path.basename(path)}: the block '{kind} {name}' is not what stands or is printed there")
wanted = [(kind, name) for name in ideas.WRONG for kind in ("hex", "board", "right", "wrong")]
wanted += [(kind, name) for name in ideas.WRONG_SEARCH for kind in ("hex", "board", "search", "wrong-search")]
missing = [f"'{kind} {name}'" for kind, name in wanted if (kind, name) not in shown]
if wrong or missing:
    sys.exit(f"{wrong} blocks of the lessons are wrong, {len(missing)} are missing {', '.join(missing)}".rstrip())
print("the lessons hold: " + ", ".join(f"{n} {kind}" for kind, n in done.items()))
