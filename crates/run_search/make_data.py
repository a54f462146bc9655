#!/usr/bin/env python3
"""Writes the board files under data/, args (each file with the numbers of choices that tell, by the second program) and stdout: how the
second program ends each search, and what R-1 says of rooms that are too short, just long enough and longer.

usage: make_data.py [--check]      (--check: only say whether what stands here is what would be made)
"""
import itertools
import os
import random
import sys

here = os.path.dirname(os.path.abspath(__file__))
root = os.path.join(here, "..", "..")
sys.path[:0] = [os.path.join(root, "second"), os.path.join(root, "boards")]
import boards
from made import keep
from report import Refused, read
from search import search

LARGEST = 2**64 - 1
TABLE, ROOM, STACK = 5632, 64, 4096
MORE = 4  # entries past those that a search needs

# Two tables, domain room and stack room, in the order in which the program lends them.
LENT = [
    (TABLE, TABLE, ROOM, STACK),
    (TABLE, TABLE, ROOM + MORE, STACK + MORE),
    (TABLE - 1, TABLE, ROOM, STACK),
    (TABLE, TABLE - 1, ROOM, STACK),
    (TABLE, TABLE, ROOM - 1, STACK),
    (TABLE, TABLE, ROOM, STACK - 1),
    (TABLE, TABLE, ROOM - 1, STACK - 1),
    (TABLE - 1, TABLE - 1, ROOM - 1, STACK - 1),
    (0, 0, 0, 0),
]


def stored(name):
    with open(os.path.join(root, "boards", name + ".board"), "rb") as f:
        return f.read()


def with_loose_cell(data):
    """The same board and a cell in no row, which takes its lowest value only where the search ends with a filling."""
    domains, rows = read(data)
    return domains + [{5, 9}], rows


def split(seed):
    """A market split of document 002, section 5: two rows through the same ten cells of 0 and 1, coefficients from 0 to 99, and half of
    their sum to be met. A row whose sum is odd is drawn again."""
    source, rows = random.Random(seed), []
    while len(rows) < 2:
        weights = [source.randint(0, 99) for _ in range(10)]
        half, odd = divmod(sum(weights), 2)
        if not odd:
            rows.append((half, half, list(enumerate(weights))))
    return [{0, 1}] * 10, rows


def deep():
    """64 cells of which no choice settles another: each of 64 choices takes a level."""
    rows = [(0, 0, [(c, 0) for c in range(first, min(first + 10, 64))]) for first in range(0, 64, 10)]
    return [{0, 1}] * 64, rows


FILES = {name: stored(name) for name in ["example", "settled", "loose", "dead", "empty", "back", "odd", "refused-7"]}
MADE = {
    "example_and_loose": with_loose_cell(FILES["example"]),
    "split_solved": split(1977),  # of the seeds from 0 on, the first whose board has a filling and needs three choices
    "split_none": split(950),  # the first whose board has none and needs five
    "pigeons_4_4": boards.pigeons_in_holes(4, 4),
    "pigeons_5_4": boards.pigeons_in_holes(5, 4),
    "deep": deep(),
}
FILES |= {name: boards.write(*board) for name, board in MADE.items()}


def numbers(data):
    """None at all, one fewer than the board needs, just enough, and the largest. A refused file needs no choice."""
    try:
        _, _, purse = search(*read(data), LARGEST)
    except Refused:
        return [0, LARGEST]
    needs = purse.followed
    return sorted({0, max(0, needs - 1), needs, LARGEST})


def cells_said(domains):
    """Neighbours with the same values are said together."""
    said = []
    for values, alike in itertools.groupby(domains):
        times = len(list(alike))
        said.append((f"{times} TIMES " if times > 1 else "") + (" ".join(map(str, sorted(values))) or "NONE"))
    return ", ".join(said)


def choices_line(name, data, given):
    try:
        ending, domains, purse = search(*read(data), given)
    except Refused as refusal:
        return f"{name} GIVEN {given} REFUSED {refusal} LEFT {given}"
    return f"{name} GIVEN {given} {ending} FOLLOWED {purse.followed} LEFT {purse.left} CELLS {cells_said(domains)}"


def refusal(data, forward, backward, room, stack):
    """R-1's order: 3, 13, 15, then the file's number; None where nothing is refused."""
    for number, short in (3, min(forward, backward) < TABLE), (13, room < ROOM), (15, stack < STACK):
        if short:
            return number
    try:
        read(data)
    except Refused as number:
        return number
    return None


def rooms_line(name, data, *lent):
    """Ten choices in rooms so long. What is written stands at the front of each room; all else is as it was."""
    number = refusal(data, *lent)
    if number:
        said, zeros, cells = f"REFUSED {number} LEFT 10", 0, 0
    else:
        ending, domains, purse = search(*read(data), 10)
        said, zeros, cells = f"{ending} FOLLOWED {purse.followed} LEFT {purse.left}", STACK, len(domains)
    kept = f"STACK ZEROS {zeros} KEPT {STACK + MORE - zeros}, ROOM KEPT {ROOM + MORE - cells}"
    return "{} TABLES {} {} ROOM {} STACK {}, {}, {}".format(name, *lent, said, kept)


def made():
    """Each file of this folder that is made, and its bytes."""
    runs = [(name, data, given) for name, data in FILES.items() for given in numbers(data)]
    lines = [choices_line(*run) for run in runs]
    lines += [rooms_line(name, FILES[name], *lent) for name in ["example", "refused-7"] for lent in LENT]
    yield from ((os.path.join("data", name), data) for name, data in FILES.items())
    yield "args", "".join(f"{name}\n{given}\n" for name, _, given in runs).encode()
    yield "stdout", "".join(line + "\n" for line in lines).encode()


left_over = [os.path.join("data", name) for name in os.listdir(os.path.join(here, "data")) if name not in FILES]
keep(here, made(), left_over)
