#!/usr/bin/env python3
"""Makes the boards of this folder: NAME.board, the file, and NAME.txt, what it shows and the report that it gets by the second program.

usage: make.py [--check]      (--check: only say whether what stands here is what would be made)
"""
import os
import sys

here = os.path.dirname(os.path.abspath(__file__))
sys.path.insert(0, os.path.join(here, "..", "second"))
import boards
import made
import report

EXAMPLE = bytes.fromhex("0E000000 0E000000 0E000000 02 0300 0300 0001 0101 02 0700 0800 0101 0202 0C00 03 02 534C")
BITS, FULL = {0, 1}, set(range(32))


def row(low, high, *pairs):
    return low, high, list(pairs)


def nearly_sure(first, weight, value):
    """Nine full cells of weight 1 and one that may take the value only where all others are 0, since that reaches the highest sum alone."""
    return row(0, weight * value, *[(first + k, 1) for k in range(9)], (first + 9, weight))


def changed(data, at, byte):
    at %= len(data)
    return data[:at] + bytes([byte]) + data[at + 1 :]


MADE = {
    "example": ("Document 01's example. The first row leaves its cells 1 and 2; that leaves 3 in the last cell.", EXAMPLE),
    "figure": (
        "The Figure row of document 000, alone on a board: its last cell, value 1, is in 11 of its 22 good fillings.",
        ([{0, 1, 2}, {0, 1, 3}, {0, 1, 2}, {1, 2}], [row(5, 8, (0, 3), (1, 1), (2, 2), (3, 1))]),
    ),
    "dead": (
        "A dead board: the second row can't be completed, which empties its cells, and then those of the first.",
        ([{0, 1}, {0, 1}, {0, 1}], [row(1, 1, (0, 1), (1, 1)), row(7, 9, (1, 1), (2, 1))]),
    ),
    "empty": ("A cell in no row with an empty domain: the board is dead from the start, though its row is settled.", ([{4}, set()], [row(4, 4, (0, 1))])),
    "settled": ("Every cell comes down to one value.", ([{0, 1, 2, 3}, {0, 5}], [row(7, 7, (0, 2), (1, 1)), row(1, 1, (0, 1))])),
    "loose": ("The cell in no row keeps its three values; no cell that stands in a row has two, so the board is settled.", ([{2, 3}, {1, 8, 31}], [row(9, 10, (0, 3))])),
    "holes": ("A hole in a domain: the values 0 and 3 leave no sum of 1 or 2, though 1 and 2 lie between them.", ([{0, 3}, {0, 3}], [row(1, 2, (0, 1), (1, 1))])),
    "weight0": ("Weight 0: each value of the first cell is a filling of its own, three for each value of the second.", ([{0, 1, 2}, {4, 5}], [row(4, 5, (0, 0), (1, 1))])),
    "passes": (
        "Many passes: the rows stand against the way the strikes travel, so that each pass gets a row further.",
        ([{0}] + [{0, 1} for _ in range(9)], [row(1, 1, (k, 1), (k + 1, 1)) for k in reversed(range(9))]),
    ),
    "near": (
        "The two best shares, 2^45/(2^45 + 1) and (2^45 - 1)/2^45, give the same double. The larger stands in the later cells.",
        ([FULL] * 9 + [{0, 2}] + [FULL] * 9 + [{0, 3}], [nearly_sure(0, 139, 2), nearly_sure(10, 93, 3)]),
    ),
    "equal": (
        "Equal shares of different terms, 1/2 and 2/4: the lowest cell is advised, in the row where it stands.",
        ([BITS] * 4, [row(1, 1, (2, 1), (3, 1)), row(0, 0, (0, 0), (1, 0))]),
    ),
    "back": (
        "The advice is wrong: with 0 in the first cell the second row wants 3 of the other two, and the first row allows 2. A search goes back once.",
        ([{0, 1}, {0, 1, 2}, {0, 1, 2}], [row(0, 2, (1, 1), (2, 1)), row(3, 3, (0, 2), (1, 1), (2, 1))]),
    ),
    "odd": (
        "No filling, though no row strikes a value: the first row wants an odd sum of the last two cells, the second an even one. A search needs one choice to see it.",
        ([BITS] * 3, [row(1, 1, (1, 1), (2, 1)), row(2, 2, (0, 2), (1, 1), (2, 1))]),
    ),
    "refused-1": ("The second row has the length 11.", changed(EXAMPLE, 21, 11)),
    "refused-2": ("The first row's low is above its high.", changed(EXAMPLE, 13, 4)),
    "refused-6": ("Five bytes.", EXAMPLE[-5:]),
    "refused-7": ("The mark is wrong.", changed(EXAMPLE, -1, 0x53)),
    "refused-8": ("65 cells.", changed(EXAMPLE, -4, 65)),
    "refused-9": ("The start isn't four times the cells.", changed(EXAMPLE, -6, 13)),
    "refused-10": ("A byte is left over after the rows.", EXAMPLE[:-6] + bytes(1) + EXAMPLE[-6:]),
    "refused-11": ("The first row names the cell 3, and the board has 0 to 2.", changed(EXAMPLE, 17, 3)),
    "refused-12": ("The second row names the cell 1 twice.", changed(EXAMPLE, 28, 1)),
}


def files():
    for name, (shows, board) in MADE.items():
        data = board if isinstance(board, bytes) else boards.write(*board)
        yield name + ".board", data
        yield name + ".txt", f"{shows}\n\n{report.report(data)}".encode()


made.keep(here, files())
