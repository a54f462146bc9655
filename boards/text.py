#!/usr/bin/env python3
"""Boards by hand: a plain text board to a board file, and a board file to text. docs/TEXT.md says how the text is written.

usage: text.py to-file < TEXT > FILE
       text.py to-text < FILE > TEXT

What is refused is said on standard error, with exit 1 and nothing on standard output: bad text with its line and the reason,
a bad file with document 01's number and words. Files are made by the library's writer alone, which refuses what the reader would.
"""
import argparse
import itertools
import os
import re
import sys

sys.path.insert(0, os.path.join(os.path.dirname(os.path.abspath(__file__)), "..", "lib", "python"))
import tanglepunt
from tanglepunt import BOARD_CELLS, BOARD_ROWS, ROW_CELLS

VALUE, WEIGHT, LIMIT = 31, 255, 511  # document 01's largest
DIGITS = 3  # no number of a board has more
WORDS = re.compile(r"[0-9]+|[A-Za-z]+|[-:*+]")


class Bad(Exception):
    """Why text is refused."""


def shown(word):
    return repr(word) if word else "the line's end"


class Line:
    """The words, numbers and signs of a line, taken from its front."""

    def __init__(self, data):
        try:
            text = data.decode()
        except UnicodeDecodeError:
            raise Bad("bytes that are not UTF-8 text") from None
        text = text.removesuffix("\r").partition("#")[0]
        self.left = WORDS.findall(text)
        stray = re.sub("[ \t]", "", WORDS.sub("", text))
        if stray:
            raise Bad(f"stray character {ascii(stray[0])}")

    def next(self):
        return self.left[0] if self.left else ""

    def takes(self, word):
        """Takes the word where it is next, and says whether it was."""
        found = self.next() == word
        if found:
            del self.left[:1]
        return found

    def need(self, word):
        if not self.takes(word):
            raise Bad(f"{shown(self.next())} where {shown(word)} should stand")

    def number(self, what, most=10**DIGITS):
        word = self.next()
        if not word.isdigit():
            raise Bad(f"{shown(word)} where a number should stand for the {what}")
        if len(word) > DIGITS:
            raise Bad(f"{what} of more than {DIGITS} digits")
        if int(word) > most:
            raise Bad(f"{what} {int(word)} is above {most}")
        return int(self.left.pop(0))


def domain_in(line):
    """none, or values and ranges of values, rising."""
    if line.takes("none"):
        line.need("")
        return 0
    if not line.left:
        raise Bad("no values; an empty domain is written none")
    domain, top = 0, -1
    while line.left:
        first = line.number("value", VALUE)
        last = line.number("value", VALUE) if line.takes("-") else first
        if first <= top:
            raise Bad(f"values rise, but {first} comes after {top}")
        if last < first:
            raise Bad(f"values rise, but {last} comes after {first}")
        domain |= sum(1 << v for v in range(first, last + 1))
        top = last
    return domain


def add_cell(board, line):
    if board.rows:
        raise Bad("a cell after a row; the cells stand first")
    cell, there = line.number("cell"), len(board.domains)
    if cell < there:
        raise Bad(f"cell {cell} stands twice")
    if there == BOARD_CELLS:
        raise Bad(f"more than {BOARD_CELLS} cells")
    if cell > there:
        raise Bad(f"cell {cell} where cell {there} should stand")
    line.need(":")
    board.domains.append(domain_in(line))


def add_pair(board, row, line):
    if len(row.cells) == ROW_CELLS:
        raise Bad(f"more than {ROW_CELLS} cells in a row")
    weight = line.number("weight", WEIGHT)
    line.need("*")
    line.need("c")
    cell = line.number("cell")
    if cell >= len(board.domains):
        raise Bad(f"the row names cell {cell}, and the board's last is {len(board.domains) - 1}")
    if cell in row.cells:
        raise Bad(f"the row names cell {cell} twice")
    row.cells.append(cell)
    row.weights.append(weight)


def add_row(board, line):
    if not board.domains:
        raise Bad("a row, and the board has no cells yet")
    if len(board.rows) == BOARD_ROWS:
        raise Bad(f"more than {BOARD_ROWS} rows")
    low = line.number("low", LIMIT)
    line.need("to")
    high = line.number("high", LIMIT)
    if low > high:
        raise Bad(f"low {low} is above high {high}")
    line.need(":")
    if not line.left:
        raise Bad("the row has no cells")
    row = tanglepunt.Row(low, high, [], [])
    add_pair(board, row, line)
    while line.left:
        line.need("+")
        add_pair(board, row, line)
    board.rows.append(row)


def add_line(board, line):
    if line.takes("cell"):
        add_cell(board, line)
    elif line.takes("row"):
        add_row(board, line)
    elif line.left:
        raise Bad(f"unknown word {shown(line.next())}; a line begins with cell or row")


def board_in(text):
    """The board that the bytes of a text say."""
    board = tanglepunt.Board([], [])
    lines = text.removesuffix(b"\n").split(b"\n")
    for number, data in enumerate(lines, 1):
        try:
            add_line(board, Line(data))
        except Bad as bad:
            raise Bad(f"line {number}: {bad}") from None
    for things, there in ("cells", board.domains), ("rows", board.rows):
        if not there:
            raise Bad(f"line {len(lines)}: the text ends, and the board has no {things}")
    return board


def values_of(domain):
    """The values that a domain lists; three or more in turn are a range."""
    listed = [v for v in range(VALUE + 1) if domain >> v & 1]
    words = []
    for _, run in itertools.groupby(enumerate(listed), lambda at: at[1] - at[0]):
        run = [v for _, v in run]
        words += [f"{run[0]}-{run[-1]}"] if len(run) > 2 else map(str, run)
    return " ".join(words) or "none"


def text_of(board):
    for cell, domain in enumerate(board.domains):
        yield f"cell {cell}: {values_of(domain)}\n"
    for row in board.rows:
        pairs = " + ".join(f"{weight}*c{cell}" for cell, weight in zip(row.cells, row.weights))
        yield f"row {row.low} to {row.high}: {pairs}\n"


def to_file(text):
    return tanglepunt.write(board_in(text))


def to_text(file):
    return "".join(text_of(tanglepunt.read(file))).encode()


if __name__ == "__main__":
    ways = {"to-file": to_file, "to-text": to_text}
    options = argparse.ArgumentParser(description="Turns a plain text board into a board file, or a file into text.")
    options.add_argument("way", choices=ways)
    way = ways[options.parse_args().way]
    try:
        made = way(sys.stdin.buffer.read())
    except (Bad, tanglepunt.Refused) as no:
        sys.exit(str(no))
    sys.stdout.buffer.write(made)
