#!/usr/bin/env python3
"""The report on a board file, written from document 01 alone: sums in dictionaries, no tables, exact fractions.

usage: report.py < FILE
"""
import sys
from fractions import Fraction


class Refused(Exception):
    """A number for no."""


def number(data):
    return int.from_bytes(data, "little")


def read_row(data, at, end, cells):
    """The row at a place of the file, as its limits and its pairs of cell and weight, and the place after it."""
    if at + 5 > end:
        raise Refused(10)
    length, low, high = data[at], number(data[at + 1 : at + 3]), number(data[at + 3 : at + 5])
    if not 1 <= length <= 10:
        raise Refused(1)
    if low > high or high > 511:
        raise Refused(2)
    after = at + 5 + 2 * length
    if after > end:
        raise Refused(10)
    pairs = []
    for k in range(length):
        cell, weight = data[at + 5 + 2 * k], data[at + 6 + 2 * k]
        if cell >= cells:
            raise Refused(11)
        if cell in [c for c, _ in pairs]:
            raise Refused(12)
        pairs.append((cell, weight))
    return (low, high, pairs), after


def read(data):
    """The board of a file: a set of values for each cell, and the rows."""
    if not 6 <= len(data) <= 1062:
        raise Refused(6)
    end = len(data) - 6
    if data[-2:] != b"\x53\x4c":
        raise Refused(7)
    cells, rows = data[end + 2], data[end + 3]
    if not 1 <= cells <= 64 or not 1 <= rows <= 32:
        raise Refused(8)
    start = number(data[end : end + 2])
    if start != 4 * cells or start > end:
        raise Refused(9)
    domains = []
    for cell in range(cells):
        bits = number(data[4 * cell : 4 * cell + 4])
        domains.append({v for v in range(32) if bits >> v & 1})
    board, at = [], start
    for _ in range(rows):
        row, at = read_row(data, at, end, cells)
        board.append(row)
    if at != end:
        raise Refused(10)
    return domains, board


def ways(pairs, domains, high):
    """For each sum up to high, in how many ways the cells of these pairs reach it."""
    sums = {0: 1}
    for cell, weight in pairs:
        more = {}
        for value in domains[cell]:
            for s, n in sums.items():
                if s + weight * value <= high:
                    more[s + weight * value] = more.get(s + weight * value, 0) + n
        sums = more
    return sums


def total(row, domains):
    low, high, pairs = row
    return sum(n for s, n in ways(pairs, domains, high).items() if s >= low)


def counts(row, domains):
    """The count of each listed value of each cell of the row: all other cells are filled, then this one."""
    low, high, pairs = row
    found = {}
    for k, (cell, weight) in enumerate(pairs):
        others = ways(pairs[:k] + pairs[k + 1 :], domains, high)
        for value in domains[cell]:
            found[cell, value] = sum(n for s, n in others.items() if low <= s + weight * value <= high)
    return found


def settle(domains, board):
    """Passes in file order until one strikes nothing: the domains left, the passes and how many values are gone."""
    domains = [set(d) for d in domains]
    passes = struck = 0
    while True:
        passes += 1
        before = struck
        for row in board:
            for (cell, value), n in counts(row, domains).items():
                if n == 0:
                    domains[cell].remove(value)
                    struck += 1
        if struck == before:
            return domains, passes, struck


def move(domains, board):
    """The advised move as cell, value, row, count and total; DEAD or SETTLED where there is none."""
    if not all(domains):
        return "DEAD"
    best = None
    for line, row in enumerate(board):
        whole = total(row, domains)
        for (cell, value), n in counts(row, domains).items():
            if len(domains[cell]) >= 2:
                # the highest share; then the lowest cell, value and row
                rank = (-Fraction(n, whole), cell, value, line)
                if best is None or rank < best[0]:
                    best = (rank, n, whole)
    if best is None:
        return "SETTLED"
    (_, cell, value, line), n, whole = best
    return cell, value, line, n, whole


def advice(domains, board):
    """The report's last line."""
    advised = move(domains, board)
    if advised in ("DEAD", "SETTLED"):
        return advised
    return "ADVICE CELL {} VALUE {} LINE {} COUNT {} TOTAL {}".format(*advised)


def cell_lines(domains):
    """A line for each cell, its values rising."""
    return [f"CELL {cell} VALUES {' '.join(map(str, sorted(values))) or 'NONE'}" for cell, values in enumerate(domains)]


def text(lines):
    """Lines as a program prints them."""
    return "".join(line + "\n" for line in lines)


def report(data):
    try:
        domains, board = read(data)
    except Refused as refusal:
        return text([f"REFUSED {refusal}"])
    domains, passes, struck = settle(domains, board)
    lines = [f"CELLS {len(domains)} LINES {len(board)}", f"PASSES {passes} STRUCK {struck}", *cell_lines(domains)]
    lines += [f"LINE {line} TOTAL {total(row, domains)}" for line, row in enumerate(board)]
    return text([*lines, advice(domains, board)])


if __name__ == "__main__":
    sys.stdout.write(report(sys.stdin.buffer.read()))
