#!/usr/bin/env python3
"""Finds, for each wrong idea, the smallest board on which its report is another, and the smallest on which its call is another; for a wrong
idea of the search, the smallest on which the search ends otherwise.

usage: smallest.py [--check] [IDEA..]      (--check: also say whether the boards of boards/ are those found)

Boards of a family are tried in order: by the file's size, then by the number of cells, the rows' lengths, and the numbers as they
stand in the file. On each board the implementation of ideas.py, with no wrong idea, must give the second program's report.
"""
import os
import sys
from itertools import accumulate, combinations, combinations_with_replacement, count, permutations, product

import ideas

import boards

# the values, the weights and the limits from which a family's boards are made
FAMILIES = {
    "span": (range(4), range(4), range(4)),
    "one-arc": (range(3), range(3), range(4)),
    "folded": (range(4), range(256), range(4)),
    "pinned": (range(4), range(4), range(4)),
    "skipped": (range(2), range(2), range(3)),
}
# for the search, a family of one shape: the number of cells, the values listed in each, the rows' lengths, and what they are made from
SEARCHED = {
    "one-branch": (2, 3, (2, 2), (range(5), range(1, 3), range(1, 7))),
    "every-level": (4, 2, (2, 4), (range(2), range(1, 4), range(1, 4))),
}
MANY = 1000  # choices, more than any of these boards needs


def lengths(size, most):
    """The lengths of rows that fill so many bytes, none above most."""
    if size == 0:
        yield ()
    for first in range(1, most + 1):
        if 5 + 2 * first <= size:
            for rest in lengths(size - 5 - 2 * first, most):
                yield (first, *rest)


def shapes():
    """Every number of cells with every lengths of rows, by the file's size."""
    for size in count(17):
        for cells in range(1, (size - 13) // 4 + 1):
            for rows in lengths(size - 6 - 4 * cells, min(cells, 10)):
                if rows:
                    yield cells, rows


def rows_of(cells, length, weights, limits, names_of=permutations):
    """Every row of a length, by its numbers in the file's order."""
    pairs = [list(zip(names, ws)) for names in names_of(range(cells), length) for ws in product(weights, repeat=length)]
    return [(low, high, chosen) for low in limits for high in limits if low <= high for chosen in sorted(pairs)]


def domains_of(values):
    return [{values[k] for k in range(len(values)) if bits >> k & 1} for bits in range(1 << len(values))]


def family(values, weights, limits):
    """The board files of a family, in order."""
    for cells, shape in shapes():
        rows = [rows_of(cells, length, weights, limits) for length in shape]
        for chosen in product(domains_of(values), repeat=cells):
            for board in product(*rows):
                yield boards.write(chosen, board)


def settled_family(cells, listed, shape, ranges):
    """The board files of one shape, in order, whose rows name their cells in order and strike nothing: a board that settling changes is
    searched as the one that it leaves."""
    values, *rest = ranges
    rows = [rows_of(cells, length, *rest, combinations) for length in shape]
    for chosen in product([d for d in domains_of(values) if len(d) == listed], repeat=cells):
        idle = [[row for row in these if all(ideas.counts(ideas.Right(), row, chosen)[1].values())] for these in rows]
        for board in product(*idle):
            yield boards.write(chosen, board)


def agreed(ours, theirs, data):
    """What ideas.py prints with no wrong idea, which the second program must print too."""
    if ours != theirs:
        sys.exit(f"ideas.py and the second program differ on {data.hex(' ')}")
    return ours


def right_report(data):
    return agreed(ideas.report(ideas.Right(), data), ideas.second.report(data), data)


def right_search(data):
    return agreed(ideas.search(ideas.Right(), data, MANY), ideas.second_search.printed(data, MANY)[0], data)


def search(idea, files):
    """The first file with another report, the first with another call, and how many were tried."""
    other = None
    for tried, data in enumerate(files, 1):
        right, wrong = right_report(data), ideas.report(idea, data)
        if right != wrong and other is None:
            other = data
        if ideas.call(right) != ideas.call(wrong):
            return other, data, tried


def search_ends(idea, files):
    """The first file whose search ends otherwise, and how many were tried."""
    for tried, data in enumerate(files, 1):
        if ideas.ending(right_search(data)) != ideas.ending(ideas.search(idea, data, MANY)):
            return data, tried


# ---- doubles: boards made so that two shares lie close together


def fewest(weights, most=5):
    """For j from 0 to most: how many fillings of full cells, of these weights, have a sum of at most j."""
    layer = {0: 1}
    for weight in weights:
        layer = ideas.moved(ideas.Right(), layer, range(0, 32 * weight, weight), most)
    return list(accumulate(layer.get(j, 0) for j in range(most + 1)))


def near_sure(full):
    """Rows of one cell {0, a} and some full cells, where one of the two values is nearly sure: its share, as count and total, with the
    full cells' weights, the sums cut off at one end, those that the other value leaves at the other end, and weight times a."""
    for weights in combinations_with_replacement(range(1, 5), full):
        top = 31 * sum(weights)
        few = fewest(weights) if top <= 511 else []
        for cut, left in product(range(len(few) + 1), range(len(few))):
            sure = 32**full - (few[cut - 1] if cut else 0)
            if top - cut - left > 0:
                yield sure, sure + few[left], weights, cut, left, top - cut - left


def row_for(row, high_value, a):
    """The row's limits and pairs; the cell {0, a} is cell 0, and the value that is nearly sure is a or 0."""
    _, _, weights, cut, left, step = row
    pairs = [(0, step // a)] + [(k + 1, w) for k, w in enumerate(weights)]
    top = 31 * sum(weights)
    return (top - left, step + top, pairs) if high_value else (0, top - cut, pairs)


def near_boards():
    """Boards of one cell {0, a} and full cells, with two such rows whose shares differ and give the same double; the larger for a."""
    for m, n in sorted(((m, n) for m in range(1, 10) for n in range(1, m + 1)), key=lambda mn: 6 * mn[0] + 2 * mn[1]):
        by_double = {}
        for row in near_sure(n):
            by_double.setdefault(row[0] / row[1], []).append(row)
        for long in near_sure(m):
            for short in by_double.get(long[0] / long[1], []):
                difference = long[0] * short[1] - short[0] * long[1]
                for a in range(1, 32 if difference else 1):
                    fits = all(row[5] % a == 0 and row[5] // a <= 255 for row in (long, short))
                    made = [row_for(long, difference > 0, a), row_for(short, difference < 0, a)]
                    if fits and max(high for _, high, _ in made) <= 511:
                        yield boards.write([{0, a}] + [set(range(32))] * m, made)


def smallest(name):
    """The board found for an idea, and what is said of it."""
    if name in SEARCHED:
        data, tried = search_ends(ideas.WRONG_SEARCH[name], settled_family(*SEARCHED[name]))
        return data, f"{tried} boards tried; ending: {len(data)} bytes {data.hex()}"
    files = near_boards() if name == "doubles" else family(*FAMILIES[name])
    other, data, tried = search(ideas.WRONG[name], files)
    return data, f"{tried} boards tried; report: {len(other)} bytes {other.hex()}; call: {len(data)} bytes {data.hex()}"


def main():
    names = [a for a in sys.argv[1:] if not a.startswith("-")] or [*ideas.WRONG, *ideas.WRONG_SEARCH]
    for name in names:
        data, said = smallest(name)
        print(f"{name}: {said}", flush=True)
        with open(os.path.join(ideas.here, "boards", name + ".board"), "rb" if "--check" in sys.argv else "wb") as f:
            if "--check" not in sys.argv:
                f.write(data)
            elif f.read() != data:
                sys.exit(f"{name}: the board of boards/ is another")


if __name__ == "__main__":
    main()
