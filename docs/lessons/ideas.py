"""The report on a board, and the search that finishes it, by a small reference implementation: the right idea, and each wrong one as the
same with one method changed."""
import os
import sys
from fractions import Fraction

here = os.path.dirname(os.path.abspath(__file__))
sys.path.insert(0, os.path.join(here, "..", "..", "second"))
import report as second
import search as second_search


class Right:
    def domain(self, listed):
        """A cell's values, of those that the file lists."""
        return listed

    def arcs(self, weight, values):
        """What the values of a cell bring to the sum: an arc for each."""
        return [weight * v for v in values]

    def reached(self, s, high):
        """A partial sum as it is kept, or None where nothing good can follow."""
        return s if s <= high else None

    def visited(self, number, struck_first):
        """Whether a pass visits a row that struck so many values in the first pass."""
        return True

    def share(self, count, total):
        return Fraction(count, total)

    def left_out(self, removed):
        """Where a branch of the search holds no filling: the cells and values that go, of those removed so far; None ends the search."""
        return removed[-1:]


class Span(Right):
    def domain(self, listed):
        return set(range(min(listed), max(listed) + 1)) if listed else listed


class OneArc(Right):
    def arcs(self, weight, values):
        return sorted({weight * v for v in values})


class Folded(Right):
    def reached(self, s, high):
        return super().reached(s % 512, high)


class Pinned(Right):
    def reached(self, s, high):
        return min(s, high)


class Skipped(Right):
    def visited(self, number, struck_first):
        return number == 1 or struck_first > 0


class Doubles(Right):
    def share(self, count, total):
        return count / total


class OneBranch(Right):
    def left_out(self, removed):
        return None


class EveryLevel(Right):
    def left_out(self, removed):
        return removed


WRONG = {"span": Span(), "one-arc": OneArc(), "folded": Folded(), "pinned": Pinned(), "skipped": Skipped(), "doubles": Doubles()}
WRONG_SEARCH = {"one-branch": OneBranch(), "every-level": EveryLevel()}


def moved(idea, layer, arcs, high):
    """The forward numbers one cell further: in how many ways each sum is reached."""
    further = {}
    for s, n in layer.items():
        for arc in arcs:
            to = idea.reached(s + arc, high)
            if to is not None:
                further[to] = further.get(to, 0) + n
    return further


def numbers(idea, row, domains):
    """A row's forward numbers, layer by layer, and its backward numbers at the same sums."""
    low, high, pairs = row
    forward = [{0: 1}]
    for cell, weight in pairs:
        forward.append(moved(idea, forward[-1], idea.arcs(weight, domains[cell]), high))
    backward = [{s: int(low <= s <= high) for s in forward[-1]}]
    for (cell, weight), layer in zip(reversed(pairs), reversed(forward[:-1])):
        arcs = idea.arcs(weight, domains[cell])
        backward.append({s: sum(backward[-1].get(idea.reached(s + arc, high), 0) for arc in arcs) for s in layer})
    return forward, backward[::-1]


def counts(idea, row, domains):
    """The row's total, and the count of each value of each of its cells."""
    forward, backward = numbers(idea, row, domains)
    found = {}
    for p, (cell, weight) in enumerate(row[2]):
        for value in domains[cell]:
            ends = [(n, idea.reached(s + weight * value, row[1])) for s, n in forward[p].items()]
            found[cell, value] = sum(n * backward[p + 1].get(s, 0) for n, s in ends)
    return backward[0][0], found


def settle(idea, domains, board):
    domains = [set(d) for d in domains]
    passes, struck, first = 0, 0, {}
    while True:
        passes += 1
        before = struck
        for line, row in enumerate(board):
            if not idea.visited(passes, first.get(line, 0)):
                continue
            gone = [where for where, n in counts(idea, row, domains)[1].items() if n == 0]
            for cell, value in gone:
                domains[cell].remove(value)
            struck += len(gone)
            first.setdefault(line, len(gone))
        if struck == before:
            return domains, passes, struck


def last_line(idea, domains, counted):
    if not all(domains):
        return "DEAD"
    best = None
    for line, (total, found) in enumerate(counted):
        for (cell, value), n in found.items():
            if len(domains[cell]) >= 2:
                density = idea.share(n, total) if total else 0
                rank = (-density, cell, value, line, n, total)
                best = rank if best is None else min(best, rank)
    if best is None:
        return "SETTLED"
    return "ADVICE CELL {1} VALUE {2} LINE {3} COUNT {4} TOTAL {5}".format(*best)


def joined(lines):
    return "".join(line + "\n" for line in lines)


def cell_lines(domains):
    return [f"CELL {c} VALUES {' '.join(map(str, sorted(d))) or 'NONE'}" for c, d in enumerate(domains)]


def report(idea, data):
    """The report on an accepted board file, as this idea has it."""
    domains, board = second.read(data)
    domains, passes, struck = settle(idea, [idea.domain(d) for d in domains], board)
    counted = [counts(idea, row, domains) for row in board]
    lines = [f"CELLS {len(domains)} LINES {len(board)}", f"PASSES {passes} STRUCK {struck}", *cell_lines(domains)]
    lines += [f"LINE {line} TOTAL {total}" for line, (total, _) in enumerate(counted)]
    return joined(lines + [last_line(idea, domains, counted)])


def call(text):
    """What a report calls: DEAD, SETTLED, or the cell and the value of the move."""
    return text.splitlines()[-1].split(" LINE ")[0]


def filling(idea, domains, board, followed, removed):
    """The filling that the search finds, one value in each domain, or None. It notes down the cells and values followed, and those removed."""
    domains, _, _ = settle(idea, domains, board)
    said = last_line(idea, domains, [counts(idea, row, domains) for row in board]).split()
    if said[0] == "DEAD":
        return None
    if said[0] == "SETTLED":
        return [{min(d)} for d in domains]
    cell, value = int(said[2]), int(said[4])
    followed.append((cell, value))
    found = filling(idea, [{value} if c == cell else d for c, d in enumerate(domains)], board, followed, removed)
    if found is not None:
        return found
    removed.append((cell, value))
    out = idea.left_out(removed)
    if out is None:
        return None
    return filling(idea, [{v for v in d if (c, v) not in out} for c, d in enumerate(domains)], board, followed, removed)


def search(idea, data, choices):
    """What the search prints on an accepted board file, with so many choices, as this idea has it."""
    domains, board = second.read(data)
    followed = []
    found = filling(idea, domains, board, followed, [])
    word = "SPENT" if len(followed) > choices else "NONE" if found is None else "SOLVED"
    left = found if word == "SOLVED" else settle(idea, domains, board)[0]
    paid = min(len(followed), choices)
    return joined([f"{word} FOLLOWED {paid} LEFT {choices - paid}", *cell_lines(left)])


def ending(text):
    """How a search ends: SOLVED, NONE or SPENT."""
    return text.split()[0]
