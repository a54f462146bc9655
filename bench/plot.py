"""Draws docs/bench.svg from bench/results.txt: how the cost of one advice grows, for the library and for Rust."""

import os
from xml.sax.saxutils import escape

from results import HERE, growth

# Two colours that stay apart for every kind of colour blindness, and in grey.
LIBRARY, RUST, INK, GRID = "#0072B2", "#E69F00", "#222222", "#DDDDDD"
TITLE = "What one advice costs, in millions of instructions"
LEGEND = "The library (thin blue line) on the same method in plain Rust (wide orange line). Counted by callgrind."
PANELS = {
    "rows": "rows of ten full cells",
    "length": "cells in one row, each full",
    "values": "values in each of a row's ten cells",
    "passes": "passes over one board of 32 rows, ordered differently",
}
WIDTH, HEIGHT, LEFT, TOP = 360, 200, 70, 110  # of a panel's field, and where the first begins
ACROSS, DOWN = 470, 300  # from a panel to the next


def text(x, y, words, size=13, anchor="middle", colour=INK, weight="normal"):
    style = f'font-size="{size}" text-anchor="{anchor}" fill="{colour}" font-weight="{weight}"'
    return f'<text x="{x:.1f}" y="{y:.1f}" {style}>{escape(words)}</text>'


def line(points, colour, width):
    path = " ".join(f"{x:.1f},{y:.1f}" for x, y in points)
    style = f'fill="none" stroke="{colour}" stroke-width="{width}" stroke-linejoin="round" stroke-linecap="round"'
    return f'<polyline points="{path}" {style}/>'


def steps(most):
    """Round numbers from 0 up to the first that is not below `most`, at most six."""
    step = next(s * 10**p for p in range(-2, 9) for s in (1, 2, 5) if 5 * s * 10**p >= most)
    marks = [0]
    while marks[-1] < most:
        marks.append(marks[-1] + step)
    return marks


class Panel:
    """A field with two axes from 0, and the costs on it."""

    def __init__(self, left, top, members):
        self.left, self.top, self.members = left, top, members
        self.across = steps(members[-1][0])
        self.up = steps(max(cost.library for _, cost in members) / 1e6)

    def at(self, number, millions):
        return self.left + WIDTH * number / self.across[-1], self.top + HEIGHT * (1 - millions / self.up[-1])

    def axes(self, title):
        yield text(self.left + WIDTH / 2, self.top + HEIGHT + 42, title, 14)
        for millions in self.up:
            x, y = self.at(0, millions)
            yield line([(x, y), (x + WIDTH, y)], GRID, 1)
            yield text(x - 8, y + 4, f"{millions:g}", 12, "end")
        for number in self.across:
            x, y = self.at(number, 0)
            yield line([(x, y), (x, y + 5)], INK, 1)
            yield text(x, y + 20, f"{number:g}", 12)

    def costs(self):
        ours = [self.at(number, cost.library / 1e6) for number, cost in self.members]
        theirs = [self.at(number, cost.rust / 1e6) for number, cost in self.members]
        yield line(theirs, RUST, 8)
        yield line(ours, LIBRARY, 2)
        yield from (f'<circle cx="{x:.1f}" cy="{y:.1f}" r="3" fill="{LIBRARY}"/>' for x, y in ours)
        (x, y), (below, low) = ours[-2], theirs[-2]
        yield text(x - 12, y - 8, "library", 13, "end", LIBRARY, "bold")
        yield text(below + 6, low + 28, "Rust", 13, "start", "#9A6A00", "bold")


def picture():
    width, height = LEFT + ACROSS + WIDTH + 30, TOP + DOWN + HEIGHT + 60
    size = f'viewBox="0 0 {width} {height}" width="{width}" height="{height}"'
    yield f'<svg xmlns="http://www.w3.org/2000/svg" {size} font-family="sans-serif">'
    yield f'<rect width="{width}" height="{height}" fill="#FFFFFF"/>'
    yield text(LEFT - 40, 36, TITLE, 20, "start", INK, "bold")
    yield text(LEFT - 40, 62, LEGEND, 14, "start")
    families = dict(growth())
    for i, (name, title) in enumerate(PANELS.items()):
        panel = Panel(LEFT + ACROSS * (i % 2), TOP + DOWN * (i // 2), families[name])
        yield from panel.axes(title)
        yield from panel.costs()
    yield "</svg>"


def main():
    with open(os.path.join(HERE, "..", "docs", "bench.svg"), "w") as svg:
        svg.writelines(part + "\n" for part in picture())


main()
