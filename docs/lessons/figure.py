#!/usr/bin/env python3
"""Draws the Figure row's reduced graph, figure.svg, from the tables that the library fills.

usage: figure.py [--check | --counts]      (--check: only say whether figure.svg is what would be drawn; --counts: print the page's table)
"""
import os
import sys

here = os.path.dirname(os.path.abspath(__file__))
sys.path.insert(0, os.path.join(here, "..", "..", "lib", "python"))
import tanglepunt

WEIGHTS, VALUES, LOW, HIGH = [3, 1, 2, 1], [[0, 1, 2], [0, 1, 3], [0, 1, 2], [1, 2]], 5, 8
DOMAINS = [sum(1 << v for v in values) for values in VALUES]

WIDTH, HEIGHT, LEFT, COLUMN, BOTTOM, ROW = 1080, 760, 120, 220, 650, 66
HALF, RISE = 40, 17  # half of a vertex's width and of its height
# for each value a colour, such as the colour-blind tell apart, a dash, and how far along its arc it is written, so that no two meet
STROKES = {0: ("#0072b2", "none", 0.62), 1: ("#c04000", "9 4", 0.38), 2: ("#00795a", "2 4", 0.2), 3: ("#a0468c", "12 3 2 3", 0.3)}


def vertices(forward, backward):
    """The vertices of the reduced graph: both numbers are above zero."""
    return {(i, b): (f, backward[i][b]) for i, layer in enumerate(forward) for b, f in enumerate(layer) if f and backward[i][b]}


def arcs(found):
    """An arc for each value that leads from a vertex to a vertex."""
    for i, b in found:
        for v in VALUES[i] if i < len(VALUES) else []:
            if (i + 1, b + WEIGHTS[i] * v) in found:
                yield i, b, v


def place(i, b):
    return LEFT + COLUMN * i, BOTTOM - ROW * b


def text(x, y, words, size=15, colour="#222", anchor="middle", more=""):
    return f'<text x="{x:g}" y="{y:g}" font-size="{size}" fill="{colour}" text-anchor="{anchor}"{more}>{words}</text>'


def svg(width, height, parts):
    head = f'<svg xmlns="http://www.w3.org/2000/svg" viewBox="0 0 {width} {height}" font-family="DejaVu Sans, Verdana, sans-serif">'
    return "\n".join([head, f'<rect width="{width}" height="{height}" fill="white"/>', *parts, "</svg>\n"])


def content(name):
    with open(os.path.join(here, name), encoding="utf-8") as f:
        return f.read()


def keep(name, drawn):
    """Writes a picture; with --check only says where it is another than stands there."""
    if "--check" not in sys.argv:
        with open(os.path.join(here, name), "w", encoding="utf-8") as f:
            f.write(drawn)
    elif content(name) != drawn:
        sys.exit(f"{name} is not what its script draws")


def draw_sums():
    """The sums at the left, and the limits behind the last layer."""
    x, top = place(len(WEIGHTS), HIGH)
    yield f'<rect x="{x - 62}" y="{top - 30}" width="124" height="{ROW * (HIGH - LOW) + 60}" rx="10" fill="#f3ecd2"/>'
    yield text(x, top - 40, f"{LOW} to {HIGH}: good", 14, "#6b5900")
    for b in range(HIGH + 1):
        y = place(0, b)[1]
        yield f'<line x1="70" y1="{y}" x2="{WIDTH - 20}" y2="{y}" stroke="#e4e4e4"/>'
        yield text(48, y + 5, b, 14, "#666")
    yield text(48, place(0, HIGH)[1] - 40, "sum", 14, "#666")


def draw_arc(i, b, v):
    """The arc, and its value on it."""
    (x1, y1), (x2, y2) = place(i, b), place(i + 1, b + WEIGHTS[i] * v)
    x1, x2 = x1 + HALF, x2 - HALF
    colour, dash, along = STROKES[v]
    x, y = x1 + (x2 - x1) * along, y1 + (y2 - y1) * along
    yield f'<line x1="{x1}" y1="{y1}" x2="{x2}" y2="{y2}" stroke="{colour}" stroke-width="2" stroke-dasharray="{dash}"/>'
    yield f'<circle cx="{x:g}" cy="{y:g}" r="9" fill="white" stroke="{colour}"/>'
    yield text(x, y + 4.5, v, 13, colour, more=' font-weight="bold"')


def draw_vertex(i, b, forward, backward):
    x, y = place(i, b)
    yield f'<rect x="{x - HALF}" y="{y - RISE}" width="{2 * HALF}" height="{2 * RISE}" rx="{RISE}" fill="white" stroke="#222" stroke-width="1.6"/>'
    yield f'<line x1="{x}" y1="{y - RISE}" x2="{x}" y2="{y + RISE}" stroke="#222"/>'
    yield text(x - HALF / 2 + 1, y + 6, forward, 17) + text(x + HALF / 2 - 1, y + 6, backward, 17, more=' font-weight="bold"')


def draw_words():
    """What stands above the cells and below the graph."""
    for p, (weight, values) in enumerate(zip(WEIGHTS, VALUES)):
        x = place(p, 0)[0] + COLUMN / 2
        yield text(x, 32, f"cell {p}, weight {weight}", 16) + text(x, 52, "values " + " ".join(map(str, values)), 14, "#555")
    for i in range(len(WEIGHTS) + 1):
        yield text(place(i, 0)[0], BOTTOM + 48, f"layer {i}", 15, "#555")
    yield text(70, HEIGHT - 24, "In a vertex: forward number at the left, backward number at the right.", 14, anchor="start")
    for k, (v, (colour, dash, _)) in enumerate(STROKES.items()):
        x = 640 + 108 * k
        yield f'<line x1="{x}" y1="{HEIGHT - 29}" x2="{x + 38}" y2="{HEIGHT - 29}" stroke="{colour}" stroke-width="2.5" stroke-dasharray="{dash}"/>'
        yield text(x + 46, HEIGHT - 24, f"value {v}", 14, colour, "start")


def drawing(found):
    parts = [*draw_sums(), *draw_words()]
    for arc in arcs(found):
        parts += draw_arc(*arc)
    for where, numbers in found.items():
        parts += draw_vertex(*where, *numbers)
    return svg(WIDTH, HEIGHT, parts)


def counts(found):
    """The page's table: each count as the sum over its arcs, which the library's own count must equal."""
    for p, values in enumerate(VALUES):
        for v in values:
            ends = [((i, b), (i + 1, b + WEIGHTS[i] * v)) for i, b, w in arcs(found) if (i, w) == (p, v)]
            products = [(found[a][0], found[z][1]) for a, z in ends]
            n = sum(f * b for f, b in products)
            if n != tanglepunt.count(WEIGHTS, DOMAINS, LOW, HIGH, p, v):
                sys.exit(f"the arcs of cell {p}, value {v} give {n}, and the library another count")
            yield f"| {p} | {v} | {' + '.join(f'{f}·{b}' for f, b in products)} | {n} |"


def main():
    found = vertices(*tanglepunt.tables(WEIGHTS, DOMAINS, LOW, HIGH))
    table, page = list(counts(found)), content("figure.md").splitlines()
    if "--counts" in sys.argv:
        print("\n".join(table))
        return
    keep("figure.svg", drawing(found))
    if "--check" in sys.argv:
        if [line for line in table if line not in page]:
            sys.exit("figure.md has other counts than the library")
        print(f"figure.svg is drawn from the library's tables: {len(found)} vertices, {sum(1 for _ in arcs(found))} arcs; the page's counts are the library's")


if __name__ == "__main__":
    main()
