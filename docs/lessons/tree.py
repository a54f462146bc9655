#!/usr/bin/env python3
"""Draws the search of boards/one-branch.board as a tree, tree.svg. Each node is a board file with the domains of its place, written by the
library and advised by it.

usage: tree.py [--check]      (--check: only say whether tree.svg is what would be drawn, and whether the page ends as the tree does)
"""
import os
import sys
from dataclasses import dataclass

from figure import content, here, keep, svg, tanglepunt, text

WIDTH, LEFT, TOP = 1080, 90, 96  # the picture's width, and the first node's corner
BOX, ACROSS, DOWN, LINE = 344, 616, 104, 28  # a node's width, a node's corner to the next one's, a level to the next, the lines of a node
FOLLOW, REMOVE, GREY = "#0072b2", "#c04000", "#666"
WORDS = [
    "In a node: what each cell lists before settling, then what is left. What settling strikes is crossed out; a dot is a value gone before.",
    "The nodes are numbered as the search comes to them. The level is the number of choices on the way down from node 1.",
]
MARKS = {"advise": ("white", "#222"), "dead": ("#fbece6", REMOVE), "settled": ("#f3ecd2", "#6b5900")}  # a node's ground and frame


@dataclass
class Node:
    """A look of the search: the domains before settling, and what the library then says, with those that it leaves."""

    number: int
    level: int
    column: int
    followed: int
    before: list
    advice: tanglepunt.Advice
    parent: object
    removes: bool  # the parent's advised value is removed, or else followed


def values(domain):
    return [v for v in range(32) if domain >> v & 1]


def listed(domain):
    return " ".join(map(str, values(domain))) or "none"


def look(rows, before, nodes, parent, removes):
    advice = tanglepunt.advise(tanglepunt.write(tanglepunt.Board(before, rows)))
    if parent is None:
        return Node(1, 0, 0, 0, before, advice, None, False)
    level, column = (parent.level, 1 + nodes[-1].column) if removes else (parent.level + 1, parent.column)
    return Node(len(nodes) + 1, level, column, nodes[-1].followed + (not removes), before, advice, parent, removes)


def grow(rows, before, nodes, parent=None, removes=False):
    """Adds the nodes in the order in which the search looks at them, and says whether the last of them holds a filling."""
    node = look(rows, before, nodes, parent, removes)
    nodes.append(node)
    if node.advice.kind != "advise":
        return node.advice.kind == "settled"
    cell, bit = node.advice.cell, 1 << node.advice.value
    branches = [node.advice.domains[:], node.advice.domains[:]]
    branches[0][cell] = bit
    branches[1][cell] -= bit
    return grow(rows, branches[0], nodes, node) or grow(rows, branches[1], nodes, node, True)


def height(node):
    return LINE * (len(node.before) + 3)


def corner(node):
    return LEFT + ACROSS * node.column, TOP + (height(node) + DOWN) * node.level


def verdict(advice):
    if advice.kind == "advise":
        return f"advice: cell {advice.cell}, value {advice.value}; {advice.count} of {advice.total} in row {advice.row}"
    return "dead: no filling here" if advice.kind == "dead" else "settled: the filling " + " ".join(map(listed, advice.domains))


def draw_cell(x, y, cell, first, node):
    """What the cell listed on the board, each value in its place: black where it is left, crossed out where settling strikes it."""
    yield text(x + 16, y, f"cell {cell}", 15, "#555", "start")
    before, left = node.before[cell], node.advice.domains[cell]
    for k, v in enumerate(values(first)):
        at = x + 100 + 24 * k
        if not before >> v & 1:
            yield text(at, y, "·", 20, "#888")
        elif left >> v & 1:
            yield text(at, y, v, 16)
        else:
            yield text(at, y, v, 16, REMOVE) + f'<line x1="{at - 8}" y1="{y}" x2="{at + 8}" y2="{y - 12}" stroke="{REMOVE}" stroke-width="1.4"/>'
    yield text(x + 230, y, listed(left), 16, "#222" if left else REMOVE, "start", ' font-weight="bold"')


def draw_node(root, node):
    x, y = corner(node)
    ground, frame = MARKS[node.advice.kind]
    yield f'<rect x="{x}" y="{y}" width="{BOX}" height="{height(node)}" rx="10" fill="{ground}" stroke="{frame}" stroke-width="1.6"/>'
    yield f'<circle cx="{x}" cy="{y}" r="15" fill="#222"/>' + text(x, y + 6, node.number, 16, "white", more=' font-weight="bold"')
    yield text(x + 92, y + 22, "before", 13, GREY, "start") + text(x + 230, y + 22, "settled", 13, GREY, "start")
    for cell, first in enumerate(root.before):
        yield from draw_cell(x, y + LINE * (cell + 2) - 6, cell, first, node)
    end = y + height(node)
    yield f'<line x1="{x}" y1="{end - LINE - 6}" x2="{x + BOX}" y2="{end - LINE - 6}" stroke="#ccc"/>'
    yield text(x + 16, end - 12, verdict(node.advice), 14, frame, "start")
    yield text(x + BOX, y - 8, f"choices followed so far: {node.followed}", 13, GREY, "end")


def arrow(x, y, colour, right):
    """The head of an arrow that ends at a point, from the left or from above."""
    points = [(x, y), (x - 11, y - 5), (x - 11, y + 5)] if right else [(x, y), (x - 5, y - 11), (x + 5, y - 11)]
    return f'<polygon points="{" ".join(f"{a},{b}" for a, b in points)}" fill="{colour}"/>'


def draw_followed(node):
    """Down to the next level."""
    (x, y), top = corner(node), corner(node.parent)[1] + height(node)
    advice = node.parent.advice
    yield f'<line x1="{x + 60}" y1="{top}" x2="{x + 60}" y2="{y - 9}" stroke="{FOLLOW}" stroke-width="2.5"/>' + arrow(x + 60, y, FOLLOW, False)
    yield text(x + 74, top + 34, f"choice {node.followed}: cell {advice.cell} takes {advice.value}", 15, FOLLOW, "start")


def draw_removed(node, last):
    """From the last node of the branch that failed back to its level, and on at that level."""
    (x, y), half, advice = corner(node), height(node) // 2, node.parent.advice
    left, at, back = corner(node.parent)[0] + BOX, y + half, corner(last)[1] + half
    middle, turn = (left + x) / 2, left + 34
    stroke = f'stroke="{REMOVE}" stroke-width="2" stroke-dasharray="9 4"'
    yield f'<path d="M {corner(last)[0] + BOX} {back} H {turn} V {at}" fill="none" {stroke}/>'
    yield f'<line x1="{left}" y1="{at}" x2="{x - 9}" y2="{at}" {stroke}/>' + arrow(x, at, REMOVE, True)
    yield text(middle, at - 32, f"{advice.value} is removed", 15, REMOVE) + text(middle, at - 13, f"from cell {advice.cell}", 15, REMOVE)
    yield text(middle + 14, at + 25, "settled again,", 15, REMOVE) + text(middle + 14, at + 44, "at the same level", 15, REMOVE)
    for k, words in enumerate(["the branch holds", "no filling: back", f"to level {node.level}"]):
        yield text(turn + 14, back - 48 + 20 * k, words, 15, REMOVE, "start")


def draw_words(rows, nodes, bottom):
    """The rows above, the levels at the left, and how to read a node below."""
    for k, row in enumerate(rows):
        pairs = " + ".join(f"{weight}*c{cell}" for cell, weight in zip(row.cells, row.weights))
        yield text(LEFT - 15 + 300 * k, 34, f"row {k}, {row.low} to {row.high}: {pairs}", 16, anchor="start")
    for level, y in sorted({(node.level, corner(node)[1] + height(node) // 2) for node in nodes}):
        yield text(16, y + 5, f"level {level}", 15, "#555", "start")
    for k, words in enumerate(WORDS):
        yield text(LEFT - 15, bottom - 42 + 22 * k, words, 14, anchor="start")


def drawing(rows, nodes):
    bottom = max(corner(node)[1] for node in nodes) + height(nodes[0]) + 92
    parts = [*draw_words(rows, nodes, bottom)]
    for before, node in zip(nodes, nodes[1:]):
        parts += draw_removed(node, before) if node.removes else draw_followed(node)
    for node in nodes:
        parts += draw_node(nodes[0], node)
    return svg(WIDTH, bottom, parts)


def main():
    with open(os.path.join(here, "boards", "one-branch.board"), "rb") as f:
        board = tanglepunt.read(f.read())
    nodes = []
    if not grow(board.rows, board.domains, nodes):
        sys.exit("the tree holds no filling")
    keep("tree.svg", drawing(board.rows, nodes))
    if "--check" in sys.argv:
        filling = "".join(f"CELL {c} VALUES {listed(d)}\n" for c, d in enumerate(nodes[-1].advice.domains))
        if f"SOLVED FOLLOWED {nodes[-1].followed} LEFT 0\n{filling}```" not in content("6-search.md"):
            sys.exit("6-search.md has another end of the search than the tree")
        print(f"tree.svg is drawn from the library's advice: {len(nodes)} nodes, {nodes[-1].followed} choices followed; the page ends as the tree does")


if __name__ == "__main__":
    main()
