#!/usr/bin/env python3
"""A row, a board and a search through the Python module: the Figure row of document 000, and document 01's board of 36 bytes.

usage: example.py      (what it prints stands in example.txt)
"""
import tanglepunt


def values(domain):
    return [v for v in range(32) if domain >> v & 1]


def domain(*listed):
    return sum(1 << v for v in listed)


print("The Figure row")
weights, low, high = [3, 1, 2, 1], 5, 8
domains = [domain(0, 1, 2), domain(0, 1, 3), domain(0, 1, 2), domain(1, 2)]
print("total", tanglepunt.total(weights, domains, low, high))
for place, listed in enumerate(domains):
    counts = {v: tanglepunt.count(weights, domains, low, high, place, v) for v in values(listed)}
    print("cell", place, "counts", counts)
for low, high in (5, 8), (2, 2):
    struck, reduced = tanglepunt.strike(weights, domains, low, high)
    print("limits", low, "to", high, "strike", struck, "and leave", *map(values, reduced))

print("The board of 36 bytes")
file = bytes.fromhex("0E000000 0E000000 0E000000 02 0300 0300 0001 0101 02 0700 0800 0101 0202 0C00 03 02 534C")
board = tanglepunt.read(file)
print("cells and rows", *tanglepunt.board_counts(file), "trailer at", tanglepunt.begin(file))
for row in board.rows:
    print(row)
advice = tanglepunt.advise(file)
print(advice.kind, "after", advice.passes, "passes, struck", advice.struck, "leaving", *map(values, advice.domains))
print("cell", advice.cell, "value", advice.value, "row", advice.row, "count", advice.count, "total", advice.total, "share", advice.share)
print("written again it is the same:", tanglepunt.write(board) == file)

print("The board finished with up to 10 choices")
ending = tanglepunt.search(file, 10)
print(ending.kind.upper(), "FOLLOWED", ending.followed, "LEFT", ending.left)
for cell, listed in enumerate(ending.domains):
    print("CELL", cell, "VALUES", *(values(listed) or ["NONE"]))

print("Refused")
board.rows[0].low = 4
try:
    tanglepunt.write(board)
except tanglepunt.Refused as refusal:
    print(refusal)
