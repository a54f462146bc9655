#!/usr/bin/env python3
"""The search that finishes a board, written from request R-1 alone: a function that calls itself for the branch of each choice
and counts the choices down as it goes.

usage: search.py CHOICES < FILE
"""
import sys

from report import Refused, cell_lines, move, read, settle, text


class Spent(Exception):
    """An advice is to be followed, and no choice remains."""


class Purse:
    """The choices that remain, how many were followed, and how many of these led to no filling."""

    def __init__(self, choices):
        self.left, self.followed, self.failed = choices, 0, 0

    def follow(self):
        if self.left == 0:
            raise Spent
        self.left -= 1
        self.followed += 1


def put(domains, cell, values):
    return [values if c == cell else d for c, d in enumerate(domains)]


def filling(domains, board, purse):
    """A value for each cell, or None where these domains hold no filling."""
    while True:
        domains, _, _ = settle(domains, board)
        advised = move(domains, board)
        if advised == "DEAD":
            return None
        if advised == "SETTLED":
            # only a cell in no row can have several values: it takes the lowest
            return [min(values) for values in domains]
        cell, value = advised[:2]
        purse.follow()
        found = filling(put(domains, cell, {value}), board, purse)
        if found is not None:
            return found
        purse.failed += 1
        domains = put(domains, cell, domains[cell] - {value})


def search(domains, board, choices):
    """SOLVED, NONE or SPENT; the filling as domains, or else the settled domains before any choice; the purse as it then is."""
    purse = Purse(choices)
    settled, _, _ = settle(domains, board)
    try:
        found = filling(domains, board, purse)
    except Spent:
        return "SPENT", settled, purse
    if found is None:
        return "NONE", settled, purse
    return "SOLVED", [{value} for value in found], purse


def printed(data, choices):
    """What the search program prints for a file and so many choices, and whether the search went back."""
    try:
        domains, board = read(data)
    except Refused as refusal:
        return text([f"REFUSED {refusal}"]), False
    ending, left, purse = search(domains, board, choices)
    return text([f"{ending} FOLLOWED {purse.followed} LEFT {purse.left}", *cell_lines(left)]), purse.failed > 0


if __name__ == "__main__":
    sys.stdout.write(printed(sys.stdin.buffer.read(), int(sys.argv[1]))[0])
