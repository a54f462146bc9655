"""What bench/run stored in bench/results.txt, for the tables and the plot."""

import os
from dataclasses import dataclass

HERE = os.path.dirname(os.path.abspath(__file__))


@dataclass
class Cost:
    """Instructions of the two calls on one board: number is the board's seed, or what grows in its family."""

    name: str
    number: int
    passes: int
    struck: int
    answer: str
    library: int
    rust: int


@dataclass
class Search:
    """The same of one search: the choices followed, and of the library's instructions those that its steps took."""

    ending: str
    followed: int
    library: int
    rust: int
    settling: int
    choosing: int
    reading: int


def lines(what):
    """The stored lines that begin with a word, as the words after it."""
    with open(os.path.join(HERE, "results.txt")) as stored:
        return [line.split()[1:] for line in stored if line.split()[0] == what]


def costs(what):
    """The costs by kind, or by family, in the order in which they were measured."""
    found = {}
    for name, number, passes, struck, answer, library, rust in lines(what):
        cost = Cost(name, int(number), int(passes), int(struck), answer, int(library), int(rust))
        found.setdefault(name, []).append(cost)
    return found


def searches():
    """The searches by kind, in the order in which they were measured."""
    found = {}
    for name, _, ending, *numbers in lines("search"):
        found.setdefault(name, []).append(Search(ending, *map(int, numbers)))
    return found


def growth():
    """For each family, what grows and the costs; where only the order of the rows differs, that is the passes."""
    for name, members in costs("by").items():
        if name == "order":
            yield "passes", sorted((cost.passes, cost) for cost in members)
        else:
            yield name, [(cost.number, cost) for cost in members]
