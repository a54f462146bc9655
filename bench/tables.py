"""Writes the tables of bench/README.md, each between its two marks, from bench/results.txt."""

import os
import re

from results import HERE, costs, growth, lines, searches

README = os.path.join(HERE, "README.md")


def table(head, body):
    rows = [head, ["---"] * len(head), *body]
    return "".join("| " + " | ".join(str(entry) for entry in row) + " |\n" for row in rows)


def thousands(number):
    return f"{round(number):,}"


def span(numbers):
    least, most = min(numbers), max(numbers)
    return str(least) if least == most else f"{least} to {most}"


def row_table():
    counted, body = {}, []
    for method, kind, library, rust in lines("row"):
        share = ""
        if method == "strike":
            counted[kind] = int(library)
        if method == "reach":
            share = f"{int(library) / counted[kind]:.3f}"
        body.append([method, kind, thousands(int(library)), thousands(int(rust)), f"{int(library) / int(rust):.2f}", share])
    return table(["method", "row", "library", "Rust -O", "ratio", "of counting"], body)


def averages(boards):
    """The library's and Rust's instructions for a board, over the boards of a kind."""
    return (sum(getattr(cost, by) for cost in boards) / len(boards) for by in ("library", "rust"))


def kind_table():
    times, body = dict(lines("time")), []
    for name, boards in costs("kind").items():
        library, rust = averages(boards)
        passes, struck = span([cost.passes for cost in boards]), span([cost.struck for cost in boards])
        body.append([name, len(boards), passes, struck, thousands(library), thousands(rust), f"{library / rust:.3f}", times[name]])
    return table(["kind", "boards", "passes", "struck", "library", "Rust -O", "ratio", "ratio of times"], body)


def wide_table():
    body = []
    for name, boards in costs("wide").items():
        library, rust = averages(boards)
        body.append([name, thousands(rust), f"{library / rust:.2f}"])
    return table(["kind", "Rust, x86-64-v3", "ratio"], body)


def function_table(word, *kinds):
    """The instructions by function on one board of each of some kinds."""
    found = {}
    for kind, whose, name, number in lines(word):
        found.setdefault((whose, name), {})[kind] = thousands(int(number))
    body = [[whose, f"`{name}`", *(by.get(kind, "") for kind in kinds)] for (whose, name), by in sorted(found.items())]
    return table(["", "function", *kinds], body)


def search_table():
    body = []
    for name, boards in searches().items():
        endings = [search.ending for search in boards]
        ended = ", ".join(f"{endings.count(ending)} {ending}" for ending in dict.fromkeys(endings))
        followed = [search.followed for search in boards]
        library, rust = averages(boards)
        rates = [f"{1e6 * sum(followed) / len(boards) / cost:.3f}" for cost in (library, rust)]
        body.append([name, ended, span(followed), thousands(library), thousands(rust), f"{library / rust:.3f}", *rates])
    head = ["kind", "ended", "choices", "library", "Rust -O", "ratio", "per million, library", "per million, Rust"]
    return table(head, body)


def step_table():
    """What part of the library's instructions each step of a search took."""
    steps, body = ["settling", "choosing", "reading"], []
    for name, boards in searches().items():
        whole = sum(search.library for search in boards)
        parts = [sum(getattr(search, step) for search in boards) for step in steps]
        body.append([name, *(f"{100 * part / whole:.2f}%" for part in [*parts, whole - sum(parts)])])
    return table(["kind", *steps, "levels and the rest"], body)


def growth_table():
    body = []
    for what, members in growth():
        (first, one), (last, other) = members[0], members[-1]
        each = (other.library - one.library) / (last - first)
        off = max(abs(one.library + each * (n - first) - cost.library) / cost.library for n, cost in members)
        ratio = span([f"{cost.library / cost.rust:.3f}" for _, cost in members])
        ends = thousands(one.library), thousands(other.library)
        body.append([what, f"{first} to {last}", *ends, thousands(each), f"{100 * off:.1f}%", ratio])
    return table(["what grows", "from, to", "library, first", "library, last", "each adds", "off the line", "ratio"], body)


def speed_table():
    body = []
    for name, *rates in lines("speed"):
        one, two, one_used, two_used = map(float, rates)
        gains = f"{two / one:.2f}", f"{two_used / one_used:.2f}"
        body.append([name, thousands(one), thousands(two), gains[0], thousands(one_used), thousands(two_used), gains[1]])
    return table(["kind", "one", "two", "gain", "one, processor time", "two, processor time", "gain"], body)


def machine():
    return f"Measured {' '.join(lines('#')[0])}.\n"


TABLES = {
    "machine": machine,
    "kinds": kind_table,
    "inside": lambda: function_table("inside", "full", "passes"),
    "wide": wide_table,
    "growth": growth_table,
    "search": search_table,
    "steps": step_table,
    "within": lambda: function_table("within", "planted", "pigeons"),
    "speed": speed_table,
    "rows": row_table,
}


def main():
    with open(README) as file:
        text = file.read()
    for name, made in TABLES.items():
        begin, end = f"<!-- {name} -->\n", f"<!-- end of {name} -->\n"
        pattern = re.escape(begin) + ".*?" + re.escape(end)
        text, found = re.subn(pattern, lambda _: begin + made() + end, text, flags=re.DOTALL)
        assert found == 1, f"{name}: {found} places in bench/README.md"
    with open(README, "w") as file:
        file.write(text)


main()
