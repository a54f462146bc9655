"""What each call must answer and leave, from documents 01 and 02 alone: rows by products of polynomials and by sets of sums
in Python's integers, fractions by products, files and boards by the second program.

A polynomial is one integer of 512 slots of 64 bits; slot b holds the coefficient of x to the b, higher powers are cut off.
No coefficient exceeds 32 to the tenth, so no slot runs over into the next.
"""
import os
import random
import struct
import sys
from array import array
from functools import reduce
from itertools import accumulate, product

sys.path.insert(0, os.path.join(os.path.dirname(os.path.abspath(__file__)), "..", "second"))
import boards
import report
import search
import wire

SUMS, SLOT, TABLE, STACK = 512, 64, 5632, 4096
WHOLE = (1 << SUMS * SLOT) - 1
LISTED = [[v for v in range(8) if byte >> v & 1] for byte in range(256)]


def listed(domain):
    return [8 * k + v for k in range(4) for v in LISTED[domain >> 8 * k & 255]]


# ---- rows by polynomials


def arcs(weight, domain):
    """A cell: x to the weight times value for each listed value, each an arc of its own."""
    return sum(1 << SLOT * weight * v for v in listed(domain) if weight * v < SUMS)


def times(p, q):
    return p * q & WHOLE


def coefficients(p):
    return array("Q", p.to_bytes(8 * SUMS, "little"))


def total(weights, domains, low, high):
    sums = reduce(times, map(arcs, weights, domains), 1)
    return sum(coefficients(sums)[low : high + 1])


def count(weights, domains, low, high, place, value):
    """The good fillings with that value in that cell are those of the row in which the cell lists nothing else."""
    alone = domains[place] & 1 << value
    return total(weights, domains[:place] + [alone] + domains[place + 1 :], low, high)


def forward(weights, domains):
    """Layer i: the coefficients of the first i cells' product."""
    layers = accumulate(map(arcs, weights, domains), times, initial=1)
    return b"".join(p.to_bytes(8 * SUMS, "little") for p in layers)


def ending_within(sums, low, high):
    """For each b: how many of the ways with these sums keep b and their sum from low to high."""
    most = array("Q", accumulate(coefficients(sums)))
    to_high = int.from_bytes(most[high::-1].tobytes(), "little")
    below_low = int.from_bytes(most[low - 1 :: -1].tobytes(), "little") if low else 0
    return (to_high - below_low).to_bytes(8 * SUMS, "little")


def backward(weights, domains, low, high):
    """Layer i: from the product of the cells from i on."""
    rests = accumulate(map(arcs, weights[::-1], domains[::-1]), times, initial=1)
    return b"".join([ending_within(rest, low, high) for rest in rests][::-1])


# ---- striking by sets of sums: bit s is set where some filling of the other cells has the sum s


def sums_without(place, weights, domains):
    sums = 1
    for k, (weight, domain) in enumerate(zip(weights, domains)):
        if k != place:
            sums = reduce(int.__or__, (sums << weight * v for v in listed(domain) if weight * v < SUMS), 0) & (1 << SUMS) - 1
    return sums


def strike(weights, domains, low, high):
    """The domains left."""
    left, within = [], (1 << high + 1) - (1 << low)
    for place, (weight, domain) in enumerate(zip(weights, domains)):
        sums = sums_without(place, weights, domains)
        left.append(sum(1 << v for v in listed(domain) if sums << weight * v & within))
    return left


# ---- row calls


def first(*tests):
    """The number of the first test that refuses, or 0."""
    return next((number for refuses, number in tests if refuses), 0)


def unpacked(case):
    weights, domains, forward_room, backward_room = case.slices
    return list(weights.data), list(array("I", domains.data)), forward_room.data, backward_room.data


def row_refuses(weights, domains, low, high, ahead, behind):
    return first(
        (not 1 <= len(weights) <= 10 or len(domains) != len(weights), 1),
        (low > high or high > 511, 2),
        (min(len(ahead), len(behind)) < 8 * TABLE, 3),
    )


def onto(new, room):
    """A room with new content at its front."""
    return new + room[len(new) :]


def row_call(case, place_and_value, answer, domains_lent):
    """A row call's answer and rooms; `answer` gives the number and the domains left."""
    weights, domains, ahead, behind = unpacked(case)
    low, high = case.numbers[:2]
    refusal = row_refuses(weights, domains, low, high, ahead, behind)
    if not refusal and place_and_value:
        place, value = place_and_value
        refusal = first((place >= len(weights) or value > 31, 4))
    if refusal:
        number, left = 0, domains
    else:
        number, left = answer(weights, domains, low, high)
        ahead = onto(forward(weights, domains), ahead)
        behind = onto(backward(weights, domains, low, high), behind)
    rooms = [array("I", left).tobytes()] if domains_lent else []
    return [wire.NUMBER.pack(refusal, number), *rooms, ahead, behind]


def total_call(case):
    return row_call(case, None, lambda *row: (total(*row), None), False)


def count_call(case):
    asked = case.numbers[2:]
    return row_call(case, asked, lambda *row: (count(*row, *asked), None), False)


def strike_call(case):
    def answer(weights, domains, low, high):
        left = strike(weights, domains, low, high)
        return sum(a.bit_count() - b.bit_count() for a, b in zip(domains, left)), left

    return row_call(case, None, answer, True)


def rank_call(case):
    c1, t1, c2, t2 = case.numbers
    if 0 in (t1, t2):
        return [wire.ORDER.pack(5, 0)]
    one, other = c1 * t2, c2 * t1
    return [wire.ORDER.pack(0, (one > other) - (one < other) + 1)]


# ---- files, by the second program's reader


def bits(values):
    return sum(1 << v for v in values)


def filled(entries, size):
    return entries + [0] * (size - len(entries))


def line_of(low, high, pairs):
    names, weights = [list(part) for part in zip(*pairs)]
    return [len(pairs), low, high, *filled(names, 10), *filled(weights, 10)]


def reading(data):
    try:
        domains, board = report.read(data)
    except report.Refused as refusal:
        return [bytes(refusal.args) + wire.NO_RECORD]
    lines = [line_of(*row) for row in board] + [wire.NO_LINE] * (32 - len(board))
    return [b"\0" + wire.record(len(domains), filled([bits(d) for d in domains], 64), len(board), lines)]


def read_call(case):
    return reading(case.slices[0].data)


def read_at_call(case):
    """The file whose trailer starts at the place."""
    return reading(case.slices[0].data[: case.numbers[0] + 6])


def begin_call(case):
    return [wire.PLACE.pack(max(0, len(case.slices[0].data) - 6))]


def board_counts_call(case):
    try:
        domains, board = report.read(case.slices[0].data)
    except report.Refused as refusal:
        return [wire.COUNTS.pack(*refusal.args, 0, 0)]
    return [wire.COUNTS.pack(0, len(domains), len(board))]


# ---- the writer


def line_refuses(cells, line):
    length, low, high, names = line[0], line[1], line[2], line[3:13]
    refusal = first((not 1 <= length <= 10, 1), (low > high or high > 511, 2))
    if refusal:
        return refusal
    pairs = [first((names[k] >= cells, 11), (names[k] in names[:k], 12)) for k in range(length)]
    return first(*((number, number) for number in pairs))


def record_refuses(cells, rows, lines):
    if not (1 <= cells <= 64 and 1 <= rows <= 32):
        return 8
    return first(*((number, number) for number in (line_refuses(cells, line) for line in lines[:rows])))


def file_of(cells, domains, rows, lines):
    out = struct.pack(f"<{cells}I", *domains[:cells])
    for length, low, high, *rest in lines[:rows]:
        pairs = zip(rest[:length], rest[10 : 10 + length])
        out += struct.pack("<BHH", length, low, high) + bytes(byte for pair in pairs for byte in pair)
    return out + struct.pack("<HBB", 4 * cells, cells, rows) + b"\x53\x4c"


def write_call(case):
    record, room = case.slices[0].data, case.slices[1].data
    cells, domains, rows, lines = wire.from_record(record)
    refusal = record_refuses(cells, rows, lines)
    if refusal:
        return [wire.NUMBER.pack(refusal, 0), room]
    written = file_of(cells, domains, rows, lines)
    if len(room) < len(written):
        return [wire.NUMBER.pack(14, 0), room]
    return [wire.NUMBER.pack(0, len(written)), onto(written, room)]


# ---- board calls, by the second program's settling, choice and search


def taken(data, *tests):
    """The refusal by the rooms' tests or else by the file, and the board, None where it is refused."""
    refusal = first(*tests)
    if refusal:
        return refusal, None
    try:
        return 0, report.read(data)
    except report.Refused as refused:
        return *refused.args, None


def tables_and_room(room, ahead, behind):
    """What every board call tests first."""
    return (min(len(ahead), len(behind)) < 8 * TABLE, 3), (len(room) < 4 * 64, 13)


def with_domains(domains, room):
    return onto(struct.pack(f"<{len(domains)}I", *map(bits, domains)), room)


def move_fields(advised):
    """The second program's move as kind, cell, value, row, count, total and share."""
    if advised in ("DEAD", "SETTLED"):
        return [("DEAD", "SETTLED").index(advised), 0, 0, 0, 0, 0, 0.0]
    *_, ways, whole = advised
    return [2, *advised, float(ways) / float(whole)]


def advise_call(case):
    data, room, ahead, behind = [s.data for s in case.slices]
    refusal, read = taken(data, *tables_and_room(room, ahead, behind))
    if refusal:
        return [wire.ADVICE.pack(refusal, *[0] * 9), room, ahead, behind]
    domains, board = read
    domains, passes, struck = report.settle(domains, board)
    kind, *rest = move_fields(report.move(domains, board))
    answer, zeros = wire.ADVICE.pack(0, kind, passes, struck, *rest), bytes(8 * TABLE)
    return [answer, with_domains(domains, room), onto(zeros, ahead), onto(zeros, behind)]


def search_call(case):
    data, number, room, stack, ahead, behind = [s.data for s in case.slices]
    refusal, read = taken(data, *tables_and_room(room, ahead, behind), (len(stack) < 4 * STACK, 15))
    if refusal:
        return [wire.ENDING.pack(refusal, 0), number, room, stack, ahead, behind]
    ending, domains, purse = search.search(*read, *wire.CHOICES.unpack(number))
    answer, zeros = wire.ENDING.pack(0, ("SOLVED", "NONE", "SPENT").index(ending)), bytes(8 * TABLE)
    levels = onto(bytes(4 * STACK), stack)
    return [answer, wire.CHOICES.pack(purse.left), with_domains(domains, room), levels, onto(zeros, ahead), onto(zeros, behind)]


CALLS = {kind: globals()[kind + "_call"] for kind in wire.KINDS}


def answer(case):
    """The payload of the driver's answer: the answer's fields, then every room lent for writing."""
    return b"".join(CALLS[case.kind](case))


# ---- rows here and the second program's search held to the documents' definitions: every filling written out


def check_row(weights, domains, low, high):
    """The row's total, after everything above it was compared with all fillings of the row."""
    fillings = list(product(*map(listed, domains)))
    weigh = lambda ws, f: sum(w * v for w, v in zip(ws, f))
    good = [f for f in fillings if low <= weigh(weights, f) <= high]
    assert total(weights, domains, low, high) == len(good)
    kept = [sum(1 << v for v in {f[p] for f in good}) for p in range(len(weights))]
    assert strike(weights, domains, low, high) == kept
    for p, v in product(range(len(weights)), range(32)):
        assert count(weights, domains, low, high, p, v) == sum(f[p] == v for f in good)
    ahead, behind = array("Q", forward(weights, domains)), array("Q", backward(weights, domains, low, high))
    for i in range(len(weights) + 1):
        sums = [weigh(weights[:i], f) for f in product(*map(listed, domains[:i]))]
        rests = [weigh(weights[i:], f) for f in product(*map(listed, domains[i:]))]
        assert list(ahead[SUMS * i : SUMS * (i + 1)]) == [sums.count(b) for b in range(SUMS)]
        assert list(behind[SUMS * i : SUMS * (i + 1)]) == [sum(low <= b + s <= high for s in rests) for b in range(SUMS)]
    return len(good)


def check_search(domains, board):
    """Given choices enough, Solved comes with one of the board's fillings where there is one, and None where there is none."""
    meets = lambda f, row: row[0] <= sum(w * f[c] for c, w in row[2]) <= row[1]
    good = [f for f in product(*domains) if all(meets(f, row) for row in board)]
    ending, left, _ = search.search(domains, board, 2**64 - 1)
    assert ending == "NONE" and not good or ending == "SOLVED" and tuple(v for (v,) in left) in good


def check():
    """Document 01's examples, P1 to P10 and those of rows and fractions that are run; then rows and boards of any shape."""
    figure = [3, 1, 2, 1], [0b111, 0b1011, 0b111, 0b110], 5, 8
    every = 2**32 - 1
    assert check_row(*figure) == 22
    assert [count(*figure, 0, 1), count(*figure, 1, 2), count(*figure, 3, 1)] == [10, 0, 11]
    assert [check_row([0], [every], 0, 0), check_row([0], [every], 1, 1)] == [32, 0]
    assert [check_row([1, 1], [0b111] * 2, 2, 2), check_row([2, 2], [0b1111] * 2, 5, 5)] == [3, 0]
    assert [check_row([255], [0b1100], 510, 511), check_row([1, 1], [1 << 5, 0], 0, 511)] == [1, 0]
    assert total([0] * 10, [every] * 10, 0, 0) == 2**50
    n = 2**50
    assert rank_call(wire.Case("rank", [10, 22, 5, 11])) == [wire.ORDER.pack(0, 1)]
    assert rank_call(wire.Case("rank", [n - 1, n, n - 2, n - 1])) == [wire.ORDER.pack(0, 2)]
    source = random.Random(1)
    for _ in range(20):
        domains = [sum(1 << v for v in source.sample(range(32), 4)) for _ in range(source.randint(1, 4))]
        weights = [source.choice([0, 1, 3, source.randrange(256)]) for _ in domains]
        check_row(weights, domains, *sorted([source.randrange(512), source.randrange(512)]))
        check_search(*source.choice([boards.small, boards.ties, boards.split])(source))
