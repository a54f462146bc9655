"""Makes the cases of the load run. Case k of a seed is always the same."""
import os
import random
import struct
import sys

sys.path.insert(0, os.path.join(os.path.dirname(os.path.abspath(__file__)), "..", "second"))
import boards
import choices
from wire import AT_END, AT_FRONT, CHOICES, KINDS, OWN, Case, Slice, record, room

SHARES = dict(rank=12, total=11, count=11, strike=12, begin=2, read=8, read_at=8, board_counts=3, write=11, advise=22, search=8)
WEIGHTS = [SHARES[kind] for kind in KINDS]
PICKS = [[0], [1], [0, 1], [1, 2], [1, 2, 3], [0, 1, 2, 7], [2, 3, 4], [5, 11, 40], [0, 1, 254, 255], range(256)]
NEARLY_ALL = [(w, v) for w in range(256) for v in range(2, 32) if w * v in (104, 105)]  # seven values of 15 add up to 105
EDGES = [0, 1, 2, 9, 10, 11, 31, 32, 33, 63, 64, 65, 255, 256, 510, 511, 512, 513, 2**31, 2**32 - 1, 2**32, 2**32 + 1]
EDGES += [2**50 - 1, 2**50, 2**53 + 1, 2**63 - 1, 2**63, 2**64 - 2, 2**64 - 1]


def number(source):
    """Any 64-bit number: an edge, or of any size."""
    return source.choice(EDGES) if source.random() < 0.5 else source.getrandbits(source.randint(1, 64))


# ---- rows


def listed(domain):
    return [v for v in range(32) if domain >> v & 1]


def some_weights(source, length):
    pick = source.choice(PICKS)
    return [source.choice(pick) for _ in range(length)]


def some_domain(source, style):
    if style == "any":
        return source.getrandbits(32)
    if style == "full":
        return 2**32 - 1
    if style == "low":
        return (1 << source.randint(1, 6)) - 1
    return sum(1 << v for v in source.sample(range(32), source.randint(style == "few", 5)))


def some_domains(source, length):
    style = source.choice(["any", "full", "low", "few", "few", "few", "perhaps empty"])
    return [some_domain(source, style) for _ in range(length)]


def sound_limits(source, weights, domains):
    """Limits from 0 to 511, mostly around the sum of a filling."""
    if source.random() < 0.3:
        return sorted([source.randrange(512), source.randrange(512)])
    values = [source.choice(listed(d) or [0]) for d in domains]
    return boards.limits_around(source, sum(w * v for w, v in zip(weights, values)), source.choice([0, 3, 40]))


def limits(source, weights, domains):
    chance = source.random()
    if chance < 0.9:
        return sound_limits(source, weights, domains)
    if chance < 0.95:
        return [source.choice([0, 510, 511, 512]), source.choice([0, 510, 511, 512])]
    return [number(source), number(source)]


def table(source, name):
    """Mostly long enough; an odd number of entries stands at an address that only 8 divides."""
    entries = [5632, 5700, 5632 + source.randrange(100), 5631, 1, 0, source.randrange(5632)]
    return room(source, name, 8, source.choices(entries, [60, 20, 14, 2, 1, 1, 2])[0])


def place_and_value(source, length, domains):
    place = source.randrange(max(1, length)) if source.random() < 0.95 else source.choice([length, number(source)])
    value = source.randrange(32) if source.random() < 0.95 else source.choice([32, number(source)])
    if place < len(domains) and source.random() < 0.7:
        value = source.choice(listed(domains[place]) or [value])
    return [place, value]


def row_case(source, kind):
    length = source.randint(1, 10) if source.random() < 0.92 else source.randrange(15)
    weights = some_weights(source, length)
    domains = some_domains(source, length if source.random() < 0.96 else source.randrange(15))
    numbers = list(limits(source, weights, domains))
    if kind == "count":
        numbers += place_and_value(source, length, domains)
    packed = struct.pack(f"<{len(domains)}I", *domains)
    lists = [Slice("weights", 1, bytes(weights)), Slice("domains", 4, packed, kind == "strike")]
    return Case(kind, numbers, [*lists, table(source, "forward"), table(source, "backward")])


# ---- fractions


def neighbours(source):
    """Two steps of a continued fraction: shares that lie as close as their numbers let them, and rank in many steps."""
    a, b, c, d = 0, 1, 1, 0
    while True:
        q = source.choice([1, 1, 1, 2, source.randint(1, 1000)])
        if max(q * c + a, q * d + b) >= 2**64:
            return [a, b, c, d]
        a, b, c, d = c, d, q * c + a, q * d + b


def near(source):
    """Shares that one double may stand for."""
    n = source.choice([2**50, 2**53, 2**64 - 1, source.randrange(3, 2**64)])
    return [n - 1, n, n - 2, n - 1]


def equal(source):
    """One fraction in two ways, or all but one."""
    c, t = source.getrandbits(24), source.getrandbits(24)
    a, b = source.getrandbits(40), source.getrandbits(40)
    return [a * c, a * t, b * c, min(b * t + source.choice([0, 0, 1]), 2**64 - 1)]


def rank_case(source, kind):
    any_four = lambda source: [number(source) for _ in range(4)]
    small = lambda source: [source.randrange(12) for _ in range(4)]
    four = source.choice([any_four, small, neighbours, near, equal])(source)
    return Case(kind, four if source.random() < 0.5 else four[2:] + four[:2])


# ---- files


def wide(source):
    """A board with room in its rows: many values stay, and a move is advised."""
    return boards.planted(source, source.choice([10, 40, 120]))


def medium(source):
    """Up to 64 cells and 32 rows, each row short."""
    hidden = [source.randrange(32) for _ in range(source.randint(10, 64))]
    domains = [{h, *source.sample(range(32), source.randint(0, 3))} for h in hidden]
    rows = range(source.randint(1, 32))
    return domains, [boards.planted_row(source, hidden, source.randint(1, 5), [0, 1, 2, 3, 9], 12) for _ in rows]


def nearly_sure(source):
    """Rows in which a cell's value other than 0 fits only where the seven others are at or near 0, so that 0 has a share
    near 1; the shares of two such rows may have one double, though they differ."""
    last = [source.choice(NEARLY_ALL) for _ in range(source.randint(2, 3))]
    domains = [set(range(16)) for _ in range(7)] + [{0, value} for _, value in last]
    others = [(cell, 1) for cell in range(7)]
    spare = source.choice([0, 0, 0, 1])
    return domains, [(0, w * v + spare, [*others, (7 + k, w)]) for k, (w, v) in enumerate(last)]


def sound_file(source):
    shape = source.choices([wide, medium, None, source.choice([*boards.RARE, nearly_sure])], [30, 10, 55, 5])[0]
    return boards.write(*shape(source)) if shape else boards.sound(source)[1]


def any_file(source):
    chance = source.random()
    if chance < 0.7:
        return sound_file(source)
    if chance < 0.9:
        return boards.damaged(source)[1]
    if chance < 0.95:
        return source.randbytes(source.randrange(2001))
    trailer = struct.pack("<HBB", *[source.choice([source.randrange(60), source.getrandbits(8)]) for _ in range(3)])
    return source.randbytes(source.randrange(400)) + trailer + b"\x53\x4c"


def file_case(source, kind):
    return Case(kind, [], [Slice("file", 1, any_file(source))])


def read_at_case(source, kind):
    data = any_file(source)
    place = max(0, len(data) - 6)
    data += source.randbytes(source.choice([0, 1, 6, source.randrange(1200)]))
    if source.random() < 0.3:
        place = source.choice([number(source), source.randrange(len(data) + 8)])
    return Case(kind, [place], [Slice("file", 1, data)])


def domain_room(source):
    return room(source, "room", 4, source.choices([64, 70, 63, 0, source.randrange(100)], [60, 33, 2, 2, 3])[0])


def advise_case(source, kind):
    rooms = [domain_room(source), table(source, "forward"), table(source, "backward")]
    return Case(kind, [], [Slice("file", 1, any_file(source)), *rooms])


def stack_room(source):
    entries = [4096, 4097 + source.randrange(4096), 4095, 0, source.randrange(4096)]
    return room(source, "stack", 4, source.choices(entries, [60, 33, 2, 2, 3])[0])


def search_case(source, kind):
    data = boards.searched(source)[1] if source.random() < 0.7 else any_file(source)
    number = source.choice([*choices.numbers(source, data), source.randrange(12)])
    rooms = [domain_room(source), stack_room(source), table(source, "forward"), table(source, "backward")]
    return Case(kind, [], [Slice("file", 1, data), Slice("choices", 8, CHOICES.pack(number), True), *rooms])


# ---- records


def with_spares(source, entries, size, most):
    """Entries, then spare places with anything in them."""
    return [*entries, *(source.getrandbits(most) for _ in range(size - len(entries)))]


def line(source, low, high, pairs):
    names, weights = [c for c, _ in pairs], [w for _, w in pairs]
    return [len(pairs), low, high, *with_spares(source, names, 10, 64), *with_spares(source, weights, 10, 8)]


def spare_line(source):
    return [source.getrandbits(64) for _ in range(13)] + [source.getrandbits(8) for _ in range(10)]


def spoil(source, cells, rows, lines):
    """Puts any numbers in some places of the record."""
    for _ in range(source.randint(1, 3)):
        chance = source.random()
        if chance < 0.15:
            cells = source.choice([0, 65, cells - 1, number(source)])
        elif chance < 0.3:
            rows = source.choice([0, 33, rows + 1, number(source)])
        else:
            which = lines[source.randrange(min(32, rows) or 1)]
            at = source.randrange(13)
            which[at] = source.choice([number(source), source.randrange(12), which[source.randrange(13)]])
    return max(0, cells) % 2**64, rows % 2**64


def write_case(source, kind):
    shape = boards.full_size if source.random() < 0.02 else source.choice(boards.COMMON)
    domains, board = shape(source)
    size = len(boards.write(domains, board))
    lines = [line(source, *row) for row in board]
    spare = spare_line(source)
    lines += [list(spare) for _ in range(32 - len(lines))]
    cells, rows = len(domains), len(board)
    if source.random() < 0.4:
        cells, rows = spoil(source, cells, rows, lines)
    listed = with_spares(source, [sum(1 << v for v in d) for d in domains], 64, 32)
    entries = source.choice([size, size, size + source.randrange(40), 1062, size - 1, source.randrange(1200), 0])
    return Case(kind, [], [Slice("record", 1, record(cells, listed, rows, lines)), room(source, "room", 1, entries)])


MAKERS = dict(rank=rank_case, total=row_case, count=row_case, strike=row_case, begin=file_case, read=file_case)
MAKERS |= dict(read_at=read_at_case, board_counts=file_case, write=write_case, advise=advise_case, search=search_case)


def make(seed, k):
    source = random.Random(f"{seed}/{k}")
    kind = source.choices(KINDS, WEIGHTS)[0]
    case = MAKERS[kind](source, kind)
    for s in case.slices:
        s.side = source.choice([AT_END, AT_END, AT_FRONT, OWN])
    return case
