"""Makes board files: sound ones of many shapes, and damaged ones for every refusal. Everything follows from the random source given."""


def full(cells):
    return [set(range(32)) for _ in range(cells)]


def some(random, cells, most=32, least=1):
    """Domains with holes."""
    return [set(random.sample(range(32), random.randint(least, most))) for _ in range(cells)]


def limits_around(random, target, width):
    """Limits that let the sum `target` pass, as far as limits go."""
    low = max(0, min(511, target - random.randint(0, width)))
    return low, max(low, min(511, target + random.randint(0, width)))


def planted_row(random, hidden, length, weights, width):
    """A row through random cells that the hidden filling passes, where its sum is not above 511."""
    cells = random.sample(range(len(hidden)), min(length, len(hidden)))
    pairs = [(c, random.choice(weights)) for c in cells]
    while sum(hidden[c] * w for c, w in pairs) > 511:
        pairs = [(c, w // 2) for c, w in pairs]
    low, high = limits_around(random, sum(hidden[c] * w for c, w in pairs), width)
    return low, high, pairs


def small(random):
    cells = random.randint(1, 6)
    domains = some(random, cells, 4)
    board = []
    for _ in range(random.randint(1, 4)):
        through = random.sample(range(cells), random.randint(1, cells))
        low, high = sorted(random.sample(range(60), 2))
        board.append((low, high, [(c, random.randint(0, 5)) for c in through]))
    return domains, board


def planted(random, width=4):
    cells = random.randint(3, 12)
    hidden = [random.randrange(32) for _ in range(cells)]
    domains = [{h} | set(random.sample(range(32), random.randint(0, 7))) for h in hidden]
    weights = random.choice([[1], [1, 2, 3], [0, 1, 7], [5, 11, 40], list(range(256))])
    return domains, [planted_row(random, hidden, random.randint(1, 5), weights, width) for _ in range(random.randint(1, 8))]


def tight(random):
    return planted(random, 0)


def weight_0(random):
    domains, board = planted(random)
    return domains, [(low, high, [(c, w * random.randint(0, 1)) for c, w in pairs]) for low, high, pairs in board]


def ties(random):
    """Like rows through like cells: many candidates share the highest density."""
    cells = random.randint(2, 6)
    same = set(random.sample(range(8), random.randint(2, 4)))
    weight, high = random.randint(0, 3), random.randint(0, 40)
    row = lambda: (0, high, [(c, weight) for c in random.sample(range(cells), 2)])
    return [set(same) for _ in range(cells)], [row() for _ in range(random.randint(1, 4))]


def huge_totals(random):
    """Up to ten cells of many values and small weights: counts up to 2 to the 50th."""
    cells = random.randint(7, 10)
    pairs = [(c, random.choice([0, 0, 0, 1])) for c in range(cells)]
    return some(random, cells, 32, 24), [(0, random.randint(0, 511), pairs)]


def near_shares(random):
    """Two rows of huge totals that differ by little, so that shares lie close together."""
    cells = 10
    domains = full(cells)
    for c in random.sample(range(cells), 2):
        domains[c].discard(random.randrange(32))
    every = [(c, 0) for c in range(cells)]
    one = [(c, 1 if c == 3 else 0) for c in range(cells)]
    return domains, [(0, 0, every), (0, random.randint(29, 31), one)]


def many_passes(random):
    """A chain of rows against the file's order: what is struck at one end travels a cell or so in each pass."""
    cells = random.randint(4, 24)
    domains = [set(range(random.randint(2, 6))) for _ in range(cells)]
    domains[0] = {random.randint(0, 1)}
    board = [(0, random.randint(0, 1), [(c, 1), (c + 1, 1)]) for c in range(cells - 1)]
    if random.randint(0, 1):
        board = [(3 * w, 3 * w, [(a, w), (b, w)]) for w in [random.randint(1, 5)] for _, _, [(a, _), (b, _)] in board]
    return domains, board[::-1][:32]


def dead(random):
    domains, board = planted(random)
    low, high, pairs = board[-1]
    board[-1] = (min(511, high + 200), 511, pairs)
    if random.randint(0, 1):
        domains[random.randrange(len(domains))] = set()
    return domains, board


def loose_cells(random, shape=planted):
    domains, board = shape(random)
    return domains + some(random, random.randint(1, 5), 5, 0), board


def single_values(random):
    hidden = [random.randrange(32) for _ in range(random.randint(1, 8))]
    return [{h} for h in hidden], [planted_row(random, hidden, 3, [1, 2, 9], 3) for _ in range(random.randint(1, 5))]


def full_size(random):
    """64 cells, 32 rows of ten cells: the longest file."""
    hidden = [random.randrange(32) for _ in range(64)]
    domains = [{h} | set(random.sample(range(32), 2)) for h in hidden]
    return domains, [planted_row(random, hidden, 10, [0, 1, 2, 3], 3) for _ in range(32)]


def extreme_numbers(random):
    cells = random.randint(1, 10)
    pairs = [(c, random.choice([0, 1, 254, 255])) for c in range(cells)]
    low = random.choice([0, 1, 255, 256, 510, 511])
    return some(random, cells, random.choice([1, 4, 32])), [(low, random.choice([low, 511]), pairs)]


def crossed(random):
    """Exact rows through many of the same cells, all met by one filling, or each by its own and perhaps all by none."""
    domains = [set(random.sample(range(6), random.randint(2, 4))) for _ in range(random.randint(6, 10))]
    filling = lambda: [random.choice(sorted(d)) for d in domains]
    rows = random.randint(3, 5)
    hidden = [filling()] * rows if random.randint(0, 1) else [filling() for _ in range(rows)]
    return domains, [planted_row(random, h, random.randint(5, 8), [1, 2, 3], 0) for h in hidden]


def crossed_and_loose(random):
    return loose_cells(random, crossed)


def split(random):
    """A market split: exact rows through the same ten cells of 0 and 1, at the sums of five cells or at half of all weights."""
    five = random.sample([0, 1] * 5, 10) if random.randint(0, 1) else None
    heaviest = random.choice([5, 9, 20, 99])
    board = []
    for _ in range(random.randint(2, 3)):
        weights = [random.randint(0, heaviest) for _ in range(10)]
        target = sum(w * v for w, v in zip(weights, five)) if five else sum(weights) // 2
        board.append((target, target, list(enumerate(weights))))
    return [{0, 1} for _ in range(10)], board


def pigeons_in_holes(pigeons, holes):
    """Cell p * holes + q is 1 where pigeon p sits in hole q: each pigeon in one hole, each hole with at most one pigeon."""
    board = [(1, 1, [(p * holes + q, 1) for q in range(holes)]) for p in range(pigeons)]
    board += [(0, 1, [(p * holes + q, 1) for p in range(pigeons)]) for q in range(holes)]
    return [{0, 1} for _ in range(pigeons * holes)], board


def pigeons(random):
    """Often a pigeon too many, and some holes that a pigeon may not take."""
    holes = random.randint(2, 5)
    domains, board = pigeons_in_holes(holes + random.randint(0, 1), holes)
    return [d if random.random() < 0.9 else {0} for d in domains], board


def deep(random):
    """Rows of weight 0, so that no choice settles another cell: one choice for each cell that has several values."""
    cells = random.sample(range(64), random.randint(11, 64))
    board = [(0, 511, [(c, 0) for c in cells[k : k + 5]]) for k in range(0, len(cells), 5)]
    return some(random, 64, 3), board


COMMON = [small, planted, tight, weight_0, ties, many_passes, dead, loose_cells, single_values, extreme_numbers]
RARE = [huge_totals, near_shares, full_size]
SEARCHED = {crossed: 5, crossed_and_loose: 4, split: 5, pigeons: 3, deep: 1}  # shapes that mostly take choices, and how often each


def write(domains, board):
    out = bytearray()
    for values in domains:
        out += sum(1 << v for v in values).to_bytes(4, "little")
    for low, high, pairs in board:
        out += bytes([len(pairs)]) + low.to_bytes(2, "little") + high.to_bytes(2, "little")
        for cell, weight in pairs:
            out += bytes([cell, weight])
    return bytes(out + (4 * len(domains)).to_bytes(2, "little") + bytes([len(domains), len(board)]) + b"\x53\x4c")


def sound(random):
    """A shape's name and a sound file of it."""
    shape = random.choice(RARE) if random.random() < 0.02 else random.choice(COMMON)
    return shape.__name__, write(*shape(random))


def searched(random):
    """As `sound`, mostly of shapes that take choices."""
    if random.random() < 0.3:
        return sound(random)
    (shape,) = random.choices(list(SEARCHED), SEARCHED.values())
    return shape.__name__, write(*shape(random))


# ---- damage: each takes a sound file apart and breaks one thing; what is broken first decides the number


def places(data):
    """Where each row of a sound file starts."""
    at, found = 4 * data[-4], []
    for _ in range(data[-3]):
        found.append(at)
        at += 5 + 2 * data[at]
    return found


def with_byte(data, at, byte):
    return data[:at] + bytes([byte]) + data[at + 1 :]


def cut_short(random, data):
    return data[: random.randrange(len(data))]


def too_long(random, data):
    return bytes(1063 - len(data)) + data + bytes(random.choice([0, 1, 5000]))


def mark(random, data):
    return with_byte(data, len(data) - random.randint(1, 2), random.randrange(256))


def sizes(random, data):
    return with_byte(data, len(data) - random.choice([3, 4]), random.choice([0, 33, 65, 255]))


def start(random, data):
    return with_byte(data, len(data) - random.choice([5, 6]), random.randrange(256))


def length(random, data):
    return with_byte(data, random.choice(places(data)), random.choice([0, 1, 9, 10, 11, 255]))


def limits(random, data):
    return with_byte(data, random.choice(places(data)) + random.randint(1, 4), random.choice([0, 1, 2, 255]))


def cell(random, data):
    at = random.choice(places(data))
    return with_byte(data, at + 5 + 2 * random.randrange(data[at]), random.choice([data[at + 5], data[at + 5], data[-4], 255]))


def left_over(random, data):
    return data[:-6] + bytes(random.randint(1, 9)) + data[-6:]


def row_lost(random, data):
    return data[: -6 - random.randint(1, 8)] + data[-6:]


def any_bytes(random, data):
    for _ in range(random.randint(1, 4)):
        data = with_byte(data, random.randrange(len(data)), random.randrange(256))
    return data


def noise(random, data):
    return random.randbytes(random.choice([0, 1, 5, 6, 7, 30, 1062]))


DAMAGE = [cut_short, too_long, mark, sizes, start, length, limits, cell, left_over, row_lost, any_bytes, noise]


def damaged(random):
    """A damage's name and a file that met it, perhaps twice over."""
    shape, data = sound(random)
    kind = random.choice(DAMAGE)
    data = kind(random, data)
    if random.random() < 0.3 and len(data) >= 6:
        data = any_bytes(random, data)
    return kind.__name__, data
