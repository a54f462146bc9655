"""A case of the load run as an object, and as the driver's bytes (load/driver.c says how a frame is laid out)."""
import random
import struct

KINDS = ["rank", "total", "count", "strike", "begin", "read", "read_at", "board_counts", "write", "advise", "search"]
AT_END, AT_FRONT, OWN = range(3)

# how each answer is laid out: its fields in the struct's order, without padding
NUMBER, ORDER, COUNTS, PLACE, ADVICE, ENDING = map(struct.Struct, ["<BQ", "<BB", "<BQQ", "<Q", "<BBQQQQQQQd", "<BB"])
CHOICES = struct.Struct("<Q")  # the number that is lent to a search, as room of one entry
BOARD, ROW = struct.Struct("<Q64IQ"), struct.Struct("<13Q10B")
LAYOUT = {"rank": ORDER, "begin": PLACE, "board_counts": COUNTS, "advise": ADVICE, "search": ENDING, "read": None, "read_at": None}

# what every room is filled from: the same bytes in every run, no two places alike
BLOCK = random.Random("block").randbytes(1 << 16)
FIRST_FRAME = struct.pack("<I", len(BLOCK)) + BLOCK


class Slice:
    """Bytes at `size` per entry; `place` is where they stand in BLOCK, None where they come with the case."""

    __slots__ = ("name", "size", "data", "lent", "place", "side")

    def __init__(self, name, size, data, lent=False, place=None):
        self.name, self.size, self.data, self.lent, self.place = name, size, data, lent, place
        self.side = OWN

    def entries(self):
        return len(self.data) // self.size


def room(source, name, size, entries):
    """A room lent for writing, filled from a place of BLOCK."""
    place = source.randrange(len(BLOCK) - size * entries + 1)
    return Slice(name, size, BLOCK[place : place + size * entries], True, place)


class Case:
    __slots__ = ("kind", "numbers", "slices")

    def __init__(self, kind, numbers=(), slices=()):
        self.kind, self.numbers, self.slices = kind, list(numbers), list(slices)


def frame(case):
    parts = [struct.pack(f"<BBB{len(case.numbers)}Q", KINDS.index(case.kind), len(case.numbers), len(case.slices), *case.numbers)]
    for s in case.slices:
        parts.append(struct.pack("<BBBBII", s.side, s.lent, s.place is not None, s.size, s.entries(), s.place or 0))
        if s.place is None:
            parts.append(s.data)
    whole = b"".join(parts)
    return struct.pack("<I", len(whole)) + whole


# ---- records


def record(cells, domains, rows, lines):
    """A board's record: 64 domains, and 32 lines of len, low, high, ten names and ten weights in one list each."""
    return BOARD.pack(cells, *domains, rows) + b"".join(ROW.pack(*line) for line in lines)


def from_record(data):
    cells, *domains, rows = BOARD.unpack_from(data)
    return cells, domains, rows, list(ROW.iter_unpack(data[BOARD.size :]))


NO_LINE = [0] * 23
NO_RECORD = record(0, [0] * 64, 0, [NO_LINE] * 32)

# ---- for people


def cut(data):
    return data.hex(" ") if len(data) <= 4400 else f"{data[:64].hex(' ')} .. {len(data)} bytes"


def show_case(case):
    lines = [f"kind {case.kind}, numbers {case.numbers}"]
    for s in case.slices:
        side = ["at the end", "at the front", "a block of its own"][s.side]
        origin = "" if s.place is None else f", filled from byte {s.place} of wire.BLOCK"
        lines.append(f"{s.name}: {s.entries()} entries of {s.size}, {side}{origin}")
        if s.place is None:
            lines.append(s.data.hex(" "))
    return "\n".join(lines)


def answer_size(case):
    layout = LAYOUT.get(case.kind, NUMBER)
    return layout.size if layout else 1 + len(NO_RECORD)


def rooms(case, payload):
    """Each room lent for writing, and what an answer's payload says of it."""
    at = answer_size(case)
    for s in case.slices:
        if s.lent:
            yield s, payload[at : at + len(s.data)]
            at += len(s.data)


def show_answer(case, payload):
    """An answer's fields, then each room."""
    layout = LAYOUT.get(case.kind, NUMBER)
    fields = layout.unpack_from(payload) if layout else (payload[0], *from_record(payload[1 : answer_size(case)]))
    return "\n".join([f"answer {fields}", *(f"{s.name}: {cut(held)}" for s, held in rooms(case, payload))])


def show_entries(case, expected, found):
    """The first entry that differs, room by room."""
    lines = []
    for (s, one), (_, other) in zip(rooms(case, expected), rooms(case, found)):
        for k in range(0, len(one), s.size):
            if one[k : k + s.size] != other[k : k + s.size]:
                numbers = [int.from_bytes(data[k : k + s.size], "little") for data in (one, other)]
                lines.append(f"{s.name} entry {k // s.size}: expected {numbers[0]}, found {numbers[1]}")
                break
    return "\n".join(lines)
