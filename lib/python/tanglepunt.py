"""Tanglepunt from Python: counts the good fillings of a row, strikes values, reads and writes board files, advises a move,
finishes boards by search.

Each function is the library's call of that name. Words, sizes and numbers for no are those of documents 01 and 02.

- A number for no is the exception Refused; all lent room is then untouched.
- Before the call, a number that doesn't fit is a ValueError, and what is no int (a bool, a float) a TypeError. A weight is a
  byte, a domain has 32 bits, every other number 64.
- Weights and domains are sequences of int, files are bytes-like. They are copied and never changed.
- Room is lent by keyword, as array.array, ctypes array, bytearray or memoryview of one: `forward` and `backward` of 64-bit
  numbers, the `room` of `advise` and `search` and the `stack` of 32-bit numbers, the `room` of `write` of bytes. Room of
  another type is a TypeError; room that is read-only, not contiguous, misaligned, or overlaps other lent room, is a
  ValueError, before the call. Longer room keeps its rest. Of room too short, empty or not, the library says 3, 13, 14 or 15.
  Where none is lent, a call makes its own.
- A call keeps Python's lock, so that no other thread changes lent room meanwhile. A search may keep it long: the number of
  choices bounds that.

The shared object is target/lib/libtanglepunt.so of this repository, which lib/build makes, or the file that TANGLEPUNT_LIBRARY names.
"""
import ctypes
import itertools
import os
from dataclasses import dataclass

U8, U32, U64 = ctypes.c_uint8, ctypes.c_uint32, ctypes.c_uint64
CODES = {U8: {"B"}, U32: {"I"}, U64: {"Q", "L"}}  # how a room's format may name its numbers; their size is tested as well
SUMS, TABLE, FILE = 512, 5632, 1062  # the entries of a layer and of a table, the bytes of the longest file
STACK = 4096  # the entries of a search's stack room
ROW_CELLS, BOARD_CELLS, BOARD_ROWS = 10, 64, 32

REASONS = {
    1: "row length 0 or above 10, or the two lists differ in length",
    2: "low above high, or high above 511",
    3: "a table has fewer than 5,632 entries",
    4: "the place asked for isn't in the row, or the value is above 31",
    5: "a fraction's total is 0",
    6: "file below 6 or above 1,062 bytes",
    7: "mark wrong",
    8: "cells or rows outside the sizes",
    9: "start isn't four times the cells, or lies past the trailer",
    10: "a row runs into the trailer, or bytes are left over",
    11: "a row names a cell that the board hasn't",
    12: "a row names a cell twice",
    13: "domain room below 64 entries",
    14: "writer's room shorter than the file",
    15: "stack room below 4,096 entries",
}


class Refused(Exception):
    """A number for no, `.number`, given exactly when its text in REASONS says so."""

    def __init__(self, number):
        super().__init__(number)
        self.number = number

    def __str__(self):
        return f"refused {self.number}: {REASONS[self.number]}"


@dataclass
class Row:
    """A row of a board: its limits, the numbers of its cells and, in the same order, their weights."""

    low: int
    high: int
    cells: list
    weights: list


@dataclass
class Board:
    """A board: a domain for each cell, and the rows. Two boards are the same when they are equal."""

    domains: list
    rows: list


@dataclass
class Advice:
    """What is advised: kind is 'dead', 'settled' or 'advise', the domains are the settled ones. Where there is no move its fields are None."""

    kind: str
    passes: int
    struck: int
    domains: list
    cell: int = None
    value: int = None
    row: int = None
    count: int = None
    total: int = None
    share: float = None


@dataclass
class Ending:
    """How a search ended: kind is 'solved', 'none' or 'spent'. Followed and left add up to the choices given. The domains are
    after 'solved' the filling, one value in each, and else the settled ones before any choice."""

    kind: str
    followed: int
    left: int
    domains: list


def _struct(name, **fields):
    return type(name, (ctypes.Structure,), {"_fields_": list(fields.items())})


_Number = _struct("_Number", refused=U8, number=U64)
_Order = _struct("_Order", refused=U8, order=U8)
_Counts = _struct("_Counts", refused=U8, cells=U64, rows=U64)
_Row = _struct("_Row", len=U64, low=U64, high=U64, names=U64 * ROW_CELLS, weights=U8 * ROW_CELLS)
_Board = _struct("_Board", cells=U64, domains=U32 * BOARD_CELLS, rows=U64, lines=_Row * BOARD_ROWS)
_Reading = _struct("_Reading", refused=U8, board=_Board)
_MOVE = {"cell": U64, "value": U64, "row": U64, "count": U64, "total": U64, "share": ctypes.c_double}
_Advice = _struct("_Advice", refused=U8, kind=U8, passes=U64, struck=U64, **_MOVE)
_Ending = _struct("_Ending", refused=U8, ending=U8)

# Each export's answer, then what it takes; [T] is a slice, which is a pointer and the number of entries. A pointer alone
# is to a number that is lent.
_ROW, _TABLES = ([U8], [U32], U64, U64), ([U64], [U64])
_EXPORTS = {
    "rank": (_Order, U64, U64, U64, U64),
    "total": (_Number, *_ROW, *_TABLES),
    "count": (_Number, *_ROW, U64, U64, *_TABLES),
    "strike": (_Number, *_ROW, *_TABLES),
    "begin": (ctypes.c_size_t, [U8]),
    "read": (_Reading, [U8]),
    "read_at": (_Reading, [U8], U64),
    "board_counts": (_Counts, [U8]),
    "write": (_Number, _Board, [U8]),
    "advise": (_Advice, [U8], [U32], *_TABLES),
    "search": (_Ending, [U8], ctypes.POINTER(U64), [U32], [U32], *_TABLES),
}


def _load():
    here = os.path.dirname(os.path.abspath(__file__))
    path = os.environ.get("TANGLEPUNT_LIBRARY") or os.path.join(here, "..", "..", "target", "lib", "libtanglepunt.so")
    library = ctypes.PyDLL(os.path.abspath(path))  # PyDLL keeps Python's lock during a call
    for name, (answer, *kinds) in _EXPORTS.items():
        export = getattr(library, "tanglepunt_" + name)
        export.restype = answer
        taken = ((ctypes.POINTER(*kind), ctypes.c_size_t) if isinstance(kind, list) else (kind,) for kind in kinds)
        export.argtypes = list(itertools.chain(*taken))
    return library


_library = _load()


def _call(name, *given):
    """Calls an export, with an array for each slice, and raises its refusal."""
    handed = []
    for kind, thing in zip(_EXPORTS[name][1:], given, strict=True):
        handed += [thing, len(thing)] if isinstance(kind, list) else [_fitting(thing, U64) if kind is U64 else thing]
    answer = getattr(_library, "tanglepunt_" + name)(*handed)
    if getattr(answer, "refused", 0):
        raise Refused(answer.refused)
    return answer


def _fitting(number, kind):
    """The number, where it is an int that fits; ctypes would cut it off."""
    if type(number) is not int:
        raise TypeError(f"{number!r} is no int")
    bits = 8 * ctypes.sizeof(kind)
    if not 0 <= number < 1 << bits:
        raise ValueError(f"{number} doesn't fit {bits} bits")
    return number


def _put(places, sequence):
    """Puts numbers into places, as many as there are. A set, which has no order, can't be sliced: a TypeError."""
    numbers = [_fitting(number, places._type_) for number in sequence[: len(places)]]
    places[: len(numbers)] = numbers


def _copied(sequence, kind):
    places = (kind * len(sequence))()
    _put(places, sequence)
    return places


def _file(file):
    view = memoryview(file)
    if view.itemsize != 1:
        raise TypeError("a file is bytes")
    return (U8 * view.nbytes).from_buffer_copy(view.tobytes())


def _lent(room, kind, needed):
    """Lent room as an array over its memory, or new room where none is lent."""
    if room is None:
        return (kind * needed)()
    view = memoryview(room)
    if view.ndim != 1 or view.itemsize != ctypes.sizeof(kind) or view.format.lstrip("@=<") not in CODES[kind]:
        raise TypeError(f"room of unsigned {8 * ctypes.sizeof(kind)}-bit numbers is needed")
    if view.readonly or not view.c_contiguous:
        raise ValueError("room is read-only or not contiguous")
    if not len(view):
        return (kind * 0)()  # the address of an empty buffer may be anything, and the library is owed an aligned one
    lent = (kind * len(view)).from_buffer(view)
    if ctypes.addressof(lent) % ctypes.alignment(kind):
        raise ValueError("room is misaligned")
    return lent


def _apart(*rooms):
    """The rooms, where no two overlap."""
    spans = sorted((ctypes.addressof(room), ctypes.sizeof(room)) for room in rooms if len(room))
    for (start, size), (after, _) in itertools.pairwise(spans):
        if start + size > after:
            raise ValueError("lent rooms overlap")
    return rooms


def _on_row(name, weights, domains, *numbers, forward, backward):
    """A row call's answer, and the domains that it leaves."""
    left = _copied(domains, U32)
    rooms = _apart(_lent(forward, U64, TABLE), _lent(backward, U64, TABLE))
    return _call(name, _copied(weights, U8), left, *numbers, *rooms).number, left[:]


def _on_board(name, file, *lent_number, rooms, forward, backward):
    """A board call's answer, and the domains that it leaves in the first of its rooms. Each room is given with its size."""
    data = _file(file)
    lent = _apart(*(_lent(room, U32, size) for room, size in rooms), _lent(forward, U64, TABLE), _lent(backward, U64, TABLE))
    told = _call(name, data, *lent_number, *lent)
    return told, lent[0][: _call("board_counts", data).cells]


def _board(record):
    rows = [Row(line.low, line.high, line.names[: line.len], line.weights[: line.len]) for line in record.lines[: record.rows]]
    return Board(record.domains[: record.cells], rows)


def _record(board):
    """A board as the writer takes it. Its lengths are handed on as they are, so that the writer refuses what has no place here."""
    if not isinstance(board, Board) or not all(isinstance(row, Row) for row in board.rows):
        raise TypeError("a Board is needed, its rows each a Row")
    record = _Board(cells=len(board.domains), rows=len(board.rows))
    _put(record.domains, board.domains)
    for line, row in zip(record.lines, board.rows):
        # a record's row has one length: for lists that differ it is 0, which is refused by the same number
        line.len = len(row.cells) if len(row.cells) == len(row.weights) else 0
        line.low, line.high = _fitting(row.low, U64), _fitting(row.high, U64)
        _put(line.names, row.cells)
        _put(line.weights, row.weights)
    return record


def rank(c1, t1, c2, t2):
    """How c1/t1 stands to c2/t2 as exact fractions: -1 below, 0 equal, 1 above. Refused: 5."""
    return _call("rank", c1, t1, c2, t2).order - 1


def total(weights, domains, low, high, *, forward=None, backward=None):
    """The number of good fillings. Lent tables hold at 512*i + b the forward and the backward number at (i, b). Refused: 1, 2, 3."""
    return _on_row("total", weights, domains, low, high, forward=forward, backward=backward)[0]


def count(weights, domains, low, high, place, value, *, forward=None, backward=None):
    """The number of good fillings with the value at the place, from 0. Tables as for `total`. Refused: 1, 2, 3, 4."""
    return _on_row("count", weights, domains, low, high, place, value, forward=forward, backward=backward)[0]


def strike(weights, domains, low, high, *, forward=None, backward=None):
    """How many values are struck, and the list of the reduced domains. Tables as for `total`, for the domains given. Refused: 1, 2, 3."""
    return _on_row("strike", weights, domains, low, high, forward=forward, backward=backward)


def tables(weights, domains, low, high):
    """The forward and the backward numbers: two lists of the row's length + 1 layers, each a list of 512. Refused: 1, 2."""
    rooms = (U64 * TABLE)(), (U64 * TABLE)()
    total(weights, domains, low, high, forward=rooms[0], backward=rooms[1])
    return tuple([room[SUMS * i : SUMS * (i + 1)] for i in range(len(weights) + 1)] for room in rooms)


def begin(file):
    """The place where a reader begins, that of the trailer; 0 where the file is shorter than one."""
    return _call("begin", _file(file))


def read(file):
    """The Board of a file. Refused: 6, 7, 8, 9; each row 10, 1, 2, 10, each pair 11, 12; then 10."""
    return _board(_call("read", _file(file)).board)


def read_at(file, place):
    """The Board of the file whose trailer starts at a place; past the last place for one, of the whole file. Refused as `read`."""
    return _board(_call("read_at", _file(file), place).board)


def board_counts(file):
    """The numbers of cells and of rows. Refused as `read`."""
    counts = _call("board_counts", _file(file))
    return counts.cells, counts.rows


def write(board, room=None):
    """The bytes of a board's file. In lent room it is put at the front, and the answer is its length.

    Refused: 8; each row 1, 2, each pair 11, 12; then 14. A board of more than 64 cells or 32 rows is refused 8, and a row of
    more than 10 cells or of two lists that differ in length 1, in that order, though the writer's record has no places for them.
    """
    lent = _lent(room, U8, FILE)
    length = _call("write", _record(board), lent).number
    return bytes(lent[:length]) if room is None else length


def advise(file, *, room=None, forward=None, backward=None):
    """The Advice on a file's board. Lent room holds the settled domains at its front, each table 5,632 zeros. Refused: 3, 13, then as `read`."""
    told, domains = _on_board("advise", file, rooms=[(room, BOARD_CELLS)], forward=forward, backward=backward)
    move = [getattr(told, name) for name in _MOVE] if told.kind == 2 else []
    return Advice(("dead", "settled", "advise")[told.kind], told.passes, told.struck, domains, *move)


def search(file, choices, *, room=None, stack=None, forward=None, backward=None):
    """Finishes a file's board and answers its Ending: settles, follows the advice, settles again; when that branch holds no
    filling, removes the advised value at that level and settles. Following advice once is one of the choices given.

    It is 'solved' where the board has a filling, in which a cell in no row takes its lowest value, 'none' where it has none,
    and 'spent' where this search needs more choices than were given; more never alter a 'solved' or a 'none'. Lent room holds
    the domains at its front, the stack 4,096 zeros, each table 5,632. Refused: 3, 13, 15, then as `read`.
    """
    left = U64(_fitting(choices, U64))
    rooms = [(room, BOARD_CELLS), (stack, STACK)]
    told, domains = _on_board("search", file, left, rooms=rooms, forward=forward, backward=backward)
    return Ending(("solved", "none", "spent")[told.ending], choices - left.value, left.value, domains)
