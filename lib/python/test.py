#!/usr/bin/env python3
"""Tests of the Python module: every call, every refusal in its order, and what happens to lent room.

usage: test.py
"""
import array
import ctypes
import glob
import itertools
import os
import random
import shutil
import subprocess
import sys
import tempfile
import threading
import unittest
from fractions import Fraction

here = os.path.dirname(os.path.abspath(__file__))
root = os.path.join(here, "..", "..")
sys.path[:0] = [here, os.path.join(root, "second")]
import boards
import report
import tanglepunt
from tanglepunt import Board, Refused, Row

U8, U32, U64 = ctypes.c_uint8, ctypes.c_uint32, ctypes.c_uint64
FULL, MOST = 2**32 - 1, 2**64 - 1
FIGURE = [3, 1, 2, 1], [0b111, 0b1011, 0b111, 0b110], 5, 8
EXAMPLE = bytes.fromhex("0E000000 0E000000 0E000000 02 0300 0300 0001 0101 02 0700 0800 0101 0202 0C00 03 02 534C")
LEAST = {"room": ("I", 64), "stack": ("I", 4096), "forward": ("Q", 5632), "backward": ("Q", 5632)}  # a board call's rooms
NO_NUMBERS = [(TypeError, x) for x in (True, 1.0, None, "1", b"1", U64(1))] + [(ValueError, x) for x in (-1, 2**64, 10**5000)]


def example():
    return tanglepunt.read(EXAMPLE)


def patterned(code, size):
    """Room full of numbers, each another than its neighbours and none of them 0, which calls write."""
    return array.array(code, (1 + 1000003 * k % 251 for k in range(size)))


def in_ctypes(room):
    return ({"I": U32, "Q": U64}[room.typecode] * len(room))(*room)


def values(domain):
    return [v for v in range(32) if domain >> v & 1]


def fillings(domains):
    return itertools.product(*map(values, domains))


def weigh(weights, filling):
    return sum(w * v for w, v in zip(weights, filling, strict=True))


def good_fillings(weights, domains, low, high):
    return [f for f in fillings(domains) if low <= weigh(weights, f) <= high]


def layers(weights, domains, low, high):
    """Both tables by plain enumeration."""
    forward = [[0] * 512 for _ in range(len(weights) + 1)]
    backward = [[0] * 512 for _ in range(len(weights) + 1)]
    for i in range(len(weights) + 1):
        for f in fillings(domains[:i]):
            if (b := weigh(weights[:i], f)) < 512:
                forward[i][b] += 1
        for f in fillings(domains[i:]):
            for b in range(512):
                backward[i][b] += low <= b + weigh(weights[i:], f) <= high
    return forward, backward


def is_filling(filling, rows):
    return all(row.low <= weigh(row.weights, [filling[cell] for cell in row.cells]) <= row.high for row in rows)


def halves(source):
    """Eight cells of 0 and 1, and two rows that each want half of their weights: settling sees little, and searches go back."""
    lists = [[source.randint(1, 9) for _ in range(8)] for _ in range(2)]
    return Board([3] * 8, [Row(sum(weights) // 2, sum(weights) // 2, list(range(8)), weights) for weights in lists])


def finish(board):
    """The domains of a filling, or None, and the choices followed, by the advice alone: one call for each settling."""
    told = tanglepunt.advise(tanglepunt.write(board))
    if told.kind != "advise":
        return [domain & -domain for domain in told.domains] if told.kind == "settled" else None, 0
    followed, advised = 1, 1 << told.value
    for domain in advised, told.domains[told.cell] - advised:
        cut = told.domains[: told.cell] + [domain] + told.domains[told.cell + 1 :]
        found, more = finish(Board(cut, board.rows))
        followed += more
        if found:
            break
    return found, followed


def struck_and_left(weights, domains, low, high):
    good = good_fillings(weights, domains, low, high)
    left = [sum(1 << v for v in {f[p] for f in good}) for p in range(len(domains))]
    return sum(map(int.bit_count, domains)) - sum(map(int.bit_count, left)), left


class Case(unittest.TestCase):
    def refused(self, number, call, *given, **lent):
        """The call is refused by the number, and lent room is as it was."""
        before = {name: bytes(room) for name, room in lent.items()}
        with self.assertRaises(Refused) as caught:
            call(*given, **lent)
        self.assertEqual(caught.exception.number, number)
        self.assertEqual(str(caught.exception), f"refused {number}: {tanglepunt.REASONS[number]}")
        self.assertEqual({name: bytes(room) for name, room in lent.items()}, before)

    def unlent(self, error, call, *given, **lent):
        """The room can't be lent, and is as it was."""
        before = {name: bytes(room) for name, room in lent.items() if not isinstance(room, (list, int, str))}
        self.assertRaises(error, call, *given, **lent)
        self.assertEqual({name: bytes(lent[name]) for name in before}, before)


    def board_call_leaves(self, call, *given, **front):
        """Lent room of each type, as long as is needed and longer, ends with this at its front and is unchanged after it."""
        for more, hold in itertools.product([0, 36], [lambda room: room, memoryview, in_ctypes]):
            rooms = {name: hold(patterned(LEAST[name][0], LEAST[name][1] + more)) for name in front}
            before = {name: list(room) for name, room in rooms.items()}
            self.assertEqual(call(*given, **rooms), call(*given))
            for name, room in rooms.items():
                self.assertEqual(list(room), front[name] + before[name][len(front[name]) :])


class Fractions(Case):
    def test_document_01(self):
        n = 2**50
        self.assertEqual(tanglepunt.rank(10, 22, 5, 11), 0)
        self.assertEqual(tanglepunt.rank(n - 1, n, n - 2, n - 1), 1)
        self.assertEqual((n - 1) / n, (n - 2) / (n - 1))

    def test_against_exact_fractions(self):
        source = random.Random(1)
        numbers = [1, 2, 3, MOST - 1, MOST] + [source.getrandbits(source.randint(1, 64)) | 1 for _ in range(6)]
        for c1, t1, c2, t2 in itertools.product([0] + numbers, numbers[:8], numbers, numbers):
            a, b = Fraction(c1, t1), Fraction(c2, t2)
            self.assertEqual(tanglepunt.rank(c1, t1, c2, t2), (a > b) - (a < b))

    def test_refused(self):
        for numbers in [(1, 0, 1, 1), (1, 1, 1, 0), (0, 0, 0, 0)]:
            self.refused(5, tanglepunt.rank, *numbers)

    def test_no_numbers(self):
        for (error, x), k in itertools.product(NO_NUMBERS, range(4)):
            with self.assertRaises(error):
                tanglepunt.rank(*[1] * k, x, *[1] * (3 - k))


class Rows(Case):
    def test_document_01(self):
        self.assertEqual(tanglepunt.total(*FIGURE), 22)  # P1
        self.assertEqual([tanglepunt.count(*FIGURE, *asked) for asked in [(0, 1), (1, 2), (3, 1)]], [10, 0, 11])  # P2 to P4
        rows = [
            ([0], [FULL], 0, 0, 32),  # P5
            ([0], [FULL], 1, 1, 0),
            ([1, 1], [0b111] * 2, 2, 2, 3),
            ([2, 2], [0b1111] * 2, 5, 5, 0),
            ([255], [0b1100], 510, 511, 1),
            ([1, 1], [1 << 5, 0], 0, 511, 0),  # P10
            ([0] * 10, [FULL] * 10, 0, 0, 1125899906842624),
        ]
        for *row, expected in rows:
            self.assertEqual(tanglepunt.total(*row), expected)

    def test_against_enumeration(self):
        source = random.Random(2)
        for _ in range(150):
            n = source.randint(1, 4)
            domains = [sum(1 << v for v in source.sample(range(32), source.randint(0, 5))) for _ in range(n)]
            row = [source.choice([0, 1, 2, 7, 255]) for _ in range(n)], domains, *sorted(source.choices(range(512), k=2))
            good = good_fillings(*row)
            self.assertEqual(tanglepunt.total(*row), len(good))
            self.assertEqual(tanglepunt.strike(*row), struck_and_left(*row))
            for place, value in itertools.product(range(n), range(32)):
                self.assertEqual(tanglepunt.count(*row, place, value), sum(f[place] == value for f in good))

    def test_tables(self):
        self.assertEqual(tanglepunt.tables(*FIGURE), layers(*FIGURE))
        row = [0, 255, 100], [0b101, 0b111, FULL], 100, 511
        self.assertEqual(tanglepunt.tables(*row), layers(*row))
        self.refused(1, tanglepunt.tables, [], [], 9, 8)
        self.refused(2, tanglepunt.tables, [1], [1], 9, 8)

    def test_lent_tables(self):
        front = [list(itertools.chain(*table)) for table in layers(*FIGURE)]
        calls = [(tanglepunt.total, (), 22), (tanglepunt.count, (0, 1), 10), (tanglepunt.strike, (), (0, FIGURE[1]))]
        for (call, asked, expected), size in itertools.product(calls, [5632, 6000]):
            held = [patterned("Q", size), (U64 * size)(*patterned("Q", size)), memoryview(patterned("Q", size)), patterned("L", size)]
            for room, name in itertools.product(held, [0, 1]):
                before = list(room)
                self.assertEqual(call(*FIGURE, *asked, **{("forward", "backward")[name]: room}), expected)
                self.assertEqual(list(room), front[name] + before[len(front[name]) :])

    def test_neighbours(self):
        both = patterned("Q", 2 * 5632)
        whole = memoryview(both)
        self.assertEqual(tanglepunt.total(*FIGURE, forward=whole[5632:], backward=whole[:5632]), 22)
        self.assertEqual((both[5632], both[0]), (1, 22))

    def test_what_is_read_is_not_changed(self):
        for weights, domains in (bytearray(FIGURE[0]), array.array("I", FIGURE[1])), ((U8 * 4)(*FIGURE[0]), (U32 * 4)(*FIGURE[1])):
            self.assertEqual(tanglepunt.strike(weights, domains, 2, 2), (5, [0b1, 0b11, 0b1, 0b110]))
            self.assertEqual((list(weights), list(domains)), FIGURE[:2])
        room = array.array("L", [7] + [0] * 5631)  # as a table and as the domain 7 at once: the domain is copied first
        self.assertEqual(tanglepunt.total([1], memoryview(room)[:1].cast("B").cast("I")[:1], 1, 2, forward=room), 2)

    def test_refused_in_order(self):
        sound, short = patterned("Q", 5632), patterned("Q", 5631)
        ten, eleven, limits = ([1] * 10, [1] * 10), ([1] * 11, [1] * 11), (0, 511)
        unsound = [([], []), eleven, ([1], [1, 1]), ([1, 1], [1]), ([1], []), ([1] * 99, [1] * 99)]
        for call, fine, bad in [(tanglepunt.total, (), ()), (tanglepunt.strike, (), ()), (tanglepunt.count, (9, 31), (10, 0))]:
            call(*ten, *limits, *fine, forward=sound, backward=patterned("Q", 5632))
            for lists, wide in itertools.product(unsound, [limits, (9, 8)]):
                self.refused(1, call, *lists, *wide, *bad, forward=short, backward=short[:])
            for wide in [(9, 8), (0, 512), (512, 512), (MOST, 0), (0, MOST), (MOST, MOST)]:
                self.refused(2, call, *ten, *wide, *bad, forward=short, backward=short[:])
            for lent in [{"forward": short}, {"backward": short}, {"forward": sound, "backward": array.array("Q")}, {"forward": (U64 * 0)()}]:
                self.refused(3, call, *ten, *limits, *bad, **lent)
        for asked in [(10, 0), (9, 32), (MOST, 0), (0, MOST)]:
            self.refused(4, tanglepunt.count, *ten, *limits, *asked, forward=sound, backward=patterned("Q", 5632))

    def test_no_numbers(self):
        for error, x in NO_NUMBERS:
            for numbers in [(x, 8), (5, x)]:
                for call in tanglepunt.total, tanglepunt.strike, tanglepunt.tables:
                    self.assertRaises(error, call, *FIGURE[:2], *numbers)
            for numbers in [(x, 8, 0, 0), (5, x, 0, 0), (5, 8, x, 0), (5, 8, 0, x)]:
                self.assertRaises(error, tanglepunt.count, *FIGURE[:2], *numbers)
            self.assertRaises(error, tanglepunt.total, [x], [1], 0, 1)
            self.assertRaises(error, tanglepunt.total, [1], [x], 0, 1)
        for lists in [([256], [1]), ([1], [2**32])]:
            self.assertRaises(ValueError, tanglepunt.total, *lists, 0, 1)
        for lists in [({1}, [1]), ([1], {1}), (iter([1]), [1]), ({0: 1}, [1]), ("1", [1]), (1, 1)]:
            self.assertRaises(TypeError, tanglepunt.total, *lists, 0, 1)


class Rooms(Case):
    def test_of_another_type(self):
        others = [[0] * 5632, 5632, "room", bytes(45056), bytearray(45056), U64(0), ctypes.pointer((U64 * 5632)())]
        others += [(U64 * 512 * 11)(), (U64.__ctype_be__ * 5632)()]  # in layers; high byte first
        for table in others + [array.array(code, bytes(45056)) for code in "qdIB"]:
            self.unlent(TypeError, tanglepunt.total, *FIGURE, forward=table)
            self.unlent(TypeError, tanglepunt.advise, EXAMPLE, backward=table)
        for room in [[0] * 64, bytearray(256), patterned("Q", 64), patterned("i", 64), array.array("f", bytes(256))]:
            self.unlent(TypeError, tanglepunt.advise, EXAMPLE, room=room)
            self.unlent(TypeError, tanglepunt.search, EXAMPLE, 10, room=room)
            self.unlent(TypeError, tanglepunt.search, EXAMPLE, 10, stack=room)
        for room in [[0] * 64, "room", patterned("I", 64), array.array("b", bytes(64)), memoryview(bytearray(64)).cast("c")]:
            self.unlent(TypeError, tanglepunt.write, example(), room=room)

    def test_that_cannot_be_written(self):
        table = memoryview(patterned("Q", 12000))
        spread, backwards, misaligned = table[::2], table[::-1], memoryview(bytearray(48000))[1:47993].cast("Q")
        for room in [table.toreadonly(), spread, backwards, misaligned]:
            self.unlent(ValueError, tanglepunt.strike, *FIGURE, backward=room)
        self.unlent(ValueError, tanglepunt.advise, EXAMPLE, room=memoryview(patterned("I", 64)).toreadonly())
        self.unlent(ValueError, tanglepunt.advise, EXAMPLE, room=memoryview(bytearray(260))[2:258].cast("I"))
        stack = memoryview(patterned("I", 8192))
        for room in [stack.toreadonly(), stack[::2], memoryview(bytearray(16388))[2:16386].cast("I")]:
            self.unlent(ValueError, tanglepunt.search, EXAMPLE, 10, stack=room)
        for room in bytes(64), memoryview(bytearray(128))[::2]:
            self.unlent(ValueError, tanglepunt.write, example(), room=room)

    def test_that_overlaps(self):
        table = patterned("Q", 12000)
        view = memoryview(table)
        pairs = [(table, table), (view[:5633], view[5632:]), (view[100:200], view), ((U64 * 12000).from_buffer(table), view[11999:])]
        calls = [(tanglepunt.total, FIGURE), (tanglepunt.strike, FIGURE), (tanglepunt.count, (*FIGURE, 0, 0))]
        calls += [(tanglepunt.advise, (EXAMPLE,)), (tanglepunt.search, (EXAMPLE, 10))]
        for (one, other), (call, given) in itertools.product(pairs, calls):
            self.unlent(ValueError, call, *given, forward=one, backward=other)
            self.unlent(ValueError, call, *given, forward=other, backward=one)
        domains = view.cast("B").cast("I")
        for tables in [{"forward": view[31:]}, {"backward": view[31:]}, {"backward": view}]:
            self.unlent(ValueError, tanglepunt.advise, EXAMPLE, room=domains[:64], **tables)
        self.assertEqual(tanglepunt.advise(EXAMPLE, room=domains[:64], forward=view[32:5664]).domains, [6, 6, 8])
        for others in [{"room": domains[4095:]}, {"forward": view[2047:]}, {"backward": view[2047:]}]:
            self.unlent(ValueError, tanglepunt.search, EXAMPLE, 10, stack=domains[:4096], **others)
        self.assertEqual(tanglepunt.search(EXAMPLE, 10, stack=domains[:4096], room=domains[4096:4160], forward=view[2080:]).domains, [2, 4, 8])

    def test_no_other_thread_runs_during_a_call(self):
        """A thread that is ready to run doesn't get to it: where a call gave Python's lock away, it would."""
        ran, gate, interval = [], threading.Lock(), sys.getswitchinterval()
        gate.acquire()
        other = threading.Thread(target=lambda: gate.acquire() and ran.append(True))
        other.start()
        sys.setswitchinterval(60)
        try:
            gate.release()
            for _ in range(200):
                tanglepunt.total([1] * 10, [FULL] * 10, 0, 511)
            self.assertEqual(ran, [])
        finally:
            sys.setswitchinterval(interval)
            other.join()
        self.assertEqual(ran, [True])

    def test_empty_rooms_never_overlap(self):
        none = array.array("Q")
        self.refused(3, tanglepunt.total, *FIGURE, forward=none, backward=none)


class Files(Case):
    def test_document_01(self):
        board = Board([14, 14, 14], [Row(3, 3, [0, 1], [1, 1]), Row(7, 8, [1, 2], [1, 2])])
        self.assertEqual(tanglepunt.begin(EXAMPLE), 30)
        self.assertEqual(tanglepunt.read(EXAMPLE), board)
        self.assertEqual(tanglepunt.board_counts(EXAMPLE), (3, 2))
        self.assertEqual(tanglepunt.write(board), EXAMPLE)

    def test_begin_and_read_at(self):
        self.assertEqual([tanglepunt.begin(bytes(n)) for n in (0, 5, 6, 7, 9999)], [0, 0, 0, 1, 9993])
        for place in 30, 31, MOST:
            self.assertEqual(tanglepunt.read_at(EXAMPLE, place), example())
        longer = EXAMPLE + bytes(9)
        self.refused(7, tanglepunt.read, longer)
        self.refused(7, tanglepunt.read_at, longer, 31)
        self.assertEqual(tanglepunt.read_at(longer, 30), example())
        for error, x in NO_NUMBERS:
            self.assertRaises(error, tanglepunt.read_at, EXAMPLE, x)

    def test_files_are_bytes_like(self):
        def search(file):
            return tanglepunt.search(file, 10)

        for call in tanglepunt.begin, tanglepunt.read, tanglepunt.board_counts, tanglepunt.advise, search:
            for file in bytearray(EXAMPLE), memoryview(EXAMPLE), array.array("B", EXAMPLE), (U8 * 36)(*EXAMPLE), memoryview(EXAMPLE[::-1])[::-1]:
                self.assertEqual(call(file), call(EXAMPLE))
            for file in list(EXAMPLE), 36, None, "SL", array.array("I", EXAMPLE):
                self.assertRaises(TypeError, call, file)

    def test_refused_in_order(self):
        def file(domains, rows, start=None, cells=1, lines=1, mark="534C"):
            start = 4 * cells if start is None else start
            return bytes.fromhex(domains + rows) + start.to_bytes(2, "little") + bytes([cells, lines]) + bytes.fromhex(mark)

        d, row = "01000000", "01 0000 0000 0001"
        cases = [
            (6, b""), (6, EXAMPLE[-5:]), (6, bytes(1063)),
            (7, file(d, row, cells=0, mark="4C53")),
            (8, file(d, row, start=3, cells=0)), (8, file(d, row, cells=65)), (8, file(d, row, lines=0)), (8, file(d, row, lines=33)),
            (9, file(d, "00", start=3)), (9, file(d, "", cells=2)),
            (10, file(d, "00 0900 08")),
            (1, file(d, "00 0900 0800")), (1, file(d, "0B 0900 0800")),
            (2, file(d, "01 0900 0800")), (2, file(d, "01 0000 0002")),
            (10, file(d, "02 0000 0000 0101 01")),
            (11, file(d, "03 0000 0000 0001 0101 0001")), (12, file(d, "03 0000 0000 0001 0001 0101")),
            (12, file(d, "02 0000 0000 0001 0001" + "00 0900 0800", lines=2)),
            (10, file(d, row, lines=2)), (10, file(d, row + "00")), (11, file(d, "01 0000 0000 0101" + "00")),
        ]
        for number, data in cases:
            for call in tanglepunt.read, tanglepunt.board_counts, tanglepunt.advise:
                self.refused(number, call, data)
            self.refused(number, tanglepunt.search, data, 7)
            self.refused(number, tanglepunt.read_at, data, tanglepunt.begin(data))
        self.assertEqual(tanglepunt.read(file(d, row)), Board([1], [Row(0, 0, [0], [1])]))

    def test_beside_the_second_program(self):
        for k in range(600):
            source = random.Random(f"python/{k}")
            data = boards.damaged(source)[1] if k % 2 else boards.sound(source)[1]
            try:
                domains, rows = report.read(data)
            except report.Refused as refusal:
                self.refused(refusal.args[0], tanglepunt.read, data)
                continue
            rows = [Row(low, high, [c for c, _ in pairs], [w for _, w in pairs]) for low, high, pairs in rows]
            board = Board([sum(1 << v for v in listed) for listed in domains], rows)
            self.assertEqual(tanglepunt.read(data), board)
            self.assertEqual(tanglepunt.write(board), data)

    def test_boards_there_and_back(self):
        names = glob.glob(os.path.join(root, "boards", "*.board"))
        refusals = 0
        for name in names:
            with open(name, "rb") as f:
                data = f.read()
            if "refused" in name:
                self.refused(int(name[:-6].split("-")[-1]), tanglepunt.read, data)
                refusals += 1
            else:
                self.assertEqual(tanglepunt.write(tanglepunt.read(data)), data)
        self.assertTrue(0 < refusals < len(names))

    def test_write_into_lent_room(self):
        for size in 36, 37, 5000:
            held = [bytearray(patterned("B", size)), patterned("B", size), (U8 * size)(*patterned("B", size)), memoryview(patterned("B", size))]
            for room in held:
                before = bytes(room)
                self.assertEqual(tanglepunt.write(example(), room), 36)
                self.assertEqual(bytes(room), EXAMPLE + before[36:])
        for size in 0, 1, 35:
            self.refused(14, tanglepunt.write, example(), room=bytearray(patterned("B", size)))

    def test_lent_room_is_given_back(self):
        """Python can't resize room while it is lent."""
        room = bytearray(35)
        self.refused(14, tanglepunt.write, example(), room=room)
        room.append(0)
        self.assertEqual(tanglepunt.write(example(), room), 36)
        room.append(0)

    def test_write_refused_in_order(self):
        one, far = Row(0, 0, [0], [0]), Row(0, 0, [1], [0])
        long, none, differing = Row(9, 8, [1] * 11, [0] * 11), Row(9, 8, [], []), Row(9, 8, [1], [])
        wide, twice = Row(9, 8, [1, 1], [0, 0]), Row(0, 511, [0, 0, 1], [0, 0, 0])
        cases = [
            (8, [], [none]), (8, [1] * 65, [none]), (8, [1], []), (8, [1], [none] * 33), (8, [], []),
            (1, [1], [none, wide]), (1, [1], [long]), (1, [1], [one, differing, far]), (1, [1], [Row(0, 0, [0], [0, 0])]),
            (2, [1], [wide]), (2, [1], [Row(0, 512, [0], [0])]), (2, [1], [Row(0, MOST, [0], [0])]), (2, [1], [Row(MOST, 0, [0], [0])]),
            (11, [1], [far, none]), (11, [1], [one, Row(0, 0, [0, 1, 0], [0] * 3)]), (11, [1] * 64, [Row(0, 0, [MOST], [0])]),
            (12, [1], [twice, none]), (12, [1], [one, twice]),
        ]
        for number, domains, rows in cases:
            self.refused(number, tanglepunt.write, Board(domains, rows))
            self.refused(number, tanglepunt.write, Board(domains, rows), room=bytearray(patterned("B", 3)))
        most = Board([FULL] * 64, [Row(511, 511, list(range(10)), [255] * 10)] * 32)
        self.assertEqual((tanglepunt.read(tanglepunt.write(most)), len(tanglepunt.write(most))), (most, 1062))

    def test_write_no_board(self):
        for board in [None, EXAMPLE, ([1], []), Board([1], [(0, 0, [0], [0])]), Board([1], 1), Board({1}, [Row(0, 0, [0], [0])])]:
            self.assertRaises(TypeError, tanglepunt.write, board)
        for error, x in NO_NUMBERS:
            rows = [Row(x, 0, [0], [0]), Row(0, x, [0], [0]), Row(0, 0, [x], [0]), Row(0, 0, [0], [x])]
            for board in [Board([1], [row]) for row in rows] + [Board([x], [Row(0, 0, [0], [0])])]:
                self.assertRaises(error, tanglepunt.write, board)
        for board in [Board([2**32], [Row(0, 0, [0], [0])]), Board([1], [Row(0, 0, [0], [256])])]:
            self.assertRaises(ValueError, tanglepunt.write, board)


class Advising(Case):
    def test_document_01(self):
        move = {"cell": 0, "value": 1, "row": 0, "count": 1, "total": 2, "share": 0.5}
        self.assertEqual(tanglepunt.advise(EXAMPLE), tanglepunt.Advice("advise", 2, 4, [6, 6, 8], **move))
        figure = tanglepunt.write(Board(FIGURE[1], [Row(5, 8, [0, 1, 2, 3], FIGURE[0])]))
        move = {"cell": 3, "value": 1, "row": 0, "count": 11, "total": 22, "share": 0.5}
        self.assertEqual(tanglepunt.advise(figure), tanglepunt.Advice("advise", 1, 0, FIGURE[1], **move))

    def test_without_a_move(self):
        for kind, domains in ("dead", [0, 7]), ("settled", [4, 7]):
            data = tanglepunt.write(Board([domains[0] | 1, 7], [Row(2, 2, [0], [1])]))
            self.assertEqual(tanglepunt.advise(data), tanglepunt.Advice(kind, 2, 1, domains))

    def test_beside_the_second_program(self):
        for k in range(150):
            data = boards.sound(random.Random(f"advice/{k}"))[1]
            domains, rows = report.read(data)
            domains, passes, struck = report.settle(domains, rows)
            told = tanglepunt.advise(data)
            self.assertEqual((told.passes, told.struck, [set(values(d)) for d in told.domains]), (passes, struck, domains))
            last = told.kind.upper()
            if told.kind == "advise":
                last = f"ADVICE CELL {told.cell} VALUE {told.value} LINE {told.row} COUNT {told.count} TOTAL {told.total}"
                self.assertEqual(told.share, told.count / told.total)
            self.assertEqual(last, report.advice(domains, rows))

    def test_lent_room(self):
        self.board_call_leaves(tanglepunt.advise, EXAMPLE, room=[6, 6, 8], forward=[0] * 5632, backward=[0] * 5632)

    def test_refused_in_order(self):
        room, forward, backward = patterned("I", 64), patterned("Q", 5632), patterned("Q", 5632)
        for lent in [{"forward": forward[1:], "backward": backward}, {"forward": forward, "backward": backward[1:]}]:
            self.refused(3, tanglepunt.advise, b"", room=room[1:], **lent)
        for short in room[1:], array.array("I"):
            self.refused(13, tanglepunt.advise, b"", room=short, forward=forward, backward=backward)
        self.refused(6, tanglepunt.advise, b"", room=room, forward=forward, backward=backward)
        self.refused(7, tanglepunt.advise, bytes(6), room=room, forward=forward, backward=backward)


class Searching(Case):
    def test_document_01(self):
        self.assertEqual(tanglepunt.search(EXAMPLE, 10), tanglepunt.Ending("solved", 1, 9, [2, 4, 8]))

    def test_just_enough_and_one_fewer(self):
        pairs = [Row(1, 1, cells, [1, 1]) for cells in ([0, 1], [1, 2], [0, 2])]
        back = [Row(3, 3, [0, 1, 2], [1, 1, 2]), Row(1, 2, [0, 1, 2], [1, 1, 1])]
        cases = [
            (example(), 1, "solved", [6, 6, 8], [2, 4, 8]),
            (Board([12, 6], [Row(510, 511, [0], [255])]), 0, "solved", [4, 6], [4, 2]),  # a cell in no row takes its lowest value
            (Board([15, 15], [Row(5, 5, [0, 1], [2, 2])]), 0, "none", [0, 0], [0, 0]),
            (Board([7, 7, 3], back), 2, "solved", [7, 7, 3], [1, 2, 2]),  # the first advice, cell 2 value 0, is wrong
            (Board([3, 3, 3], pairs), 1, "none", [3, 3, 3], [3, 3, 3]),  # no row sees that there is no filling
        ]
        for board, needs, kind, settled, found in cases:
            for given in {0, max(needs - 1, 0), needs, needs + 1, MOST}:
                expected = (kind, needs, given - needs, found) if given >= needs else ("spent", given, 0, settled)
                self.assertEqual(tanglepunt.search(tanglepunt.write(board), given), tanglepunt.Ending(*expected))

    def test_against_enumeration_and_the_advice(self):
        seen = set()
        for k in range(100):
            board = halves(random.Random(f"search/{k}"))
            data = tanglepunt.write(board)
            found, needs = finish(board)
            self.assertEqual(found is not None, any(is_filling(f, board.rows) for f in fillings(board.domains)))
            settled = tanglepunt.advise(data).domains
            kind, domains = ("solved", found) if found else ("none", settled)
            self.assertEqual(tanglepunt.search(data, needs), tanglepunt.Ending(kind, needs, 0, domains))
            if needs:
                self.assertEqual(tanglepunt.search(data, needs - 1), tanglepunt.Ending("spent", needs - 1, 0, settled))
            if found:
                self.assertTrue(is_filling([domain.bit_length() - 1 for domain in found], board.rows))
            seen.add((kind, needs > 2))
        self.assertTrue({("solved", True), ("none", True)} <= seen)

    def test_lent_room(self):
        zeros = {"stack": [0] * 4096, "forward": [0] * 5632, "backward": [0] * 5632}
        self.board_call_leaves(tanglepunt.search, EXAMPLE, 1, room=[2, 4, 8], **zeros)
        self.board_call_leaves(tanglepunt.search, EXAMPLE, 0, room=[6, 6, 8], **zeros)

    def test_refused_in_order(self):
        sound = {name: patterned(*least) for name, least in LEAST.items()}
        short = {name: room[1:] for name, room in sound.items()}
        for tables in [{"forward": sound["forward"]}, {"backward": sound["backward"]}]:
            self.refused(3, tanglepunt.search, b"", 7, **short | tables)
        tables = {name: sound[name] for name in ("forward", "backward")}
        for room in short["room"], array.array("I"):
            self.refused(13, tanglepunt.search, b"", 7, room=room, stack=short["stack"], **tables)
        for stack in short["stack"], array.array("I"):
            self.refused(15, tanglepunt.search, b"", 7, room=sound["room"], stack=stack, **tables)
        self.refused(6, tanglepunt.search, b"", 7, **sound)
        self.refused(7, tanglepunt.search, bytes(6), 7, **sound)

    def test_no_numbers(self):
        for error, x in NO_NUMBERS:
            self.assertRaises(error, tanglepunt.search, EXAMPLE, x)


class Loading(Case):
    def imported(self, library):
        code = "import tanglepunt; print(tanglepunt.total([1], [6], 0, 1))"
        names = os.environ | {"PYTHONPATH": here, "TANGLEPUNT_LIBRARY": library}
        told = subprocess.run([sys.executable, "-c", code], env=names, cwd=os.sep, capture_output=True, check=False)
        return told.returncode, told.stdout

    def test_from_the_file_named(self):
        with tempfile.TemporaryDirectory() as folder:
            library = os.path.join(folder, "another name")
            self.assertEqual(self.imported(library), (1, b""))
            shutil.copy(tanglepunt._library._name, library)
            self.assertEqual(self.imported(library), (0, b"1\n"))

    def test_example_prints_what_is_stored(self):
        told = subprocess.run([sys.executable, os.path.join(here, "example.py")], cwd=os.sep, capture_output=True, check=True)
        with open(os.path.join(here, "example.txt"), "rb") as f:
            self.assertEqual(told.stdout, f.read())


if __name__ == "__main__":
    unittest.main()
