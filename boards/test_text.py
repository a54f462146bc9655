#!/usr/bin/env python3
"""Tests of text.py: boards there and back, and each reason for which text is refused, with its line.

usage: test_text.py
"""
import glob
import os
import random
import re
import subprocess
import sys
import textwrap
import unittest

here = os.path.dirname(os.path.abspath(__file__))
sys.path[:0] = [here, os.path.join(here, "..", "second")]
import boards
import text
import tanglepunt

EXAMPLE = "cell 0: 1-3\ncell 1: 1-3\ncell 2: 1-3\nrow 3 to 3: 1*c0 + 1*c1\nrow 7 to 8: 1*c1 + 2*c2\n"
CELL = "cell 0: 1\n"
BOARD = CELL + "row 0 to 0: 1*c0\n"
CELLS = "".join(f"cell {c}: 1\n" for c in range(64))
ELEVEN = " + ".join(f"1*c{c}" for c in range(11))

# what is written, the line that is refused, the reason
BAD = [
    ("", 1, "the text ends, and the board has no cells"),
    ("# nothing\n\n", 2, "the text ends, and the board has no cells"),
    (CELL, 1, "the text ends, and the board has no rows"),
    (CELL + "\n# the end", 3, "the text ends, and the board has no rows"),
    ("cel 0: 1", 1, "unknown word 'cel'; a line begins with cell or row"),
    (BOARD + "7", 3, "unknown word '7'; a line begins with cell or row"),
    (BOARD + "Row 0 to 0: 1*c0", 3, "unknown word 'Row'; a line begins with cell or row"),
    ("cell", 1, "the line's end where a number should stand for the cell"),
    ("cell x: 1", 1, "'x' where a number should stand for the cell"),
    ("cell 0 1", 1, "'1' where ':' should stand"),
    ("cell 0", 1, "the line's end where ':' should stand"),
    ("cell 0000: 1", 1, "cell of more than 3 digits"),
    ("cell 1: 1", 1, "cell 1 where cell 0 should stand"),
    (CELL + "\ncell 2: 1", 3, "cell 2 where cell 1 should stand"),
    (CELL + CELL, 2, "cell 0 stands twice"),
    (CELLS + "cell 64: 1", 65, "more than 64 cells"),
    (BOARD + "cell 1: 1", 3, "a cell after a row; the cells stand first"),
    ("cell 0:", 1, "no values; an empty domain is written none"),
    ("cell 0: # 1", 1, "no values; an empty domain is written none"),
    ("cell 0: NONE", 1, "'NONE' where a number should stand for the value"),
    ("cell 0: 1 none", 1, "'none' where a number should stand for the value"),
    ("cell 0: none 1", 1, "'1' where the line's end should stand"),
    ("cell 0: 32", 1, "value 32 is above 31"),
    ("cell 0: 0-32", 1, "value 32 is above 31"),
    ("cell 0: 0001", 1, "value of more than 3 digits"),
    ("cell 0: " + "9" * 5000, 1, "value of more than 3 digits"),
    ("cell 0: 2 1", 1, "values rise, but 1 comes after 2"),
    ("cell 0: 1 1", 1, "values rise, but 1 comes after 1"),
    ("cell 0: 0-3 3", 1, "values rise, but 3 comes after 3"),
    ("cell 0: 3-1", 1, "values rise, but 1 comes after 3"),
    ("cell 0: -1", 1, "'-' where a number should stand for the value"),
    ("cell 0: 1-", 1, "the line's end where a number should stand for the value"),
    ("cell 0: 1-2-3", 1, "'-' where a number should stand for the value"),
    ("cell 0: 1, 2", 1, "stray character ','"),
    ("cell 0: 0.5", 1, "stray character '.'"),
    ("cell 0: \u0661", 1, r"stray character '\u0661'"),
    ("cell 0:\u00a01", 1, r"stray character '\xa0'"),
    ("cell 0: 1\rcell 1: 2", 1, r"stray character '\r'"),
    (CELL + "\0", 2, r"stray character '\x00'"),
    (b"cell 0: 1\n# \xff\n", 2, "bytes that are not UTF-8 text"),
    (b"\x0e\0\0\0\xfe", 1, "bytes that are not UTF-8 text"),
    ("row 0 to 0: 1*c0", 1, "a row, and the board has no cells yet"),
    (BOARD + "row 0 to 0: 1*c0\n" * 32, 34, "more than 32 rows"),
    (CELL + "row", 2, "the line's end where a number should stand for the low"),
    (CELL + "row 1: 1*c0", 2, "':' where 'to' should stand"),
    (CELL + "row 1 to: 1*c0", 2, "':' where a number should stand for the high"),
    (CELL + "row 0 to 512: 1*c0", 2, "high 512 is above 511"),
    (CELL + "row 512 to 512: 1*c0", 2, "low 512 is above 511"),
    (CELL + "row 8 to 5: 1*c0", 2, "low 8 is above high 5"),
    (CELL + "row 1000 to 5: 1*c0", 2, "low of more than 3 digits"),
    (CELL + "row 5 to 1000: 1*c0", 2, "high of more than 3 digits"),
    (CELL + "row 5 to 8", 2, "the line's end where ':' should stand"),
    (CELL + "row 5 to 8:", 2, "the row has no cells"),
    (CELL + "row 5 to 8: 256*c0", 2, "weight 256 is above 255"),
    (CELL + "row 5 to 8: 0001*c0", 2, "weight of more than 3 digits"),
    (CELL + "row 5 to 8: c0", 2, "'c' where a number should stand for the weight"),
    (CELL + "row 5 to 8: -1*c0", 2, "'-' where a number should stand for the weight"),
    (CELL + "row 5 to 8: 1c0", 2, "'c' where '*' should stand"),
    (CELL + "row 5 to 8: 1*0", 2, "'0' where 'c' should stand"),
    (CELL + "row 5 to 8: 1*c", 2, "the line's end where a number should stand for the cell"),
    (CELL + "row 5 to 8: 1*c0000", 2, "cell of more than 3 digits"),
    (CELL + "row 5 to 8: 1*c1", 2, "the row names cell 1, and the board's last is 0"),
    (CELLS + "row 5 to 8: 1*c64", 65, "the row names cell 64, and the board's last is 63"),
    (CELL + "row 5 to 8: 1*c0 + 2*c0", 2, "the row names cell 0 twice"),
    (CELL + "row 5 to 8: 1*c0 +", 2, "the line's end where a number should stand for the weight"),
    (CELL + "row 5 to 8: 1*c0 1*c0", 2, "'1' where '+' should stand"),
    (CELLS + "row 5 to 8: " + ELEVEN, 65, "more than 10 cells in a row"),
]


def run(way, data):
    return subprocess.run([sys.executable, os.path.join(here, "text.py"), way], input=data, cwd=os.sep, capture_output=True, check=False)


class Tool(unittest.TestCase):
    def there_and_back(self, file):
        """A file's text is that file again, and the same text again."""
        written = text.to_text(file)
        self.assertEqual(text.to_file(written), file)
        self.assertEqual(text.to_text(text.to_file(written)), written)

    def test_boards_of_this_folder(self):
        names = [name for name in glob.glob(os.path.join(here, "*.board")) if "refused" not in name]
        self.assertTrue(names)
        for name in names:
            with open(name, "rb") as f:
                self.there_and_back(f.read())

    def test_random_boards(self):
        for shape in [any_board] + boards.COMMON + boards.RARE:
            source = random.Random(shape.__name__)
            for _ in range(100):
                self.there_and_back(boards.write(*shape(source)))

    def test_extremes(self):
        sparse, dense = tanglepunt.Row(0, 0, [63], [0]), tanglepunt.Row(511, 511, list(range(63, 53, -1)), [255] * 10)
        for domains in [0] * 64, [2**32 - 1] * 64, [0x55555555, 0xAAAAAAAA, 1, 2**31] * 16:
            for rows in [sparse], [dense] * 32, [dense, sparse]:
                self.there_and_back(tanglepunt.write(tanglepunt.Board(domains, rows)))

    def test_document_01(self):
        with open(os.path.join(here, "example.board"), "rb") as f:
            file = f.read()
        self.assertEqual(text.to_text(file), EXAMPLE.encode())
        self.assertEqual(text.to_file(EXAMPLE.encode()), file)
        with open(os.path.join(here, "..", "docs", "TEXT.md"), encoding="utf-8") as f:
            self.assertIn(textwrap.indent(EXAMPLE, "    "), f.read())

    def test_one_way_to_write_values(self):
        values = ["none", "31", "0 31", "4 5", "0-2", "0 1 3", "0-2 4-6 8 9 11", "1-30", "0-31"]
        board = "".join(f"cell {c}: {listed}\n" for c, listed in enumerate(values)) + "row 0 to 511: 0*c8 + 255*c0\n"
        self.assertEqual(text.to_text(text.to_file(board.encode())).decode(), board)

    def test_written_another_way(self):
        loose = "# any text: Größe, \x00\n\n\tcell0 :1-2 3# first\r\ncell 01: 001 2-2 3\r\n \n  cell 2:1 - 3\n"
        loose += "row 3 to 003:1*c0+1 * c 1\nrow 7 to 8: 1*c1 +2*c2"
        self.assertEqual(text.to_file(loose.encode()), text.to_file(EXAMPLE.encode()))

    def test_bad_text(self):
        for data, line, reason in BAD:
            with self.subTest(data=data[:40], reason=reason):
                told = run("to-file", data if isinstance(data, bytes) else data.encode())
                self.assertEqual((told.returncode, told.stdout, told.stderr.decode()), (1, b"", f"line {line}: {reason}\n"))

    def test_largest_are_taken(self):
        ten = " + ".join(f"255*c{c}" for c in range(54, 64))
        file = text.to_file((CELLS.replace("1\n", "0-31\n") + f"row 511 to 511: {ten}\n" * 32).encode())
        self.assertEqual((len(file), tanglepunt.board_counts(file)), (1062, (64, 32)))

    def test_never_a_file_that_is_refused(self):
        """Text with a character or a line changed is refused with its line, or says a board that the reader takes."""
        taken = 0
        for k in range(3000):
            source = random.Random(f"changed/{k}")
            lines = text.to_text(boards.sound(source)[1]).decode().splitlines(keepends=True)
            at = source.randrange(len(lines))
            place = source.randrange(len(lines[at]))
            change = source.choice([lines[at][:place] + source.choice("0123456789:*+-c #x\n") + lines[at][place + 1 :], "", lines[at] * 2])
            try:
                file = text.to_file("".join(lines[:at] + [change] + lines[at + 1 :]).encode())
            except text.Bad as bad:
                self.assertRegex(str(bad), re.compile(r"line [0-9]+: ."))
            else:
                self.there_and_back(file)
                taken += 1
        self.assertTrue(100 < taken < 2900)

    def test_bad_files(self):
        for name in glob.glob(os.path.join(here, "refused-*.board")):
            number = int(name.rpartition("-")[2].removesuffix(".board"))
            with open(name, "rb") as f:
                told = run("to-text", f.read())
            self.assertEqual((told.returncode, told.stdout), (1, b""))
            self.assertEqual(told.stderr.decode(), f"refused {number}: {tanglepunt.REASONS[number]}\n")

    def test_the_command(self):
        made = run("to-file", EXAMPLE.encode())
        self.assertEqual((made.returncode, made.stderr), (0, b""))
        again = run("to-text", made.stdout)
        self.assertEqual((again.returncode, again.stdout, again.stderr), (0, EXAMPLE.encode(), b""))
        wrong = run("to-board", b"")
        self.assertEqual((wrong.returncode, wrong.stdout), (2, b""))


def any_board(source):
    """Any domains and any sound rows, without a thought for good fillings."""
    cells = source.choice([1, 2, source.randint(1, 64), 64])
    domains = [set(source.sample(range(32), source.choice([0, 1, 2, source.randint(0, 32), 31, 32]))) for _ in range(cells)]
    rows = []
    for _ in range(source.choice([1, source.randint(1, 32), 32])):
        through = source.sample(range(cells), source.randint(1, min(10, cells)))
        rows.append((*sorted(source.choices(range(512), k=2)), [(c, source.randrange(256)) for c in through]))
    return domains, rows


if __name__ == "__main__":
    unittest.main()
