#!/usr/bin/env python3
"""Tests of ./search: how searches end, what is refused, and wrong uses, each with what is written where and the status.

usage: test_search.py
"""
import os
import subprocess
import tempfile
import unittest

here = os.path.dirname(os.path.abspath(__file__))
command = os.path.join(here, "..", "search")

LARGEST = 2**64 - 1
SETTLED = "CELL 0 VALUES 1 2\nCELL 1 VALUES 1 2\nCELL 2 VALUES 3\n"
FILLING = "CELL 0 VALUES 1\nCELL 1 VALUES 2\nCELL 2 VALUES 3\n"
BAD_NUMBERS = ["", " ", "-1", "+1", "1.0", "1e3", "0x10", "ten", " 1", "1 ", "1\n", "1\n2", "\u0661", "--help", "-"]
TOO_LARGE = [LARGEST + 1, 10 * LARGEST, 10**20, 10**400]


def run(*words, **options):
    return subprocess.run([command, *map(str, words)], cwd=here, capture_output=True, text=True, check=False, **options)


def read(name):
    with open(os.path.join(here, name), "rb") as f:
        return f.read()


class Command(unittest.TestCase):
    def prints(self, told, output):
        self.assertEqual((told.returncode, told.stdout, told.stderr), (0, output, ""))

    def refuses(self, told, *words):
        """One line on standard error that has these words, and nothing else."""
        self.assertEqual((told.returncode, told.stdout), (2, ""))
        self.assertRegex(told.stderr, r"\Asearch: .*\n\Z")
        for word in words:
            self.assertIn(word, told.stderr)

    def test_document_01(self):
        self.prints(run("example.board", 0), "SPENT FOLLOWED 0 LEFT 0\n" + SETTLED)
        self.prints(run("example.board", 1), "SOLVED FOLLOWED 1 LEFT 0\n" + FILLING)
        self.prints(run("example.board", 10), "SOLVED FOLLOWED 1 LEFT 9\n" + FILLING)
        self.prints(run("example.board", LARGEST), f"SOLVED FOLLOWED 1 LEFT {LARGEST - 1}\n" + FILLING)

    def test_no_filling(self):
        self.prints(run("odd.board", 7), "NONE FOLLOWED 1 LEFT 6\nCELL 0 VALUES 0 1\nCELL 1 VALUES 0 1\nCELL 2 VALUES 0 1\n")
        self.prints(run("empty.board", 0), "NONE FOLLOWED 0 LEFT 0\nCELL 0 VALUES 4\nCELL 1 VALUES NONE\n")

    def test_zeros_in_front(self):
        self.prints(run("example.board", "0" * 30 + "10"), "SOLVED FOLLOWED 1 LEFT 9\n" + FILLING)
        self.prints(run("example.board", "0" * 30), "SPENT FOLLOWED 0 LEFT 0\n" + SETTLED)

    def test_refused_boards(self):
        self.prints(run("refused-7.board", 10), "REFUSED 7\n")
        self.prints(run("-", 10, stdin=subprocess.DEVNULL), "REFUSED 6\n")
        with tempfile.NamedTemporaryFile() as long:
            long.write(read("example.board") + bytes(5000) + read("example.board"))
            long.flush()
            self.prints(run(long.name, 10), "REFUSED 6\n")

    def test_standard_input(self):
        told = subprocess.run([command, "-", "10"], input=read("example.board"), capture_output=True, check=False)
        self.assertEqual((told.returncode, told.stdout.decode(), told.stderr), (0, "SOLVED FOLLOWED 1 LEFT 9\n" + FILLING, b""))

    def test_files_that_cannot_be_read(self):
        self.refuses(run("none.board", 10), "'none.board'", "No such file")
        self.refuses(run("-none", 10), "'-none'", "No such file")
        self.refuses(run("", 10), "No such file")
        self.refuses(run(os.pardir, 10), os.pardir, "Is a directory")
        with open(os.path.join(here, "example.board"), "rb") as f:
            closed = subprocess.run(["bash", "-c", 'exec "$0" - 10 <&-', command], stdin=f, capture_output=True, text=True, check=False)
        self.refuses(closed, "standard input is closed")

    def test_bad_numbers(self):
        for number in BAD_NUMBERS:
            with self.subTest(number=number):
                told = run("example.board", number)
                self.assertEqual((told.returncode, told.stdout), (2, ""))
                self.assertEqual(told.stderr, f"search: the number of choices is '{number}', and must be a whole number from 0 to {LARGEST}\n")
        for number in TOO_LARGE:
            self.refuses(run("example.board", number), f"above {LARGEST}")

    def test_help_and_wrong_use(self):
        told = run("--help")
        self.prints(told, told.stdout)
        self.assertRegex(told.stdout, r"\Ausage: \./search FILE CHOICES\n")
        for words in [], ["example.board"], ["example.board", 10, 10], [""]:
            with self.subTest(words=words):
                wrong = run(*words)
                self.assertEqual((wrong.returncode, wrong.stdout, wrong.stderr), (2, "", told.stdout))


if __name__ == "__main__":
    unittest.main()
