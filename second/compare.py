#!/usr/bin/env python3
"""Compares whole outputs of a proved program with those of the second program, over random files, sound and damaged.

usage: compare.py [--search] [--seed N] [--files N] [--program PATH]

The report program is run once on each file; with --search the search program is run on it with several numbers of choices. Stops
at the first difference and shows it in full. File k of a seed is always the same, so a run can be repeated.
"""
import argparse
import os
import random
import subprocess
import sys
import time
from collections import Counter

import boards
import choices
import report
import search

here = os.path.dirname(os.path.abspath(__file__))


def report_runs(source, data):
    """For each run: its arguments, what it must print, which of these lines has the answer, and whether a search went back."""
    yield [], report.report(data), -1, False


def search_runs(source, data):
    for number in choices.numbers(source, data):
        ours, went_back = search.printed(data, number)
        yield [str(number)], ours, 0, went_back


def tally(counter):
    return ", ".join(f"{n} {name}" for name, n in sorted(counter.items()))


options = argparse.ArgumentParser()
options.add_argument("--search", action="store_true")
options.add_argument("--seed", type=int, default=1)
options.add_argument("--files", type=int, default=3000)
options.add_argument("--program")
options = options.parse_args()
name, sound, runs = ("finish", boards.searched, search_runs) if options.search else ("report", boards.sound, report_runs)
program = options.program or os.path.join(here, "..", "target", "bin", name)

kinds, answers, back = Counter(), Counter(), Counter()
shown = time.monotonic()
for k in range(options.files):
    source = random.Random(f"{options.seed}/{k}")
    kind, data = boards.damaged(source) if source.random() < 0.35 else sound(source)
    for arguments, ours, where, went_back in runs(source, data):
        command = [program, *arguments]
        theirs = subprocess.run(command, input=data, stdout=subprocess.PIPE, check=False)
        if theirs.returncode != 0 or theirs.stdout != ours.encode():
            print(f"DIFFERENT: seed {options.seed}, file {k}, {kind}, after {answers.total()} runs that agree; its bytes:")
            print(f"{data.hex(' ')}\n-- the second program:\n{ours}-- {' '.join(command)}, exit {theirs.returncode}:")
            print(theirs.stdout.decode(errors="replace"))
            sys.exit(1)
        line = ours.splitlines()[where]
        answer = line if line.startswith("REFUSED") else line.split()[0]
        answers[answer] += 1
        back[answer] += went_back
    kinds[kind] += 1
    if time.monotonic() - shown > 30:
        shown = time.monotonic()
        print(f"{k + 1} of {options.files} files agree", flush=True)

print(f"{options.files} files agree in {answers.total()} runs, seed {options.seed}")
print(f"kinds:   {tally(kinds)}")
print(f"answers: {tally(answers)}")
if options.search:
    print(f"went back: {tally(+back)}")
