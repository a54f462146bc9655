#!/usr/bin/env python3
"""Compares the report program's output on each board of this folder with the report that stands in its text.

usage: check.py [--program PATH]
"""
import argparse
import glob
import os
import subprocess
import sys

here = os.path.dirname(os.path.abspath(__file__))
options = argparse.ArgumentParser()
options.add_argument("--program", default=os.path.join(here, "..", "target", "bin", "report"))
options = options.parse_args()

names = sorted(glob.glob(os.path.join(here, "*.board")))
wrong = 0
for name in names:
    with open(name[: -len("board")] + "txt", encoding="ascii") as f:
        stored = f.read().split("\n\n", 1)[1]
    with open(name, "rb") as f:
        told = subprocess.run([options.program], stdin=f, stdout=subprocess.PIPE, check=False)
    if told.returncode != 0 or told.stdout != stored.encode():
        wrong += 1
        print(f"{os.path.basename(name)}: exit {told.returncode}, expected\n{stored}but it wrote\n{told.stdout.decode(errors='replace')}")
if wrong or not names:
    sys.exit(f"{wrong} of {len(names)} boards are reported wrongly")
print(f"{len(names)} boards are reported as their texts say")
