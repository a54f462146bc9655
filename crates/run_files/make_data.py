#!/usr/bin/env python3
"""Writes the board files under data/, their names in args, and stdout: what document 01 says of each file and record.

usage: make_data.py, from anywhere. The answers are worked out here, from document 01, and not by the library.
"""
import os


def number(n, size):
    return n.to_bytes(size, "little")


def row(names, low=0, high=511, length=None, weight=1):
    pairs = b"".join(bytes([name, weight]) for name in names)
    return bytes([len(names) if length is None else length]) + number(low, 2) + number(high, 2) + pairs


def file(rows, domains=(14, 14, 14), cells=None, count=None, start=None, mark=b"\x53\x4c", rest=b""):
    cells = len(domains) if cells is None else cells
    count = len(rows) if count is None else count
    start = 4 * cells if start is None else start
    return b"".join(number(d, 4) for d in domains) + b"".join(rows) + rest + number(start, 2) + bytes([cells, count]) + mark


def refusal(f):
    """Document 01's number for no, or 0: 6, 7, 8, 9; for each row 10, 1, 2, 10, for each pair 11, 12; then 10."""
    if not 6 <= len(f) <= 1062:
        return 6
    body, tail = f[:-6], f[-6:]
    start, cells, count = int.from_bytes(tail[:2], "little"), tail[2], tail[3]
    if tail[4:] != b"\x53\x4c":
        return 7
    if not (1 <= cells <= 64 and 1 <= count <= 32):
        return 8
    if start != 4 * cells or start > len(body):
        return 9
    rows = body[start:]
    for _ in range(count):
        if len(rows) < 5:
            return 10
        length, low, high = rows[0], int.from_bytes(rows[1:3], "little"), int.from_bytes(rows[3:5], "little")
        if not 1 <= length <= 10:
            return 1
        if low > high or high > 511:
            return 2
        if len(rows) < 5 + 2 * length:
            return 10
        names = rows[5 : 5 + 2 * length : 2]
        for k, name in enumerate(names):
            if name >= cells:
                return 11
            if name in names[:k]:
                return 12
        rows = rows[5 + 2 * length :]
    return 10 if rows else 0


# Faults, each under its number, as changes to a sound file. A pair of them has both; what comes first in document 01 must win.
good, long_pad = row([0, 1]), b"\x00" * 1063
trailer_faults = {
    "6": dict(rest=long_pad),
    "7": dict(mark=b"\x4c\x53"),
    "8": dict(count=33),
    "9": dict(start=11),
}
row_faults = {
    "10_head": [b"\x00\x09\x00\x01"],
    "1": [row([0, 1], length=0)],
    "2": [row([0, 1], low=4, high=3)],
    "10_pairs": [row([0, 1], length=9)],
    "11": [row([0, 3])],
    "12": [row([1, 1])],
    "10_rest": [good, b"\x00"],
}
row_pairs = {
    "10_head_1": [b"\x00"],
    "10_head_2": [b"\x02\xff\x01\x00"],
    "1_2": [row([0, 1], length=11, low=4, high=3)],
    "1_10_pairs": [row([0, 1], length=11)],
    "1_11": [row([0, 3, 1, 2, 1, 2, 1, 2, 1, 2, 1])],
    "1_12": [row([1] * 11)],
    "2_10_pairs": [row([0, 1], high=512, length=9)],
    "2_11": [row([0, 3], high=512)],
    "2_12": [row([1, 1], high=512)],
    "10_pairs_11": [row([3, 0], length=9)],
    "10_pairs_12": [row([1, 1], length=9)],
    "11_12": [row([0, 3, 0])],
    "12_11": [row([0, 0, 3])],
    "2_row_1": [row([0], high=512), row([], length=0)],
    "11_row_1": [row([3]), row([], length=0)],
    "12_row_1": [row([1, 1]), row([], length=0)],
    "12_row_2": [row([1, 1]), row([0], low=1, high=0)],
    "12_row_11": [row([1, 1]), row([3])],
    "1_row_10_head": [row([0], length=0), b"\x01"],
    "2_row_10_head": [row([0], high=512), b"\x01"],
    "11_row_10_head": [row([3]), b"\x01"],
    "12_row_10_head": [row([1, 1]), b"\x01"],
    "1_10_rest": [row([0], length=0), b"\x00" * 9],
    "2_10_rest": [row([0], high=512), b"\x00" * 9],
    "11_10_rest": [row([3]), b"\x00" * 9],
    "12_10_rest": [row([1, 1]), b"\x00" * 9],
}


def rows_of(name, parts):
    """How many rows the trailer counts: left-over bytes are none."""
    return len(parts) - (1 if name.endswith("rest") else 0)


largest_row = row(range(54, 64), 511, 511, weight=255)
files = {
    "document": bytes.fromhex("0E0000000E0000000E000000 020300030000010101 020700080001010202 0C000302534C"),
    "smallest": file([row([0])], [0]),
    "largest_1062": file([largest_row] * 32, [2**32 - 1] * 64),
    "bytes_1063": file([largest_row] * 32, [2**32 - 1] * 64, rest=b"\x00"),
    "bytes_6": file([], [], cells=0, count=0),
    "bytes_5": b"\x00\x00\x00\x53\x4c",
    "bytes_0": b"",
    "cells_64": file([row([63])], [1] * 64),
    "cells_65": file([row([63])], [1] * 65),
    "cells_0": file([row([0])], []),
    "rows_32": file([row([0])] * 32, [1]),
    "rows_33": file([row([0])] * 33, [1]),
    "rows_0": file([], [1]),
    "length_10": file([row(range(10))], [1] * 10),
    "length_11": file([row(range(11))], [1] * 11),
    "high_511": file([row([0], 511, 511)], [1]),
    "high_512": file([row([0], 511, 512)], [1]),
    "start_past_trailer": file([], [1], cells=2, count=1),
    "start_far": file([row([0])], [1], start=0xFFFF),
}
for a, change in trailer_faults.items():
    files["no_" + a] = file([good], **change)
    for b, other in trailer_faults.items():
        if int(a) < int(b):
            files[f"no_{a}_{b}"] = file([good], **change, **other)
    for b, parts in row_faults.items():
        files[f"no_{a}_{b}"] = file(parts, **{"count": rows_of(b, parts), **change})
files["no_8_10_rest"] = file([good], count=0)
for name, parts in {**row_faults, **row_pairs}.items():
    files["no_" + name] = file(parts, count=rows_of(name, parts))

here = os.path.dirname(os.path.abspath(__file__))
lines = []
for name, f in files.items():
    with open(os.path.join(here, "data", name), "wb") as out:
        out.write(f)
    no = refusal(f)
    assert not name.startswith("no_") or no == int(name.split("_")[1]), (name, no)
    if no:
        lines.append(f"{name} REFUSED {no}")
    else:
        lines.append(f"{name} CELLS {f[-4]} LINES {f[-3]} WRITTEN {len(f)} SAME, ONE BYTE SHORT REFUSED 14")

# Records, each with the largest numbers in every place but those already made sound: 8, 8, 1, 2, 11, 12, in no room at all; then
# the last, which is sound, is the longest file.
for name, no in [("cells", 8), ("rows", 8), ("length", 1), ("limits", 2), ("names", 11), ("twice", 12), ("room", 14)]:
    lines.append(f"RECORD {name} REFUSED {no}")
lines.append("RECORD largest WRITTEN 1062")
with open(os.path.join(here, "args"), "w") as out:
    out.write("\n".join(files) + "\n")
with open(os.path.join(here, "stdout"), "w") as out:
    out.write("\n".join(lines) + "\n")
