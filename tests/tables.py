#!/usr/bin/env python3
"""tables.py DIR: writes tables for examples/hollow.bin, made by hand, to DIR/N.table, and what check must say to DIR/N.txt.

The hollow's heights are 5 5 5 / 5 1 5 / 5 5 5, with rain 1. Only cell 4 sends to another cell, to any of its four
neighbours; it stands full to level 5.
"""
import os
import struct
import sys

OFF = 4294967295


def table(to, changes=()):
    """A right table in which cell 4 sends to cell `to`, but for changes (cell, field, value)."""
    rows = [[5, OFF, 0, 1] for _ in range(9)]
    rows[4] = [5, to, 1, 1]
    rows[to][3] = 2
    for cell, field, value in changes:
        rows[cell][field] = value
    return b"".join(struct.pack("<IIIQ", *row) for row in rows)


LEVEL, SENDS, PLACE, AMOUNT = range(4)
CASES = [
    ("accepted", table(1)),
    ("accepted", table(3)),
    ("accepted", table(7)),
    ("accepted", table(5, [(4, PLACE, OFF), (5, PLACE, 9)])),
    ("refused 6 at 179", table(7)[:-1]),
    ("refused 6 at 181", table(7) + b"\0"),
    ("refused 6 at 0", b""),
    ("refused 8 at 4", table(7, [(4, SENDS, OFF)])),
    ("refused 8 at 0", table(7, [(0, SENDS, 1), (0, PLACE, 1)])),
    ("refused 8 at 4", table(7, [(4, SENDS, 8)])),
    ("refused 8 at 4", table(7, [(4, SENDS, 9)])),
    ("refused 8 at 4", table(7, [(7, PLACE, 1)])),
    ("refused 7 at 2", table(7, [(2, LEVEL, 6)])),
    ("refused 7 at 3", table(7, [(3, LEVEL, 4)])),
    ("refused 7 at 4", table(7, [(4, LEVEL, 6)])),
    ("refused 7 at 4", table(7, [(4, LEVEL, 1)])),
    ("refused 9 at 7", table(7, [(7, AMOUNT, 1)])),
    ("refused 9 at 4", table(7, [(4, AMOUNT, 0)])),
    ("refused 9 at 8", table(7, [(8, AMOUNT, 2**64 - 1)])),
    ("refused 8 at 4", table(7, [(0, AMOUNT, 7), (1, LEVEL, 7), (4, SENDS, OFF)])),
    ("refused 7 at 1", table(7, [(0, AMOUNT, 7), (1, LEVEL, 7)])),
]


def main():
    folder = sys.argv[1]
    os.makedirs(folder)
    for number, (answer, data) in enumerate(CASES):
        with open(os.path.join(folder, f"{number}.table"), "wb") as file:
            file.write(data)
        with open(os.path.join(folder, f"{number}.txt"), "w", encoding="ascii") as file:
            file.write(answer + "\n")


if __name__ == "__main__":
    main()
