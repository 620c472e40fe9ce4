#!/usr/bin/env python3
"""full.py RAIN FILE: writes a model of 400 by 400 cells with uneven heights, no drains, and the same rain on every cell."""
import struct
import sys


def main():
    rain, path = int(sys.argv[1]), sys.argv[2]
    with open(path, "wb") as file:
        file.write(struct.pack("<HH", 400, 400))
        for c in range(160000):
            file.write(struct.pack("<IIB", c * 7919 % 1000001, rain, 0))


if __name__ == "__main__":
    main()
