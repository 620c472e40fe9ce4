#!/usr/bin/env python3
"""levels.py MODEL: the first line and the level lines that drain must print, by a slow search of its own.

The level of a cell is the lowest height at which a way off the land exists. Here every cell's level is
lowered again and again to the larger of its height and a neighbour's level, until nothing changes.
"""
import struct
import sys


class Model:
    """A model that is known to be well formed, from the bytes of its file."""

    def __init__(self, data):
        self.width, self.rows = struct.unpack_from("<HH", data)
        self.count = self.width * self.rows
        cells = [struct.unpack_from("<IIB", data, 4 + 9 * c) for c in range(self.count)]
        self.heights = [cell[0] for cell in cells]
        self.rain = [cell[1] for cell in cells]
        self.drains = [cell[2] == 1 for cell in cells]

    def outlet(self, c):
        x, y = c % self.width, c // self.width
        return x in (0, self.width - 1) or y in (0, self.rows - 1) or self.drains[c]

    def around(self, c):
        """The neighbours up, left, right and down."""
        x, y = c % self.width, c // self.width
        return [
            b * self.width + a
            for a, b in ((x, y - 1), (x - 1, y), (x + 1, y), (x, y + 1))
            if 0 <= a < self.width and 0 <= b < self.rows
        ]


def lowest_levels(model):
    levels = [model.heights[c] if model.outlet(c) else 1 << 32 for c in range(model.count)]
    changed = True
    while changed:
        changed = False
        for c in range(model.count):
            if not model.outlet(c):
                lower = max(model.heights[c], min(levels[d] for d in model.around(c)))
                if lower < levels[c]:
                    levels[c] = lower
                    changed = True
    return levels


def main():
    with open(sys.argv[1], "rb") as file:
        model = Model(file.read())
    levels = lowest_levels(model)
    rain = sum(model.rain)
    print(f"cells {model.count} rain {rain} leaves {rain}")
    for c in range(model.count):
        if levels[c] > model.heights[c]:
            print(f"level {c} {levels[c]}")


if __name__ == "__main__":
    main()
