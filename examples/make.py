#!/usr/bin/env python3
"""Makes the example models of this folder anew: python3 examples/make.py

hollow, spill, single and sill are small enough to work out by hand; valley is a valley of 60 by 40
cells with a pond, a hollow that only the noise of the survey made, flat fields, and a pond with a
drain in its middle. Heights are in centimetres, rain in hundredths of a litre.
"""
import os
import struct

HERE = os.path.dirname(os.path.abspath(__file__))


def write(name, width, heights, rain=None, drains=()):
    """One model file: the two sizes, then height, rain and drain mark of each cell, low byte first."""
    rows = len(heights) // width
    parts = [struct.pack("<HH", width, rows)]
    for cell, height in enumerate(heights):
        fallen = 1 if rain is None else rain[cell]
        parts.append(struct.pack("<IIB", height, fallen, cell in drains))
    with open(os.path.join(HERE, name), "wb") as file:
        file.write(b"".join(parts))


def valley():
    """Heights, rain and drains of the valley, by row and column from its upper left corner."""
    width, rows = 60, 40
    heights, rain, drains = [], [], set()
    for row in range(rows):
        for column in range(width):
            # two slopes down to a stream in row 20, which falls from left to right
            height = 5000 + 12 * abs(row - 20) + 6 * (width - 1 - column)
            if 3 <= row <= 9 and 8 <= column <= 24:
                height = 5400  # a flat field
            if 28 <= row <= 35 and 30 <= column <= 44:
                height = 5250  # another, with a drained pond in it
            if 30 <= row <= 33 and 34 <= column <= 40:
                height = 5180
            if 18 <= row <= 22 and 12 <= column <= 20:
                height = 5190 + 3 * abs(row - 20) + abs(column - 16)  # the pond
            if column == 22:
                height = max(height, 5320)  # the road that dams it up
            if row == 12 and column == 50:
                height -= 90  # one cell that the survey has too low
            heights.append(height)
            rain.append(120 + (row * 7 + column * 3) % 11)
    drains.add(31 * width + 37)
    return width, heights, rain, drains


def main():
    write("hollow.bin", 3, [5, 5, 5, 5, 1, 5, 5, 5, 5])
    write("spill.bin", 3, [5, 5, 5, 5, 1, 3, 5, 5, 5])
    write("single.bin", 1, [4])
    write("sill.bin", 5, [9, 9, 9, 9, 9, 9, 2, 7, 3, 4, 9, 9, 9, 9, 9])
    width, heights, rain, drains = valley()
    write("valley.bin", width, heights, rain, drains)


if __name__ == "__main__":
    main()
