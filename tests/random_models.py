#!/usr/bin/env python3
"""random_models.py BIN DIR: the built programs on random models beside a second, plain writing of the rules.

Makes models from a fixed seed in the folder DIR, and compares for each what `drain` prints and writes, its
basins, and what `check` says of its table, of a right table with another flow, of damaged tables and of
damaged models. Tiny models are drained beside a search of all ways off the land. Rows of changes are made by
`change` beside a fresh draining after each change. Prints the number of comparisons; ends with status 1 at
the first that differs.
"""
import heapq
import os
import random
import re
import struct
import subprocess
import sys

from levels import Model, lowest_levels

OFF = 4294967295
MODELS = 1500
TINY_MODELS = 2000
ROWS = 600
CHANGE = re.compile(rb"(height|rain) [0-9]+ [0-9]+|drain [0-9]+ 0*[01]")
FIELDS = {b"height": (0, 4, 1000000), b"rain": (4, 4, 1000000), b"drain": (8, 1, 1)}


def model_fault(data):
    """The first fault of a file front to back, or None."""
    if len(data) < 4:
        return f"refused 1 at {len(data)}"
    width, rows = struct.unpack_from("<HH", data)
    for place, size in ((0, width), (2, rows)):
        if not 1 <= size <= 400:
            return f"refused 2 at {place}"
    at = 4
    for _ in range(width * rows):
        for size, most in ((4, 1000000), (4, 1000000), (1, 1)):
            if at + size > len(data):
                return f"refused 1 at {len(data)}"
            if int.from_bytes(data[at : at + size], "little") > most:
                return f"refused 3 at {at}"
            at += size
    return f"refused 1 at {at}" if at < len(data) else None


def flooded(model, rank):
    """Levels, flow and places: the lowest level first, and of equals the lowest rank."""
    levels, flow, places = [None] * model.count, [OFF] * model.count, [None] * model.count
    heap, order = [], []
    for c in range(model.count):
        if model.outlet(c):
            levels[c] = model.heights[c]
            heapq.heappush(heap, (levels[c], rank[c], c))
    while heap:
        level, _, c = heapq.heappop(heap)
        places[c] = len(order)
        order.append(c)
        for d in model.around(c):
            if levels[d] is None:
                levels[d] = max(model.heights[d], level)
                flow[d] = c
                heapq.heappush(heap, (levels[d], rank[d], d))
    return levels, flow, places, order


def lowest_way(model, way):
    """The lowest height of all ways off the land that begin with a way and come to no cell twice."""
    found = [max(model.heights[c] for c in way)] if model.outlet(way[-1]) else []
    found += [lowest_way(model, way + [d]) for d in model.around(way[-1]) if d not in way]
    return min(found, default=1 << 32)


def table_rows(model, rank):
    levels, flow, places, order = flooded(model, rank)
    amounts = list(model.rain)
    for c in reversed(order):
        if flow[c] != OFF:
            amounts[flow[c]] += amounts[c]
    return [list(row) for row in zip(levels, flow, places, amounts)]


def packed(rows):
    return b"".join(struct.pack("<IIIQ", *row) for row in rows)


def drain_text(model, rows):
    rain = sum(model.rain)
    leaves = sum(row[3] for row in rows if row[1] == OFF)
    lines = [f"cells {model.count} rain {rain} leaves {leaves}"]
    lines += [f"level {c} {row[0]}" for c, row in enumerate(rows) if row[0] > model.heights[c]]
    lines += [f"exit {c} amount {row[3]}" for c, row in enumerate(rows) if row[1] == OFF and row[3] > model.rain[c]]
    return "".join(line + "\n" for line in lines)


def basins_text(model, rows):
    cells = [0] * model.count
    amounts = [0] * model.count
    for c in range(model.count):
        at = c
        while rows[at][1] != OFF:
            at = rows[at][1]
        cells[at] += 1
        amounts[at] += model.rain[c]
    return "".join(f"exit {c} cells {cells[c]} amount {amounts[c]}\n" for c in range(model.count) if cells[c])


def table_fault(model, data):
    """What check must say: the length, then every cell for where it sends, for its level, for its amount."""
    if len(data) != 20 * model.count:
        return f"refused 6 at {len(data)}"
    rows = [struct.unpack_from("<IIIQ", data, 20 * c) for c in range(model.count)]
    for c, (_, to, place, _) in enumerate(rows):
        if model.outlet(c) != (to == OFF) or to != OFF and not (to in model.around(c) and rows[to][2] < place):
            return f"refused 8 at {c}"
    for c, (level, to, _, _) in enumerate(rows):
        filled = model.heights[c] if to == OFF else max(model.heights[c], rows[to][0])
        lower = any(rows[d][0] < level for d in model.around(c))
        if level < model.heights[c] or level != filled or lower and level != model.heights[c]:
            return f"refused 7 at {c}"
    for c, row in enumerate(rows):
        if row[3] != model.rain[c] + sum(rows[d][3] for d in range(model.count) if rows[d][1] == c):
            return f"refused 9 at {c}"
    return "accepted"


def random_size(dice):
    return dice.choice([(1, 1), (1, 9), (9, 1), (2, 2)] + 12 * [(dice.randint(3, 8), dice.randint(3, 8))])


def tiny_size(dice):
    return dice.choice([(3, 3), (3, 4), (4, 3)])


def random_model(dice, size):
    width, rows = size
    most = dice.choice([1, 3, 9, 1000000])
    rain = dice.choice([0, 1, 5, 1000000])
    often = dice.choice([0, 0, 0.05, 0.5])
    cells = [(dice.randint(0, most), dice.randint(0, rain), dice.random() < often) for _ in range(width * rows)]
    return struct.pack("<HH", width, rows) + b"".join(struct.pack("<IIB", *cell) for cell in cells)


def damaged_file(dice, data):
    data = bytearray(data)
    for _ in range(dice.randint(1, 2)):
        kind = dice.randint(0, 3)
        if kind == 0:
            del data[dice.randint(0, len(data)) :]
        elif kind == 1:
            data += bytes(dice.randint(1, 9))
        elif data:
            data[dice.randrange(len(data))] = dice.choice([0, 1, 2, 255])
    return bytes(data)


def damaged_table(dice, model, rows):
    rows = [list(row) for row in rows]
    for _ in range(dice.randint(1, 3)):
        c, field = dice.randrange(len(rows)), dice.randint(0, 3)
        if field == 1:
            rows[c][1] = dice.choice(model.around(c) + [OFF, model.count, c])
        else:
            rows[c][field] = max(0, rows[c][field] + dice.choice([-1, 1, 2]))
    data = packed(rows)
    return data[:-1] if dice.random() < 0.05 else data


def counted_lines(text):
    """The lines of a row of changes that count, each with its number from 1: neither blank nor a remark."""
    lines = [line[:-1] if line.endswith(b"\r") else line for line in text.split(b"\n")]
    return [(number, line) for number, line in enumerate(lines, 1) if line and not line.startswith(b"#")]


def hints(text):
    return "".join(f"change: line {number} is no change\n" for number, line in counted_lines(text) if not CHANGE.fullmatch(line))


def changed_file(data, line):
    """The model's file after the change that a line asks for, or None where it is refused."""
    if not CHANGE.fullmatch(line):
        return None
    name, cell, value = line.split(b" ")
    at, size, most = FIELDS[name]
    cell, value = int(cell), int(value)
    if cell >= Model(data).count or value > most:
        return None
    start = 4 + 9 * cell + at
    return data[:start] + value.to_bytes(size, "little") + data[start + size :]


def row_of_changes(data, text):
    """What a row of changes must print, and the file and the table after it, drained anew after each change."""
    model = Model(data)
    rows = table_rows(model, range(model.count))
    lines = []
    for number, (_, line) in enumerate(counted_lines(text)):
        after = changed_file(data, line)
        if after is None:
            lines.append(f"refused 5 at {number}")
            continue
        data, before, model = after, rows, Model(after)
        rows = table_rows(model, range(model.count))
        leaves = sum(row[3] for row in rows if row[1] == OFF)
        changed = sum(old[0] != new[0] for old, new in zip(before, rows))
        lines.append(f"leaves {leaves} changed {changed}")
    return "".join(line + "\n" for line in lines), data, packed(rows)


def random_line(dice, count):
    cell = dice.choice([dice.randrange(count)] * 40 + [count, 4294967295, 4294967296, 10**20])
    value = dice.choice([0, 1, dice.randint(0, 9), dice.randint(0, 1000000)] * 4 + [1000000, 1000001, 2**32, 10**20])
    name = dice.choice(["height"] * 5 + ["rain"] * 3 + ["drain"])
    line = f"{name} {cell} {value}" if name != "drain" else f"drain {cell} {dice.choice([0, 1] * 4 + [2])}"
    odd = ["", "# a remark", "height", "height 1", "height  1 2", "height 1 2 3", "level 1 2", "rain -1 2", "drain 0 01", "height 0 x"]
    return dice.choice([line] * 60 + odd)


def random_row(dice, count):
    lines = [random_line(dice, count) + dice.choice(["\n"] * 5 + ["\r\n"]) for _ in range(dice.randint(0, 12))]
    text = "".join(lines).encode()
    return text[:-1] if dice.random() < 0.2 else text


class Runs:
    """Runs of the built programs on files in one folder."""

    def __init__(self, programs, folder):
        self.programs, self.folder, self.compared = programs, folder, 0

    def file(self, name, data=None):
        path = os.path.join(self.folder, name)
        if data is not None:
            with open(path, "wb") as file:
                file.write(data)
        return path

    def same(self, what, found, expected):
        if found != expected:
            sys.exit(f"FAILED: {what} in {self.folder}: {found!r}, not {expected!r}")
        self.compared += 1

    def program(self, expected, name, *words):
        """What the program prints, and its status: 1 where it refuses, else 0."""
        done = subprocess.run([os.path.join(self.programs, name), *words], capture_output=True, check=False)
        status = 1 if expected.startswith("refused") else 0
        self.same(" ".join([name, *words]), (done.stdout.decode(), done.stderr, done.returncode), (expected, b"", status))

    def contents(self, name):
        with open(self.file(name), "rb") as file:
            return file.read()

    def rows_of_changes(self, dice, data):
        """What `change` prints for a row, its hints, and the files that it writes."""
        text = random_row(dice, Model(data).count)
        printed, changed, table = row_of_changes(data, text)
        names = [self.file("model", data), self.file("row", text), self.file("changed", b"old"), self.file("table", b"old")]
        done = subprocess.run([os.path.join(self.programs, "change"), *names], capture_output=True, check=False)
        self.same(f"change {text!r}", (done.stdout.decode(), done.stderr.decode(), done.returncode), (printed, hints(text), 0))
        self.same(f"model after {text!r}", self.contents("changed"), changed)
        self.same(f"table after {text!r}", self.contents("table"), table)

    def model(self, dice, data):
        model = Model(data)
        path, table = self.file("model", data), self.file("table", b"old")
        rows = table_rows(model, range(model.count))
        self.same("levels of the second writing", [row[0] for row in rows], lowest_levels(model))
        self.program(drain_text(model, rows), "drain", path, table)
        with open(table, "rb") as file:
            self.same("table", file.read(), packed(rows))
        self.program(basins_text(model, rows), "drain", "--basins", path)
        self.program("accepted\n", "check", path, table)
        other = table_rows(model, dice.sample(range(model.count), model.count))
        self.program("accepted\n", "check", path, self.file("other", packed(other)))
        for start in (rows, other):
            bad = damaged_table(dice, model, start)
            self.program(table_fault(model, bad) + "\n", "check", path, self.file("bad", bad))

    def tiny_model(self, data):
        model = Model(data)
        rows = table_rows(model, range(model.count))
        self.same("levels of all ways", [lowest_way(model, [c]) for c in range(model.count)], [row[0] for row in rows])
        self.program(drain_text(model, rows), "drain", self.file("tiny", data))

    def damaged_model(self, data):
        fault = model_fault(data)
        path = self.file("damaged", data)
        model = None if fault else Model(data)
        text = fault + "\n" if fault else drain_text(model, table_rows(model, range(model.count)))
        self.program(text, "drain", path)


def main():
    runs = Runs(sys.argv[1], sys.argv[2])
    os.makedirs(sys.argv[2])
    dice = random.Random(20261118)
    for _ in range(MODELS):
        data = random_model(dice, random_size(dice))
        runs.model(dice, data)
        runs.damaged_model(damaged_file(dice, data))
    for _ in range(TINY_MODELS):
        runs.tiny_model(random_model(dice, tiny_size(dice)))
    for _ in range(ROWS):
        runs.rows_of_changes(dice, random_model(dice, random_size(dice)))
    print(runs.compared)


if __name__ == "__main__":
    main()
