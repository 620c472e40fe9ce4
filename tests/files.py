#!/usr/bin/env python3
"""files.py TABLE DIR: writes each file of a table of malformed files to DIR/N.bin, and its answer to DIR/N.txt."""
import os
import sys


def main():
    table, folder = sys.argv[1:]
    os.makedirs(folder)
    number = 0
    with open(table, encoding="ascii") as lines:
        for line in lines:
            if not line.strip() or line.startswith("#"):
                continue
            answer, data = line.split(":")
            with open(os.path.join(folder, f"{number}.bin"), "wb") as file:
                file.write(bytes.fromhex(data))
            with open(os.path.join(folder, f"{number}.txt"), "w", encoding="ascii") as file:
                file.write(answer + "\n")
            number += 1


if __name__ == "__main__":
    main()
