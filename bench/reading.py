#!/usr/bin/env python3
"""Writes a text on which the time that `gqls check` takes to read is measured.

    python3 bench/reading.py FOLDER [KIB]        4096 KiB of operations, with a comment in each line

The folder gets q.graphql, whose last brace is closed nowhere. docs/PERFORMANCE.md has the command and what was seen.
"""
import os
import sys

LINE = "{ fieldName alias: otherField { innerField ...Fragment } } # a comment, é\n"
LINES_IN_KIB = 13


def main():
    folder, kibibytes = sys.argv[1], int(sys.argv[2]) if len(sys.argv) > 2 else 4096
    os.makedirs(folder, exist_ok=True)
    with open(os.path.join(folder, "q.graphql"), "w", encoding="utf-8", newline="") as file:
        file.write(LINE * (LINES_IN_KIB * kibibytes) + "{")


if __name__ == "__main__":
    main()
