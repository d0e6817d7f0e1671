#!/usr/bin/env python3
"""Counts the ways that lead down from each crate of crates.txt: 1, and the ways of each crate that its line names.

    python3 scripts/ways.py [TEXT]      of crates whose name has TEXT only

`rt ci` sums the files of a library, and of all below it, before and behind its proof, and once for each such way: some 5 to 9
milliseconds of one processor a way. So crates that name many others, each of which names those below it, cost hours. Lines
go from the fewest to the most; the last line is the sum over libraries, twice, which is what a run of the gate sums."""
import functools
import os
import sys

TOP = os.path.dirname(os.path.dirname(os.path.abspath(__file__)))


def crates():
    """What each crate names of the others, and those that are libraries: neither programs nor static libraries."""
    found, others = {}, set()
    with open(f"{TOP}/crates.txt", encoding="utf-8") as lines:
        for line in lines:
            head, colon, below = line.split("#")[0].partition(":")
            if colon:
                name, *kind = head.split()
                found[name] = below.split()
                if kind or os.path.isfile(f"{TOP}/crates/{name}/src/main.rt"):
                    others.add(name)
    return {name: [one for one in below if one in found] for name, below in found.items()}, found.keys() - others


def main():
    known, libraries = crates()
    text = sys.argv[1] if len(sys.argv) > 1 else ""

    @functools.lru_cache(maxsize=None)
    def ways(name):
        return 1 + sum(ways(one) for one in known[name])

    for name in sorted(known, key=ways):
        if text in name:
            print(f"{ways(name):8,}  {name}")
    print(f"{2 * sum(ways(name) for name in libraries):8,}  summed by a run")


if __name__ == "__main__":
    main()
