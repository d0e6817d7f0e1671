#!/usr/bin/env python3
"""Times how long an editor waits that opens all files of a project at once, as one does that comes back to its tabs.

    python3 bench/opening.py PROGRAM.. [--rounds N] [--files N] [--workers N]

A client opens the schema, then so many files of operations in one go, in ascending order of their names and in descending order, and asks
for a hover in the first of these. Told is the least time from the first file of operations to that hover, in seconds: where the name of the
schema is the first of all, where it stands in the middle, and where it is the last. docs/PERFORMANCE.md has what was seen."""
import argparse
import re
import sys
import threading
import time

from latency import BYTES_EACH, CAPABILITIES, SCHEMA, TYPES_A_FILE, Client, opening, position
from projects import large

FOLDER = "file:///project/"
NAMES = {"first": "a.graphql", "in the middle": "q15_.graphql", "last": "s.graphql"}


def opened(program, workers, files, schema, is_ascending):
    """How long it takes until a hover is answered."""
    client = Client(program, workers=workers)
    client.ask("initialize", {"capabilities": CAPABILITIES, "processId": None, "rootUri": None})
    client.tell("initialized", {})
    client.write(opening(FOLDER + schema, files[SCHEMA]))
    names = sorted(set(files) - {SCHEMA}, reverse=not is_ascending)
    frames = b"".join(opening(FOLDER + name, files[name]) for name in names)
    text = files[names[0]]
    start = time.perf_counter()
    writes = threading.Thread(target=client.write, args=(frames,))
    writes.start()
    place = {"textDocument": {"uri": FOLDER + names[0]}, "position": position(text, re.search(r"t[0-9]+\(", text).start())}
    writes.join()
    answer = client.ask("textDocument/hover", place)
    spent = time.perf_counter() - start
    if not answer.get("result"):
        sys.exit("no answer to a hover: %s" % str(answer)[:300])
    client.server.kill()
    client.server.wait()
    return spent


def main():
    words = argparse.ArgumentParser(description=__doc__, formatter_class=argparse.RawDescriptionHelpFormatter)
    words.add_argument("programs", nargs="+", metavar="PROGRAM")
    words.add_argument("--rounds", type=int, default=3)
    words.add_argument("--files", type=int, default=200)
    words.add_argument("--workers", type=int, default=2)
    asked = words.parse_args()
    files = dict(large(asked.files, BYTES_EACH, True, TYPES_A_FILE * asked.files))
    for program in asked.programs:
        for where, name in NAMES.items():
            for order, is_ascending in (("ascending", True), ("descending", False)):
                times = [opened(program, asked.workers, files, name, is_ascending) for _ in range(asked.rounds)]
                print("%s: the schema %s, %s: %.2f s" % (program, where, order, min(times)), flush=True)


if __name__ == "__main__":
    main()
