#!/usr/bin/env python3
"""Times how long `gqls serve --root` takes to its first reply, beside a check of the same files.

    python3 bench/loading.py PROGRAM.. [--rounds N]

Two folders: one of 4,096 small files, one of 201 files with 4.9 MB. Each time is the best of so many rounds, on one processor. A
second column is the first rename in that folder, with two files open, and a third the memory of the server then.
docs/PERFORMANCE.md has what was seen."""
import argparse
import os
import sys
import tempfile

from latency import BYTES_EACH, CAPABILITIES, TYPES_A_FILE, Client, checked, position, timed
from projects import large


def small(count):
    """A schema, and so many files less one, each with an operation and a fragment."""
    yield "s.graphql", "type Query{x:Int q:Query}\n"
    for number in range(count - 1):
        yield "q%d.graphql" % number, "query Q%d{q{...F%d}} fragment F%d on Query{x}\n" % (number, number, number)


def started(program, folder):
    """A session in that folder, whose first reply has come."""
    client = Client(program, ["--root", folder])
    client.ask("initialize", {"capabilities": CAPABILITIES, "processId": None, "rootUri": None})
    return client


def first_reply(program, folder, rounds):
    """The best time from the start of the process to its first reply, in milliseconds."""
    times = []
    for _ in range(rounds):
        spent, client = timed(lambda: started(program, folder))
        times.append(spent)
        client.end()
    return min(times)


def first_rename(program, folder, files):
    """The first rename in the folder, with one file open: its time, and the memory then."""
    client = started(program, folder)
    name = "q0.graphql"
    text = files[name]
    offset = text.index("...F0") + 3
    uri = "file://" + os.path.join(folder, name)
    client.open(uri, text)
    asked = {"textDocument": {"uri": uri}, "position": position(text, offset), "newName": "Renamed"}
    spent, answer = timed(lambda: client.ask("textDocument/rename", asked))
    if not answer.get("result"):
        sys.exit("no rename: %s" % str(answer)[:300])
    memory = client.memory()
    client.end()
    return spent, memory


def main():
    words = argparse.ArgumentParser(description=__doc__, formatter_class=argparse.RawDescriptionHelpFormatter)
    words.add_argument("programs", nargs="+", metavar="PROGRAM")
    words.add_argument("--rounds", type=int, default=5)
    asked = words.parse_args()
    for what, files in (("4,096 files", dict(small(4096))), ("201 files, 4.9 MB", dict(large(200, BYTES_EACH, True, TYPES_A_FILE * 200)))):
        with tempfile.TemporaryDirectory() as folder:
            for name, text in files.items():
                with open(os.path.join(folder, name), "w", encoding="utf-8") as out:
                    out.write(text)
            names = [os.path.join(folder, name) for name in sorted(files)]
            for program in asked.programs:
                check, check_memory = map(min, zip(*(checked(program, names) for _ in range(asked.rounds))))
                reply = first_reply(program, folder, asked.rounds)
                spent, memory = first_rename(program, folder, files)
                print("%s: %s; check %.0f ms, %.0f MB" % (program, what, check, check_memory))
                print("  to the first reply %.0f ms, %.2f of the check; the first rename %.0f ms; memory %.0f MB" % (reply, reply / check, spent, memory), flush=True)


if __name__ == "__main__":
    main()
