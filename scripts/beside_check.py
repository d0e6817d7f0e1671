#!/usr/bin/env python3
"""Compares what a server reports after each change of a schema with what a check of the same files prints, over random projects.

    python3 scripts/beside_check.py PROGRAM [--projects N] [--changes N] [--seed N]

That what is kept from change to change decides no report is proved (docs/proofs.md); here it is asked of the whole program. Each project is a
schema and a file of operations, both open in one session, made as for scripts/beside_graphql_js.py. A change replaces a token or two of the schema,
or what stands in a pair of brackets. Most changes are taken back by the next one, so that a valid project is left and reached again; the others stay.
The last line counts the reports that were compared, and `N differ`; the status is 1 where that is not 0.
"""
import argparse
import json
import os
import random
import subprocess
import sys
import tempfile

from refactorings import Server

sys.path.insert(0, os.path.join(os.path.dirname(os.path.abspath(__file__)), "beside_graphql_js"))
from projects import Operations, Schema, changed  # noqa: E402

SCHEMA, OPERATIONS = "s.graphql", "q.graphql"
TAKEN_BACK = 0.7


def reported(server, last):
    """What is wrong by what the server told last of each document: file, line, character and code of each fault."""
    last.update((message["params"]["uri"], message["params"]["diagnostics"]) for message in server.ask("$/nothing", None)[1])
    for uri, faults in last.items():
        for fault in faults:
            start = fault["range"]["start"]
            yield uri.rpartition("/")[2], start["line"], start["character"], fault["code"]


def printed(program, files, folder):
    """The same by a check of the files."""
    for name, text in files.items():
        with open(os.path.join(folder, name), "w", encoding="utf-8") as out:
            out.write(text)
    done = subprocess.run([program, "check", "--format", "json", *sorted(files)], cwd=folder, stdout=subprocess.PIPE, check=False)
    for line in done.stdout.splitlines():
        fault = json.loads(line)
        start = fault["range"]["utf-16"]["start"]
        yield fault["file"], start["line"] - 1, start["column"] - 1, fault["code"]


def is_same(program, server, last, files, folder):
    """Whether the server, where these files are open by now, and a check of them say the same."""
    server.put({"file:///project/" + name: text for name, text in files.items()})
    one, other = sorted(reported(server, last)), sorted(printed(program, files, folder))
    if one != other:
        print("%s\nthe server: %s\na check: %s" % (files[SCHEMA], one, other), flush=True)
    return one == other


def session(program, chance, changes, folder):
    """Makes so many changes of one project, each with one behind it. How many reports differ."""
    schema = Schema(chance)
    files = {SCHEMA: schema.text(), OPERATIONS: "\n".join(Operations(schema).lines())}
    server, last, differ = Server(program), {}, 0
    server.put({"file:///project/" + name: text for name, text in files.items()})
    for _ in range(changes):
        before = files[SCHEMA]
        text = changed(chance, before)
        after = before if chance.random() < TAKEN_BACK else changed(chance, text)
        for files[SCHEMA] in (text, after):
            differ += not is_same(program, server, last, files, folder)
    server.ask("shutdown", None)
    server.tell("exit", None)
    server.process.stdin.close()
    server.process.wait()
    return differ


def main():
    words = argparse.ArgumentParser(description=__doc__, formatter_class=argparse.RawDescriptionHelpFormatter)
    words.add_argument("program")
    words.add_argument("--projects", type=int, default=50)
    words.add_argument("--changes", type=int, default=20)
    words.add_argument("--seed", type=int, default=1)
    asked = words.parse_args()
    program, differ = os.path.abspath(asked.program), 0
    with tempfile.TemporaryDirectory() as folder:
        for number in range(asked.projects):
            differ += session(program, random.Random(asked.seed + number), asked.changes, folder)
    print("%d compared, %d differ" % (2 * asked.projects * asked.changes, differ))
    sys.exit(differ > 0)


if __name__ == "__main__":
    main()
