#!/usr/bin/env python3
"""Times `gqls exec` over tables, and graphql-js beside it where node finds its module `graphql`.

    python3 bench/executing.py PROGRAM.. [--rounds N] [--objects N]

Two tables of 72,001 rows: in one, one field of three has an argument; in the other each field has three. Each time is the best of so
many rounds, one after the other, and memory is the most that the process had. What the two answer is compared, too.
docs/PERFORMANCE.md has what was seen."""
import argparse
import json
import os
import subprocess
import sys
import tempfile
import time

from table import put, with_arguments, without_arguments

OTHER = os.path.join(os.path.dirname(os.path.abspath(__file__)), "others", "graphql_js_exec.js")


def run(words, folder):
    """The milliseconds, the megabytes and the output of one run."""
    with tempfile.TemporaryFile() as out:
        start = time.perf_counter()
        process = subprocess.Popen(words, cwd=folder, stdout=out)
        _, status, used = os.wait4(process.pid, 0)
        spent = 1000 * (time.perf_counter() - start)
        process.returncode = os.waitstatus_to_exitcode(status)
        out.seek(0)
        return spent, used.ru_maxrss / 1000, out.read() if process.returncode == 0 else None


def best(words, folder, rounds):
    """The best time, the memory of that run, and the output; nothing where a run fails."""
    runs = [run(words, folder) for _ in range(rounds)]
    return None if any(one[2] is None for one in runs) else min(runs, key=lambda one: one[0])


def has_graphql():
    words = ["node", "-e", "require('graphql')"]
    try:
        return subprocess.run(words, stdout=subprocess.DEVNULL, stderr=subprocess.DEVNULL).returncode == 0
    except OSError:
        return False


def tell(name, found, first):
    """Prints one line, and says whether the answer is that of the first."""
    if found is None:
        print(f"  {name}: failed")
        return False
    same = json.loads(found[2]) == json.loads(first[2])
    print(f"  {name}: {found[0]:.0f} ms, {found[1]:.0f} MB{'' if same else ', ANOTHER ANSWER'}")
    return same


def main():
    parser = argparse.ArgumentParser(description=__doc__, formatter_class=argparse.RawDescriptionHelpFormatter, allow_abbrev=False)
    parser.add_argument("programs", metavar="PROGRAM", nargs="+", help="as crates/gqls/out/gqls")
    parser.add_argument("--rounds", type=int, default=5, help="by default 5")
    parser.add_argument("--objects", type=int, default=24000, help="by default 24,000")
    asked = parser.parse_args()
    projects = {"one argument in a third of the rows": without_arguments(asked.objects), "three arguments in each row": with_arguments(asked.objects, 3)}
    files = ["t.json", "s.graphql", "q.graphql"]
    well = True
    for name, project in projects.items():
        with tempfile.TemporaryDirectory() as folder:
            put(folder, project)
            print(f"{name}: {3 * asked.objects + 1} rows, {len(project['t.json']) / 1e6:.1f} MB")
            found = {program: best([os.path.abspath(program), "exec", "--table", *files], folder, asked.rounds) for program in asked.programs}
            if has_graphql():
                found["graphql-js"] = best(["node", OTHER, *files], folder, asked.rounds)
            first = next((one for one in found.values() if one), None)
            well = all([tell(*one, first) for one in found.items()]) and well
    sys.exit(0 if well else 1)


if __name__ == "__main__":
    main()
