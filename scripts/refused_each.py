#!/usr/bin/env python3
"""Refuses each growth of memory of each row, case and session in turn, by a child process made at it.

    python3 scripts/refused_each.py PROGRAM [--minutes N] [--most N] [--jobs N] [TEXT..]      PROGRAM as crates/gqls/out/gqls

What is run, what a growth is and what may come of one that is refused are those of refused_memory.py, which runs the program anew for each
growth, and so tries some sixty of a long session. Here a case runs once. At each growth it makes a child, in which that growth is refused,
and then one in which all behind it are, too; once the child has ended, what it wrote is taken back, and the case goes on as with ample
memory. A session in which rows follow each other, each with documents of its own, is cut into one for each row. A fork copies one thread
alone, so no other can be made: what would run by threads runs on one. Where files change between two messages, or are written, each growth is
refused in a run of its own. Of what writes files each has to be as it was, or as with ample memory, and no other may be left.

A table counts what the children came to, by the file of their case. Of cases with one of the words TEXT in their names the longest begin
first; with `--minutes` none begins that much later, with `--most` one of more growths is passed over, and those that were left out are told.
The status is 1 where one differed."""
import argparse
import multiprocessing
import os
import struct
import subprocess
import sys
import tempfile
import time

from refused_memory import WRONG, Judge, Table
from trials import ALL, Case, Ran, Runner, commands, compiled, contents, environment, new_counts, numbers_in, parts_of, programs_of_rows, sessions, sessions_over_folders, stream_of

RECORD = struct.Struct("7qQ")
COVER = "file:///cover"


def opened_after(body, opened):
    """The documents that are open behind a message, of those that were before it."""
    parts = parts_of(body)
    uri = ((parts.get("params") or {}).get("textDocument") or {}).get("uri") if isinstance(parts.get("params"), dict) else None
    if parts.get("method") == "textDocument/didOpen":
        return opened | {uri}
    return opened - {uri} if parts.get("method") == "textDocument/didClose" else opened


def by_rows(case):
    """A session for each row of a case of rows, where the same is open between two of them: the cover, or nothing; else the case."""
    if ".rows" not in case.name or len(case.bodies) < 2:
        return [case]
    between = opened_after(case.bodies[1], frozenset()) & {COVER}
    opened, front, part, found = frozenset(), None, [], []
    for body in case.bodies:
        part.append(body)
        opened = opened_after(body, opened)
        if opened == between:
            if front is None:
                front = part
            else:
                found.append(front + part)
            part = []
    if front is None or part or len(found) < 2:
        return [case]
    return [Case(f"{case.name}-{number}", case.words, bodies, case.rest, case.steps) for number, bodies in enumerate(found)]


def size_of(case):
    """How many bytes a case is given."""
    given = [rest[1] for word, rest in case.steps if word == "bytes"]
    return sum(map(len, (*case.bodies, case.rest, *given)))


class Forker(Runner):
    """Runs a case once, and a child at each growth."""

    def children(self, case):
        """The run with ample memory, and what each child came to: the growth, whether all behind it were refused, a number for what it came to,
        and that the first time."""
        with tempfile.TemporaryDirectory() as outer:
            folder, log = os.path.join(os.path.realpath(outer), "w"), os.path.join(outer, "log")
            os.mkdir(folder)
            open(log, "wb").close()
            case.lay(folder)
            counts, names = new_counts(outer), [os.path.join(outer, name) for name in ("input", "output", "errors")]
            with open(names[0], "wb") as file:
                file.write(stream_of(case, folder))
            with open(names[0], "rb") as given, open(names[1], "w+b") as output, open(names[2], "w+b") as errors:
                ran = subprocess.run(
                    [case.program or self.program, *(word.replace("DIR", folder) for word in case.words)],
                    cwd=folder,
                    env=os.environ | environment(self.library, counts, {}) | {"TRIAL_LOG": log},
                    stdin=given,
                    stdout=output,
                    stderr=errors,
                )
            ample = Ran(contents(names[1], b""), contents(names[2], b""), ran.returncode, numbers_in(counts), folder)
            return ample, read_log(contents(log, b""), contents(names[1], b""), folder)


def read_log(data, output, folder):
    """The records of a log: the growth, whether all behind it were refused, the number of what came, and that where it comes for the first time."""
    at, found = 0, []
    while at < len(data):
        growth, goes_on, status, is_new, front, size, more, key = RECORD.unpack_from(data, at)
        at += RECORD.size
        ran = None
        if is_new:
            told, said = data[at : at + size], data[at + size : at + size + more]
            at += size + more
            ran = Ran(output[:front] + told, said, os.waitstatus_to_exitcode(status), (0, 0, 0), folder)
        found.append((growth, goes_on, key, ran))
    return found


def came_of_children(judge, children):
    """What came of each of the children, and what differs."""
    came, wrong, known = {}, [], {}
    for growth, goes_on, key, ran in children:
        if ran is not None:
            known[key] = judge.came_of(ran, goes_on)
        outcome, why = known[key]
        came[outcome] = came.get(outcome, 0) + 1
        if why:
            wrong.append(f"{judge.case.name}, growth {growth}{' and all behind it' if goes_on else ''}: {why}")
    return came, wrong


def files_differ(case, ample, ran):
    """Whether a file is neither as it was nor as with ample memory, or as it was though the run says that all is written."""
    before = {rest[0]: rest[1] for word, rest in case.steps if word == "bytes"}
    if ran.files.keys() != before.keys():
        return True
    same = ran.is_as(ample)
    return any(data != ample.files[name] and (same or data != before[name]) for name, data in ran.files.items())


def came_of_runs(judge):
    """What came of runs for each growth, and what differs."""
    came, wrong = {}, []
    for growth in range(1, judge.ample.growths + 1):
        for goes_on in (0, 1):
            ran = judge.runner.run(judge.case, {"REFUSE_AT": growth, "REFUSE_ALL": goes_on})
            outcome, why = judge.came_of(ran, goes_on)
            if judge.case.writes and files_differ(judge.case, judge.ample, ran):
                outcome, why = WRONG, why or f"its files are {ran.files}"
            came[outcome] = came.get(outcome, 0) + 1
            if why:
                wrong.append(f"{judge.case.name}, growth {growth}{' and all behind it' if goes_on else ''}: {why}")
    return came, wrong


def tried(task):
    """The growths of a case, what came of each, and what differs; None where it was left out."""
    forker, case, deadline, most = task
    if time.time() >= deadline:
        return case.name, 0, None, []
    try:
        judge = Judge(forker, case)
        if judge.ample.growths > most:
            return case.name, 0, None, []
        if case.writes or case.changes:
            return case.name, judge.ample.growths, *came_of_runs(judge)
        ample, children = forker.children(case)
        if not ample.is_as(judge.ample) or len(children) != 2 * ample.growths:
            raise ValueError("a run with children differs from one without")
        return case.name, ample.growths, *came_of_children(judge, children)
    except Exception as error:
        return case.name, 0, {WRONG: 1}, [f"{case.name}: {type(error).__name__}: {error}"]


def main():
    parser = argparse.ArgumentParser(description=__doc__, formatter_class=argparse.RawDescriptionHelpFormatter)
    parser.add_argument("program")
    parser.add_argument("texts", nargs="*", default=[""], metavar="TEXT")
    parser.add_argument("--minutes", type=float, default=600)
    parser.add_argument("--most", type=int, default=ALL)
    parser.add_argument("--jobs", type=int, default=os.cpu_count())
    asked = parser.parse_intermixed_args()
    folders = *sessions_over_folders(), *sessions_over_folders(changing=True), *sessions_over_folders(many=True)
    known = *sessions(), *folders, *commands(), *commands(writing=True), *programs_of_rows()
    whole = [case for case in known if any(text in case.name for text in asked.texts)]
    cases = sorted((row for case in whole for row in (by_rows(case) if case.serves else [case])), key=size_of, reverse=True)
    deadline, table, missed = time.time() + 60 * asked.minutes, Table(), []
    with tempfile.TemporaryDirectory() as folder, multiprocessing.Pool(asked.jobs) as pool:
        forker = Forker(os.path.abspath(asked.program), compiled(folder))
        for name, growths, came, wrong in pool.imap_unordered(tried, [(forker, case, deadline, asked.most) for case in cases]):
            if came is None:
                missed.append(name)
                continue
            table.put_case(name, growths, range(growths))
            table.row(name)[2].update(came)
            for line in wrong[:3]:
                print(line, flush=True)
    came = table.show()
    print(f"{came.total() - came[WRONG]} passed, {came[WRONG]} failed, {len(cases)} rows and cases, {len(missed)} left out: {', '.join(missed[:20])}")
    return 1 if came[WRONG] or not cases else 0


if __name__ == "__main__":
    sys.exit(main())
