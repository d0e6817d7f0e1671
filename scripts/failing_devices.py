#!/usr/bin/env python3
"""Runs a built program over its cases where the input ends early, or its reads and writes are short, interrupted or fail.

    python3 scripts/failing_devices.py PROGRAM [--most N] [--jobs N] [TEXT]      PROGRAM as crates/gqls/out/gqls

It runs the stored run (crates/gqls/stdin), the cases of crates/gqls/cases, the sessions of crates/gqls/folders in which the folder stays as
it is, and the rows of crates/gqls/commands that write no file; TEXT keeps those that have it in their names. Each of these is done at each
place in turn, or at so many at even distances where there are more (`--most`, by default 60; in the stored run at each):

- **the input ends** after a byte: written are the messages for the bodies before, and the end is `gqls: Truncated` with the status 3 inside
  a frame, and the status 1 between two; behind `exit` all is as it was;
- **a read fails**: the same messages, and `gqls: Device` with the status 3; a file that cannot be read is that fault, too;
- **a read gives nothing**: the input has ended there;
- **a write fails**, or takes no byte: written is a front of what the program writes else, no further write is tried, and the end is
  `gqls: Device` with the status 3;
- **a call is interrupted**, or moves 1 or 7 bytes at most: all is as it was.

The stored run is also served by two workers, with a read and a write that fails. What they write is a beginning of the same frames, or of
those where the shutdown refuses the rename; behind a read that fails less may be written than was read.

Anything else is printed. Behind that a table counts the runs; the status is 1 where one differed."""
import argparse
import collections
import errno
import itertools
import multiprocessing
import os
import sys
import tempfile

from cases import frames
from trials import ALL, STORED, Case, Runner, commands, compiled, framed, most_for, parts_of, sessions, sessions_over_folders, sizes_of

DEVICE = 3, b"gqls: Device\n"
TRUNCATED = 3, b"gqls: Truncated\n"
NO_SHUTDOWN = 1, b""
FAILS, INTERRUPTED = errno.EIO, errno.EINTR
PIECES = 24
PIECE_MOST = 1024
REFUSED = b'{"error":{"code":-32803,"message":"shutdown"},"id":2,"jsonrpc":"2.0"}'


def places(count, most):
    """So many of the numbers from 1 on, at even distances."""
    return range(1, count + 1, max(1, -(-count // most)))


def piece_of(length, most):
    """How many bytes a call moves at most, so that there are some calls, and less than a call asks for; of the stored run one."""
    return 1 if most == ALL else min(PIECE_MOST, max(1, length // PIECES))


def end_of(ran):
    """The status, and the last line on standard error."""
    return ran.status, b"".join(ran.errors.splitlines(keepends=True)[-1:])


def told(ran):
    return f"{ran.status} {ran.errors[-200:]!r}, {len(ran.messages)} messages, {len(ran.output)} bytes {ran.output[-200:]!r}"


class Served:
    """What a session comes to where only the front of its input is read."""

    def __init__(self, runner, case, ample):
        self.ample = ample
        self.groups = runner.groups(case)
        self.ends = list(itertools.accumulate(sizes_of(case)))
        self.exit = next((end for end, body in zip(self.ends, case.bodies) if is_exit(body)), None)

    def after(self, count, end):
        """The messages behind so many bytes of the input, and how the run ends where it ends so inside a frame and between two."""
        if self.exit is not None and count >= self.exit:
            return self.ample.messages, end_of(self.ample)
        whole = sum(one <= count for one in self.ends)
        inside = count != (self.ends[whole - 1] if whole else 0)
        return list(itertools.chain.from_iterable(self.groups[:whole])), end if end != TRUNCATED or inside else NO_SHUTDOWN


def is_exit(body):
    parts = parts_of(body)
    return parts.get("method") == "exit" and "id" not in parts


def tries(runner, case, most):
    """Each run of a case: what was done, what came of it, and whether that is right."""
    ample = runner.run(case)
    same = lambda ran: ran.is_as(ample)
    for name, count in (("READ", ample.reads), ("WRITE", ample.writes)):
        if count:
            for piece in (1, 7):
                yield f"{name.lower()}s of {piece} bytes at most", runner.run(case, {f"{name}_MOST": piece}), same
    writes = {"WRITE_MOST": piece_of(len(ample.output), most)}
    front = lambda number: lambda ran: ample.output.startswith(ran.front) and end_of(ran) == DEVICE and ran.writes == number
    for number in places(runner.run(case, writes).writes, most):
        yield "a write is interrupted", runner.run(case, writes | {"WRITE_AT": number, "WRITE_ERROR": INTERRUPTED}), same
        for error, what in ((FAILS, "a write fails"), (0, "a write takes no byte")):
            yield what, runner.run(case, writes | {"WRITE_AT": number, "WRITE_ERROR": error}), front(number)
    yield from tries_of_files(runner, case, ample, most)
    if case.serves and case.bodies and not case.rest and not ample.errors:
        yield from tries_of_input(runner, case, ample, most)
    if case.name == STORED:
        yield from tries_with_workers(runner, case, most)


def tries_of_files(runner, case, ample, most):
    """Reads of files are short, interrupted or fail."""
    files = {"READ_FILES": 1}
    count = runner.run(case, files).reads
    same = lambda ran: ran.is_as(ample)
    right = lambda ran: end_of(ran) == DEVICE and ran.messages == ample.messages[: len(ran.messages)]
    if not case.serves:
        right = lambda ran: end_of(ran) == DEVICE and not ran.output or ample.status == 2 and end_of(ran) == end_of(ample)
    if count:
        yield "reads of files of 7 bytes at most", runner.run(case, files | {"READ_MOST": 7}), same
    for number in places(count, most):
        yield "a read of a file is interrupted", runner.run(case, files | {"READ_AT": number, "READ_ERROR": INTERRUPTED}), same
        yield "a read of a file fails", runner.run(case, files | {"READ_AT": number, "READ_ERROR": FAILS}), right


def tries_of_input(runner, case, ample, most):
    """The input of a server ends early, or its reads fail."""
    served = Served(runner, case, ample)
    length = served.ends[-1]
    is_so = lambda count, end: lambda ran: (ran.messages, end_of(ran)) == served.after(count, end)
    for count in (0, *places(length, most), length):
        yield "the input ends", runner.run(case, count=count), is_so(count, TRUNCATED)
    piece = piece_of(length, most)
    reads = {"READ_MOST": piece}
    for number in places(runner.run(case, reads).reads, most):
        count = min((number - 1) * piece, length)
        yield "a read is interrupted", runner.run(case, reads | {"READ_AT": number, "READ_ERROR": INTERRUPTED}), lambda ran: ran.is_as(ample)
        yield "a read fails", runner.run(case, reads | {"READ_AT": number, "READ_ERROR": FAILS}), is_so(count, DEVICE)
        yield "a read gives nothing", runner.run(case, reads | {"READ_AT": number, "READ_ERROR": 0}), is_so(count, TRUNCATED)


def tries_with_workers(runner, case, most):
    """Two workers serve the stored run, whose second frame is a rename's, where a read or a write fails."""
    ample = runner.run(case)
    two = Case(case.name, ["2" if word == "0" else word for word in case.words], case.bodies)
    parts = frames(ample.output)
    others = parts[:1] + [framed(REFUSED)] + parts[2:]
    is_front = lambda ran: any(b"".join(one).startswith(ran.output) for one in (parts, others))
    served = Served(runner, case, ample)
    for number in places(len(ample.output), most):
        fails = {"WRITE_MOST": 1, "WRITE_AT": number, "WRITE_ERROR": FAILS}
        is_right = lambda ran: is_front(ran) and (end_of(ran) == DEVICE or ran.writes < number and end_of(ran) == (0, b""))
        yield "a write of two workers fails", runner.run(two, fails), is_right
    for number in places(runner.run(case, {"READ_MOST": 1}).reads, most):
        wanted, end = served.after(number - 1, DEVICE)
        is_right = lambda ran: is_front(ran) and end_of(ran) == end and (end == DEVICE or len(ran.messages) == len(wanted))
        yield "a read of two workers fails", runner.run(two, {"READ_MOST": 1, "READ_AT": number, "READ_ERROR": FAILS}), is_right


def judged(task):
    """How many runs of a case passed and failed, by what was done, and what is wrong."""
    runner, case, most = task
    passed, failed, wrong = collections.Counter(), collections.Counter(), []
    try:
        for what, ran, is_right in tries(runner, case, most):
            if is_right(ran):
                passed[what] += 1
            else:
                failed[what] += 1
                wrong.append(f"{case.name}, {what}: {told(ran)}")
    except Exception as error:
        failed["else"] += 1
        wrong.append(f"{case.name}: {type(error).__name__}: {error}")
    return passed, failed, wrong


def main():
    parser = argparse.ArgumentParser(description=__doc__, formatter_class=argparse.RawDescriptionHelpFormatter)
    parser.add_argument("program")
    parser.add_argument("text", nargs="?", default="")
    parser.add_argument("--most", type=int, default=60)
    parser.add_argument("--jobs", type=int, default=os.cpu_count())
    asked = parser.parse_intermixed_args()
    cases = [case for case in (*sessions(), *sessions_over_folders(), *commands()) if asked.text in case.name]
    passed, failed = collections.Counter(), collections.Counter()
    with tempfile.TemporaryDirectory() as folder, multiprocessing.Pool(asked.jobs) as pool:
        runner = Runner(os.path.abspath(asked.program), compiled(folder))
        for right, other, wrong in pool.imap_unordered(judged, [(runner, case, most_for(case, asked.most)) for case in cases]):
            passed += right
            failed += other
            for line in wrong[:3]:
                print(line, flush=True)
    print("| What is done | As it should be | Otherwise |\n|---|---|---|")
    for what in sorted(passed.keys() | failed.keys()):
        print(f"| {what} | {passed[what]} | {failed[what]} |")
    print(f"{passed.total()} passed, {failed.total()} failed, {len(cases)} cases")
    return 1 if failed or not passed else 0


if __name__ == "__main__":
    sys.exit(main())
