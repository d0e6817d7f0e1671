#!/usr/bin/env python3
"""Judges a built program that answers with workers: by the same sessions as one thread, by sessions of a client that does not wait,
and by the recorded session of an editor.

    python3 scripts/workers.py PROGRAM [TEXT]        PROGRAM as crates/gqls/out/gqls; TEXT: only what has it in its name

**Sessions of a client that waits.** Each case of crates/gqls/cases, each session of crates/gqls/folders and each recorded one is served
with 0 workers, and then with 1, 2 and 8. The client sends one message after another, each once all has come that the server of one
thread writes for those before it. So what is written must be the same, byte for byte, with the same status and the same words on
standard error. What one thread writes for a message is found by a question behind each, of a method that no server has: what comes
before its reply belongs to that message. Of the cases it must also be what NAME.stdout holds, and of the folders' sessions what they say.

There is one exception. When a file of the folder is closed, the server reads it again, and that is a second change. Workers need not
tell what is wrong in between, so of two lists for one message the first may be missing. Where both are the same text the client
cannot tell which has come, and waits two seconds for the other.

**Sessions that end in a fault** (the input is no frame, or ends inside one) are also written at once. What was read before the fault is
promised to be a list of the first messages, and after a fault only the first of their replies are. So what is written must be a
beginning of what one thread writes; the status and the fault must be the same. The script says how many were answered in full.

**The stored run** (crates/gqls/stdin), cut after each of its bytes, is written at once to two workers. The status is 0 at its end, 1
between two frames, and 3 inside one. Its replies are the first of those of one thread, but that a rename may be refused by the shutdown
behind it; where that has been read and no fault follows, all have come.

**Sessions of a client that does not wait**: scripts/schedules.py says what must hold of these, whatever the threads do.
How their questions were answered is counted, and printed: a run in which none was answered shows nothing.

**The recorded session** is sent at once with the number of workers that the program takes when it is told none. scripts/replay.py says
what is wanted.

**Numbers of workers** over 8, below 0, or that are none, are refused with the status 2. With each further worker the program has one
thread more, and without a number it has as many as with two.

Each session that is not as wanted is printed. The last line is `N passed, M failed`; the status is 1 where one failed."""
import glob
import os
import shutil
import subprocess
import sys
import tempfile
import time
from collections import Counter

from cases import CRATE, contents, endings_beside, frames, run, told_apart
from folders import CHANGES, Server, framed, prepared, read_sessions, wanted_end
from replay import SESSIONS, framed_messages, messages_of, served, what_is_wrong
from schedules import SEEDS, judge_seed

WORKERS = 1, 2, 8
NO_WORKERS = "9", "256", "-1", "two", ""
SETTLE, SHORTLY = 2, 0.2
MARK_ID = b'"id":"the end of a message"'
MARK = b'{%s,"method":"$/nothing"}' % MARK_ID
MARK = b"Content-Length: %d\r\n\r\n%s" % (len(MARK), MARK)


class Case:
    """A session: its name, how the server is started, what the client does in turn, and what is wanted. A step is a frame, or a
    change of the folder, which is called. What is left of the input behind the last frame is none."""

    def __init__(self, name, words, steps, left=b""):
        self.name, self.words, self.steps, self.left = name, words, steps, left
        self.wanted = self.end = None


def end_of_frame(stream):
    """The end of the first frame of a client's stream, or None where it begins with none."""
    head = stream.find(b"\r\n\r\n") + 4
    lengths = [line.partition(b":")[2].strip(b" ") for line in stream[:head].split(b"\r\n") if line.lower().startswith(b"content-length:")]
    if head < 4 or len(lengths) != 1 or not lengths[0].isdigit():
        return None
    end = head + int(lengths[0])
    return end if end <= len(stream) else None


def split_stream(stream):
    """The frames of a client's stream, and what is left behind them."""
    parts = []
    while end := end_of_frame(stream):
        parts.append(stream[:end])
        stream = stream[end:]
    return parts, stream


def case_of_file(path):
    """A case of crates/gqls/cases."""
    name = os.path.basename(path)
    steps, left = split_stream(contents(path, b""))
    case = Case(name, [], steps, left)
    case.wanted = contents(f"{path}.stdout", b"")
    case.end = endings_beside(os.path.dirname(path)).get(name, (0, b""))
    return case


def case_of_session(path, session, folder):
    """A session of crates/gqls/folders, in a folder that is made for it."""
    words, left = prepared(session, folder)
    steps = [framed(rest, folder) if word == "->" else change_of(word, rest, folder) for word, rest in left if word != "<-"]
    case = Case(f"{os.path.basename(path)}:{session.line}", words, steps)
    case.wanted = b"".join(framed(rest, folder) for word, rest in left if word == "<-")
    case.end = wanted_end(session, folder)
    return case


def change_of(word, rest, folder):
    return lambda: CHANGES[word](folder, rest)


def command_of(program, workers, case):
    return [program, "serve", *([] if workers is None else ["--workers", str(workers)]), *case.words]


def one_thread(program, case):
    """What a server of one thread writes for each step, and how it ends."""
    server, marks = Server(command_of(program, 0, case)), 0
    for step in case.steps:
        if callable(step):
            server.await_that(lambda output: output.count(MARK_ID) == marks)
            step()
        else:
            server.write(step + MARK)
            marks += 1
    server.write(case.left)
    end = server.end(), bytes(server.errors)
    groups = [[]]
    for one in frames(bytes(server.output)):
        if MARK_ID in one:
            groups.append([])
        else:
            groups[-1].append(one)
    told = iter(groups)
    return [[] if callable(step) else next(told, []) for step in case.steps], [one for group in told for one in group], end


def uri_told(frame):
    """The document of a notification that tells its version, or None."""
    found = frame.partition(b'"uri":')[2] if b'"method":"textDocument/publishDiagnostics"' in frame else b""
    return found.partition(b'"')[0] or found if b',"version":' in found else None


def choices_of(group):
    """What may come for a message for which one thread writes these frames: all, or all but the first of two lists."""
    whole = b"".join(group)
    uris = [uri_told(one) for one in group]
    first = next((at for at, uri in enumerate(uris) if uri is not None), len(uris))
    half, is_odd = divmod(len(uris) - first, 2)
    if half == 0 or is_odd or uris[first : first + half] != uris[first + half :]:
        return [whole]
    return [whole, b"".join(group[:first] + group[first + half :])]


def await_choice(server, start, choices):
    """Waits until one of these texts has come behind the first bytes, and gives it; else None."""
    come = lambda output: [one for one in choices if output.startswith(one, start)]
    server.await_that(lambda output: come(output) or len(output) >= start + len(choices[0]))
    if come(server.output) and choices[0].startswith(choices[-1]):
        server.await_that(lambda output: output.startswith(choices[0], start), SETTLE)
    return next(iter(come(server.output)), None)


def serve_waiting(program, workers, case, groups):
    """Serves a client that waits: what is written, what is wanted, and how it ends."""
    server, wanted, told = Server(command_of(program, workers, case)), b"", b""
    for step, group in zip(case.steps, groups):
        if callable(step):
            step()
            continue
        server.write(step)
        told = await_choice(server, len(wanted), choices_of(group))
        if told is None:
            wanted += b"".join(group)
            break
        wanted += told
    server.write(case.left)
    end = server.end(), bytes(server.errors)
    return bytes(server.output), wanted, end


def differing(told, wanted, end, wanted_ending):
    """What is told otherwise than wanted, if something is."""
    wrong = [] if end == wanted_ending else [f"the end is {end}, wanted {wanted_ending}"]
    return ". ".join(wrong if told == wanted else [*wrong, told_apart(told, wanted)]) or None


def judge_at_once(program, workers, case, wanted):
    """What is wrong where the input of a session that ends in a fault is written at once, and whether all was answered."""
    data = b"".join(case.steps) + case.left
    output, errors, status = run(command_of(program, workers, case), data, max(1, len(data)), None)
    if wanted.startswith(output) and (status, errors) == case.end:
        return None, output == wanted
    return differing(output, wanted, (status, errors), case.end), False


class Judge:
    """Judges sessions, and counts."""

    def __init__(self, program, text):
        self.program, self.text = program, text
        self.passed = self.failed = self.at_once = self.in_full = 0
        self.outcomes = Counter()

    def is_asked(self, name):
        return self.text in name

    def tell(self, name, wrong):
        self.passed, self.failed = self.passed + (not wrong), self.failed + bool(wrong)
        if wrong:
            print(f"{name}: {wrong}", flush=True)

    def judge(self, make):
        """Judges the case that `make` makes, anew for each number of workers."""
        case = make()
        groups, behind, end = one_thread(self.program, case)
        written = b"".join(one for group in [*groups, behind] for one in group)
        self.tell(f"{case.name}, 0 workers", differing(written, written if case.wanted is None else case.wanted, end, case.end))
        for workers in WORKERS:
            case = make()
            told, wanted, end = serve_waiting(self.program, workers, case, groups)
            self.tell(f"{case.name}, {workers} workers", differing(told, wanted + b"".join(behind), end, case.end))
            if case.end[0] == 3 and not case.words:
                wrong, is_full = judge_at_once(self.program, workers, case, written)
                self.tell(f"{case.name}, {workers} workers, at once", wrong)
                self.at_once, self.in_full = self.at_once + 1, self.in_full + is_full

    def judge_cases(self):
        for path in sorted(glob.glob(os.path.join(CRATE, "cases", "*.stdout"))):
            path = path.removesuffix(".stdout")
            if self.is_asked(os.path.basename(path)):
                self.judge(lambda: case_of_file(path))

    def judge_folders(self):
        for path in sorted(glob.glob(os.path.join(CRATE, "folders", "*.sessions"))):
            for session in read_sessions(path):
                if self.is_asked(f"{os.path.basename(path)}:{session.line}"):
                    with tempfile.TemporaryDirectory() as outer:
                        self.judge(lambda: case_of_session(path, session, emptied(os.path.realpath(outer))))

    def judge_recorded(self):
        for path in SESSIONS:
            name, messages = os.path.basename(path), messages_of(path)
            if self.is_asked(name):
                self.judge(lambda: recorded(path))
                self.tell(f"{name}, workers by default", what_is_wrong(messages, *served(self.program, framed_messages(messages), None)))

    def judge_cuts(self):
        data, wanted = contents(os.path.join(CRATE, "stdin"), b""), frames(contents(os.path.join(CRATE, "stdout"), b""))
        command = command_of(self.program, 2, Case("cuts", [], []))
        for cut in range(len(data) + 1):
            name = f"the stored run, cut after {cut} bytes"
            if self.is_asked(name):
                self.tell(name, wrong_cut(data, cut, wanted, *run(command, data[:cut], max(1, cut), None)))

    def judge_random(self):
        for seed in SEEDS:
            name = f"random session {seed}"
            if self.is_asked(name):
                self.tell(name, judge_seed(self.program, seed, 2, self.outcomes))

    def judge_numbers(self):
        for number in NO_WORKERS:
            name = f"--workers {number!r}"
            if self.is_asked(name):
                ran = subprocess.run([self.program, "serve", "--workers", number], stdin=subprocess.DEVNULL, capture_output=True)
                self.tell(name, None if (ran.returncode, ran.stdout) == (2, b"") else f"the status is {ran.returncode}, and not 2")
        if self.is_asked("threads"):
            counts = [threads_of(self.program, workers) for workers in (None, 1, 2, 8)]
            as_wanted = counts == [counts[2], counts[2] - 1, counts[2], counts[2] + 6]
            self.tell("threads", None if as_wanted else f"by default and with 1, 2 and 8 workers there are {counts} threads")


def wrong_cut(data, cut, wanted, output, errors, status):
    """What is wrong with what is written for the first bytes of the stored run, whose third reply is that to shutdown."""
    parts, left = split_stream(data[:cut])
    end = (0, b"") if cut == len(data) else (3, b"gqls: Truncated\n") if left else (1, b"")
    asked = sum(b'"id":' in one for one in parts)
    told = frames(output)
    is_first = all(one == other or b'"id":2,' in other and b'"message":"shutdown"},"id":2,' in one for one, other in zip(told, wanted))
    least = 0 if left else asked if asked == len(wanted) else min(asked, 1)
    if (status, errors) == end and is_first and least <= len(told) <= asked:
        return None
    return f"the end is {(status, errors)}, wanted {end}; for {asked} requests there is {output}"


def threads_of(program, workers):
    """How many threads a server has that has answered its first request, once there are no more of them shortly after."""
    server = Server(command_of(program, workers, Case("threads", [], [])))
    server.write(framed('{"id":1,"method":"initialize","params":{"capabilities":{}}}', "/w"))
    server.await_that(lambda output: b'"id":1' in output)
    count, before = 0, -1
    while count != before:
        time.sleep(SHORTLY)
        count, before = len(os.listdir(f"/proc/{server.process.pid}/task")), count
    server.end()
    return count


def emptied(outer):
    """A folder that is not yet there, in one that is made anew."""
    inner = os.path.join(outer, "x")
    shutil.rmtree(inner, ignore_errors=True)
    os.mkdir(inner)
    return os.path.join(inner, "w")


def recorded(path):
    case = Case(os.path.basename(path), [], [framed_messages([message]) for message in messages_of(path)])
    case.end = 0, b""
    return case


def main(arguments):
    if len(arguments) not in (1, 2) or not os.path.exists(arguments[0]):
        print(__doc__)
        return 2
    judge = Judge(os.path.abspath(arguments[0]), arguments[1] if len(arguments) == 2 else "")
    for part in (judge.judge_numbers, judge.judge_recorded, judge.judge_cuts, judge.judge_folders, judge.judge_cases, judge.judge_random):
        part()
    if judge.outcomes:
        print("of random sessions: " + ", ".join(f"{number} {what}" for what, number in sorted(judge.outcomes.items())))
    if judge.at_once:
        print(f"of {judge.at_once} sessions with a fault, written at once, {judge.in_full} were answered in full")
    print(f"{judge.passed} passed, {judge.failed} failed")
    return 1 if judge.failed or not judge.passed else 0


if __name__ == "__main__":
    sys.exit(main(sys.argv[1:]))
