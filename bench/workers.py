#!/usr/bin/env python3
"""Measures what workers are for: that an answer does not wait for a check, and that a burst of keystrokes costs no check for each.

    python3 bench/workers.py PROGRAM.. [--rounds N] [--files N] [--workers N]

A client works in a folder of 201 files with 4.9 MB, of which it has the schema and a file of operations open. What is wanted:

- A hover that is asked for while the check runs that a keystroke in the schema brings takes a tenth of `gqls check` at most: the middle one
  of 20, asked for at moments that are spread evenly over the check. One that is asked for right behind the keystroke is told beside it.
- Ten keystrokes within 100 ms cost two checks at most, and the mending of ten files: their processor time is told beside that of ten
  keystrokes each of which waits for what is wrong, and beside that of a check. In the schema and in a file of operations.
- With workers the first reply comes less than 5 ms later than with none (the middle one of 20 each, in turn).

All processors may be used. The status is 1 where something is not as wanted. docs/PERFORMANCE.md has what was seen."""
import argparse
import os
import statistics
import subprocess
import sys
import tempfile
import time

from latency import BYTES_EACH, CAPABILITIES, TYPES_A_FILE, Client, position
from projects import large

OPEN = "q0.graphql", "s.graphql"
FIELD = "zz%06d:Int "  # no file uses it, so that the type system is another one; each has the same length
BURST, PAUSE = 10, 0.01
QUIET, TICK = 0.3, 0.02
CLOCK = os.sysconf("SC_CLK_TCK")
HOVER_MOST, CHECKS_MOST, START_MOST = 0.1, 2, 5


def milliseconds(start):
    return (time.perf_counter() - start) * 1000


class Editor(Client):
    """A client that has two files of the folder open."""

    def __init__(self, program, workers, folder, files):
        super().__init__(program, ["--root", folder], workers)
        self.texts = {f"file://{folder}/{name}": files[name] for name in OPEN}
        self.operations, self.schema = self.texts
        self.ask("initialize", {"capabilities": CAPABILITIES, "processId": None, "rootUri": None})
        self.tell("initialized", {})
        for uri, text in self.texts.items():
            if self.open(uri, text):
                sys.exit("the project is not valid")

    def type(self, uri, is_there):
        """A space is typed behind the first brace, in the schema a field that was never there, or taken away again."""
        self.versions[uri] += 1
        typed = FIELD % self.versions[uri] if uri == self.schema else " "
        start = position(self.texts[uri], self.texts[uri].index("{") + 1)
        end = {**start, "character": start["character"] + is_there * len(typed)}
        change = {"range": {"start": start, "end": end}, "text": "" if is_there else typed}
        self.tell("textDocument/didChange", {"textDocument": {"uri": uri, "version": self.versions[uri]}, "contentChanges": [change]})

    def diagnosed_last(self, uri):
        """Reads until it is told what is wrong with the last version of a document."""
        last = b'"uri":"%s","version":%d}' % (uri.encode(), self.versions[uri])
        while True:
            body = self.read()
            if last in body:
                if b'"diagnostics":[]' not in body:
                    sys.exit("something is wrong after a keystroke: %s" % body[:300])
                return

    def processor_time(self):
        """The processor time of all its threads, in milliseconds."""
        with open("/proc/%d/stat" % self.server.pid, encoding="ascii") as file:
            words = file.read().rpartition(")")[2].split()
        return (int(words[11]) + int(words[12])) * 1000 / CLOCK

    def spent_until_quiet(self):
        """The processor time once it rises no more: of a check that came too late the result is not told, but it costs."""
        spent, since = self.processor_time(), time.perf_counter()
        while time.perf_counter() - since < QUIET:
            time.sleep(TICK)
            now = self.processor_time()
            if now > spent:
                spent, since = now, time.perf_counter()
        return spent

    def hover(self, is_there, delay):
        """How long a hover takes that is asked for so many milliseconds behind a keystroke in the schema, and how long what is wrong takes
        that this keystroke brings."""
        text = self.texts[self.operations]
        place = {"textDocument": {"uri": self.operations}, "position": position(text, text.index("t0("))}
        self.type(self.schema, is_there)
        typed = time.perf_counter()
        time.sleep(delay / 1000)
        asked = time.perf_counter()
        self.number += 1
        self.send({"id": self.number, "method": "textDocument/hover", "params": place})
        answered = diagnosed = None
        while answered is None or diagnosed is None:
            body = self.read()
            if b'"id":%d,' % self.number in body:
                answered = milliseconds(asked)
                if b'"contents"' not in body:
                    sys.exit("no hover: %s" % body[:300])
            elif b'"uri":"%s","version":%d}' % (self.schema.encode(), self.versions[self.schema]) in body:
                diagnosed = milliseconds(typed)
        return answered, diagnosed

    def hovers(self, delays):
        """The middle ones of both, of a hover for each of these delays, of which there is an even number."""
        pairs = [self.hover(bool(number % 2), delay) for number, delay in enumerate(delays)]
        return [statistics.median(times) for times in zip(*pairs)]

    def keystrokes(self, uri, waits):
        """The processor time of ten keystrokes, each of which waits for what is wrong, or all within a tenth of a second."""
        before = self.spent_until_quiet()
        for number in range(BURST):
            self.type(uri, number % 2)
            if waits:
                self.diagnosed_last(uri)
            else:
                time.sleep(PAUSE)
        if not waits:
            self.diagnosed_last(uri)
        return self.spent_until_quiet() - before


def check_times(program, folder, files, rounds):
    """The middle time of a check, and its processor time."""
    names = [os.path.join(folder, name) for name in sorted(files)]
    times = []
    for _ in range(rounds):
        start = time.perf_counter()
        ran = subprocess.Popen([program, "check", *names], stdout=subprocess.DEVNULL)
        _, status, used = os.wait4(ran.pid, 0)
        ran.returncode = os.waitstatus_to_exitcode(status)
        times.append((milliseconds(start), (used.ru_utime + used.ru_stime) * 1000))
    return statistics.median(whole for whole, _ in times), statistics.median(spent for _, spent in times)


def first_replies(program, workers, rounds):
    """The middle time from the start to the first reply, with 0 workers and with so many."""
    times = {0: [], workers: []}
    for _ in range(rounds):
        for number, spent in times.items():
            start = time.perf_counter()
            client = Client(program, [], number)
            client.ask("initialize", {"capabilities": CAPABILITIES, "processId": None, "rootUri": None})
            spent.append(milliseconds(start))
            client.end()
    return statistics.median(times[0]), statistics.median(times[workers])


def measured(program, folder, files, asked):
    """What is seen, and whether it is as wanted: lines of text with a mark each."""
    whole, cost = check_times(program, folder, files, max(3, asked.rounds // 4))
    yield "check: %.0f ms, %.0f ms of processor" % (whole, cost), True
    editor = Editor(program, asked.workers, folder, files)
    hovers = max(2, asked.rounds // 2 * 2)
    hover, check = editor.hovers([0] * hovers)
    text = "hover right behind a keystroke in the schema: %.1f ms, %.3f of the check; what is wrong then: %.0f ms"
    yield text % (hover, hover / whole, check), True
    hover, _ = editor.hovers([check * (number + 0.5) / hovers for number in range(hovers)])
    yield "hover while that check runs: %.1f ms, %.3f of the check" % (hover, hover / whole), hover <= HOVER_MOST * whole
    for what, uri in (("the schema", editor.schema), ("a file of operations", editor.operations)):
        single, burst = editor.keystrokes(uri, True), editor.keystrokes(uri, False)
        most = CHECKS_MOST * cost + editor.keystrokes(editor.operations, True)
        text = "ten keystrokes in %s: one after the other %.0f ms of processor, within 100 ms %.0f ms, %.2f of a check's"
        yield text % (what, single, burst, burst / cost), burst <= most
    memory = editor.memory()
    editor.end()
    yield "memory: %.0f MB" % memory, True
    none, some = first_replies(program, asked.workers, asked.rounds)
    yield "to the first reply: %.1f ms, with 0 workers %.1f ms" % (some, none), some - none < START_MOST


def main():
    words = argparse.ArgumentParser(description=__doc__, formatter_class=argparse.RawDescriptionHelpFormatter)
    words.add_argument("programs", nargs="+", metavar="PROGRAM")
    words.add_argument("--rounds", type=int, default=20)
    words.add_argument("--files", type=int, default=200, help="how many files of operations")
    words.add_argument("--workers", type=int, default=2)
    asked = words.parse_args()
    files = dict(large(asked.files, BYTES_EACH, True, TYPES_A_FILE * asked.files))
    is_wanted = True
    with tempfile.TemporaryDirectory() as folder:
        folder = os.path.realpath(folder)
        for name, text in files.items():
            with open(os.path.join(folder, name), "w", encoding="utf-8") as out:
                out.write(text)
        for program in asked.programs:
            print("%s, %d workers: %d files, %.1f MB" % (program, asked.workers, len(files), sum(map(len, files.values())) / 1e6))
            for text, is_so in measured(program, folder, files, asked):
                print("  %s%s" % (text, "" if is_so else "   (more than wanted)"), flush=True)
                is_wanted = is_wanted and is_so
    sys.exit(not is_wanted)


if __name__ == "__main__":
    main()
