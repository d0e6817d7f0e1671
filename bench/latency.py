#!/usr/bin/env python3
"""Times what an editor waits for: a client opens projects of three sizes in `gqls serve` and asks.

    python3 bench/latency.py PROGRAM [PROGRAM..] [--rounds N] [--sizes 12,50,200]

Each program is run on one processor (taskset -c 0), beside a `check` of the same files by the same program. Sizes and programs take
turns, so often, since a machine is faster in one minute than in the next. Of each question and keystroke the best time is told, in
milliseconds, as a part of the best time of that check, and what it grows by from a project of a quarter of the files. A keystroke lasts
until the last diagnostics notification that it brings. docs/PERFORMANCE.md has what was seen.
"""
import argparse
import contextlib
import json
import os
import subprocess
import sys
import tempfile
import time

sys.path.insert(0, os.path.dirname(os.path.abspath(__file__)))
from projects import large  # noqa: E402

BYTES_EACH = 20_000
TYPES_A_FILE = 25
LENGTH = b"Content-Length: "
NOTHING_WRONG = b'"diagnostics":[]'
OPERATIONS, SCHEMA = "q0.graphql", "s.graphql"
CHECK, CHECK_MEMORY, MEMORY = "check", "memory of the check", "memory of the server, at the end"
ASKED = 3  # how often a question is asked, or a key is struck, in a round
TAB = "query Mm{n{id}}\n"
BEHIND = "references"  # asked once more right behind a keystroke, which makes void what was known of where names stand
FIELD = "zz:Int "  # a field more, which no file uses, so that the type system is another one
CAPABILITIES = {
    "workspace": {"workspaceEdit": {"documentChanges": True}},
    "textDocument": {
        "publishDiagnostics": {},
        "hover": {"contentFormat": ["plaintext"]},
        "definition": {},
        "references": {},
        "completion": {},
        "rename": {"prepareSupport": True},
        "codeAction": {"codeActionLiteralSupport": {"codeActionKind": {"valueSet": ["refactor"]}}},
    },
}


def framed(message):
    """The frame of a message."""
    body = json.dumps({"jsonrpc": "2.0", **message}).encode()
    return LENGTH + b"%d\r\n\r\n" % len(body) + body


def opening(uri, text):
    """The frame that opens a document."""
    document = {"uri": uri, "languageId": "graphql", "version": 1, "text": text}
    return framed({"method": "textDocument/didOpen", "params": {"textDocument": document}})


class Client:
    """A session with a server, message by message."""

    def __init__(self, program, words=(), workers=0):
        one_processor = ["taskset", "-c", "0"] if workers == 0 else []
        command = [*one_processor, program, "serve", "--workers", str(workers), *words]
        self.server = subprocess.Popen(command, stdin=subprocess.PIPE, stdout=subprocess.PIPE)
        self.number = 0
        self.versions = {}
        self.held, self.at = b"", 0

    def send(self, message):
        self.write(framed(message))

    def write(self, frame):
        self.server.stdin.write(frame)
        self.server.stdin.flush()

    def take(self):
        """Takes what the server wrote meanwhile, many messages at once."""
        more = os.read(self.server.stdout.fileno(), 1 << 16)
        if not more:
            sys.exit("the server has ended")
        self.held, self.at = self.held[self.at :] + more, 0

    def end_of(self, start):
        """The end of the message that starts there, or None where it is not whole."""
        head = self.held.find(b"\r\n\r\n", start)
        if head < 0:
            return None
        end = head + 4 + int(self.held[start + len(LENGTH) : head])
        return end if end <= len(self.held) else None

    def read(self):
        """The body of the next message."""
        while True:
            end = self.end_of(self.at)
            if end:
                start, self.at = self.held.index(b"\r\n\r\n", self.at) + 4, end
                return self.held[start:end]
            self.take()

    def ask(self, method, params):
        """The response to a request."""
        self.number += 1
        self.send({"id": self.number, "method": method, "params": params})
        while True:
            message = json.loads(self.read())
            if message.get("id") == self.number:
                return message

    def tell(self, method, params):
        self.send({"method": method, "params": params})

    def told(self, count):
        """Waits for so many notifications of diagnostics: there is one for each document that is open after each change. They are
        counted, and not read as JSON, which would take the client longer than the server takes to write them."""
        self.held, self.at = self.held[self.at :], 0
        told, last = self.held.count(LENGTH), self.held.rfind(LENGTH)
        while told < count or not self.end_of(last):
            self.take()
            told += self.held.count(LENGTH, last + 1)
            last = self.held.rfind(LENGTH)
        return self.end_of(last)

    def pass_over(self, count):
        """Waits for so many notifications of diagnostics, whatever they say."""
        self.at = self.told(count)

    def diagnosed(self, count):
        """So many notifications of diagnostics: those in which something is wrong."""
        end = self.told(count)
        if self.held.count(NOTHING_WRONG, 0, end) == count:
            self.at = end
            return []
        told = [self.read() for _ in range(count)]
        return [json.loads(one)["params"] for one in told if NOTHING_WRONG not in one]

    def open(self, uri, text):
        self.versions[uri] = 1
        self.write(opening(uri, text))
        return self.diagnosed(len(self.versions))

    def open_all(self, frames):
        """Opens documents one after the other, each by a frame that is made already."""
        for uri, frame in frames:
            self.versions[uri] = 1
            self.write(frame)
            self.pass_over(len(self.versions))

    def edit(self, uri, start, end, text):
        self.versions[uri] += 1
        change = {"range": {"start": start, "end": end}, "text": text}
        self.tell("textDocument/didChange", {"textDocument": {"uri": uri, "version": self.versions[uri]}, "contentChanges": [change]})
        return self.diagnosed(len(self.versions))

    def close(self, uri):
        """Closes a document: it is told of once more, with nothing wrong, and then all others are."""
        del self.versions[uri]
        self.tell("textDocument/didClose", {"textDocument": {"uri": uri}})
        self.pass_over(len(self.versions) + 1)

    def memory(self):
        """The most memory that it had, in MB."""
        with open("/proc/%d/status" % self.server.pid, encoding="ascii") as status:
            return next(int(line.split()[1]) for line in status if line.startswith("VmHWM")) / 1024

    def end(self):
        self.ask("shutdown", None)
        self.tell("exit", None)
        self.server.wait()


def position(text, offset):
    """The position of an offset in a text of ASCII characters."""
    return {"line": text.count("\n", 0, offset), "character": offset - (text.rfind("\n", 0, offset) + 1)}


def timed(what):
    """How long it takes, in milliseconds, and its result."""
    start = time.perf_counter()
    result = what()
    return (time.perf_counter() - start) * 1000, result


def checked(program, names):
    """How long a check of a valid project of these files takes on one processor, in milliseconds, and its memory in MB."""

    def check():
        done = subprocess.Popen(["taskset", "-c", "0", program, "check", *names], stdout=subprocess.PIPE)
        out = done.stdout.read()
        _, status, used = os.wait4(done.pid, 0)
        done.returncode = os.waitstatus_to_exitcode(status)
        return out, used.ru_maxrss / 1024

    spent, (out, memory) = timed(check)
    if out != b"ok\n":
        sys.exit("the project is not valid")
    return spent, memory


class Project:
    """A project on the disk, and the least time of each thing that was done with it, by program."""

    def __init__(self, count, folder):
        self.count, self.folder = count, folder
        self.files = dict(large(count, BYTES_EACH, True, TYPES_A_FILE * count))
        self.uri = {name: "file:///project/" + name for name in self.files}
        self.least = {}
        for name, text in self.files.items():
            with open(os.path.join(folder, name), "w", encoding="utf-8") as out:
                out.write(text)

    def note(self, program, what, spent):
        times = self.least.setdefault(program, {})
        times[what] = min(spent, times.get(what, spent))

    def check(self, program):
        """Checks the project."""
        spent, memory = checked(program, [os.path.join(self.folder, name) for name in sorted(self.files)])
        self.note(program, CHECK, spent)
        self.note(program, CHECK_MEMORY, memory)

    def type(self, program, client, name, what, offset, typed=" "):
        """A space, or what is given, is typed, and taken away again."""
        there, behind = (position(self.files[name], offset) for _ in range(2))
        behind["character"] += len(typed)
        for start, end, new in ((there, there, typed), (there, behind, "")):
            spent, wrong = timed(lambda: client.edit(self.uri[name], start, end, new))
            self.note(program, what, spent)
            if wrong:
                sys.exit("something is wrong after a keystroke: %s" % wrong[:1])

    def tab(self, program, client):
        """A file of operations that sorts before the schema is opened, and closed."""
        uri = "file:///project/m.graphql"
        spent, wrong = timed(lambda: client.open(uri, TAB))
        self.note(program, "a file more is opened", spent)
        if wrong:
            sys.exit("something is wrong with a file more: %s" % wrong[:1])
        spent, _ = timed(lambda: client.close(uri))
        self.note(program, "that file is closed", spent)

    def serve(self, program, is_last):
        """A session in which all files are opened, and asked about. The last one goes on, and tells the memory that it takes."""
        client = Client(program)
        client.ask("initialize", {"capabilities": CAPABILITIES, "processId": None, "rootUri": None})
        client.tell("initialized", {})
        frames = [(self.uri[name], opening(self.uri[name], self.files[name])) for name in sorted(self.files)]
        spent, _ = timed(lambda: client.open_all(frames))
        self.note(program, "opening all files one after the other", spent)
        text, schema = self.files[OPERATIONS], self.files[SCHEMA]
        asked = {what: (method, params) for what, method, params in questions(self.uri[OPERATIONS], text)}
        for what, question in asked.items():
            for _ in range(ASKED):
                spent, answer = timed(lambda: client.ask(*question))
                if not answer.get("result"):
                    sys.exit("no answer to %s: %s" % (what, str(answer)[:300]))
                self.note(program, what, spent)
        brace = text.index("{", text.index("fragment F0_0"))
        for _ in range(100 if is_last else ASKED):
            self.type(program, client, OPERATIONS, "a keystroke in a file of operations", brace)
        for _ in range(ASKED):
            self.type(program, client, OPERATIONS, "a keystroke in a file of operations", brace)
            spent, _ = timed(lambda: client.ask(*asked[BEHIND]))
            self.note(program, BEHIND + ", right behind a keystroke", spent)
        for _ in range(ASKED):
            self.tab(program, client)
        for _ in range(ASKED):
            self.type(program, client, SCHEMA, "a space in the schema", schema.index("{"))
        for _ in range(ASKED):
            self.type(program, client, SCHEMA, "a field in the schema, or none", schema.index("{") + 1, FIELD)
        if is_last:
            for _ in range(20):
                client.ask(*asked["code actions"])
            self.note(program, MEMORY, client.memory())
        client.end()

    def tell(self, program, smaller):
        """Prints the times of a program, each beside that of a check, and what it grew by since a project of a quarter of the files."""
        times, before = self.least[program], smaller and smaller.least[program]
        size = sum(map(len, self.files.values())) / 1e6
        grows = ", which grows by %.1f" % (times[CHECK] / before[CHECK]) if before else ""
        print("%s: %d files, %.1f MB; check %.0f ms%s, %.0f MB" % (program, len(self.files), size, times[CHECK], grows, times[CHECK_MEMORY]))
        for what, spent in times.items():
            if what in (CHECK, CHECK_MEMORY):
                continue
            unit, whole = ("MB", CHECK_MEMORY) if what == MEMORY else ("ms", CHECK)
            grows = "  grows by %.1f" % (spent / before[what]) if before else ""
            print("  %-40s %10.2f %s %8.4f of the check%s" % (what, spent, unit, spent / times[whole], grows), flush=True)


def questions(uri, text):
    """What is asked about a file of operations: of each its name, its method and its parameters."""
    brace = text.index("{", text.index("fragment F0_0"))
    start, end = text.index("id", brace), text.index("size", brace)

    def place(offset):
        return {"textDocument": {"uri": uri}, "position": position(text, offset)}

    field, spread, fragment = place(text.index("t0(")), place(text.index("...F0_0") + 3), place(text.index("fragment F0_0") + 9)
    yield "hover on a field", "textDocument/hover", field
    yield "hover on a fragment", "textDocument/hover", spread
    yield "definition of a field", "textDocument/definition", field
    yield "completion of a field", "textDocument/completion", place(start)
    yield "prepareRename", "textDocument/prepareRename", spread
    yield "references", "textDocument/references", {**fragment, "context": {"includeDeclaration": True}}
    yield "rename of a fragment", "textDocument/rename", {**spread, "newName": "Renamed"}
    places = {"start": position(text, start), "end": position(text, end)}
    yield "code actions", "textDocument/codeAction", {"textDocument": {"uri": uri}, "range": places, "context": {"diagnostics": []}}


def main():
    words = argparse.ArgumentParser(description=__doc__, formatter_class=argparse.RawDescriptionHelpFormatter)
    words.add_argument("programs", nargs="+", metavar="PROGRAM")
    words.add_argument("--rounds", type=int, default=9)
    words.add_argument("--sizes", default="12,50,200", help="numbers of files of operations")
    asked = words.parse_args()
    with contextlib.ExitStack() as folders:
        projects = {count: Project(count, folders.enter_context(tempfile.TemporaryDirectory())) for count in map(int, asked.sizes.split(","))}
        for number in range(asked.rounds):
            for project in projects.values():
                for program in asked.programs:
                    project.check(program)
                    project.serve(program, number == asked.rounds - 1)
        for count, project in projects.items():
            for program in asked.programs:
                project.tell(program, projects.get(count // 4))


if __name__ == "__main__":
    main()
