#!/usr/bin/env python3
"""Sessions of a client that does not wait, and what must hold of them whatever the threads of the server do.

    python3 scripts/schedules.py PROGRAM FIRST COUNT [WORKERS]        sessions FIRST, FIRST + 1 and so on; 2 workers unless told otherwise

scripts/workers.py judges some of them. A session is made by chance from its number. Its client types, asks, cancels, closes and opens,
in bursts and with pauses, in a small project or in a larger one, over a folder or over none. Four of five clients type once more in the
end, and wait for all replies and for what is wrong with that last version, half a minute longer than three times as long as one thread
takes for all; the others shut down at once.

The same messages are sent to a server of one thread, which answers each in its turn. From that it is known what each question's answer
is for the documents as they are when it is asked, and what each change makes wrong. What must hold:

- Each request has exactly one reply.
- A question that is answered has that answer. No change has been taken in between: where one was, the reply is -32801 `content
  modified`, at that change. A question that was cancelled before it was answered has -32800, one that is pending at shutdown -32803.
  A question beyond 64 that are pending is refused.
- Each edit names the version that was last sent of each document when it was asked for, and null for a closed one.
- What is wrong is told of all open documents at once, as one thread tells it for the last change, or not at all where a change came
  first. Of a client that waits it comes for the last version.
- After `shutdown` and `exit` the status is 0, and nothing is said on standard error.

These are judged by a desk of its own: it takes the messages in order, each as late as what was written lets it, and between them what
workers answered. Where a list that was written can be that of one message, or the beginning of that of a later one, each is tried.
Nothing may be left over."""
import json
import os
import random
import re
import string
import sys
import tempfile
import time
from collections import Counter

from cases import frames
from folders import Server
from make_cases import frame

SEEDS = range(200)
SETTLE, TIMES_SLOWER = 30, 3
SHOWN = 400
MOST_PENDING = 64
MARK = "the end of a message"
NEAR = 300
LETTERS = string.ascii_letters
NAME = re.compile("[A-Za-z]+")
RENAMED = re.compile("(?:[$]|[.]{3} *|fragment )[A-Za-z]+")
PAUSES = 0, 0, 0.0005, 0.002, 0.01, 0.03
METHODS = "hover definition references completion prepareRename rename codeAction".split()
REFUSED_AT_ONCE = {-32700, -32600, -32601, -32602, -32002}
AT_ONCE = {"document lost", "no documentChanges", "too many pending"}
CAPABILITIES = {
    "textDocument": {
        "codeAction": {"codeActionLiteralSupport": {"codeActionKind": {"valueSet": []}}},
        "publishDiagnostics": {},
        "rename": {"prepareSupport": True},
    },
    "workspace": {"workspaceEdit": {"documentChanges": True}},
}
TEXTS = {
    "s.graphql": ["type Query{x:Int y:Int q:Query f(a:Int):Int}", "type Query {\n  x: Int\n  y: Int\n  q: Query\n  f(a: Int): Int\n}\n"],
    "q.graphql": ["query Q($v:Int){x ...A q{f(a:$v)...B}}", "query Q($v: Int) {\n  ...on Query {y x}\n  ...A\n  q {f(a: $v) ...B}\n}\n"],
    "f.graphql": ["fragment A on Query{x y} fragment B on Query{y ...A}", "fragment A on Query {\n  x\n}\nfragment B on Query {\n  q {...A}\n}\n"],
    "p.graphql": ["query P{x}", "query P {\n  q {x y}\n}\n"],
}


class Message:
    """A message of the client, and what one thread writes for it: at once, as an answer, and as what is wrong afterwards."""

    def __init__(self, kind, method, params, number=None):
        self.kind, self.method, self.params, self.number = kind, method, params, number
        self.own, self.answer, self.wrong = [], None, []
        self.versions = {}

    def framed(self):
        body = {"id": self.number, "jsonrpc": "2.0", "method": self.method, "params": self.params}
        return frame({name: value for name, value in body.items() if value is not None})


class Maker:
    """Makes the messages of a session by chance."""

    def __init__(self, seed, folder):
        self.chance, self.folder = random.Random(seed), folder
        self.has_folder, self.tells, self.waits = seed % 2 == 1, seed % 7 != 6, seed % 5 != 4
        self.texts, self.versions, self.version = {}, {}, 0
        self.asked, self.messages, self.broken = [], [], set()
        self.files = {name: list(texts) for name, texts in TEXTS.items()}
        lines = self.chance.choice([0, 0, 40, 400])
        self.files["p.graphql"][0] += "".join("\nquery P%d{q{...A x} f(a:%d)}" % (line, line) for line in range(lines))

    def uri(self, name):
        return f"file://{self.folder}/{name}"

    def put(self, kind, method, params, number=None):
        self.messages.append(Message(kind, method, params, number))
        self.messages[-1].versions = dict(self.versions)

    def open(self, name):
        self.version += 1
        self.texts[name], self.versions[name] = self.chance.choice(self.files[name]), self.version
        document = {"languageId": "graphql", "text": self.texts[name], "uri": self.uri(name), "version": self.version}
        self.put("change", "textDocument/didOpen", {"textDocument": document})

    def close(self, name):
        del self.texts[name], self.versions[name]
        self.put("close", "textDocument/didClose", {"textDocument": {"uri": self.uri(name)}})
        if self.has_folder:
            self.put("load", None, None)

    def type(self, name):
        """A keystroke: mostly one that keeps the text right, sometimes the whole text anew, and else one that breaks it."""
        text, turn = self.texts[name], self.chance.random()
        start = end = self.chance.choice([at + 1 for at, one in enumerate(text) if one in "{}"] or [0])
        new = self.chance.choice([" ", ",", "\n", "#\n"])
        if turn > 0.9:
            start = end = self.chance.randrange(len(text) + 1)
            new = self.chance.choice(["x", "{", "!", "...C"])
        change = {"range": {"start": position(text, start), "end": position(text, end)}, "text": new}
        self.texts[name] = text[:start] + new + text[end:]
        if name in self.broken or 0.8 < turn <= 0.9:
            self.texts[name] = self.chance.choice(self.files[name])
            change = {"text": self.texts[name]}
        self.broken = {name} if change.get("range") and turn > 0.9 else self.broken - {name}
        self.version += 1
        self.versions[name] = self.version
        self.put("change", "textDocument/didChange", {"textDocument": {"uri": self.uri(name), "version": self.version}, "contentChanges": [change]})

    def place(self, text):
        """Somewhere in a text, mostly at a name; sooner than elsewhere at one that can be renamed."""
        names = [found.end() for found in NAME.finditer(text, 0, NEAR)]
        spots = [found.end() for found in RENAMED.finditer(text, 0, NEAR)] or names
        return self.chance.choice([spots or [0], spots or [0], names or [0], range(min(len(text), NEAR) + 1)][self.chance.randrange(4)])

    def ask(self):
        asked = [name for name in self.texts if name != "s.graphql"]
        name, method = self.chance.choice(asked * 5 + [*self.files]), self.chance.choice(METHODS)
        text = self.texts.get(name, "")
        end = self.place(text)
        start = self.chance.choice([end, len(text[:end].rstrip(LETTERS))])
        params = {"textDocument": {"uri": self.uri(name)}}
        if method == "codeAction":
            params["range"] = {"start": position(text, start), "end": position(text, end)}
        else:
            params["position"] = position(text, end)
        params |= {"newName": self.chance.choice(["C", "Long1", "w", "B", "on"])} if method == "rename" else {}
        params |= {"context": {"includeDeclaration": self.chance.random() < 0.5, "diagnostics": []}} if method in ("codeAction", "references") else {}
        number = len(self.asked) + 10
        self.asked.append(number if self.chance.random() < 0.8 else f"q{number}")
        self.put("ask", "textDocument/" + method, params, self.asked[-1])

    def cancel(self):
        number = self.chance.choice(self.asked[-4:] or [0])
        self.put("cancel", "$/cancelRequest", {"id": number})

    def step(self):
        """One thing that a client does."""
        closed = [name for name in self.files if name not in self.texts]
        turn = self.chance.random()
        if closed and turn < (0.05 if self.texts else 1):
            self.open(self.chance.choice(closed))
        elif turn < 0.08:
            self.close(self.chance.choice(list(self.texts)))
        elif turn < 0.16:
            self.cancel()
        elif turn < 0.3:
            self.type(self.chance.choice(list(self.broken.intersection(self.texts)) or list(self.texts)))
        else:
            self.ask()

    def make(self):
        """All messages of the session."""
        capabilities = CAPABILITIES if self.tells else CAPABILITIES | {"textDocument": {"codeAction": CAPABILITIES["textDocument"]["codeAction"]}}
        self.put("request", "initialize", {"capabilities": capabilities, "processId": None, "rootUri": None}, 1)
        self.put("other", "initialized", {})
        for name in self.files:
            self.open(name)
        for _ in range(self.chance.randrange(10, 80)):
            self.step()
        for _ in range(self.chance.choice([0] * 9 + [90])):
            self.ask()
        if self.waits:
            self.type(self.chance.choice([*self.texts] or self.reopened()))
        self.put("shutdown", "shutdown", None, 2)
        self.put("exit", "exit", None)
        return self.messages

    def reopened(self):
        self.open("s.graphql")
        return ["s.graphql"]


def position(text, offset):
    return {"line": text.count("\n", 0, offset), "character": offset - (text.rfind("\n", 0, offset) + 1)}


def is_at_once(reply):
    """Whether a reply of one thread is a refusal that needs no documents."""
    error = reply.get("error", {})
    return error.get("code") in REFUSED_AT_ONCE or error.get("message") in AT_ONCE


def learn(message, group):
    """Notes what one thread writes for a message, and what it writes for the load behind it."""
    told = [b',"version":' in one.rpartition(b'"uri":')[2] and b'"method":' in one for one in group]
    first = told.index(True) if True in told else len(group)
    message.own, message.wrong = group[:first], group[first:]
    if message.kind == "ask" and not is_at_once(json.loads(group[0].partition(b"\r\n\r\n")[2])):
        message.own, message.answer = [], group[0]


def learn_all(messages, groups):
    groups = iter(groups)
    for at, message in enumerate(messages):
        if message.kind != "load":
            learn(message, next(groups))
            continue
        close = messages[at - 1]
        half = len(close.wrong) // 2
        close.wrong, message.wrong = close.wrong[:half], close.wrong[half:]


def error(number, code, message):
    return frame({"error": {"code": code, "message": message}, "id": number, "jsonrpc": "2.0"})


class Desk:
    """What a client can know of the server: how many messages it has taken, which questions are pending, and which list is."""

    def __init__(self, messages, waits):
        self.messages, self.waits, self.taken = messages, waits, 0
        self.pending, self.list = {}, []

    def settle(self, code, message):
        out = [error(number, code, message) for number in self.pending]
        self.pending.clear()
        return out

    def take(self):
        """Takes the next message, and gives what that writes."""
        message = self.messages[self.taken]
        self.taken += 1
        out = []
        if message.kind in ("change", "close", "load"):
            out = self.settle(-32801, "content modified")
            self.list = message.wrong
        elif message.kind == "cancel" and message.params["id"] in self.pending:
            del self.pending[message.params["id"]]
            out = [error(message.params["id"], -32800, "cancelled")]
        elif message.kind == "shutdown":
            out, self.list = self.settle(-32803, "shutdown"), []
        elif message.answer is not None:
            if len(self.pending) >= MOST_PENDING:
                return [error(message.number, -32803, "too many pending")]
            self.pending[message.number] = message.answer
        return out + message.own

    def has_list(self, told):
        """Whether these frames begin with the list of the last change."""
        return bool(self.list) and told[: len(self.list)] == self.list

    def by_workers(self, told, may_be_list):
        """How many of these frames a worker's result may have written, and why the first cannot be of one, if it looks so."""
        if may_be_list and self.has_list(told):
            self.list, count = [], len(self.list)
            return count, None
        body = json.loads(told[0].partition(b"\r\n\r\n")[2])
        number = body.get("id")
        if number not in self.pending or body.get("error", {}).get("code") in (-32800, -32801) or body.get("error", {}).get("message") == "shutdown":
            return 0, None
        if told[0] != self.pending[number]:
            return 0, f"question {number} is answered\n    {shown(told[:1])}\n  wanted\n    {shown([self.pending[number]])}"
        del self.pending[number]
        return 1, None

    def must_have_come(self):
        """What a client that waits still lacks when it shuts down."""
        if self.waits and self.taken < len(self.messages) and self.messages[self.taken].kind == "shutdown" and (self.pending or self.list):
            return f"before shutdown there is no reply to {list(self.pending)}, and of lists there lacks\n    {shown(self.list)}"
        return None

    def state(self):
        return self.taken, dict(self.pending), list(self.list)

    def restore(self, state):
        self.taken, self.pending, self.list = state

    def is_cut_off(self, left, wanted):
        """Whether the run may have ended where it would have written this, with these frames left. A run without a fault may not."""
        return False

    def judge(self, told):
        """What is wrong with the frames that were written, if something is, by the first way of reading them."""
        ways, seen, first = [(0, None, self.state())], set(), None
        while ways:
            at, barred, state = ways.pop()
            self.restore(state)
            why = self.follow(told, at, barred, ways, seen)
            if not why:
                return None
            first = first or why
        return first

    def follow(self, told, at, barred, ways, seen):
        """The same, from that frame on, where what is written there is not the list of the message at the barred place. Other ways are noted."""
        while at < len(told) or self.taken < len(self.messages):
            if self.is_cut_off(told[at:], self.list):
                return None
            may_be_list = (at, self.taken) != barred
            if may_be_list and self.has_list(told[at:]):
                key = at, self.taken, tuple(map(str, self.pending))
                if key not in seen:
                    seen.add(key)
                    ways.append((at, (at, self.taken), self.state()))
            count, why = self.by_workers(told[at:], may_be_list) if at < len(told) else (0, None)
            at += count
            why = why or (None if count else self.must_have_come())
            if not count and not why and self.taken == len(self.messages):
                why = f"behind all messages there is\n    {shown(told[at:])}"
            if why:
                return f"frame {at}, with {self.taken} messages taken: {why}"
            if count:
                continue
            wanted = self.take()
            if self.is_cut_off(told[at:], wanted):
                return None
            if told[at : at + len(wanted)] != wanted:
                return f"frame {at}, at message {self.taken}: told\n    {shown(told[at : at + len(wanted) or at + 1])}\n  wanted\n    {shown(wanted)}"
            at += len(wanted)
        return None


def shown(parts):
    text = b"\n    ".join(one.partition(b"\r\n\r\n")[2] or one for one in parts).decode(errors="replace")
    return text if len(text) <= SHOWN else f"{text[:SHOWN]} .. ({len(text)} characters)"


def replies_of(told):
    """The replies, by the text of their number."""
    replies = {}
    for one in told:
        body = json.loads(one.partition(b"\r\n\r\n")[2])
        if "id" in body:
            replies.setdefault(json.dumps(body["id"]), []).append(body)
    return replies


def outcome_of(reply):
    """How a question was answered, in short: with an edit, with a result, with a refusal that looked at the documents, or otherwise."""
    message = reply.get("error", {}).get("message")
    if message is not None:
        return "refused an edit" if message[0].isdigit() else message
    return "answered with edits" if any(edits_in(reply.get("result"))) else "answered"


def edits_in(result):
    """The edits of a rename, or of code actions."""
    for one in result if isinstance(result, list) else [result]:
        edit = one.get("edit", one) if isinstance(one, dict) else {}
        yield from edit.get("documentChanges", [])


def wrong_reply(message, replies):
    """What is wrong with the replies to a request, whatever is answered."""
    if len(replies) != 1:
        return f"request {message.number} has {len(replies)} replies"
    for edit in edits_in(replies[0].get("result")):
        uri, version = edit["textDocument"]["uri"], edit["textDocument"]["version"]
        if version != message.versions.get(os.path.basename(uri)):
            return f"the edit for {message.number} names version {version} of {uri}"
    return None


def one_thread(command, messages):
    """What one thread writes for each message."""
    server = Server([*command, "--workers", "0"])
    mark = Message("request", "$/nothing", None, MARK).framed()
    for message in messages:
        if message.kind != "load":
            server.write(message.framed() + mark)
    status, groups = server.end(), [[]]
    for one in frames(bytes(server.output)):
        if MARK.encode() in one:
            groups.append([])
        else:
            groups[-1].append(one)
    return status, groups


def has_all(messages):
    """Whether all replies have come, and the last list: of what is written, so far."""
    replies = sum(message.number is not None and message.kind != "shutdown" for message in messages)
    last = next((message.wrong for message in reversed(messages) if message.wrong), [])

    def is_so(output):
        return all(one in output for one in last) and has_replies(output, replies)

    return is_so


def has_replies(output, count):
    return output.count(b'"jsonrpc":"2.0"') - output.count(b'"method":"') >= count


def pause(server, chance, asked, patience):
    """A pause of the client: a short one, or until so many replies have come, but no longer than so many seconds."""
    if chance.random() < 0.3:
        server.await_that(lambda output: has_replies(output, asked), patience)
    else:
        time.sleep(chance.choice(PAUSES))


def many_threads(server, messages, chance, settle, patience=1):
    """What a server writes, where the client sends the messages in bursts and with pauses, and in the end waits so many seconds at most."""
    burst, asked = b"", 0
    for message in messages:
        if message.kind == "shutdown" and settle:
            server.write(burst)
            server.await_that(has_all(messages), settle)
            burst = b""
        burst += message.framed() if message.kind != "load" else b""
        asked += message.number is not None
        if chance.random() < 0.4:
            server.write(burst)
            pause(server, chance, asked, patience)
            burst = b""
    server.write(burst)
    return server.end(), frames(bytes(server.output)), bytes(server.errors)


def judge_seed(program, seed, workers, outcomes):
    """What is wrong with the session of that number. Counts how questions were answered."""
    with tempfile.TemporaryDirectory() as folder:
        maker = Maker(seed, os.path.realpath(folder))
        messages = maker.make()
        for name, texts in maker.files.items():
            with open(os.path.join(folder, name), "w", encoding="utf-8") as file:
                file.write(texts[-1])
        command = [program, "serve", *(["--root", maker.folder] if maker.has_folder else [])]
        start = time.monotonic()
        status, groups = one_thread(command, messages)
        settle = maker.waits and SETTLE + TIMES_SLOWER * (time.monotonic() - start)
        if status != 0:
            return f"the status with 0 workers is {status}"
        learn_all(messages, groups)
        status, told, errors = many_threads(Server([*command, "--workers", str(workers)]), messages, maker.chance, settle)
    replies = replies_of(told)
    outcomes.update(outcome_of(replies.get(json.dumps(message.number), [{}])[0]) for message in messages if message.kind == "ask")
    wrong = [wrong_reply(message, replies.get(json.dumps(message.number), [])) for message in messages if message.number is not None]
    wrong += [Desk(messages, maker.waits).judge(told), None if (status, errors) == (0, b"") else f"the end is {status} {errors!r}"]
    return next(filter(None, wrong), None)


def main(arguments):
    if len(arguments) not in (3, 4):
        sys.exit(__doc__)
    first, count, workers = int(arguments[1]), int(arguments[2]), int(arguments[3]) if len(arguments) == 4 else 2
    failed, outcomes = 0, Counter()
    for seed in range(first, first + count):
        why = judge_seed(os.path.abspath(arguments[0]), seed, workers, outcomes)
        failed += bool(why)
        if why:
            print(f"random session {seed}: {why}", flush=True)
    print(", ".join(f"{number} {what}" for what, number in sorted(outcomes.items())))
    print(f"{count - failed} passed, {failed} failed")
    return 1 if failed else 0


if __name__ == "__main__":
    sys.exit(main(sys.argv[1:]))
