#!/usr/bin/env python3
"""Asks a built program for refactorings by chance, and checks what each edit leaves.

    python3 scripts/refactorings.py PROGRAM [COUNT] [--seed N] [--show]        PROGRAM as crates/gqls/out/gqls; COUNT: 20,000 unless told otherwise

The projects are those that the cases of crates/gqls/cases have open at some time, and the examples, as far as they are valid and have at
most 16 KiB. Each is opened in a server of one thread, which is then asked for renames and code actions, mostly at names and at
selections, sometimes anywhere; new names are fresh, or there already, or no names. Wanted:

- A rename is answered by an edit, or refused by one of the reasons 1 to 10.
- An edit names each document at the version that was last sent, its ranges do not overlap, and it changes something.
- Where an edit is applied to the texts, the server finds nothing wrong with the project that they are then. With the texts as they
  were it finds nothing either, and the same question has the same answer.

What was answered is counted, by the question. The last line is `N edits, M refusals, K failed`; the status is 1 where one failed."""
import argparse
import collections
import glob
import json
import os
import random
import re
import subprocess
import sys

from cases import CRATE, SERVE, frames
from schedules import CAPABILITIES, edits_in, position

LIMIT = 16_384
ASKS = ("textDocument/rename", "textDocument/codeAction")
NAME = re.compile(r"[_A-Za-z][_0-9A-Za-z]*")
RENAMED = re.compile(r"(?:fragment\s+|\.\.\.\s*|\$)([_A-Za-z][_0-9A-Za-z]*)")
SELECTED = re.compile(r"[{}]|\.\.\.|[_A-Za-z][_0-9A-Za-z]*")
FRESH = ("Fresh", "z9", "_", "Longer_Name_Than_Before", "on1", "typeName")
BAD = ("on", "true", "null", "", "a b", "1a", "$v", "é", "__x")
STATED = re.compile(r"(?:[1-9]|10) [A-Za-z]+")


def frame(body):
    data = json.dumps(body, ensure_ascii=False).encode()
    return b"Content-Length: %d\r\n\r\n%b" % (len(data), data)


def body_of(one):
    try:
        body = json.loads(one.partition(b"\r\n\r\n")[2])
    except ValueError:
        body = None
    return body if isinstance(body, dict) else {}


def offset_of(text, place):
    """Where a position is in a text, which is in UTF-16 units from the start of its line."""
    start = 0
    for _ in range(place["line"]):
        start = re.compile("\r\n|\n|\r").search(text, start).end()
    units = place["character"]
    while units > 0:
        units -= 2 if ord(text[start]) > 0xFFFF else 1
        start += 1
    return start


def place_of(text, offset):
    """The position of a place in a text whose lines end in a line feed and which has no character of two units; None elsewhere."""
    if "\r" in text or any(ord(one) > 0xFFFF for one in text):
        return None
    return position(text, offset)


def applied(text, edits):
    """A text after edits that do not overlap, or None."""
    ranges = sorted((offset_of(text, edit["range"]["start"]), offset_of(text, edit["range"]["end"]), edit["newText"]) for edit in edits)
    made, at = [], 0
    for start, end, new in ranges:
        if not at <= start <= end:
            return None
        made += [text[at:start], new]
        at = end
    return "".join(made) + text[at:]


def projects_of(path):
    """The texts of the documents that are open whenever a case asks for a refactoring, closes one, or ends."""
    with open(path, "rb") as file:
        bodies = [body_of(one) for one in frames(file.read())]
    texts = {}
    for body in bodies:
        method, params = body.get("method"), body.get("params")
        document = params.get("textDocument") if isinstance(params, dict) else None
        if not isinstance(document, dict):
            continue
        if method == "textDocument/didOpen":
            texts[document.get("uri")] = document.get("text")
        elif method == "textDocument/didClose":
            yield dict(texts)
            texts.pop(document.get("uri"), None)
        elif method == "textDocument/didChange":
            change(texts, document.get("uri"), params.get("contentChanges"))
        elif method in ASKS:
            yield dict(texts)
    yield texts


def change(texts, uri, changes):
    """Makes changes of a text; it is None where they are no such changes."""
    try:
        for one in changes:
            edit = {"range": one.get("range"), "newText": one["text"]}
            texts[uri] = applied(texts[uri], [edit]) if edit["range"] else one["text"]
    except (AttributeError, IndexError, KeyError, TypeError):
        texts[uri] = None


def examples():
    """The project of the examples."""
    texts = {}
    for path in glob.glob(os.path.join(CRATE, "examples", "**", "*.graphql"), recursive=True):
        with open(path, encoding="utf-8") as file:
            texts[f"file:///{os.path.relpath(path, CRATE)}"] = file.read()
    return texts


def all_projects():
    """The projects, each once, by where they come from."""
    found = {json.dumps(examples(), sort_keys=True): "examples"}
    for path in sorted(glob.glob(os.path.join(CRATE, "cases", "*"))):
        if path.endswith((".stdout", ".args")):
            continue
        for texts in projects_of(path):
            if all(isinstance(text, str) for text in texts.values()) and sum(map(len, texts.values())) <= LIMIT:
                found.setdefault(json.dumps(texts, sort_keys=True), os.path.basename(path))
    return [(name, json.loads(texts)) for texts, name in found.items()]


class Server:
    """A server with some documents open."""

    def __init__(self, program):
        self.process = subprocess.Popen([program, *SERVE], stdin=subprocess.PIPE, stdout=subprocess.PIPE)
        self.number, self.version, self.versions, self.texts = 0, 0, {}, {}
        self.ask("initialize", {"capabilities": CAPABILITIES, "processId": None, "rootUri": None})
        self.tell("initialized", {})

    def tell(self, method, params):
        self.process.stdin.write(frame({"jsonrpc": "2.0", "method": method, "params": params}))

    def read(self):
        length = int(self.process.stdout.readline().split(b":")[1])
        self.process.stdout.readline()
        return json.loads(self.process.stdout.read(length))

    def ask(self, method, params):
        """The reply to a question, and what the server told before it."""
        self.number += 1
        self.process.stdin.write(frame({"id": self.number, "jsonrpc": "2.0", "method": method, "params": params}))
        self.process.stdin.flush()
        told = []
        while (message := self.read()).get("id") != self.number:
            told.append(message)
        return message, told

    def put(self, texts):
        """Makes the open documents those of these texts."""
        for uri in [uri for uri in self.texts if uri not in texts]:
            self.tell("textDocument/didClose", {"textDocument": {"uri": uri}})
            del self.texts[uri]
        for uri, text in texts.items():
            if self.texts.get(uri) != text:
                self.version += 1
                self.send(uri, text)
                self.versions[uri], self.texts[uri] = self.version, text

    def send(self, uri, text):
        if uri in self.texts:
            document = {"uri": uri, "version": self.version}
            self.tell("textDocument/didChange", {"textDocument": document, "contentChanges": [{"text": text}]})
        else:
            document = {"languageId": "graphql", "text": text, "uri": uri, "version": self.version}
            self.tell("textDocument/didOpen", {"textDocument": document})

    def wrong(self):
        """What is wrong with the documents, by what was told last of each since the last question; a change has to be among it."""
        untold = [{"message": "nothing is told"}]
        last = {}
        for message in self.ask("$/nothing", None)[1]:
            last[message["params"]["uri"]] = message["params"]["diagnostics"]
        return [one["message"] for uri in self.texts for one in last.get(uri, untold)]


class Trial:
    """One project, and questions about it by chance."""

    def __init__(self, server, chance, texts):
        self.server, self.chance, self.texts = server, chance, texts
        self.names = sorted({name for text in texts.values() for name in NAME.findall(text)})
        self.executable = [uri for uri, text in texts.items() if RENAMED.search(text)] or sorted(texts)

    def spots(self, text):
        """Places in a text: of names that can be renamed, of what can be selected, or all."""
        turn = self.chance.random()
        if turn < 0.5:
            spots = [found.start(1) for found in RENAMED.finditer(text)]
        elif turn < 0.9:
            spots = [at for found in SELECTED.finditer(text) for at in found.span()]
        else:
            spots = []
        return spots or list(range(len(text) + 1))

    def question(self):
        uri = self.chance.choice(self.chance.choice([self.executable, self.executable, sorted(self.texts)]))
        text = self.texts[uri]
        start, end = sorted(self.chance.choice(self.spots(text)) for _ in range(2))
        if self.chance.random() < 0.5:
            end = start
        first, last = place_of(text, start), place_of(text, end)
        if first is None:
            return None
        params = {"textDocument": {"uri": uri}}
        if self.chance.random() < 0.5:
            name = self.chance.choice(self.chance.choice([FRESH, FRESH, BAD, self.names or FRESH]))
            return ASKS[0], params | {"position": first, "newName": name}
        return ASKS[1], params | {"range": {"start": first, "end": last}, "context": {"diagnostics": []}}

    def edits(self, reply):
        """The edits of a reply by what offers them; what is wrong with a refusal."""
        if "error" in reply:
            message = reply["error"]["message"]
            return [], None if STATED.fullmatch(message) else f"refused: {message}"
        result = reply["result"]
        if isinstance(result, list):
            return [(action["kind"], list(edits_in(action))) for action in result], None
        return [("rename", list(edits_in(result)))], None

    def after(self, changes, versions):
        """The texts after an edit of documents that had these versions; what is wrong with it."""
        texts = dict(self.texts)
        for one in changes:
            uri, version = one["textDocument"]["uri"], one["textDocument"]["version"]
            if version != versions.get(uri):
                return None, f"names version {version} of {uri}"
            texts[uri] = applied(texts[uri], one["edits"])
            if texts[uri] is None:
                return None, f"has ranges of {uri} that overlap"
        return texts, None if texts != self.texts else "changes nothing"

    def judge(self, changes, versions):
        """What is wrong with an edit, if something is."""
        texts, flaw = self.after(changes, versions)
        if flaw:
            return flaw
        self.server.put(texts)
        wrong = self.server.wrong()
        self.server.put(self.texts)
        again = self.server.wrong()
        return f"leaves {wrong[0]} in {texts}" if wrong else "is not undone" if again else None

    def ask(self, counts):
        """Asks one question. What is wrong with the answer, if something is."""
        question = self.question()
        if question is None:
            return None
        versions = dict(self.server.versions)
        reply, _ = self.server.ask(*question)
        edits, flaw = self.edits(reply)
        if "error" in reply:
            counts[f"rename: {reply['error']['message']}"] += 1
        elif not edits:
            counts["code actions: none"] += 1
        for kind, changes in edits:
            counts[f"edits of {kind}"] += 1
            flaw = flaw or self.judge(changes, versions)
        if not flaw and edits:
            again, _ = self.server.ask(*question)
            flaw = None if self.edits(again)[0] and len(self.edits(again)[0]) == len(edits) else "the same question has another answer"
        return f"{question[0]} {json.dumps(question[1])}: {flaw}" if flaw else None


def valid_projects(server):
    """The projects that are valid, with something in them."""
    for name, texts in all_projects():
        server.put({})
        server.put(texts)
        if texts and not server.wrong():
            yield name, texts


def main():
    parser = argparse.ArgumentParser(description=__doc__.splitlines()[0])
    parser.add_argument("program")
    parser.add_argument("count", nargs="?", type=int, default=20_000)
    parser.add_argument("--seed", type=int, default=1)
    parser.add_argument("--show", action="store_true", help="prints each project and how many questions it had")
    words = parser.parse_args()
    server, chance = Server(os.path.abspath(words.program)), random.Random(words.seed)
    projects = list(valid_projects(server))
    counts, failed, asked = collections.Counter(), 0, 0
    each = -(-words.count // len(projects))
    for name, texts in projects:
        server.put({})
        server.put(texts)
        server.wrong()
        trial = Trial(server, chance, texts)
        for _ in range(min(each, words.count - asked)):
            asked += 1
            if flaw := trial.ask(counts):
                failed += 1
                print(f"{name}: {flaw}")
        if words.show:
            print(f"{name}: {len(texts)} documents")
    for what, count in sorted(counts.items()):
        print(f"{count:8,}  {what}")
    edits = sum(count for what, count in counts.items() if what.startswith("edits"))
    refusals = sum(count for what, count in counts.items() if what.startswith("rename:"))
    print(f"{asked:,} questions about {len(projects)} projects: {edits:,} edits, {refusals:,} refusals, {failed} failed")
    return 1 if failed else 0


if __name__ == "__main__":
    sys.exit(main())
