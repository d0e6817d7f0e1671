#!/usr/bin/env python3
"""Compares gqls with graphql-js over random projects, which is no proof, and asks whether the definitions say what others read in the standard.

    python3 scripts/beside_graphql_js.py PROGRAM verdicts|responses|edits [--projects N] [--seed N]

`verdicts` changes a token or two of most projects, and compares which rules are broken. `responses` executes each operation of a valid project
over a table that answers what graphql-js asked for, with errors, nulls and results of a wrong kind among it, and compares data, and whether
there is an error at each path at which graphql-js has one. `edits` has a server rename fragments and variables of a valid project in three
files, extract, inline and remove, at random places; graphql-js judges each edited project, and its responses must stay word for word, over two
tables for each operation. The last line counts what was compared, and `N differ`; the status is 1 where that is not 0.

Node must find a module `graphql` of version 16 (of Debian's packages nodejs and node-graphql, by NODE_PATH=/usr/share/nodejs where need be). Where the two differ for a known reason the case is
passed over, or what only one of them tells there; `known` and `differs` have these reasons.
"""
import argparse
import collections
import json
import os
import random
import re
import subprocess
import sys
import tempfile

FOLDER = os.path.join(os.path.dirname(os.path.abspath(__file__)), "beside_graphql_js")
sys.path.insert(0, FOLDER)
from projects import TOKEN, Operations, Schema, changed, end_of_group, runs_of  # noqa: E402

RULES = """V2 UniqueOperationNames V3 LoneAnonymousOperation V4 FieldsOnCorrectType V5 OverlappingFieldsCanBeMerged V6 ScalarLeafs
    V7 KnownArgumentNames V8 UniqueArgumentNames V9 ProvidedRequiredArguments V10 UniqueFragmentNames V11 KnownTypeNames
    V12 FragmentsOnCompositeTypes V13 NoUnusedFragments V14 KnownFragmentNames V15 NoFragmentCycles V16 PossibleFragmentSpreads
    V17 ValuesOfCorrectType V18 ValuesOfCorrectType V19 UniqueInputFieldNames V20 ValuesOfCorrectType V21 KnownDirectives
    V22 KnownDirectives V23 UniqueDirectivesPerLocation V24 UniqueVariableNames V25 VariablesAreInputTypes V26 NoUndefinedVariables
    V27 NoUnusedVariables V28 VariablesInAllowedPosition""".split()
RULE_OF = {code: name + "Rule" for code, name in zip(RULES[::2], RULES[1::2])}
FAULT = re.compile(r"(.*?):\d+:\d+: (\w\d+) ")
CAPABILITIES = {
    "workspace": {"workspaceEdit": {"documentChanges": True}},
    "textDocument": {"codeAction": {"codeActionLiteralSupport": {"codeActionKind": {"valueSet": ["refactor"]}}}},
}
MERGING = (["OverlappingFieldsCanBeMergedRule"], [])
BUILT_IN = re.compile(r"directive\s*@\s*(skip|include|deprecated|specifiedBy)\b")
URIS = ["file:///w/%s.graphql" % name for name in "sab"]
NEW_NAMES = ["Zz", "F1", "v0", "a", "on", "A"]


class Other:
    """graphql-js, in a process of its own."""

    def __init__(self):
        command = ["node", os.path.join(FOLDER, "judge.js")]
        self.process = subprocess.Popen(command, stdin=subprocess.PIPE, stdout=subprocess.PIPE, text=True)

    def ask(self, what):
        self.process.stdin.write(json.dumps(what) + "\n")
        self.process.stdin.flush()
        line = self.process.stdout.readline()
        if not line:
            sys.exit("Node has ended: see above, and whether NODE_PATH leads to a module `graphql`")
        return json.loads(line)

    def judged(self, files):
        """The rules that are broken, or None where it fails. A text without tokens is passed over: it has no document without definitions."""
        told = self.ask({"judge": [one for one in files.items() if TOKEN.search(one[1])]})
        return set(told) if isinstance(told, list) else None

    def executed(self, texts, run, seed):
        """The response and the rows that it took, or None where it fails."""
        operation, variables = run
        texts = [one for one in texts if TOKEN.search(one)]
        told = self.ask({"execute": {"texts": texts, "operation": operation, "variables": variables, "seed": seed}})
        return None if "failed" in told else told


class Folder:
    """Files that the program reads."""

    def __init__(self, program):
        self.program = program
        self.path = tempfile.mkdtemp()

    def write(self, files):
        for name, text in files.items():
            with open(os.path.join(self.path, name), "w", encoding="utf-8") as file:
                file.write(text)

    def run(self, *words):
        return subprocess.run([self.program, *words], cwd=self.path, capture_output=True, text=True)

    def judged(self, files):
        """The codes of a check of these files, T1 with its file."""
        self.write(files)
        codes = set()
        for line in self.run("check", *files).stdout.splitlines():
            if line != "ok":
                name, code = FAULT.match(line).groups()
                codes.add(code + ":" + name if code == "T1" else code)
        return codes


def kind(ours):
    """What is wrong with a project of these codes, in a few words."""
    for letter, words in (("T", "with a text that does not parse"), ("S", "with wrong types"), ("V", "with wrong operations")):
        if any(code[0] == letter for code in ours):
            return words
    return "valid"


def known(ours, theirs):
    """Whether these differ for a known reason, whatever else they say."""
    # Where a text has no tree, or a file is mixed, gqls tells what is wrong with the types of the others, too.
    if any(one.startswith("T1") for one in ours | theirs):
        return {one for one in ours if one.startswith("T1")} == {one for one in theirs if one.startswith("T1")}
    if "V1" in ours and "V1" in theirs:
        return True
    # graphql-js looks at no default values of a schema, and lets one define a built-in scalar as something else.
    return bool(ours & {"S1", "S10"}) and "S" not in theirs


def differs(ours, theirs):
    """What the two tell that the other one does not."""
    if known(ours, theirs):
        return None
    mine = {"S" if code[0] == "S" else RULE_OF.get(code, code) for code in ours}
    theirs = set(theirs)
    # A variable of an unknown type is V25 here, and an unknown name of a type there.
    if "V25" in ours:
        theirs -= {"KnownTypeNamesRule", "VariablesAreInputTypesRule"}
        mine -= {"KnownTypeNamesRule", "VariablesAreInputTypesRule"}
    # Below a field or a condition that is wrong, each tells what the other leaves out.
    if ours & {"V4", "V6", "V11", "V12"}:
        mine -= {"FieldsOnCorrectTypeRule", "PossibleFragmentSpreadsRule"} - theirs
        theirs -= {"OverlappingFieldsCanBeMergedRule"} - mine
    # Of fragments of one name, and of definitions of one variable, gqls means each, and graphql-js one.
    if "V10" in ours:
        theirs, mine = theirs & mine, theirs & mine
    if "V24" in ours:
        mine -= {"VariablesInAllowedPositionRule"} - theirs
    # The argument of an unknown directive at a field is no argument of that field. In a value that does not fit no variable is tested.
    if ours & {"V17", "V21"}:
        theirs -= {"VariablesInAllowedPositionRule"} - mine
    if "V21" in ours:
        theirs -= {"ValuesOfCorrectTypeRule"} - mine
    # A mutation without a root type is a fault by itself.
    mine.discard("P2")
    return None if mine == theirs else (sorted(mine - theirs), sorted(theirs - mine))


def inlined(text):
    """The text with an inline fragment in the place of each spread, without its directives. graphql-js compares what is spread behind a fragment
    with one set that spreads this, and with no other."""
    fragments = {}
    for match in re.finditer(r"fragment (\w+) on (\w+)[^{]*", text):
        tokens = [(token.start(), token.end(), token[0]) for token in TOKEN.finditer(text, match.end())]
        if tokens:
            fragments[match[1]] = " on %s %s" % (match[2], text[match.end() : end_of_group(tokens, match.end())])

    def spread(match):
        return "..." + fragments.get(match[1], match[1])

    for _ in fragments:
        text = re.sub(r"\.\.\.\s*(?!on\b)(\w+)((\s*@\w+(\([^()]*\))?)*)", spread, text)
    return text


def project(seed, wrong):
    """A schema, the lines of its operations, and the random numbers of that seed."""
    numbers = random.Random(seed)
    schema = Schema(numbers)
    text = schema.text()
    lines = Operations(schema).lines()
    if numbers.random() < wrong:
        at = numbers.randrange(len(lines))
        lines[at] = changed(numbers, lines[at])
    return numbers, schema, text, lines


def verdicts(folder, other, seeds, counts):
    for seed in seeds:
        numbers, _, text, lines = project(seed, 0)
        files = {"s.graphql": text, "q.graphql": "\n".join(lines)}
        for _ in range(numbers.choice([0, 1, 1, 1, 2, 3])):
            name = "s.graphql" if numbers.random() < 0.4 else "q.graphql"
            files[name] = changed(numbers, files[name])
        # What a schema defines in the place of a built-in directive has no effect here, and is that directive there.
        theirs = None if BUILT_IN.search(files["s.graphql"]) else other.judged(files)
        if theirs is None:
            continue
        ours = folder.judged(files)
        counts["projects"] += 1
        counts[kind(ours)] += 1
        found = differs(ours, theirs)
        if found == MERGING and MERGING[0][0] in (other.judged({**files, "q.graphql": inlined(files["q.graphql"])}) or ()):
            counts["where graphql-js sees no fields that do not merge before all spreads are inlined"] += 1
        elif found:
            yield "verdicts %d: only gqls %s, only graphql-js %s" % (seed, *found)


def responses(folder, other, seeds, counts):
    for seed in seeds:
        numbers, schema, text, lines = project(seed, 0.3)
        files = {"s.graphql": text, "q.graphql": "\n".join(lines)}
        if folder.judged(files):
            continue
        for run in runs_of(schema, files["q.graphql"], numbers.choice([0, 0, 0, 0.1])):
            theirs = other.executed(list(files.values()), run, str(seed))
            if theirs is None:
                continue
            ours = response(folder, files, run, theirs["rows"])
            counts["responses"] += 1
            counts["those with errors"] += bool(ours and ours["paths"])
            if not is_same(ours, theirs["response"]):
                yield "responses %d, %s: %s and %s" % (seed, run[0], ours, theirs["response"])


def response(folder, files, run, rows):
    """The response of the program over a table of these rows: its data, where it has some, and the paths of its errors."""
    operation, variables = run
    folder.write({"table.json": json.dumps({"rows": rows}), "variables.json": json.dumps(variables)})
    words = ["--op", operation] if operation else []
    done = folder.run("exec", "--table", "table.json", "--vars", "variables.json", *words, *files)
    if done.returncode:
        return None
    told = json.loads(done.stdout)
    paths = [error.get("path") for error in told.get("errors", [])]
    return {"data": told["data"], "paths": paths} if "data" in told else {"paths": paths}


def is_same(ours, theirs):
    """Whether the data are the same, with the same order of keys, and each error stands here, too. gqls evaluates all siblings of a field
    whose error makes their parent null, and so tells more errors."""
    if ours is None or ("data" in ours) != ("data" in theirs):
        return False
    if "data" not in ours:
        return True
    is_any = bool(ours["paths"]) == bool(theirs["paths"])
    return json.dumps(ours["data"]) == json.dumps(theirs["data"]) and is_any and all(path in ours["paths"] for path in theirs["paths"])


class Server:
    """A session in which all files are open."""

    def __init__(self, program, texts):
        self.process = subprocess.Popen([program, "serve", "--workers", "0"], stdin=subprocess.PIPE, stdout=subprocess.PIPE)
        self.number = 0
        self.ask("initialize", {"capabilities": CAPABILITIES})
        for uri, text in texts.items():
            self.send({"method": "textDocument/didOpen", "params": {"textDocument": {"uri": uri, "languageId": "graphql", "version": 1, "text": text}}})

    def send(self, message):
        body = json.dumps(message).encode()
        self.process.stdin.write(b"Content-Length: %d\r\n\r\n" % len(body) + body)
        self.process.stdin.flush()

    def ask(self, method, params):
        self.number += 1
        self.send({"id": self.number, "method": method, "params": params})
        while True:
            length = int(self.process.stdout.readline().split(b":")[1])
            self.process.stdout.readline()
            message = json.loads(self.process.stdout.read(length))
            if message.get("id") == self.number:
                return message

    def end(self):
        self.ask("shutdown", None)
        self.send({"method": "exit"})
        self.process.wait()


def position(text, offset):
    return {"line": text.count("\n", 0, offset), "character": offset - (text.rfind("\n", 0, offset) + 1)}


def offset(text, place):
    lines = text.split("\n")
    return sum(len(line) + 1 for line in lines[: place["line"]]) + place["character"]


def applied(texts, edit):
    """The texts with the edit."""
    texts = dict(texts)
    for change in edit["documentChanges"]:
        uri = change["textDocument"]["uri"]
        before = texts[uri]
        for one in sorted(change["edits"], key=lambda one: offset(before, one["range"]["start"]), reverse=True):
            start, end = (offset(before, one["range"][name]) for name in ("start", "end"))
            texts[uri] = texts[uri][:start] + one["newText"] + texts[uri][end:]
    return texts


def offered(server, numbers, texts):
    """Edits at a random place: of each its kind, itself, and the names of a variable before and after, where it renames one."""
    uri = numbers.choice(URIS[1:])
    text = texts[uri]
    tokens = [(match.start(), match.end(), match[0]) for match in TOKEN.finditer(text)]
    if not tokens:
        return
    start, end, token = numbers.choice(tokens)
    place = {"textDocument": {"uri": uri}}
    if re.match(r"[Fv]\d", token) and numbers.random() < 0.7:
        name = numbers.choice(NEW_NAMES)
        told = server.ask("textDocument/rename", {**place, "position": position(text, start), "newName": name})
        if told.get("result"):
            yield ("rename of a variable", told["result"], token, name) if token[0] == "v" else ("rename of a fragment", told["result"], None, None)
        return
    if numbers.random() < 0.7:
        for _ in range(numbers.randint(1, 4)):
            end = end_of_group(tokens, next((at for at, _, _ in tokens if at >= end), start))
    places = {"start": position(text, start), "end": position(text, max(start, end))}
    for action in server.ask("textDocument/codeAction", {**place, "range": places, "context": {"diagnostics": []}})["result"]:
        yield action["title"], action["edit"], None, None


def renamed(variables, before, after):
    return {after if name == before else name: value for name, value in variables.items()}


def edits(folder, other, seeds, counts):
    for seed in seeds:
        numbers, schema, text, lines = project(seed, 0.1)
        numbers.shuffle(lines)
        cut = numbers.randint(0, len(lines))
        texts = dict(zip(URIS, (text, "\n".join(lines[:cut]), "\n".join(lines[cut:]))))
        if other.judged(texts) != set():
            continue
        runs = list(runs_of(schema, "\n".join(lines), 0))
        tables = [(run, table) for run in runs for table in "ab"]
        before = [other.executed(list(texts.values()), *one) for one in tables]
        if None in before:
            continue
        counts["projects"] += 1
        server = Server(folder.program, texts)
        for _ in range(40):
            for kind, edit, old, new in offered(server, numbers, texts):
                counts[kind] += 1
                after = applied(texts, edit)
                if other.judged(after) != set():
                    yield "edits %d: %s gives an invalid project" % (seed, kind)
                for (run, table), told in zip(tables, before):
                    # A variable is renamed in its group, to which the operation of this run may not belong.
                    both = [run, (run[0], renamed(run[1], old, new))]
                    if all(not told == other.executed(list(after.values()), one, table) for one in both):
                        yield "edits %d: %s gives another response of %s" % (seed, kind, run[0])
        server.end()


def main():
    words = argparse.ArgumentParser(description=__doc__, formatter_class=argparse.RawDescriptionHelpFormatter)
    words.add_argument("program")
    words.add_argument("what", choices=["verdicts", "responses", "edits"])
    words.add_argument("--projects", type=int, default=1000)
    words.add_argument("--seed", type=int, default=1)
    asked = words.parse_args()
    compare = {"verdicts": verdicts, "responses": responses, "edits": edits}[asked.what]
    counts, count = collections.Counter(), 0
    seeds = range(asked.seed * 1_000_000, asked.seed * 1_000_000 + asked.projects)
    for found in compare(Folder(os.path.abspath(asked.program)), Other(), seeds, counts):
        count += 1
        print(found, flush=True)
    print(", ".join("%s %d" % one for one in counts.items()) + "; %d differ" % count)
    sys.exit(1 if count else 0)


if __name__ == "__main__":
    main()
