#!/usr/bin/env python3
"""Makes the cases of crates/gqls/cases from the rows and sessions of crates/gqls/rows.

    python3 scripts/make_cases.py [--check]        --check: writes nothing, and fails where a case is not as it would be made

A case NAME is what the program reads from its standard input, and NAME.stdout what it must write; `rt try --cases` takes both. How
a session ends, if not with the status 0 and no fault, is a line of crates/gqls/endings: the name, the status, and the fault. A session
of FILE.sessions that ends on line 9 is the case FILE.sessions-9, and a row of frames.rows likewise. The rows of another FILE.rows are
one case, a session, and a long row is one of its own: a row of line 9 is told under the URIs file:///FILE.rows/9/... What a case wants
comes from the row alone, and never from what the program writes.

How a row shows in a session: the documents of a row are opened one after another, and all that is wrong with what is open is told
each time. Lest a part of a row be told otherwise than the whole, a document `!` stands open meanwhile, the cover. It has no tree,
and so no rule of operations and fragments is told. Once the row is complete the cover is closed, and what is told then is what the
row wants. It opens again while those of the row are closed. It does not hide what is wrong with the type system, so rows of that
stand without it."""
import glob
import json
import os
import re
import sys

from rows import bytes_of, read_rows

HERE = os.path.dirname(os.path.abspath(__file__))
CRATE = os.path.join(os.path.dirname(HERE), "crates", "gqls")
COVER = "file:///cover"
COVER_TEXT = b"!"
LONG = 4_096
QUERY_ROOT = re.compile(r"\btype\s+Query\b|\bschema\b[^{]*\{\s*query\s*:")
FAULT = re.compile(r"(?:(\S*):)?([A-Z][0-9]+)\[([0-9]+),([0-9]+)\](?: (.*))?")

# Whose documents are in the order of the row; those of other files are in the order of their names.
ARE_NUMBERED = "fields fragments merging operations spreads type_system variables".split()
INITIALIZE = {"id": 1, "jsonrpc": "2.0", "method": "initialize"}
INITIALIZE["params"] = {"capabilities": {"textDocument": {"publishDiagnostics": {}}}, "processId": None, "rootUri": None}
INITIALIZED = {"id": 1, "jsonrpc": "2.0"}
INITIALIZED["result"] = {"capabilities": {"textDocumentSync": {"change": 2, "openClose": True}}, "serverInfo": {"name": "gqls"}}


def framed(body):
    return b"Content-Length: %d\r\n\r\n" % len(body) + body


def frame(message):
    return framed(json.dumps(message, ensure_ascii=False, separators=(",", ":"), sort_keys=True).encode())


def position(text, offset):
    """The position of a byte, in lines and UTF-16 units."""
    lines = re.split("\r\n|\n|\r", text[:offset].decode())
    if text[offset - 1 : offset + 1] == b"\r\n":
        lines = re.split("\r\n|\n|\r", text[: offset - 1].decode())
    return {"line": len(lines) - 1, "character": len(lines[-1].encode("utf-16-le")) // 2}


class Session:
    """What a client sends, and what it is to get."""

    def __init__(self, words):
        self.words = words
        self.sent = [frame(INITIALIZE)]
        self.wanted = [frame(INITIALIZED)]
        self.texts = {}

    def send(self, method, params):
        self.sent.append(frame({"jsonrpc": "2.0", "method": method, "params": params}))

    def want(self, uri, found, version=1):
        """Wants what is told of a document."""
        diagnostics = [
            {
                "code": code,
                "message": self.words[code],
                "range": {"start": position(self.texts[uri], start), "end": position(self.texts[uri], end)},
                "severity": 1,
                "source": "gqls",
            }
            for code, start, end in found
        ]
        params = {"diagnostics": diagnostics, "uri": uri} | ({"version": version} if version else {})
        self.wanted.append(frame({"jsonrpc": "2.0", "method": "textDocument/publishDiagnostics", "params": params}))

    def want_all(self, found):
        """Wants what is told of each open document, in the order of their URIs."""
        for uri in sorted(self.texts, key=str.encode):
            self.want(uri, self.of_cover(found) if uri == COVER else found.get(uri, []))

    def of_cover(self, found):
        """That the cover has no tree; and that no document has a root type for queries, which is told of the first."""
        read = [text for uri, text in self.texts.items() if not any(one[0][0] == "T" for one in found.get(uri, []))]
        has_root = any(QUERY_ROOT.search(text.decode()) for text in read)
        return [("T1", 0, 0)] if has_root else [("T1", 0, 0), ("S9", 0, 0)]

    def open(self, uri, text, found):
        self.texts[uri] = text
        document = {"languageId": "graphql", "text": text.decode(), "uri": uri, "version": 1}
        self.send("textDocument/didOpen", {"textDocument": document})
        self.want_all(found)

    def close(self, uri, found):
        self.send("textDocument/didClose", {"textDocument": {"uri": uri}})
        self.want(uri, [], None)
        del self.texts[uri]
        self.want_all(found)

    def ended(self):
        self.sent.append(frame({"id": 2, "jsonrpc": "2.0", "method": "shutdown"}))
        self.wanted.append(frame({"id": 2, "jsonrpc": "2.0", "result": None}))
        self.sent.append(frame({"jsonrpc": "2.0", "method": "exit"}))
        return b"".join(self.sent), b"".join(self.wanted)


def uris_of(row, name, is_numbered):
    uris = []
    for number, entry in enumerate(row.entries, 1):
        place = f"{number}/{entry.key or 'text'}" if is_numbered else entry.key or "text"
        uris.append(f"file:///{name}/{row.line}/{place}")
    return uris


def faults_of(row, uris, words, is_numbered):
    """What a row wants to be told, by URI: `none`, or a fault behind the other, or one a line with its words."""
    found = {}
    for one in row.wanted.split(" " if is_numbered else "\n"):
        if one == "none" or re.fullmatch("[0-9]+ (valid|handed back)", one):
            continue
        key, code, start, end, said = FAULT.fullmatch(one).groups()
        assert said is None or said == words[code], f"line {row.line}: the words of {code} are {words[code]}"
        keys = [entry.key for entry in row.entries]
        uri = uris[len(keys) - 1 - keys[::-1].index(key)] if key else uris[-1]
        found.setdefault(uri, []).append((code, int(start), int(end)))
    return found


def syntax_faults_of(row, uri):
    """The place of a fault, behind `limit` of a limit; or `none`, and what the type system has then."""
    word, _, rest = row.wanted.partition(" ")
    if word == "none":
        return faults_of(row, [uri], None, True)
    return {uri: [("T2", int(rest), int(rest)) if word == "limit" else ("T1", int(word), int(word))]}


def shown_early(found):
    """What is told of a document whatever others say: that it has no tree, and what is wrong with the type system."""
    early = {uri: [one for one in all if one[0][0] in "TS" or one[0] == "V1"] for uri, all in found.items()}
    return {uri: all for uri, all in early.items() if all}


def put_under_cover(session, row, uris, found):
    """Puts a row whose rules the cover hides until all its documents are open."""
    early = shown_early(found)
    for uri, entry in zip(uris, row.entries):
        session.open(uri, entry.bytes, early)
    session.close(COVER, found)
    session.open(COVER, COVER_TEXT, early)
    for uri in reversed(uris):
        session.close(uri, early)


def put_beside_cover(session, row, uris, found):
    """Puts a row of one text, of which it is told beside the cover whether it has a tree."""
    session.open(uris[-1], row.entries[-1].bytes, found)
    session.close(uris[-1], found)


def put_type_system(session, row, uris, found):
    """Puts a row of the type system, which nothing hides: those documents that are opened first are right without the last."""
    opened = [number for number, entry in enumerate(row.entries) if entry.is_given]
    opened += reversed([number for number, entry in enumerate(row.entries) if not entry.is_given])
    for number in opened:
        session.open(uris[number], row.entries[number].bytes, found if number == opened[-1] else {})
    for number in reversed(opened):
        session.close(uris[number], {})


def case_of(rows, name, case, words):
    """Rows as a session, the case of that name."""
    group = name.split(".")[0]
    session = Session(words)
    if group != "type_system":
        session.open(COVER, COVER_TEXT, {})
    for row in rows:
        is_numbered = group in ARE_NUMBERED
        uris = uris_of(row, name, is_numbered)
        if group == "syntax_faults":
            put_beside_cover(session, row, uris, syntax_faults_of(row, uris[-1]))
        elif group == "type_system":
            put_type_system(session, row, uris, faults_of(row, uris, words, is_numbered))
        else:
            put_under_cover(session, row, uris, faults_of(row, uris, words, is_numbered))
    sent, wanted = session.ended()
    return {case: sent, f"{case}.stdout": wanted}


def is_long(row):
    return sum(len(entry.bytes) for entry in row.entries) > LONG


def cases_of_rows(path, words):
    """The rows of a file as a session, and each long one as one of its own, lest a case take a minute."""
    name = os.path.basename(path)
    rows = read_rows(path)
    cases = case_of([row for row in rows if not is_long(row)], name, name, words)
    for row in rows:
        if is_long(row):
            cases |= case_of([row], name, f"{name}-{row.line}", words)
    return cases


def cases_of_frames(path, endings):
    """A case for each row of streams: a body that is no message is answered so, and a fault ends the program."""
    cases = {}
    for row in read_rows(path):
        name = f"{os.path.basename(path)}-{row.line}"
        *bodies, end = row.wanted.split("|")
        wanted = b""
        for body in bodies:
            try:
                json.loads(body)
                error = {"code": -32600, "message": "invalid request"}
            except ValueError:
                error = {"code": -32700, "message": "parse error"}
            wanted += frame({"error": error, "id": None, "jsonrpc": "2.0"})
        fault = re.fullmatch(r"Ok\(\(\)\)|Err\((.*)\)", end)[1]
        cases |= {name: row.entries[-1].bytes, f"{name}.stdout": wanted}
        endings.append((name, 3 if fault else 1, fault or ""))
    return cases


def cases_of_sessions(path, endings):
    """A case for each session."""
    cases, sent, wanted = {}, b"", b""
    with open(path, encoding="utf-8") as file:
        lines = file.read().split("\n")
    for number, line in enumerate(lines, 1):
        word, _, rest = line.partition(" ")
        if not line or line.startswith("#"):
            continue
        if word == "->":
            sent += framed(rest.encode())
        elif word == "<-":
            wanted += framed(rest.encode())
        elif word == "raw":
            sent += rest.replace("␍", "\r").replace("␊", "\n").encode()
        elif word == "=":
            name = f"{os.path.basename(path)}-{number}"
            status, _, fault = rest.partition(" ")
            cases |= {name: sent, f"{name}.stdout": wanted}
            endings.append((name, int(status), fault))
            sent, wanted = b"", b""
        else:
            raise ValueError(f"{path}:{number}: no line of a session")
    return cases


def words_of_codes(path):
    return {row.entries[-1].bytes.decode(): row.wanted for row in read_rows(path)}


def made():
    """Every file that is made, by its name in the crate."""
    rows = os.path.join(CRATE, "rows")
    words = words_of_codes(os.path.join(rows, "codes.rows"))
    cases, endings = {}, []
    for path in sorted(glob.glob(os.path.join(rows, "*"))):
        name = os.path.basename(path)
        if name.endswith(".sessions"):
            cases |= cases_of_sessions(path, endings)
        elif name == "frames.rows":
            cases |= cases_of_frames(path, endings)
        elif name != "codes.rows":
            cases |= cases_of_rows(path, words)
    told = b"".join(cases.values())
    untold = [code for code, said in words.items() if f'"code":"{code}","message":"{said}"'.encode() not in told]
    assert not untold, f"no row wants {untold}"
    lines = [f"{name} {status} {fault}".rstrip() + "\n" for name, status, fault in endings if status or fault]
    return {f"cases/{name}": data for name, data in cases.items()} | {"endings": "".join(lines).encode()}


def kept():
    """Every such file as it stands."""
    paths = glob.glob(os.path.join(CRATE, "cases", "*")) + glob.glob(os.path.join(CRATE, "endings"))
    files = {}
    for path in paths:
        with open(path, "rb") as file:
            files[os.path.relpath(path, CRATE)] = file.read()
    return files


def main(arguments):
    new, old = made(), kept()
    differing = sorted(name for name in new.keys() | old.keys() if new.get(name) != old.get(name))
    if arguments == ["--check"]:
        for name in differing:
            print(f"crates/gqls/{name} is not as scripts/make_cases.py makes it")
        return 1 if differing else 0
    os.makedirs(os.path.join(CRATE, "cases"), exist_ok=True)
    for name in differing:
        path = os.path.join(CRATE, name)
        if name not in new:
            os.remove(path)
            continue
        with open(path, "wb") as file:
            file.write(new[name])
    print(f"{sum(name.endswith('.stdout') for name in new)} cases")
    return 0


if __name__ == "__main__":
    sys.exit(main(sys.argv[1:]))
