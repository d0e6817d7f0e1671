#!/usr/bin/env python3
"""Sends recorded sessions of editors to a server, and looks at what comes back.

    python3 scripts/replay.py PROGRAM        PROGRAM as crates/gqls/out/gqls

Each scripts/sessions/NAME.jsonl has a message a line. With 0 workers it is sent at once, and then byte by byte; with as many workers as
the program takes when it is told no number, at once. Wanted: each request has one reply, and none of these says that the server was at
a loss (-32700, -32600, -32602, -32603, or -32601 for a method that it has announced); status 0; and with 0 workers the same bytes
however the input is cut. The last line is `N passed, M failed`."""
import glob
import json
import os
import re
import subprocess
import sys
import threading

HERE = os.path.dirname(os.path.abspath(__file__))
SESSIONS = sorted(glob.glob(os.path.join(HERE, "sessions", "*.jsonl")))
AT_A_LOSS = (-32700, -32600, -32602, -32603)
PROVIDERS = {"textDocument/codeAction": "codeActionProvider", "textDocument/rename": "renameProvider"}


def messages_of(path):
    with open(path, encoding="utf-8") as file:
        return [json.loads(line) for line in file]


def framed_messages(messages):
    bodies = [json.dumps(message, ensure_ascii=False).encode() for message in messages]
    return b"".join(b"Content-Length: %d\r\n\r\n" % len(body) + body for body in bodies)


def served(program, data, workers, size=None):
    """What a server with so many workers writes for the data, written in pieces of that size, and its status. None stands for as many
    workers as it takes by itself, and for the data at once."""
    words = [] if workers is None else ["--workers", str(workers)]
    process = subprocess.Popen([program, "serve", *words], stdin=subprocess.PIPE, stdout=subprocess.PIPE)
    size = size or len(data)

    def feed():
        try:
            for at in range(0, len(data), size):
                os.write(process.stdin.fileno(), data[at : at + size])
            process.stdin.close()
        except OSError:
            pass

    threading.Thread(target=feed, daemon=True).start()
    written = process.stdout.read()
    return written, process.wait(timeout=120)


def bodies(written):
    while written:
        head = re.match(rb"Content-Length: (\d+)\r\n\r\n", written)
        end = head.end() + int(head[1])
        yield json.loads(written[head.end() : end])
        written = written[end:]


def what_is_wrong(messages, written, status):
    if status != 0:
        return f"status {status}"
    asked = {json.dumps(m["id"]): m["method"] for m in messages if "method" in m and "id" in m}
    replies = {}
    for m in bodies(written):
        if "id" in m:
            if json.dumps(m["id"]) in replies:
                return f"two replies to {m['id']}"
            replies[json.dumps(m["id"])] = m
    if set(replies) != set(asked):
        return f"asked {sorted(asked)}, answered {sorted(replies)}"
    announced = next(m["result"]["capabilities"] for m in replies.values() if asked[json.dumps(m["id"])] == "initialize")
    for name, m in replies.items():
        code, method = m.get("error", {}).get("code"), asked[name]
        provider = PROVIDERS.get(method, method.removeprefix("textDocument/") + "Provider")
        if code in AT_A_LOSS or code == -32601 and provider in announced:
            return f"{method} is answered {m['error']}"
    return None


def judgements(program, path):
    """What is wrong with a recorded session, for each way to serve it."""
    messages = messages_of(path)
    data = framed_messages(messages)
    written, status = served(program, data, 0)
    wrong = what_is_wrong(messages, written, status)
    if not wrong and served(program, data, 0, 1) != (written, status):
        wrong = "other bytes when the input is cut"
    yield "0 workers", wrong
    yield "workers by default", what_is_wrong(messages, *served(program, data, None))


def main():
    if len(sys.argv) != 2:
        sys.exit(__doc__)
    passed = failed = 0
    for path in SESSIONS:
        for how, wrong in judgements(sys.argv[1], path):
            print(f"{os.path.basename(path)}, {how}: {wrong or 'ok'}")
            passed, failed = passed + (not wrong), failed + bool(wrong)
    print(f"{passed} passed, {failed} failed")
    sys.exit(bool(failed))


if __name__ == "__main__":
    main()
