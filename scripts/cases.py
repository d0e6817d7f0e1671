#!/usr/bin/env python3
"""Judges a built program by what it writes: each case of crates/gqls/cases, each row of crates/gqls/commands, and each session of
crates/gqls/folders.

    python3 scripts/cases.py PROGRAM [FOLDER..] [TEXT]        PROGRAM as crates/gqls/out/gqls; TEXT: only what has it in its name

A case is served twice: its input at once, and byte by byte where it is short. Wanted are what NAME.stdout holds, and the status and
the fault that its line of the file `endings` beside the folder has; without a line the status 0, and nothing said of a fault. Of a
case that holds many rows each is judged, by its URIs (scripts/make_cases.py says how rows become cases). A row of check.rows,
check.*.rows, exec.rows or rename.rows is files that lie where the program runs, and what is wanted is what it writes to standard output
and then to standard error, the files that `--shown` names as they are then, and its status; with `--root: DIR` they are not named, and
DIR is the folder that they lie in. `--words` are more words of the command line. A session of
folders/*.sessions is served over a folder that is made for it (scripts/folders.py says how it is written).

Each row that differs is printed with its file and line. The last line is `N passed, M failed`; the status is 1 where one failed."""
import glob
import os
import re
import subprocess
import sys
import tempfile
import threading

from folders import judge_session, read_sessions
from rows import read_rows

HERE = os.path.dirname(os.path.abspath(__file__))
CRATE = os.path.join(os.path.dirname(HERE), "crates", "gqls")
SERVE = ["serve", "--workers", "0"]
SECONDS = 900
SHORT = 65_536
FRAME = re.compile(rb"Content-Length: ([0-9]+)\r\n\r\n")
PLACE = re.compile(rb'"uri":"file:///([a-z_.]+\.rows)/([0-9]+)/')
TOLD_MOST = 600


def run(command, data, size, folder):
    """What the program writes for the input, written in pieces of that size, and its status."""
    process = subprocess.Popen(
        command, cwd=folder, stdin=subprocess.PIPE, stdout=subprocess.PIPE, stderr=subprocess.PIPE
    )

    def feed():
        try:
            for at in range(0, len(data), size):
                process.stdin.write(data[at : at + size])
                process.stdin.flush()
        except OSError:
            pass
        try:
            process.stdin.close()
        except OSError:
            pass

    errors = []
    feeder = threading.Thread(target=feed, daemon=True)
    reader = threading.Thread(target=lambda: errors.append(process.stderr.read()), daemon=True)
    ender = threading.Timer(SECONDS, process.kill)
    for thread in (feeder, reader, ender):
        thread.start()
    output = process.stdout.read()
    status = process.wait()
    ender.cancel()
    reader.join()
    feeder.join()
    return output, errors[0], status


def frames(stream):
    """The frames of a stream, and what stands behind them."""
    parts = []
    while found := FRAME.match(stream):
        end = found.end() + int(found[1])
        parts.append(stream[:end])
        stream = stream[end:]
    return parts + [stream] if stream else parts


def by_place(stream):
    """The frames of each row, by its file and line, and under None those of no row."""
    places = {}
    for one in frames(stream):
        found = PLACE.search(one)
        place = f"{found[1].decode()}:{found[2].decode()}" if found else None
        places.setdefault(place, []).append(one.partition(b"\r\n\r\n")[2] or one)
    return places


def shown(parts):
    text = b"\n    ".join(parts).decode(errors="replace")
    return text if len(text) <= TOLD_MOST else f"{text[:TOLD_MOST]} .. ({len(text)} characters)"


def first_difference(told, wanted):
    """The first message that is told otherwise than wanted."""
    at = next((at for at, pair in enumerate(zip(told, wanted)) if pair[0] != pair[1]), min(len(told), len(wanted)))
    return f"told\n    {shown(told[at : at + 1])}\n  wanted\n    {shown(wanted[at : at + 1])}"


def told_apart(told, wanted):
    """The first message of a stream that is told otherwise than wanted."""
    bodies = [[one.partition(b"\r\n\r\n")[2] or one for one in frames(stream)] for stream in (told, wanted)]
    return first_difference(*bodies)


def differences(told, wanted, place):
    """What is told otherwise than wanted, by row; a stream of no rows as a whole."""
    if told == wanted:
        return {}
    all_told, all_wanted = by_place(told), by_place(wanted)
    differing = {
        one or place: first_difference(all_told.get(one, []), all_wanted.get(one, []))
        for one in sorted(all_told.keys() | all_wanted.keys(), key=str)
        if all_told.get(one) != all_wanted.get(one)
    }
    return differing or {place: "the rows are told in another order"}


def contents(path, absent):
    if not os.path.exists(path):
        return absent
    with open(path, "rb") as file:
        return file.read()


def endings_beside(folder):
    """How cases of the folder end: the status, and what is said on standard error."""
    lines = contents(os.path.join(os.path.dirname(os.path.abspath(folder)), "endings"), b"").decode().splitlines()
    endings = {}
    for name, status, *fault in (line.split(" ") for line in lines):
        endings[name] = int(status), "".join(f"gqls: {one}\n" for one in fault).encode()
    return endings


def judge_case(program, path, ending):
    """How many rows a case has, and what is wrong, by row."""
    data, wanted = contents(path, b""), contents(f"{path}.stdout", b"")
    more = contents(f"{path}.args", b"").decode().split("\n")
    words = SERVE + [path if word == "{}" else word for word in more if word]
    name, _, line = os.path.basename(path).partition("-")
    place = f"{name}:{line}" if line else name
    wrong = {}
    for size in [max(1, len(data)), 1] if len(data) <= SHORT else [len(data)]:
        output, errors, status = run([program, *words], data, size, None)
        found = differences(output, wanted, place)
        if (status, errors) != ending:
            why = f"the end is {status} {errors.decode(errors='replace')!r}, wanted {ending[0]} {ending[1].decode()!r}"
            found[place] = f"{why}. {found[place]}" if place in found else why
        wrong = found | wrong
    rows = {one for one in by_place(wanted) if one}
    return len(rows | wrong.keys()) or 1, wrong


def judge_row(program, row, command):
    """What is wrong with a row of files."""
    words, names, shown_after = [command], [], []
    with tempfile.TemporaryDirectory() as folder:
        for entry in row.entries:
            name = entry.key
            if name == "--op":
                words += [name, entry.bytes.decode()]
                continue
            if name == "--words":
                words += entry.bytes.decode().replace("DIR", folder).split(" ")
                continue
            if name == "--shown":
                shown_after.append(entry.bytes.decode())
                continue
            if name == "--root":
                words += [name, entry.bytes.decode().replace("DIR", folder)]
                continue
            if name.startswith("--"):
                name = f"{name[2:]}.json"
                words += [entry.key, name]
            else:
                names.append(name)
            path = os.path.join(folder, name)
            if entry.bytes is not None and not os.path.exists(path):
                os.makedirs(os.path.dirname(path), exist_ok=True)
                with open(path, "wb") as file:
                    file.write(entry.bytes)
        names = [] if "--root" in words else names
        output, errors, status = run([program, *words, *names], b"", 1, folder)
        output += errors
        for name in shown_after:
            output += contents(os.path.join(folder, name), b"")
    told = output.decode(errors="replace").replace(folder, "DIR") + str(status)
    return None if told == row.wanted else f"told\n    {shown([told.encode()])}\n  wanted\n    {shown([row.wanted.encode()])}"


def main(arguments):
    if not arguments:
        print(__doc__)
        return 2
    program = os.path.abspath(arguments[0])
    folders = [word for word in arguments[1:] if os.path.isdir(word)]
    texts = [word for word in arguments[1:] if not os.path.isdir(word)]
    if not os.path.exists(program) or len(texts) > 1:
        print(f"{program}: no such program" if not texts else __doc__)
        return 2
    is_asked = lambda name: not texts or texts[0] in name
    passed = failed = 0

    def tell(number, wrong):
        nonlocal passed, failed
        for place, why in wrong.items():
            print(f"{place}: {why}", flush=True)
        passed += number - len(wrong)
        failed += len(wrong)

    for folder in folders or [os.path.join(CRATE, name) for name in ("cases", "commands", "folders")]:
        endings = endings_beside(folder)
        for path in sorted(glob.glob(os.path.join(folder, "*"))):
            name = os.path.basename(path)
            if name.endswith(".sessions") and not os.path.exists(f"{path}.stdout"):
                for session in read_sessions(path):
                    place = f"{name}:{session.line}"
                    if is_asked(place):
                        why = judge_session(program, session, told_apart)
                        tell(1, {place: why} if why else {})
            elif name.startswith(("check.", "exec.", "rename.")) and name.endswith(".rows"):
                for row in read_rows(path):
                    place = f"{name}:{row.line}"
                    if is_asked(place):
                        why = judge_row(program, row, name.split(".")[0])
                        tell(1, {place: why} if why else {})
            elif os.path.exists(f"{path}.stdout") and is_asked(name):
                tell(*judge_case(program, path, endings.get(name, (0, b""))))
    print(f"{passed} passed, {failed} failed")
    return 1 if failed or not passed else 0


if __name__ == "__main__":
    sys.exit(main(sys.argv[1:]))
