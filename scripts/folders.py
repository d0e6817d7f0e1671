"""Sessions over a folder of files. scripts/cases.py judges crates/gqls/folders/*.sessions with it.

What makes a session is a line each. Those on the folder come before the messages, or between them: then they are done once all
that is wanted before them has come.

    file NAME: TEXT             writes a file, and the folders on the way to it
    files COUNT NAME: TEXT      so many files; ‹0› in NAME stands for 0 at first, and for one more each time
    folder NAME                 makes a folder, and those on the way to it
    link NAME TARGET            makes a link
    gone NAME                   takes a file away, or an empty folder
    root WORD                   what stands behind `--root`, if not the folder; {} in it stands for the folder
    -> BODY                     goes to the server, in a frame of its own
    <- BODY                     comes from the server, in a frame of its own
    ! TEXT                      a line on standard error, where it tells no fault
    = STATUS FAULT              ends the session

In bodies file:///w stands for the folder. Pictures in names and texts are those of scripts/rows.py."""
import os
import re
import subprocess
import tempfile
import threading

from rows import bytes_of

SECONDS = 600
PATIENCE = 60
FOLDER = b"file:///w"


class Session:
    """A session: what is done in turn, and what is wanted of it."""

    def __init__(self):
        self.steps = []
        self.said = []
        self.root = "{}"
        self.line = None
        self.ending = None


def read_sessions(path):
    """The sessions of a file."""
    sessions, session = [], Session()
    with open(path, encoding="utf-8") as file:
        lines = file.read().split("\n")
    for number, line in enumerate(lines, 1):
        word, _, rest = line.partition(" ")
        if not line or line.startswith("#"):
            continue
        if word == "=":
            status, _, fault = rest.partition(" ")
            session.line, session.ending = number, (int(status), fault)
            sessions.append(session)
            session = Session()
        elif word == "root":
            session.root = bytes_of(rest).decode()
        elif word == "!":
            session.said.append(rest)
        elif word in ("->", "<-", *CHANGES):
            session.steps.append((word, rest))
        else:
            raise ValueError(f"{path}:{number}: no line of a session")
    return sessions


def path_in(folder, name):
    """The path of what has that name in a folder, those on the way to it being made."""
    path = os.path.join(os.fsencode(folder), bytes_of(name))
    os.makedirs(os.path.dirname(path), exist_ok=True)
    return path


def write_file(folder, words):
    name, _, text = words.partition(":")
    with open(path_in(folder, name), "wb") as file:
        file.write(bytes_of(text.strip()))


def write_files(folder, words):
    count, _, rest = words.partition(" ")
    for turn in range(int(count)):
        write_file(folder, re.sub("‹([0-9]+)›", lambda found: str(int(found[1]) + turn), rest))


def make_link(folder, words):
    name, _, target = words.partition(" ")
    os.symlink(bytes_of(target), path_in(folder, name))


def take_away(folder, words):
    path = path_in(folder, words)
    (os.rmdir if os.path.isdir(path) else os.remove)(path)


CHANGES = {
    "file": write_file,
    "files": write_files,
    "folder": lambda folder, words: os.makedirs(path_in(folder, words), exist_ok=True),
    "link": make_link,
    "gone": take_away,
}


class Server:
    """A server that runs, with all that it has written so far. One that does not end in so many seconds is ended."""

    def __init__(self, command, seconds=SECONDS, environment=None):
        pipes = {"stdin": subprocess.PIPE, "stdout": subprocess.PIPE, "stderr": subprocess.PIPE}
        self.process = subprocess.Popen(command, env=environment, **pipes)
        self.output, self.errors = bytearray(), bytearray()
        self.growth, self.has_ended = threading.Condition(), False
        errors = threading.Thread(target=lambda: self.errors.extend(self.process.stderr.read()), daemon=True)
        self.readers = [threading.Thread(target=self.keep, daemon=True), errors]
        self.ender = threading.Timer(seconds, self.process.kill)
        for thread in (*self.readers, self.ender):
            thread.start()

    def keep(self):
        while piece := self.process.stdout.read1():
            with self.growth:
                self.output += piece
                self.growth.notify_all()
        with self.growth:
            self.has_ended = True
            self.growth.notify_all()

    def write(self, data):
        try:
            self.process.stdin.write(data)
            self.process.stdin.flush()
        except OSError:
            pass

    def await_that(self, is_so, seconds=PATIENCE):
        """Waits until something is so of the output, or no more will come; for a minute at most, unless told otherwise."""
        with self.growth:
            self.growth.wait_for(lambda: self.has_ended or is_so(self.output), seconds)
            return is_so(self.output)

    def end(self):
        try:
            self.process.stdin.close()
        except OSError:
            pass
        for reader in self.readers:
            reader.join()
        status = self.process.wait()
        self.ender.cancel()
        return status


def framed(text, folder):
    body = text.encode().replace(FOLDER, b"file://" + os.fsencode(folder))
    return b"Content-Length: %d\r\n\r\n" % len(body) + body


def prepared(session, folder):
    """Does what comes before the first message, and gives the words that the server is started with and what is left to do."""
    os.mkdir(folder)
    first = next((at for at, step in enumerate(session.steps) if step[0] not in CHANGES), len(session.steps))
    for word, rest in session.steps[:first]:
        CHANGES[word](folder, rest)
    return ["--root", session.root.replace("{}", folder)], session.steps[first:]


def wanted_end(session, folder):
    """The status, and what is said on standard error."""
    status, fault = session.ending
    said = [f"gqls: {fault}"] if fault else session.said
    return status, "".join(f"{line}\n" for line in said).replace("{}", folder).encode()


def judge_session(program, session, told_apart):
    """What is wrong with a session."""
    with tempfile.TemporaryDirectory() as outer:
        folder = os.path.join(os.path.realpath(outer), "w")
        words, steps = prepared(session, folder)
        server = Server([program, "serve", "--workers", "0", *words])
        wanted = bytearray()
        for word, rest in steps:
            if word == "->":
                server.write(framed(rest, folder))
            elif word == "<-":
                wanted += framed(rest, folder)
            else:
                server.await_that(lambda output: len(output) >= len(wanted))
                CHANGES[word](folder, rest)
        end = server.end(), bytes(server.errors)
        wrong = []
        if end != wanted_end(session, folder):
            wrong.append(f"the end is {end}, wanted {wanted_end(session, folder)}")
        if server.output != wanted:
            wrong.append(told_apart(bytes(server.output), bytes(wanted)))
        return ". ".join(wrong).replace(folder, "/w") or None
