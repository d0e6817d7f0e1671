"""What the trials of editors have in common: a set-up that is taken from docs/editors.md, a folder to open, and a terminal of tmux, whose
keys are pressed and whose screen is read."""
import atexit
import os
import re
import shutil
import signal
import subprocess
import sys
import tempfile
import time

HERE = os.path.dirname(os.path.abspath(__file__))
PAGE = os.path.join(HERE, "..", "..", "docs", "editors.md")
FILES = {"s.graphql": "type Query{x:Int}\n", "q.graphql": "query Q{...A} fragment A on Query{x}\n"}
# How long a screen is waited for, at most: a busy machine is slow.
SECONDS = 60


def blocks_under(heading):
    """The indented blocks that stand under a heading of the page, up to the next heading."""
    with open(PAGE, encoding="utf-8") as file:
        lines = file.read().split("\n")
    if heading not in lines:
        sys.exit(f"docs/editors.md has no line `{heading}`")
    blocks, block = [], []
    for line in lines[lines.index(heading) + 1 :]:
        if line.startswith("#"):
            break
        if line.startswith("    ") or block and not line:
            block.append(line[4:])
        elif block:
            blocks.append("\n".join(block).strip("\n") + "\n")
            block = []
    return blocks + ["\n".join(block).strip("\n") + "\n"] * bool(block)


def the_block(heading, word):
    """The one block under a heading that holds a word."""
    found = [block for block in blocks_under(heading) if word in block]
    if len(found) != 1:
        sys.exit(f"docs/editors.md has {len(found)} blocks with `{word}` under `{heading}`, and not one")
    return found[0]


class Trial:
    """A fresh home and a folder with two files, and a terminal in which an editor runs. `gqls` is on its path."""

    def __init__(self, program):
        self.program = os.path.abspath(program)
        self.room = tempfile.mkdtemp(prefix="gqls-editor-")
        self.home, self.folder = os.path.join(self.room, "home"), os.path.join(self.room, "shop")
        self.passed = self.failed = 0
        self.server = f"gqls-{os.path.basename(self.room)}"
        atexit.register(self.clear)
        signal.signal(signal.SIGTERM, lambda *_: sys.exit(1))
        for folder in (self.home, os.path.join(self.room, "bin"), os.path.join(self.folder, ".git")):
            os.makedirs(folder)
        os.symlink(self.program, os.path.join(self.room, "bin", "gqls"))
        for name, text in FILES.items():
            self.write(os.path.join(self.folder, name), text)

    def write(self, path, text):
        os.makedirs(os.path.dirname(path), exist_ok=True)
        with open(path, "w", encoding="utf-8") as file:
            file.write(text)

    def tmux(self, *words):
        words = ["tmux", "-L", self.server, "-f", "/dev/null", *words]
        return subprocess.run(words, stdout=subprocess.PIPE, stderr=subprocess.PIPE, env=self.environment(), text=True)

    def environment(self):
        kept = {name: os.environ[name] for name in ("LANG", "LC_ALL") if name in os.environ}
        path = os.path.join(self.room, "bin") + os.pathsep + os.environ["PATH"]
        return {"LANG": "C.UTF-8", **kept, "HOME": self.home, "PATH": path, "TERM": "screen-256color", "SHELL": "/bin/sh"}

    def start(self, *command):
        """Starts an editor in the folder, in a terminal of 100 columns and 30 lines."""
        ran = self.tmux("new-session", "-d", "-x", "100", "-y", "30", "-c", self.folder, *command)
        if ran.returncode:
            sys.exit(f"tmux does not start: {ran.stderr}")

    def keys(self, *names):
        """Presses keys, by tmux's names of them."""
        self.tmux("send-keys", *names)
        time.sleep(0.3)

    def text(self, text):
        """Types a text."""
        self.tmux("send-keys", "-l", text)
        time.sleep(0.3)

    def screen(self):
        return self.tmux("capture-pane", "-p").stdout

    def waits_for(self, wanted, seconds=SECONDS):
        """Whether the screen comes to show what is wanted: a pattern, or what a function says of it."""
        holds = wanted if callable(wanted) else lambda screen: re.search(wanted, screen)
        end = time.monotonic() + seconds
        while not holds(self.screen()):
            if time.monotonic() > end:
                return False
            time.sleep(0.2)
        return True

    def step(self, name, wanted, seconds=SECONDS):
        """Tells whether the screen comes to show what is wanted, and the screen where it does not."""
        good = self.waits_for(wanted, seconds)
        self.tell(name, good, self.screen())
        return good

    def tell(self, name, good, seen=""):
        self.passed, self.failed = self.passed + bool(good), self.failed + (not good)
        print(f"{'passed' if good else 'FAILED'}: {name}", flush=True)
        if not good:
            print("\n".join("    | " + line.rstrip() for line in seen.rstrip().split("\n")), flush=True)

    def again_until(self, press, wanted, times=8):
        """Presses keys until the screen shows what is wanted, as a user does while the server starts."""
        return any(press() or self.waits_for(wanted, SECONDS / times) for _ in range(times))

    def file_is(self, name, wanted):
        """Tells whether the saved file comes to hold a text, whatever space stands in it."""
        end = time.monotonic() + SECONDS
        while True:
            with open(os.path.join(self.folder, name), encoding="utf-8") as file:
                text = file.read()
            good = text.split() == wanted.split()
            if good or time.monotonic() > end:
                return self.tell(f"the saved {name} is {' '.join(wanted.split())}", good, text)
            time.sleep(0.2)

    def project_is_valid(self):
        ran = subprocess.run([self.program, "check", "--root", self.folder], stdout=subprocess.PIPE, stderr=subprocess.STDOUT, text=True)
        self.tell("`gqls check` finds the saved files valid", ran.stdout == "ok\n", ran.stdout)

    def clear(self):
        """Ends the editor, and takes the folders away."""
        if os.path.exists(self.room):
            self.tmux("kill-server")
            shutil.rmtree(self.room, ignore_errors=True)

    def end(self):
        """Prints the counts and answers the status."""
        self.clear()
        print(f"{self.passed} passed, {self.failed} failed")
        return 1 if self.failed else 0
