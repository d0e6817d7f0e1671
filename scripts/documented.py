#!/usr/bin/env python3
"""Runs the commands that README.md and docs/*.md show, and compares what they write with what the page says.

    python3 scripts/documented.py PROGRAM [TEXT]        PROGRAM as crates/gqls/out/gqls; TEXT: only pages that have it in their name

A shown command is a line `$ COMMAND` of an indented block (four spaces) whose first line is such a line, and the lines behind it as
long as each ends in `\\`. The lines behind that, up to the next command or the end of the block, are what it writes to standard output
and then to standard error; its status is not looked at. The commands of a page run one after the other in a copy of crates/gqls that
holds its examples and nothing else, so a command may write there.

The first word says what is done with a command: `gqls`, cat and diff are run, and `rt try -- WORDS` as `gqls WORDS`. What else `rt`
does, what cd, git and python3 do and what starts an editor is not run, and is listed. Any other first word is a failure, so that no
command is passed over unseen.

Each command that differs is printed with its page and line. The last line is `N passed, M failed`; the status is 1 where one failed."""
import argparse
import glob
import os
import shutil
import subprocess
import sys
import tempfile

HERE = os.path.dirname(os.path.abspath(__file__))
TOP = os.path.dirname(HERE)
EXAMPLES = os.path.join(TOP, "crates", "gqls", "examples")
INDENT, PROMPT = "    ", "    $ "
RUN = ("gqls", "cat", "diff")
NOT_RUN = ("rt", "cd", "git", "python3", "nvim", "emacs", "hx", "code", "subl")
TRY = "rt try -- "
SECONDS = 120


class Shown:
    """A command that a page shows, and what it writes by that page."""

    def __init__(self, line, command):
        self.line = line
        self.command = command
        self.wanted = []


def blocks_of(lines):
    """The indented blocks of a page: the number of the first line of each, and its lines."""
    blocks, block = [], None
    for number, line in enumerate(lines, 1):
        if line.startswith(INDENT):
            if block is None:
                block = number, []
                blocks.append(block)
            block[1].append(line)
        elif line.strip():
            block = None
        elif block is not None:
            block[1].append("")
    return blocks


def read_shown(path):
    """The commands that a page shows, in the order of their lines."""
    with open(path, encoding="utf-8") as file:
        lines = file.read().split("\n")
    all_shown = []
    for first, block in blocks_of(lines):
        if not block[0].startswith(PROMPT):
            continue
        goes_on = False
        for number, line in enumerate(block, first):
            if goes_on:
                all_shown[-1].command += " " + line.strip().removesuffix("\\").rstrip()
            elif line.startswith(PROMPT):
                all_shown.append(Shown(number, line.removeprefix(PROMPT).removesuffix("\\").strip()))
            else:
                all_shown[-1].wanted.append(line.removeprefix(INDENT).rstrip())
                continue
            goes_on = line.endswith("\\")
    for shown in all_shown:
        while shown.wanted and not shown.wanted[-1]:
            shown.wanted.pop()
    return all_shown


def written_by(command, folder, path):
    """The lines that a command writes in the folder to standard output and then to standard error, or none where it does not end."""
    environment = {**os.environ, "PATH": path, "LC_ALL": "C.UTF-8"}
    try:
        done = subprocess.run(
            ["sh", "-c", command], cwd=folder, env=environment, stdin=subprocess.DEVNULL, capture_output=True, timeout=SECONDS
        )
    except subprocess.TimeoutExpired:
        return None
    lines = [line.rstrip() for line in (done.stdout + done.stderr).decode(errors="replace").split("\n")]
    while lines and not lines[-1]:
        lines.pop()
    return lines


def text_of(lines):
    return "".join(f"\n    {line}" for line in lines) or " nothing"


def judge(shown, folder, path):
    """Whether a command is run, and what is wrong with it."""
    command = shown.command
    if command.startswith(TRY):
        command = "gqls " + command.removeprefix(TRY)
    word = command.split(" ")[0]
    if word in NOT_RUN:
        return False, None
    if word not in RUN:
        return True, f"this script does not know whether to run `{word}`"
    written = written_by(command, folder, path)
    if written is None:
        return True, f"no end after {SECONDS} seconds"
    if written == shown.wanted:
        return True, None
    return True, f"writes{text_of(written)}\n  by the page{text_of(shown.wanted)}"


def main():
    parser = argparse.ArgumentParser(description=__doc__, formatter_class=argparse.RawDescriptionHelpFormatter)
    parser.add_argument("program", help="the built program, as crates/gqls/out/gqls")
    parser.add_argument("text", nargs="?", default="", help="only pages that have it in their name")
    asked = parser.parse_args()
    program = os.path.abspath(asked.program)
    if not os.access(program, os.X_OK) or os.path.isdir(program):
        sys.exit(f"{program}: no such program")
    passed = failed = 0
    for page in [os.path.join(TOP, "README.md"), *sorted(glob.glob(os.path.join(TOP, "docs", "*.md")))]:
        name = os.path.relpath(page, TOP)
        if asked.text not in name:
            continue
        with tempfile.TemporaryDirectory() as bin_folder, tempfile.TemporaryDirectory() as folder:
            os.symlink(program, os.path.join(bin_folder, "gqls"))
            shutil.copytree(EXAMPLES, os.path.join(folder, "examples"))
            path = f"{bin_folder}:{os.environ.get('PATH', os.defpath)}"
            for shown in read_shown(page):
                is_run, wrong = judge(shown, folder, path)
                if not is_run:
                    print(f"{name}:{shown.line}: not run: {shown.command}")
                    continue
                passed, failed = passed + (not wrong), failed + bool(wrong)
                if wrong:
                    print(f"{name}:{shown.line}: `{shown.command}` {wrong}", flush=True)
    print(f"{passed} passed, {failed} failed")
    return 1 if failed or not passed else 0


if __name__ == "__main__":
    sys.exit(main())
