#!/usr/bin/env python3
"""Shows that a body that always answers NoMemory fails a case or a row, all of which have ample memory.

    python3 scripts/always_no_memory.py [--as-it-is] [--together] [--minutes N] [--work DIR] [TEXT]..

Want of memory may be answered at any time, as far as contracts say (docs/proofs.md, "Want of memory"), so the prover lets such a body through:
the cases must not. Each is a file crates/NAME/wrong-bodies-by-rows/*.edit of the form of must-fail/*.edit, with a line `cases: NAME` before
the others: cases of crates/gqls/cases (`queries.sessions-34`), or a row of crates/gqls/commands (`check.rows:12`), of which one in a file. Each
edit is made in a copy of the repository, and the program is built there by `rt try`, without any proof and with checks as it runs, and run over
these cases. That takes some minutes for each. TEXT keeps the edits that have one of these texts in their paths. With --as-it-is the program as
it is runs over all their cases first, each of which it must pass. With --together all edits are made at once, and the program is built once:
for edits of which none bears on the cases of another; no two may name one case. An edit that is not tried in so many minutes (`--minutes`, 60) counts as not
refused. The copy lies in a folder for temporary files, or in DIR.

For each edit it prints what its cases came to. The last line is `N refused, M not`; the status is 1 if M is not 0."""
import argparse
import glob
import os
import re
import shutil
import signal
import subprocess
import sys
import tempfile

from cases import CRATE, SERVE, contents
from rows import read_rows
from wrong_bodies import NOT_COPIED, ROOT, edited

HERE = "wrong-bodies-by-rows"
CASE = re.compile(r"case=(\S+) run=(\S+) status=(\S+).*?(?: output=(\S+))? proved=no")
DIFFERS, ENDED = "the output differs", ["run=none proved=no"]
STATUS_LINE = re.compile(r"[0-9]+\Z")


class Edit:
    """A wrong body: its crate, its file, and the cases that must fail with it."""

    def __init__(self, path):
        self.path, self.crate = path, os.path.basename(os.path.dirname(os.path.dirname(path)))
        with open(path, encoding="utf-8") as file:
            self.lines = file.read().splitlines()
        self.cases = [name for line in self.lines if line.startswith("cases:") for name in line.split()[1:]]
        self.name = f"{self.crate}/{os.path.basename(path)}"

    def make_in(self, room):
        """Makes the edit in a copy, and gives the files that it changed."""
        folder = f"{room}/crates/{self.crate}"
        texts, _ = edited(self.lines, folder)
        for path, text in texts.items():
            with open(f"{folder}/{path}", "w", encoding="utf-8") as file:
                file.write(text)
        return [f"crates/{self.crate}/{path}" for path in texts]


def row_of(name):
    """The row of a command of that name."""
    file, _, line = name.partition(":")
    return next(row for row in read_rows(os.path.join(CRATE, "commands", file)) if row.line == int(line))


def lay_row(name, data):
    """Lays a row as a case: its words, and what it writes to standard output. What is given files of it is the data."""
    row, words, files = row_of(name), [name.split(".")[0]], []
    for entry in row.entries:
        if entry.key == "--words":
            words += entry.bytes.decode().split(" ")
        elif entry.key == "--op":
            words += ["--op", entry.bytes.decode()]
        else:
            file = f"{entry.key[2:]}.json" if entry.key.startswith("--") else entry.key
            words += [entry.key, file] if entry.key.startswith("--") else []
            files += [] if entry.key.startswith("--") else [file]
            if data.setdefault(file, entry.bytes) != entry.bytes:
                raise ValueError(f"{name}: two files {file}")
    return words + files, STATUS_LINE.sub("", row.wanted).encode(), b""


def lay_case(name):
    """The same of a case of a server."""
    path = os.path.join(CRATE, "cases", name)
    more = [word for word in contents(f"{path}.args", b"").decode().split("\n") if word]
    return SERVE + more, contents(f"{path}.stdout", b""), contents(path, b"")


def lay(names, outer):
    """Lays cases in a new folder, and gives the words for `rt try`."""
    folder, data = os.path.join(outer, "cases"), {}
    os.mkdir(folder)
    for name in names:
        words, wanted, given = lay_row(name, data) if ":" in name else lay_case(name)
        for suffix, text in (("", given), (".args", "\n".join(words).encode()), (".stdout", wanted)):
            with open(os.path.join(folder, name.replace(":", "-") + suffix), "wb") as file:
                file.write(text)
    options = ["--cases", folder]
    for file, text in data.items():
        path = os.path.join(outer, file.replace(os.sep, "-"))
        with open(path, "wb") as out:
            out.write(text)
        options += ["--data", f"{file}={path}"]
    return options


def copy_crates(room):
    """Copies the sources of all crates."""
    os.makedirs(room, exist_ok=True)
    for file in ("crates.txt", "HANDLES"):
        if os.path.isfile(f"{ROOT}/{file}"):
            shutil.copy2(f"{ROOT}/{file}", f"{room}/{file}")
    skipped = shutil.ignore_patterns(*NOT_COPIED, HERE)
    shutil.copytree(f"{ROOT}/crates", f"{room}/crates", ignore=skipped, dirs_exist_ok=True)


def run_cases(room, names, minutes):
    """What `rt try` writes of these cases, tried once more where it was ended before it ran one, as for want of memory."""
    lines = lines_of_try(room, names, minutes)
    return lines if lines[-1:] != ENDED else lines_of_try(room, names, minutes)


def lines_of_try(room, names, minutes):
    """Builds the program of the copy and runs it over these cases: the lines that `rt try` writes."""
    with tempfile.TemporaryDirectory() as outer:
        words = ["rt", "try", *lay(names, outer)]
        ran = subprocess.Popen(
            words,
            cwd=f"{room}/crates/gqls",
            env={**os.environ, "TMPDIR": outer},
            stdin=subprocess.DEVNULL,
            stdout=subprocess.PIPE,
            stderr=subprocess.STDOUT,
            errors="replace",
            start_new_session=True,
        )
        try:
            return ran.communicate(timeout=60 * minutes)[0].splitlines()
        except subprocess.TimeoutExpired:
            return [f"no answer in {minutes:g} minutes"]
        finally:
            if ran.poll() is None:
                os.killpg(ran.pid, signal.SIGKILL)
                ran.wait()


def verdict(lines, names, wanted):
    """Whether each of the cases came to that (`expected` or `differs`), and the lines that say so, or else the last ones."""
    shown, told, found = [], [], set()
    for line in lines:
        match = CASE.match(line)
        told = told + [line] if line.startswith(DIFFERS) else told
        if match:
            if match[1] in names:
                found.add((match[1], match[2] == "ended" and match[4] == wanted))
                shown += [*told, line]
            told = []
    if len(found) < len(names):
        return False, ["it was not tried:", *lines[-12:]]
    return all(is_so for _, is_so in found), shown


def tell(name, lines, names, wanted, good, bad):
    """Prints what cases came to, and gives whether they came to that."""
    is_so, shown = verdict(lines, {one.replace(":", "-") for one in names}, wanted)
    print(f"{name}: {good if is_so else bad}", *(f"    {line[:600]}" for line in shown), sep="\n", flush=True)
    return is_so


def cases_of(edits):
    return sorted({name for edit in edits for name in edit.cases})


def try_edits(room, edits, minutes):
    """Tries edits at once: how many of them their cases refuse."""
    changed = [path for edit in edits for path in edit.make_in(room)]
    lines = run_cases(room, cases_of(edits), minutes)
    for path in changed:
        shutil.copy2(f"{ROOT}/{path}", f"{room}/{path}")
    return sum(tell(edit.name, lines, edit.cases, "differs", "refused by its cases", "NOT REFUSED") for edit in edits)


def words_of(words):
    parser = argparse.ArgumentParser(description=__doc__, formatter_class=argparse.RawDescriptionHelpFormatter)
    parser.add_argument("texts", metavar="TEXT", nargs="*")
    parser.add_argument("--as-it-is", action="store_true")
    parser.add_argument("--together", action="store_true")
    parser.add_argument("--minutes", type=float, default=60)
    parser.add_argument("--work")
    return parser.parse_intermixed_args(words)


def main(words):
    asked = words_of(words)
    edits = [Edit(path) for path in sorted(glob.glob(f"{ROOT}/crates/*/{HERE}/*.edit"))]
    edits = [edit for edit in edits if not asked.texts or any(text in edit.name for text in asked.texts)]
    if asked.together and len(cases_of(edits)) < sum(len(edit.cases) for edit in edits):
        print("two of these edits name one case", file=sys.stderr)
        return 2
    refused, room = 0, asked.work or tempfile.mkdtemp(prefix="gqls-no-memory-")
    try:
        copy_crates(room)
        if asked.as_it_is:
            names = cases_of(edits)
            if not tell("as it is", run_cases(room, names, asked.minutes), names, "expected", "passed", "NOT PASSED"):
                return 1
        for group in [edits] if asked.together else [[edit] for edit in edits]:
            refused += try_edits(room, group, asked.minutes)
    finally:
        if not asked.work:
            shutil.rmtree(room, ignore_errors=True)
    print(f"{refused} refused, {len(edits) - refused} not")
    return 0 if edits and refused == len(edits) else 1


if __name__ == "__main__":
    try:
        sys.exit(main(sys.argv[1:]))
    except KeyboardInterrupt:
        sys.exit(130)
