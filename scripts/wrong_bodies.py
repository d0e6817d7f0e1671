#!/usr/bin/env python3
"""Tries the wrong bodies that the gate does not: the prover must refuse each.

    python3 scripts/wrong_bodies.py NAME..        the crates of these names
    python3 scripts/wrong_bodies.py               each crate that has a folder wrong-bodies
    python3 scripts/wrong_bodies.py --over-statements [--work DIR] [--only TEXT].. NAME..

A crate's wrong-bodies/*.edit have the form of must-fail/*.edit. They are tried on a copy, in a folder for temporary files, that begins with what
`rt check` kept in the folders out/. So run `rt check` in the crate first: what is not proved yet is proved in the copy, and lost with it. The
repository stays as it is.

With --over-statements only the functions that an edit changes are checked, over the statements of the crates below, of which none need be proved
(scripts/over_statements.py says what DIR is). That takes a minute or two where a whole crate takes many. The functions as they are must be proved
so first. --only keeps the edits that have one of these texts in their names. An edit that is refused only where its function is used counts as not
refused there, as does one that changes no function but a constant, so try these without --over-statements.

The last line is `N refused, M not`. The status is 1 if M is not 0 or `rt must-fail` failed for a crate, and 2 if a name is
none of a crate with a folder wrong-bodies, in which case nothing is tried."""
import argparse
import os
import re
import shutil
import signal
import subprocess
import sys
import tempfile

from over_statements import body_of, closing, is_function, tokens

ROOT = os.path.dirname(os.path.dirname(os.path.abspath(__file__)))
NOT_COPIED = ("out", "must-fail", "wrong-bodies")
TRIED = re.compile(r"must-fail (\w+)/(\S+\.edit): (refused|NOT REFUSED|NOT TRIED|BAD EDIT)")


def libraries():
    """What each crate of crates.txt names behind its colon."""
    found = {}
    with open(f"{ROOT}/crates.txt", encoding="utf-8") as lines:
        for line in lines:
            head, colon, below = line.split("#")[0].partition(":")
            if colon:
                found[head.split()[0]] = below.split()
    return found


def all_below(name, known):
    """The crate and those below it."""
    found, left = set(), [name]
    while left:
        one = left.pop()
        if one in known and one not in found:
            found.add(one)
            left += known[one]
    return found


def link(one, other):
    """Gives a file that rt made a second name. rt makes such a file anew where it changes, so that the first stays as it is."""
    try:
        os.link(one, other)
    except OSError:
        shutil.copy2(one, other)


def link_or_copy(one, other):
    """Of what rt keeps, links what was proved and built, and copies the small files that say so."""
    if one.endswith(".oantt") or "/out/rlib/" in one:
        link(one, other)
    else:
        shutil.copy2(one, other)


def copy_crate(name, room, is_tried):
    """Copies a crate, with what rt made of it: of one that is only used, the library."""
    was, now = f"{ROOT}/crates/{name}", f"{room}/crates/{name}"
    shutil.copytree(was, now, ignore=lambda at, names: [it for it in names if at == was and it in NOT_COPIED])
    for part in ("rlib", "incremental") if is_tried or not os.path.isdir(f"{was}/out/rlib") else ("rlib",):
        if os.path.isdir(f"{was}/out/{part}"):
            shutil.copytree(f"{was}/out/{part}", f"{now}/out/{part}", symlinks=True, copy_function=link_or_copy)


def copy_all(names, known, room):
    """Copies all crates, the wrong bodies of these as what must fail. Those that are above them have no proved work there."""
    for file in ("crates.txt", "HANDLES"):
        if os.path.isfile(f"{ROOT}/{file}"):
            shutil.copy2(f"{ROOT}/{file}", f"{room}/{file}")
    used = set().union(*[all_below(name, known) for name in names])
    for name in known:
        if name in used:
            copy_crate(name, room, name in names)
        else:
            shutil.copytree(f"{ROOT}/crates/{name}", f"{room}/crates/{name}", ignore=shutil.ignore_patterns(*NOT_COPIED))
    for name in names:
        shutil.copytree(f"{ROOT}/crates/{name}/wrong-bodies", f"{room}/crates/{name}/must-fail")


def run(name, room):
    """Runs rt must-fail for the crate and prints its lines: what each edit came to, and its status."""
    os.makedirs(f"{room}/tmp", exist_ok=True)
    words, where = ["rt", "must-fail", name], {**os.environ, "TMPDIR": f"{room}/tmp"}
    ran = subprocess.Popen(words, cwd=room, env=where, stdin=subprocess.DEVNULL, stdout=subprocess.PIPE, stderr=subprocess.STDOUT, errors="replace", start_new_session=True)
    found = {}
    try:
        for line in ran.stdout:
            print(line, end="", flush=True)
            tried = TRIED.search(line)
            if tried and tried[1] == name:
                found[tried[2]] = tried[3]
        return found, ran.wait()
    finally:
        stop(ran)


def stop(ran):
    """Ends a run, and the checks that it started, where it has not ended."""
    for how in (signal.SIGTERM, signal.SIGKILL):
        if ran.poll() is None:
            try:
                os.killpg(ran.pid, how)
                ran.wait(timeout=10)
            except (ProcessLookupError, subprocess.TimeoutExpired):
                pass


def edited(lines, folder):
    """The texts of a crate that an edit changes, by their paths, and where each change begins."""
    texts, places, path, old = {}, [], None, None
    for line in lines:
        word, _, text = line.rstrip("\n").partition(":")
        text = text.removeprefix(" ")
        if word == "file":
            path = text.strip()
        elif word == "old":
            old = text
        elif word == "new":
            if path not in texts:
                with open(f"{folder}/{path}", encoding="utf-8") as file:
                    texts[path] = file.read()
            if texts[path].count(old) != 1:
                raise ValueError(f"an old text is in {path} {texts[path].count(old)} times")
            places.append((path, texts[path].index(old)))
            texts[path] = texts[path].replace(old, text)
    return texts, places


def owner_at(found, place):
    """What stands before the names of functions in the block of methods that a place is in, as a check prints it: a type, and behind it the
    trait that it implements; None where it is in none."""
    for at, token in enumerate(found):
        if token[0] != "impl":
            continue
        depth, words = 0, []
        body = next(n for n in range(at, len(found)) if found[n][0] == "{")
        for text, *_ in found[at + 1 : body]:
            depth += (text == "<") - (text == ">")
            if depth == 0 and re.match(r"\w+$", text):
                words.append(text)
        if found[body][1] <= place < found[closing(found, body)][2]:
            own = words[words.index("for") + 1] + words[words.index("for") - 1] if "for" in words else words[-1]
            return own
    return None


def function_at(path, text, place):
    """The name of the innermost function that a place of a text is in, behind its type or its module."""
    found, names = tokens(text), []
    for at in range(len(found)):
        body = body_of(found, at) if is_function(found, at) else None
        if body is not None and found[at][1] <= place < found[closing(found, body)][2]:
            names.append(found[at + 1][0])
    owner = owner_at(found, place) or os.path.splitext(os.path.basename(path))[0]
    return f"{owner}::{names[-1]}" if names else None


def check(name, room, work, functions):
    """Checks functions of a crate over the statements of the crates below. Its lines, and its status."""
    words = [sys.executable, f"{room}/scripts/over_statements.py", name, "--work", work, "--jobs", "1"]
    words += [word for one in functions for word in ("--only", one)]
    ran = subprocess.run(words, stdin=subprocess.DEVNULL, stdout=subprocess.PIPE, stderr=subprocess.STDOUT, errors="replace")
    return ran.stdout.rstrip("\n").split("\n"), ran.returncode


def verdict(lines, status):
    """What a check of an edit comes to, and the first line that says why."""
    why = next((line for line in lines if re.match(r"(note: )?\S+:\d+:\d+:.*error", line)), "")
    if status == 1 and lines[-1].startswith("logic=not-proved"):
        return "refused", why
    if status == 1 and any(re.search(r"\berror\[[\w-]+\]", line) for line in lines):
        return "BAD EDIT", why
    only = re.match(r"only=(\d+) proved=(\d+)", lines[-1])
    if status == 1 and only and only[1] != only[2]:
        return "refused", why
    return ("NOT REFUSED", "its functions alone are still proved") if status == 0 else ("NOT TRIED", lines[-1])


def try_one(name, room, work, edit):
    """Tries one wrong body. What it comes to."""
    crate = f"{room}/crates/{name}"
    with open(f"{ROOT}/crates/{name}/wrong-bodies/{edit}", encoding="utf-8") as lines:
        texts, places = edited(lines, crate)
    functions = sorted({function_at(path, texts[path], place) for path, place in places} - {None})
    for path, text in texts.items():
        with open(f"{crate}/{path}", "w", encoding="utf-8") as file:
            file.write(text)
    found = verdict(*check(name, room, work, functions)) if functions else ("NOT TRIED", "it changes no function: try it without --over-statements")
    for path in texts:
        shutil.copy2(f"{ROOT}/crates/{name}/{path}", f"{crate}/{path}")
    return found


def functions_of_edits(name, edits):
    """The functions that these edits change."""
    folder, names = f"{ROOT}/crates/{name}", set()
    for edit in edits:
        with open(f"{folder}/wrong-bodies/{edit}", encoding="utf-8") as lines:
            texts, places = edited(lines, folder)
        names |= {function_at(path, texts[path], place) for path, place in places}
    return sorted(names - {None})


def try_over_statements(name, room, work, texts):
    """Tries the wrong bodies of a crate over the statements of the crates below. How many were refused, and how many not."""
    edits = sorted(it for it in os.listdir(f"{ROOT}/crates/{name}/wrong-bodies") if it.endswith(".edit"))
    edits = [it for it in edits if not texts or any(text in it for text in texts)]
    lines, status = check(name, room, work, functions_of_edits(name, edits))
    if status:
        print(f"{name}: NOT TRIED: its functions as they are are not proved: {lines[-1]}", flush=True)
        return 0, len(edits)
    refused = 0
    for edit in edits:
        found, why = try_one(name, room, work, edit)
        refused += found == "refused"
        print(f"{name}/{edit}: {found}: {why[:160]}", flush=True)
    return refused, len(edits) - refused


def over_statements(names, known, work, texts):
    """Tries the wrong bodies of these crates so, and returns the status."""
    room, counts = tempfile.mkdtemp(prefix="gqls-wrong-bodies-"), []
    try:
        shutil.copytree(f"{ROOT}/scripts", f"{room}/scripts", ignore=shutil.ignore_patterns("__pycache__"))
        shutil.copy2(f"{ROOT}/crates.txt", f"{room}/crates.txt")
        for name in set().union(*[all_below(name, known) for name in names]):
            shutil.copytree(f"{ROOT}/crates/{name}", f"{room}/crates/{name}", ignore=shutil.ignore_patterns(*NOT_COPIED))
        for name in names:
            counts.append(try_over_statements(name, room, work, texts))
    finally:
        shutil.rmtree(room, ignore_errors=True)
    refused, others = sum(one[0] for one in counts), sum(one[1] for one in counts)
    print(f"{refused} refused, {others} not")
    return 1 if others else 0


def words_of(words):
    """The names, whether they are tried over statements, and the folder that keeps what was checked."""
    parser = argparse.ArgumentParser(description=__doc__, formatter_class=argparse.RawDescriptionHelpFormatter, allow_abbrev=False)
    parser.add_argument("names", metavar="NAME", nargs="*", help="a crate that has a folder wrong-bodies")
    parser.add_argument("--over-statements", action="store_true", help="checks the functions that an edit changes, and no more")
    parser.add_argument("--only", metavar="TEXT", action="append", help="an edit with this in its name")
    parser.add_argument("--work", metavar="DIR", default=f"{tempfile.gettempdir()}/over-statements{ROOT.replace(os.sep, '-')}")
    return parser.parse_args(words)


def main(words):
    known, asked = libraries(), words_of(words)
    names = asked.names
    names = names or [it for it in known if os.path.isdir(f"{ROOT}/crates/{it}/wrong-bodies")]
    for name in names:
        if name not in known or not os.path.isdir(f"{ROOT}/crates/{name}/wrong-bodies"):
            print(f"{name} is no crate with a folder wrong-bodies", file=sys.stderr)
            return 2
    if asked.over_statements:
        return over_statements(names, known, os.path.abspath(asked.work), asked.only)
    refused, others, is_well = 0, 0, True
    # (a run that is ended leaves by the finally parts)
    for one in (signal.SIGTERM, signal.SIGHUP):
        signal.signal(one, lambda number, frame: sys.exit(128 + number))
    room = tempfile.mkdtemp(prefix="gqls-wrong-bodies-")
    try:
        copy_all(names, known, room)
        for name in names:
            found, status = run(name, room)
            edits = [it for it in os.listdir(f"{room}/crates/{name}/must-fail") if it.endswith(".edit")]
            count = sum(found.get(it) == "refused" for it in edits)
            refused, others = refused + count, others + len(edits) - count
            is_well = is_well and not status
    finally:
        shutil.rmtree(room, ignore_errors=True)
    print(f"{refused} refused, {others} not")
    return 0 if is_well and not others else 1


if __name__ == "__main__":
    try:
        sys.exit(main(sys.argv[1:]))
    except KeyboardInterrupt:
        sys.exit(130)
