#!/usr/bin/env python3
"""Checks one crate over the statements of the crates below it, none of which need be proved or built.

    python3 scripts/over_statements.py NAME [--only PATH].. [--work DIR] [--jobs N] [FLAG..]

It writes a copy of each crate below NAME to DIR/crates, in which the body of each function is a call of `gq_lie::absurd`, which returns `!`
and proves anything, as the C function that it calls promises `⊥`. What is seen so is proved GIVEN the statements of the crates below,
whether or not those hold: the gate alone says that a crate is proved. Each crate's contracts, types, specs and lemmas stay as they are. Without --only, all of NAME is checked. Each other FLAG, as
--allow-holes or --short-goals, goes on to `rattle check`, whose output and status are those of this script.

NAME is checked where it lies, and nothing is written there. It stops where a file names a library that the crate's line of crates.txt does not,
or a folder of proofs has the name of no function: the gate refuses both, and a check of parts sees neither. DIR, by default a folder of this
checkout's among the temporary files, keeps what was checked, by NAME, so that a second run checks only what changed. In one DIR one run works at
a time, and a second waits. For a crate far up the first takes minutes, and seven GB.

A `const fn` keeps its body, since a constant may stand for what it returns; where it needs a proof file, it has none in the copy. A crate of tests
wants the flag --test."""
import argparse
import contextlib
import fcntl
import os
import re
import shutil
import subprocess
import sys
import tempfile

ROOT = os.path.dirname(os.path.dirname(os.path.abspath(__file__)))
BODY = "{ gq_lie::absurd() }"
LIE = """unsafe extern "C" {
    safe fn never()
        ensures { ⊥ };
}

pub fn absurd() -> ! {
    never();
    unsafe { std::hint::unreachable_unchecked() }
}
"""
# What says how a body is proved, which goes with the body.
OF_BODIES = ("Answers.antt", "Invariants.antt", "Proof.antt")
TOKEN = re.compile(
    r"""(?P<blank>\s+|//[^\n]*)|/\*|[bc]?r(?P<marks>\#*)".*?"(?P=marks)|[bc]?"(?:[^"\\]|\\.)*"|b?'(?:\\[^\n]+?|[^'\\\n])'|'\w+|r\#\w+|\w+|.""",
    re.S,
)
COMMENT_EDGE = re.compile(r"/\*|\*/")
# In a text of antt's: what opens or closes, where nothing hides it.
ANTT_TOKEN = re.compile(r"""\{-|-\}|(?<![^ \n(){}.;,@"»])--[^\n]*|"(?:[^"\\\n]|\\[^\n])*"|[{};]""")
# The last tokens before a text of antt's, with a space before each. Such a text counts as the one token `◌`.
GHOST_HEAD = re.compile(r" (?:(?:requires|ensures)(?: \*)?(?: \w+)? \{|ghost \{|ghost \w+ (?:: \w+|:|=) \{|◌ (?:=|by) \{|ghost use)$")


def stop(why):
    print(f"over_statements.py: {why}", file=sys.stderr)
    sys.exit(2)


def end_of_comment(text, at):
    """Where the block comment that begins at `at` ends. Comments nest."""
    depth = 0
    for edge in COMMENT_EDGE.finditer(text, at):
        depth += 1 if edge[0] == "/*" else -1
        if not depth:
            return edge.end()
    return len(text)


def end_of_ghost(text, at, closer):
    """Where the text of antt's that begins at `at` ends: behind the closer that no brace or comment holds."""
    depth = comments = 0
    for found in ANTT_TOKEN.finditer(text, at):
        one = found[0]
        comments += (one == "{-") - (one == "-}" and comments > 0)
        if comments or one == "-}":
            continue
        if not depth and one == closer:
            return found.end()
        depth += (one == "{") - (one == "}")
    return len(text)


def tokens(text):
    """The tokens of a file of Rattle, with where each begins and ends. Blanks and comments are none."""
    found, at = [], 0
    while at < len(text):
        one = TOKEN.match(text, at)
        begin, at = at, one.end()
        if one[0] == "/*":
            at = end_of_comment(text, begin)
        elif not one["blank"]:
            found.append((one[0], begin, at))
            if one[0] in ("{", "use") and GHOST_HEAD.search("".join(f" {it[0]}" for it in found[-5:])):
                begin, at = at, end_of_ghost(text, at, "}" if one[0] == "{" else ";")
                found[-1] = ("◌", begin, at)
    return found


def closing(found, at):
    """The number of the token that closes the bracket which token `at` opens."""
    depth = 0
    for number in range(at, len(found)):
        depth += (found[number][0] in "([{") - (found[number][0] in ")]}")
        if not depth:
            return number
    return len(found) - 1


def is_function(found, at):
    """Whether a function's declaration has its `fn` at token `at`. A type of function pointers has no name behind it."""
    return found[at][0] == "fn" and at + 1 < len(found) and bool(re.match(r"\w", found[at + 1][0]))


def body_of(found, at):
    """The number of the token that opens the body of the function with its `fn` at token `at`, or None where it has no body."""
    while at < len(found) and found[at][0] not in ("{", ";"):
        at = closing(found, at) if found[at][0] in ("(", "[") else at
        at += 1
    return at if at < len(found) and found[at][0] == "{" else None


def is_constant(found, at):
    """Whether the function with its `fn` at token `at` is a `const fn`."""
    while at and found[at - 1][0] in ("const", "unsafe", "extern", '"C"'):
        at -= 1
        if found[at][0] == "const":
            return True
    return False


def item_behind(found, at):
    """The word that says what item has the attribute that begins at token `at`."""
    while at < len(found) and found[at][0] not in ("fn", "struct", "enum", ";", "}"):
        at = closing(found, at) if found[at][0] in ("(", "[") else at
        at += 1
    return found[at][0] if at < len(found) else ""


def changes(found):
    """What to put in the place of which part of a file: (where it begins, where it ends, the new text)."""
    at, made = 0, []
    while at < len(found):
        body = body_of(found, at) if is_function(found, at) else None
        if body is not None and not is_constant(found, at):
            end = closing(found, body)
            made.append((found[body][1], found[end][2], BODY))
            at = end
        elif [it[0] for it in found[at : at + 3]] == ["#", "[", "cycle"] and item_behind(found, at) == "fn":
            end = closing(found, at + 1)
            made.append((found[at][1], found[end][2], ""))
            at = end
        at += 1
    return made


def without_bodies(text):
    """The text of a .rt file with the bodies of its functions replaced, and the attributes `cycle` taken away."""
    parts, at = [], 0
    for begin, end, new in changes(tokens(text)):
        parts += [text[at:begin], new]
        at = end
    return "".join([*parts, text[at:]])


def read(file):
    with open(file, encoding="utf-8", newline="") as it:
        return it.read()


def write(file, text):
    """Writes the file, unless it has that text."""
    if os.path.isfile(file) and read(file) == text:
        return
    os.makedirs(os.path.dirname(file), exist_ok=True)
    with open(file, "w", encoding="utf-8", newline="") as it:
        it.write(text)


def files_below(folder):
    """The paths of the files below a folder, from there."""
    return [os.path.relpath(f"{at}/{name}", folder) for at, _, names in os.walk(folder) for name in names]


def wanted(path):
    """Whether the copy of a crate has the file of this path."""
    part, name = path.split(os.sep)[0], os.path.basename(path)
    return part in ("src", "specs") or part == "proofs" and name not in OF_BODIES


def copy_statements(crate, to):
    """Writes the copy of a crate, or brings it up to date."""
    paths = {it for it in files_below(crate) if wanted(it)}
    for path in paths:
        text = read(f"{crate}/{path}")
        write(f"{to}/{path}", without_bodies(text) if path.endswith(".rt") else text)
    for path in files_below(to):
        if path not in paths:
            os.remove(f"{to}/{path}")


def libraries():
    """What each crate of crates.txt names behind its colon."""
    found = {}
    for line in read(f"{ROOT}/crates.txt").splitlines():
        head, colon, below = line.split("#")[0].partition(":")
        if colon:
            found[head.split()[0]] = below.split()
    return found


def all_below(name, known):
    """The crates below one, each behind those that it stands on."""
    found = []

    def add(one):
        for it in known[one]:
            if it in known and it not in found:
                add(it)
                found.append(it)

    add(name)
    return found


def kit():
    """The folder of the kit."""
    page = subprocess.run(["rt", "doc"], stdout=subprocess.PIPE, text=True, check=True).stdout.strip()
    return os.path.dirname(page)


def externs(at, names):
    """The flags that pass these libraries of the kit."""
    words = ["-L", f"dependency={at}/rlibs"]
    for name in sorted(names):
        words += ["--extern", f"{name}={at}/rlibs/{name}.rlib"]
    return words


def logic(at):
    """The flags that name the kit's program logic."""
    return ["--antt-project", f"{at}/rattle/logic/antt-project.json", "--logic-built", f"{at}/logic_built"]


def build_lie(at, work):
    """Builds the crate gq_lie, where that is not done, and returns the path of its library."""
    folder = f"{work}/gq_lie"
    library, made_from = f"{folder}/gq_lie.rlib", f"{folder}/made-from"
    state = LIE + read(f"{at}/KIT-ID")
    if os.path.isfile(made_from) and read(made_from) == state:
        return library
    shutil.rmtree(folder, ignore_errors=True)
    write(f"{folder}/src/lib.rt", LIE)
    words = ["build", "--crate-name", "gq_lie", "src/lib.rt", *externs(at, ["std"]), *logic(at), "--links", "gq_lie=c", "-o", library]
    ran = subprocess.run([f"{at}/bin/rattle", *words], cwd=folder, stdout=subprocess.PIPE, stderr=subprocess.STDOUT, text=True)
    if ran.returncode:
        stop(f"the crate gq_lie was not built:\n{ran.stdout}")
    write(made_from, state)
    return library


def root_file(crate):
    return "src/main.rt" if os.path.isfile(f"{crate}/src/main.rt") else "src/lib.rt"


def functions_of(text):
    """The names of the functions that stand outside of all braces in a file."""
    found, at, names = tokens(text), 0, []
    while at < len(found):
        if is_function(found, at):
            names.append(found[at + 1][0])
        at = closing(found, at) if found[at][0] == "{" else at
        at += 1
    return names


def all_paths(crate):
    """What --only names where all of a crate is to be checked: each module that has functions, and each function of the root."""
    root = root_file(crate)
    paths = functions_of(read(f"{crate}/{root}"))
    for file in sorted(files_below(f"{crate}/src")):
        if file.endswith(".rt") and f"src/{file}" != root and re.search(r"\bfn \w", read(f"{crate}/src/{file}")):
            paths.append(file[: -len(".rt")].replace(os.sep, "::"))
    return paths


def flags_for(name, known, at, work):
    """The flags of `rattle check` that pass what the crate stands on."""
    below = all_below(name, known)
    of_kit = {"core", "std"} | {it for one in [name, *below] for it in known[one] if it not in known}
    words = [*externs(at, of_kit), "--extern", f"gq_lie={build_lie(at, work)}"]
    for one in below:
        uses = dict.fromkeys(["core", "std", "gq_lie", *known[one]])
        words += ["--lib", f"{one}:{','.join(uses)}={work}/crates/{one}/src/lib.rt"]
    return words + logic(at)


def stop_on_unnamed(name, known):
    """Stops where a file of the crate names a library that its line of crates.txt does not, since each is passed here."""
    named = {name, "std", *known[name]}
    for part in ("src", "specs", "proofs"):
        folder = f"{ROOT}/crates/{name}/{part}"
        for file in sorted(files_below(folder)):
            for library in sorted(set(re.findall(r"\bRattle\.(\w+)", read(f"{folder}/{file}"))) - named):
                stop(f"{name}/{part}/{file} names Rattle.{library}, and the line of {name} in crates.txt does not name {library}")


def has_function(crate, folder):
    """Whether a function or a cycle has this folder of proofs: a free function in its module, a method in any file, as an `impl` may stand in any.
    A cycle has the name that its attribute gives, or that of a function which calls itself."""
    *place, name = folder.split(os.sep)
    files = [it for it in files_below(f"{crate}/src") if it.endswith(".rt")]
    indent, is_method = "", bool(place) and place[-1][:1].isupper()
    if is_method:
        indent = r"[ \t]+"
    elif not name.startswith("+"):
        files = [it for it in files if it == "/".join(place) + ".rt" or not place and f"src/{it}" == root_file(crate)]
    text = "\n".join(read(f"{crate}/src/{it}") for it in files)
    if name.startswith("+") and f"#[cycle({name[1:]}" in text:
        return True
    name = name.lstrip("+")
    return bool(re.search(rf"^{indent}(?:pub(?:\([^)]*\))? )?(?:const )?(?:unsafe )?fn (?:r#)?{re.escape(name)}\b", text, re.M))


def stop_on_stale(name):
    """Stops where a folder of proofs is that of no function and of no cycle, which a check of parts does not see."""
    crate = f"{ROOT}/crates/{name}"
    for file in sorted(files_below(f"{crate}/proofs")):
        if os.path.basename(file) in OF_BODIES and not has_function(crate, os.path.dirname(file)):
            stop(f"{name}/proofs/{file} is of a function that {name} does not have")


def check(name, known, asked, more):
    """Checks the crate over the copies, and returns the checker's status."""
    stop_on_unnamed(name, known)
    stop_on_stale(name)
    at, crate, work = kit(), f"{ROOT}/crates/{name}", os.path.abspath(asked.work)
    for one in all_below(name, known):
        copy_statements(f"{ROOT}/crates/{one}", f"{work}/crates/{one}")
    words = ["check", "--crate-name", name, root_file(crate), *flags_for(name, known, at, work)]
    words += ["--incremental", f"{work}/incremental/{name}", "--jobs", str(asked.jobs), "--empty-contracts"]
    for path in asked.only or all_paths(crate):
        words += ["--only", path]
    os.makedirs(f"{work}/incremental/{name}", exist_ok=True)
    return subprocess.run([f"{at}/bin/rattle", *words, *more], cwd=crate, stderr=subprocess.STDOUT).returncode


@contextlib.contextmanager
def alone(work):
    """Waits while another run works in the folder."""
    os.makedirs(work, exist_ok=True)
    with open(f"{work}/lock", "w", encoding="utf-8") as lock:
        fcntl.flock(lock, fcntl.LOCK_EX)
        yield


def main():
    parser = argparse.ArgumentParser(description=__doc__, formatter_class=argparse.RawDescriptionHelpFormatter, allow_abbrev=False)
    parser.add_argument("name", metavar="NAME", help="a crate of crates.txt")
    parser.add_argument("--only", metavar="PATH", action="append", help="a module, a type or a function of NAME, and no more of it")
    parser.add_argument("--work", metavar="DIR", default=f"{tempfile.gettempdir()}/over-statements{ROOT.replace(os.sep, '-')}", help="where the copies lie, and what was checked")
    parser.add_argument("--jobs", metavar="N", type=int, default=2, help="how many modules are checked at a time, by default 2")
    asked, more = parser.parse_known_args()
    known = libraries()
    if asked.name not in known:
        stop(f"crates.txt has no crate {asked.name}")
    with alone(asked.work):
        status = check(asked.name, known, asked, more)
    sys.exit(status)


if __name__ == "__main__":
    main()
