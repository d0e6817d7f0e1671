#!/usr/bin/env python3
"""Writes docs/definitions.md: for each theorem the definitions that a reader must believe, from the top down.

python3 scripts/definitions.py           writes it anew
python3 scripts/definitions.py --check   says whether it is as it would be written, and changes nothing; and whether each block of docs/theorem.md
                                         stands in the file that is named above it
Either fails where a theorem, or the contract of any public call of a crate, uses a definition of a folder specs/Helping, since these only help
proofs, and where a file of specs/ outside Helping is cited by no contract of a public call, directly or through other definitions, or brings in a
file of Helping.

A theorem is the contract of a public function. What its clauses name is looked up through the `ghost use` lines of its file, and what a
definition names through the `use` lines of its own, down to the types of the code and to the toolchain's library."""
import glob
import os
import re
import sys
import textwrap

TOP = os.path.dirname(os.path.dirname(os.path.abspath(__file__)))
# title, crate, source file, function
THEOREMS = [
    ("What is promised of each edit", "gq_events", "laws", "edits_are_safe"),
    ("What driving a desk does", "gq_desk", "driving", "drive"),
    ("What a run of the server writes", "gq_crew", "one_thread", "run_one"),
    ("What a run with workers writes", "gq_crew", "crew", "run"),
    ("What a rename of a fragment is", "gq_rename", "renames", "rename_fragment"),
    ("What a rename of a variable is", "gq_rename", "renames", "rename_variable"),
    ("What an extract is", "gq_reshape", "extracting", "extract"),
    ("What an inline is", "gq_reshape", "inlining", "inline"),
    ("What a remove is", "gq_reshape", "removing", "remove_redundant"),
    ("What `gqls check` prints", "gq_check", "checking", "check"),
    ("What `gqls exec` prints", "gq_check", "executing", "exec"),
    ("What `gqls rename` prints and writes", "gq_codemod", "renaming", "rename"),
]
# crate, source file, trait: what theorems say of any type that has one of these, they say by its members
TRAITS = [("gq_rpc", "devices", "Source"), ("gq_rpc", "devices", "Sink"), ("gq_reader", "files", "Files"), ("gq_desk", "hands", "Hands")]
WORD = re.compile(r"[A-Za-z_][A-Za-z0-9_']*(?:\.[A-Za-z_][A-Za-z0-9_']*)?|◌[^\s◌,{}]+◌")
START = re.compile(r"\s*(?:pub )?(abbrev|unfoldable|data|record|def|lemma)\b(?: pub)? ([A-Za-z_][A-Za-z0-9_']*)")
MEMBER = re.compile(r"  (pub) ([A-Za-z_][A-Za-z0-9_']*) : ")
CONSTRUCTOR = re.compile(r"\s+([A-Za-z_][A-Za-z0-9_']*) : ")
IMPORT = re.compile(r"^[ \t]*(?:ghost |pub )?use (Rattle\.[\w.]+?)(?:\.\{([^{}]*)\}| as (\w+))[ \t]*;?[ \t]*$", re.M)


def read(path):
    with open(path, encoding="utf-8") as it:
        return it.read()


def imports(text):
    """What each name that a file brings in stands for: the module's words and the name there."""
    found = {}
    for module, names, other in IMPORT.findall(text):
        if other:
            found[other] = (module.split("."), None)
        for name in filter(None, re.split(r",\s*", names.strip())):
            of, _, own = name.partition(" as ")
            found[(own or of).strip()] = (module.split("."), of.strip())
    return found


class Specs:
    """A file of specs/: what it brings in, and each of its definitions with the words that it uses."""

    def __init__(self, crate, inside):
        self.crate, self.inside = crate, inside
        text = read(f"{TOP}/crates/{crate}/specs/{inside}.antt")
        lines, self.head = text.split("\n"), []
        for line in lines:
            if not line.startswith("--"):
                break
            self.head.append(line[2:].strip())
        self.names, self.defined, self.constructors = imports(text), {}, {}
        comment, now, together = [], None, False
        for line in lines[len(self.head) :]:
            if line.strip().startswith("--"):
                comment.append(line.strip()[2:].strip())
                continue
            if re.match(r"(pub )?(use|mod|syntax|infix|module)\b", line):
                continue
            if line and line[0] != " ":
                together = line.endswith("mutual")
            start = not line.endswith("mutual") and START.match(line) or together and MEMBER.match(line)
            if start:
                kind, now = start[1], start[2]
                self.defined[now] = [" ".join(comment), set()]
                comment = []
            if now:
                self.defined[now][1].update(WORD.findall(line))
                made = CONSTRUCTOR.match(line)
                if made and kind == "data":
                    self.constructors[made[1]] = now

    def whose(self, name):
        """The file and the definition that a name of this file stands for, its own or one that it hands on."""
        if name in self.defined or name in self.constructors:
            return self.crate, self.inside, self.constructors.get(name, name)
        module, of = self.names.get(name, ([], None))
        return (module[1], "/".join(module[3:]), of) if of and is_ours(module) else None


FILES = {}


def specs(crate, inside):
    if (crate, inside) not in FILES:
        path = f"{TOP}/crates/{crate}/specs/{inside}.antt"
        FILES[crate, inside] = Specs(crate, inside) if os.path.isfile(path) else None
    return FILES[crate, inside]


def clauses(lines, at):
    """The words of the clauses of the function that begins at that line."""
    margin = re.match(r"\s*", lines[at])[0]
    end = next(i for i in range(at, len(lines)) if lines[i].endswith((" {", ";")) or re.match(rf"{margin}\{{", lines[i]))
    begin = next((i for i in range(at, end + 1) if re.match(r"\s+(requires|ensures)\b", lines[i])), end + 1)
    return set(WORD.findall("\n".join(lines[begin : end + 1])))


def contract(crate, source, function):
    """The words of a function's clauses, and what its file brings in for them."""
    text = read(f"{TOP}/crates/{crate}/src/{source}.rt")
    lines = text.split("\n")
    at = next(i for i, line in enumerate(lines) if re.match(rf"\s*pub fn {function}\b", line))
    return clauses(lines, at), imports(text)


def trait(crate, source, name):
    """The lines of a trait, and what its file brings in for them."""
    text = read(f"{TOP}/crates/{crate}/src/{source}.rt")
    lines = text.split("\n")
    begin = next(i for i, line in enumerate(lines) if re.match(rf"pub trait {name}\b", line))
    return lines[begin : lines.index("}", begin) + 1], imports(text)


def sources(crate):
    """The files of a crate's code by their module, as `moves/words`, and the modules and names that others see."""
    top = f"{TOP}/crates/{crate}/src"
    files = {os.path.relpath(path, top)[:-3]: read(path) for path in glob.glob(f"{top}/**/*.rt", recursive=True)}
    queue, modules, names = [root for root in ("lib", "main") if root in files], set(), set()
    while queue:
        module = queue.pop()
        modules.add(module)
        folder = "" if module in ("lib", "main") else module + "/"
        queue += [folder + name for name in re.findall(r"^pub mod (\w+);", files[module], re.M)]
        for path in re.findall(r"^pub use ([^;]*);", files[module], re.M):
            names.update(re.findall(r"\w+", path))
    return files, modules, names


def public(crate):
    """The words of each contract that others see, and what its file brings in: those of functions, of methods and views of types, of traits.
    An invariant of a type is none of them, nor is a ghost field."""
    files, modules, names = sources(crate)
    types = set(names)
    for module in modules:
        types.update(re.findall(r"^pub (?:struct|enum|trait|type) (\w+)", files[module], re.M))
    for module, text in sorted(files.items()):
        lines, brings, within = text.split("\n"), imports(text), None
        for at, line in enumerate(lines):
            head = re.match(r"(pub trait|impl)\b(?:<.*?>(?= [\w&]))? (.*?)(?: \{|$)", line)
            if line.startswith("}"):
                within = None
            elif head:
                kind, trait, of = head[1], *re.match(r"(?:(.*) for )?&?(?:'\w+ )?(\w+)", head[2]).groups()
                within = (kind, trait) if of in types else None
            function = re.match(r"(    )?(pub )?fn (\w+)", line)
            if function and function[1]:
                seen = within and (function[2] or within != ("impl", None))
            elif function:
                is_shown = function[2] and (module in modules or function[3] in names)
                seen = is_shown or (module, function[3]) == ("main", "main")
            else:
                seen = False
            if seen:
                yield clauses(lines, at), brings
            elif within and re.match(r"    ghost (?!use\b|invariant\b)", line):
                yield set(WORD.findall(line)), brings


def is_ours(module):
    """Whether these words of a path name a file of specs/ of this repository."""
    return len(module) > 3 and module[1].startswith("gq_") and module[2] == "specs" and module[3] not in ("declared", "contracts")


def wanted(words, brings, own):
    """The definitions of this repository that these words name: a crate, a file in it, and a name. A word with a dot is one of a file that has a
    name of its own, or a field."""
    whole = set()
    for word in sorted(words):
        of, dot, inner = word.partition(".")
        if dot and of in brings and brings[of][1] is None:
            module = brings[of][0]
            if is_ours(module):
                yield module[1], "/".join(module[3:]), inner
        else:
            whole |= {of, inner} - {""}
    for word in sorted(whole):
        if own and own.whose(word):
            yield own.whose(word)
        elif word in brings:
            module, name = brings[word]
            if is_ours(module) and name:
                yield module[1], "/".join(module[3:]), name


def below(starts):
    """All that must be believed for these definitions, in the order in which a reader comes to it: a file after those that cite it."""
    queue, seen, order = list(starts), set(), []
    while queue:
        crate, inside, name = queue.pop(0)
        it = specs(crate, inside)
        whose = it and it.whose(name)
        if whose and whose != (crate, inside, name):
            queue.append(whose)
            continue
        if it is None or (crate, inside, name) in seen or name not in it.defined:
            continue
        seen.add((crate, inside, name))
        if (crate, inside) not in order:
            order.append((crate, inside))
        queue += wanted(it.defined[name][1], it.names, it)
    return order, seen


def in_order(files):
    """The files by their crates, as `gq_check Checks, Faults; gq_rules Validity`."""
    runs = []
    for crate, inside in files:
        if not runs or runs[-1][0] != crate:
            runs.append((crate, []))
        runs[-1][1].append(inside)
    return "; ".join(f"{crate} {', '.join(names)}" for crate, names in runs)


def page():
    text = [
        "# Definitions",
        "",
        "Where the server offers an edit for a valid project at stated versions, applying it to those texts gives a valid",
        "project in which every operation has, for every resolver table and all variables, renamed alike, the same data, key",
        "order and error paths; and over every list of changes and worker results, each edit answered is exactly its request's",
        "at the versions it names. The first two parts of this page are this sentence: as a law of lists of events, and as what",
        "`drive` ensures, which the program calls (`headline` of `Drives`, `FailsAt` and `TakesTooMany`, however it ends).",
        "",
        "What a reader must believe, by theorem. A theorem is the contract of a public function. The proofs show that the code",
        "meets it; that it says what is meant is for a reader to see. Each part of this page names the files of definitions that",
        "one contract uses, from the top down, and no others (`gq_check Checks` is `crates/gq_check/specs/Checks.antt`). Below",
        "it stands what they hold, but for definitions that an earlier part has told. Beside these stand the types of the code",
        "that they name (tokens, trees, documents, messages), and the words of the toolchain's library (lists, numbers, texts).",
        "",
        "This page is written by `python3 scripts/definitions.py` from the files themselves.",
    ]
    told = set()
    for title, crate, source, function in THEOREMS:
        text += ["", f"## {title}", ""]
        text += part(f"`{function}` of {crate} (`crates/{crate}/src/{source}.rt`)", wanted(*contract(crate, source, function), None), told)
    return "\n".join(text + devices(told)) + "\n"


def part(what, starts, told):
    """What must be believed for something that uses these definitions, those that are told above left out of the table."""
    order, seen = below(starts)
    new = seen - told
    text = [f"{what}: {len(seen)} definitions in {len(order)} files. To be read, in order:", ""]
    text += textwrap.wrap(in_order(order) + ".", 118, break_long_words=False)
    text += ["", "What they hold:" if not told else f"{len(new)} of the definitions are not told above" + (":" if new else "."), ""]
    text += ["| File | What it holds |", "|---|---|"] if new else []
    for one in order:
        if any((*one, name) in new for name in specs(*one).defined):
            head = " ".join(specs(*one).head).replace("|", "\\|")
            text.append(f"| {one[0]} {one[1]} | {head} |")
    told |= seen
    return text if new else text[:-1]


def devices(told):
    """The traits whose members the theorems speak of, as they stand in the code."""
    text = [
        "",
        "## What is stated of sources, sinks and hands",
        "",
        "`drive`, `run_one`, `check` and `exec` speak of any types that have these traits. What came from a source, went to a",
        "sink or was handed on is said by ghost members (`ghost`), which whoever writes such a type defines; each of its calls",
        "must then ensure the clauses below. So of the devices of the program a theorem says no more than their members do.",
    ]
    starts = []
    for crate, source, name in TRAITS:
        lines, brings = trait(crate, source, name)
        starts += wanted(set(WORD.findall("\n".join(line for line in lines if not line.strip().startswith("///")))), brings, None)
        text += ["", f"`{name}` of {crate} (`crates/{crate}/src/{source}.rt`):", ""] + ["    " + line if line else "" for line in lines]
    return text + [""] + part("These clauses", starts, told)


def misplaced():
    """What is wrong with where files of specs/ stand, by what public contracts cite."""
    crates = sorted(os.path.basename(path) for path in glob.glob(f"{TOP}/crates/*"))
    cited, _ = below(one for crate in crates for words, brings in public(crate) for one in wanted(words, brings, None))
    for crate in crates:
        top = f"{TOP}/crates/{crate}/specs"
        for inside in sorted(os.path.relpath(path, top)[:-5] for path in glob.glob(f"{top}/**/*.antt", recursive=True)):
            if inside == "Lib" or os.path.isdir(f"{top}/{inside}"):
                continue
            if "Helping/" in inside:
                if (crate, inside) in cited:
                    yield f"stands in Helping, and a public contract cites it: {crate} {inside}"
                continue
            if (crate, inside) not in cited:
                yield f"only helps proofs, and stands outside Helping: {crate} {inside}"
            for module in sorted({".".join(module) for module, _ in specs(crate, inside).names.values() if is_ours(module)}):
                if ".Helping." in module:
                    yield f"stands outside Helping, and brings in what only helps proofs: {crate} {inside}, {module}"


def misquoted():
    """The blocks of docs/theorem.md that do not stand, line by line, in the file that is named last above them."""
    named, block = None, []
    for line in [*read(f"{TOP}/docs/theorem.md").split("\n"), "end"]:
        if line.startswith("    "):
            block.append(line[4:])
        elif line or not block:
            if block and "\n".join(block) not in read(f"{TOP}/{named}"):
                yield f"docs/theorem.md has what {named} has not: {block[0]}"
            block = []
            named = (re.findall(r"crates/\w+/specs/\w+\.antt", line) or [named])[-1]


def main():
    path, made = f"{TOP}/docs/definitions.md", page()
    named = [line.split("|")[1].strip() for line in made.split("\n") if line.startswith("| gq_")]
    wrong = [f"a theorem uses what only helps proofs: {one}" for one in named if "Helping/" in one] + list(misplaced())
    if wrong:
        print("\n".join(wrong))
        return 1
    if "--check" in sys.argv[1:]:
        same = os.path.isfile(path) and read(path) == made
        print("docs/definitions.md is as it would be written" if same else "docs/definitions.md differs: run scripts/definitions.py")
        quoted = list(misquoted())
        print("\n".join(quoted) or "docs/theorem.md quotes its files")
        return 0 if same and not quoted else 1
    with open(path, "w", encoding="utf-8") as it:
        it.write(made)
    return 0


if __name__ == "__main__":
    sys.exit(main())
