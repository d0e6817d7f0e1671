#!/usr/bin/env python3
"""Measures `gqls check` on shapes made to hurt: small projects that a careless checker takes seconds or a gigabyte for.

    python3 bench/shapes.py PROGRAM [--rounds N] [--sizes K] [TEXT]     of shapes whose name has TEXT only
    python3 bench/shapes.py PROGRAM --others [TEXT]                     beside the other checkers that are there
    python3 bench/shapes.py PROGRAM --all FILE [TEXT]                   over the families of a module, for those that are slow

Each shape is written at three sizes, a factor of four apart. Of each the least processor time (user and system, of all
processors) of so many rounds is told, and the most memory that was resident; behind them what was found in the largest, a
line printed for each fault, and by what the two steps multiply time, and then memory. A step by more than five is marked with
`!`, or, where the faults told grow by more than the text (as where each of n operations has a fault at each of n places), by
more than five quarters of what these grow by. What is below 20 ms or 20 MB is too small to say. A run is ended after 60
seconds of processor time, or ten minutes, and stands as `-`, as do larger ones then.

`--others` runs the programs of bench/others on the same files: `gqlparser`, where a program of that name is on the path, and
graphql_js.js, where node finds its module (NODE_PATH). A mark `>` behind a time or the memory of gqls says that it is more
than that of the better of those that answered and also found the project valid or not valid.

`--all` wants a Python file with a dictionary `sh`: a name for each family, and with it a function from a number to the text
of a type system and that of operations, and numbers, of which the first three are taken. Told are those that take over a
second or over 500 MB for at most 300 KB, and those with a step that is marked; a step there may multiply by five quarters of
what the text grows by.

The exit status is 1 where anything is marked, or a run had no answer.
"""
import argparse
import ctypes
import importlib.util
import os
import random
import shutil
import signal
import subprocess
import sys
import tempfile
import threading

LIMIT = 60  # seconds of processor time
SMALL = {"ms": 20, "MB": 20}
SLOW = {"ms": 1000, "MB": 500}
SLOW_TEXT = 300_000
SLACK = 5 / 4
FACTOR = 4
OTHERS = os.path.join(os.path.dirname(os.path.abspath(__file__)), "others")
BECOME_REAPER = 36  # PR_SET_CHILD_SUBREAPER of <linux/prctl.h>
# the statuses of a checker that has answered: the last is that of gqlparser where the type system is not valid
ANSWERED = (0, 1, 2)
# what one prints that has fallen over, and so has not answered
FALLEN = (b"fatal error:", b"RangeError", b"heap out of memory", b"runtime error:")
# Made by a shell, which is small, since the memory of a process counts what its parent had when it was made. It begins
# when the shell has ended, so that it is a child of this process by then and not of the shell: when its input is closed.
LAUNCH = 'limit=$1 out=$2; shift 2; ulimit -t "$limit"; exec 3<&0; { read go <&3; exec "$@" >"$out" 2>&1 3<&-; } & echo $!'

SCHEMA = "type Query{x:Int q:Query f(a:Int):Int}\n"


def lines(*parts):
    return "\n".join(line for part in parts for line in part) + "\n"


def each(form, count):
    """A line of this form for each number below the count, which stands for each @."""
    return (form.replace("@", str(number)) for number in range(count))


def chained(form, count):
    """A line for each fragment of a chain: @ is its number, and + the next one's."""
    return (form.replace("@", str(number)).replace("+", str(number + 1)) for number in range(count))


def fragments_of_one_name(count):
    """Fragments of one name, each of which spreads that name."""
    return SCHEMA, lines(["{...F}"], ["fragment F on Query{x ...F}"] * count)


def operations_spread_one_name(count):
    """Fragments of one name, and as many operations that spread it."""
    return SCHEMA, lines(each("query Q@{...F}", count), ["fragment F on Query{x}"] * count)


def undefined_behind_operations(count):
    """Operations before a chain of as many fragments, each of which uses a variable that is not defined."""
    chain = chained("fragment F@ on Query{k@:f(a:$v@) ...F+}", count)
    return SCHEMA, lines(each("query Q@{...F0}", count), chain, ["fragment F%d on Query{x}" % count])


def uses_behind_operations(count):
    """Operations that define a variable and spread one fragment, which has as many uses of it."""
    uses = each("k@:f(a:$v)", count)
    return SCHEMA, lines(each("query Q@($v:Int){...F}", count), ["fragment F on Query{"], uses, ["}"])


def variables_of_one_name(count):
    """An operation that defines one variable many times, and uses it as often."""
    return SCHEMA, lines(["query("], ["$v:Int"] * count, ["){"], each("k@:f(a:$v)", count), ["}"])


def defaults_of_lists(count):
    """An input type with many fields of its own type, the default of each a list of as many empty objects."""
    default = "[%s]" % ",".join(["{}"] * count)
    return SCHEMA + lines(["input D{"], each("a@:[D]=" + default, count), ["}"]), "{x}\n"


def own_call_beside_chain(count):
    """Operations that each spread one long chain beside a fragment of their own, with a call that no other has."""
    own = each("fragment O@ on Query{o:f(a:@)}", count)
    chain = chained("fragment F@ on Query{k@:x ...F+}", count)
    return SCHEMA, lines(each("query Q@{...O@ ...F0}", count), own, chain, ["fragment F%d on Query{x}" % count])


def use_behind_chain(count):
    """Operations that define a variable and spread a long chain of fragments, in the last of which it is used."""
    chain = chained("fragment F@ on Query{...F+}", count)
    return SCHEMA, lines(each("query Q@($v:Int){...F0}", count), chain, ["fragment F%d on Query{f(a:$v)}" % count])


def arguments_in_other_order(count):
    """A field with many arguments, called twice, the second time with its arguments in the other order."""
    given = list(each("a@:@", count))
    schema = SCHEMA + lines(["extend type Query{g("], each("a@:Int", count), ["):Int}"])
    return schema, lines(["{g("], given, [") g("], reversed(given), [")}"])


def next_eight_under_keys(count):
    """Fragments that each spread the next eight later ones, four under each of two keys. All is valid."""

    def spreads(number, first, last):
        return " ".join("...F%d" % later for later in range(number + first, number + last + 1) if later <= count)

    rows = ["fragment F%d on Query{a:q{x %s} b:q{x %s}}" % (one, spreads(one, 1, 4), spreads(one, 5, 8)) for one in range(count)]
    return SCHEMA, lines(["{...F0}"], rows, ["fragment F%d on Query{x}" % count])


def eight_at_random(count):
    """Fragments that each spread the next one, and eight of the next forty under one of four keys. All is valid."""
    draw = random.Random(5)
    rows = []
    for number in range(count):
        key = draw.randrange(4)
        spreads = " ".join("...F%d" % min(count, number + 1 + draw.randrange(40)) for _ in range(8))
        rows.append("fragment F%d on Query{...F%d k%d:q{%s}}" % (number, number + 1, key, spreads))
    return SCHEMA, lines(["{...F0}"], rows, ["fragment F%d on Query{x}" % count])


# what writes each shape, its middle number, and by what that is multiplied for a project four times as large
SHAPES = {
    "fragments_of_one_name": (fragments_of_one_name, 7000, 4),
    "operations_spread_one_name": (operations_spread_one_name, 7000, 4),
    "undefined_behind_operations": (undefined_behind_operations, 2000, 4),
    "uses_behind_operations": (uses_behind_operations, 4000, 4),
    "variables_of_one_name": (variables_of_one_name, 5000, 4),
    "defaults_of_lists": (defaults_of_lists, 200, 2),
    "own_call_beside_chain": (own_call_beside_chain, 1200, 4),
    "use_behind_chain": (use_behind_chain, 3000, 4),
    "arguments_in_other_order": (arguments_in_other_order, 4000, 4),
    "next_eight_under_keys": (next_eight_under_keys, 500, 4),
    "eight_at_random": (eight_at_random, 400, 4),
}


def sizes_of_shapes(smaller):
    """The name of each shape, what writes it, and three numbers; each project so many times smaller."""
    for name, (make, middle, step) in SHAPES.items():
        part = smaller ** (1 / 2) if step == 2 else smaller
        yield name, make, [max(1, round(number / part)) for number in (middle / step, middle, middle * step)]


def sizes_of_families(file, smaller):
    """The same for the families of a module."""
    spec = importlib.util.spec_from_file_location("families", file)
    module = importlib.util.module_from_spec(spec)
    spec.loader.exec_module(module)
    for name, (make, sizes) in module.sh.items():
        yield name, make, [max(1, round(number / smaller)) for number in sizes[:3]]


def started(command, out):
    """The number of a process that runs this command, a child of this one, its output in that file."""
    with subprocess.Popen(["sh", "-c", LAUNCH, "sh", str(LIMIT), out, *command], stdin=subprocess.PIPE, stdout=subprocess.PIPE) as shell:
        number = int(shell.stdout.readline())
        shell.wait()
        shell.stdin.close()
    return number


def ran(command, folder):
    """What a run came to: milliseconds of processor time, MB, lines printed and whether all is valid; None with no answer."""
    out = os.path.join(folder, "out")
    number = started(command, out)
    watch = threading.Timer(10 * LIMIT, os.kill, (number, signal.SIGKILL))
    watch.start()
    try:
        _, status, used = os.wait4(number, 0)
    finally:
        watch.cancel()
    with open(out, "rb") as printed:
        text = printed.read()
    if os.waitstatus_to_exitcode(status) not in ANSWERED or any(word in text for word in FALLEN):
        return None
    is_valid = text.strip() == b"ok"
    faults = 0 if is_valid else text.count(b"\n")
    return {"ms": (used.ru_utime + used.ru_stime) * 1000, "MB": used.ru_maxrss / 1024, "faults": faults, "valid": is_valid}


def measured(command, folder, rounds):
    """The best of so many runs: the least time, and the least of its memory."""
    best = None
    for _ in range(rounds):
        one = ran(command, folder)
        if one is None:
            return None
        best = {**one, **{what: min(one[what], best[what]) for what in ("ms", "MB")}} if best else one
    return best


def checkers(program, with_others):
    """The name of each checker that is there, and its command, gqls first."""
    found = {"gqls": [program, "check"]}
    if with_others:
        if shutil.which("gqlparser"):
            found["gqlparser"] = ["gqlparser"]
        if shutil.which("node") and subprocess.run(["node", "-e", "require('graphql')"], stderr=subprocess.DEVNULL).returncode == 0:
            found["graphql-js"] = ["node", os.path.join(OTHERS, "graphql_js.js")]
        if len(found) == 1:
            sys.exit("no other checker is there")
    return found


def results(commands, make, numbers, rounds):
    """The bytes of the projects of these numbers, and of each checker what its runs came to."""
    texts, seen = [], {name: [] for name in commands}
    for number in numbers:
        with tempfile.TemporaryDirectory() as folder:
            files = [os.path.join(folder, name) for name in ("s.graphql", "q.graphql")]
            written = make(number)
            for file, text in zip(files, written):
                with open(file, "w", encoding="utf-8") as out:
                    out.write(text)
            texts.append(sum(map(len, written)))
            for name, command in commands.items():
                is_over = seen[name] and seen[name][-1] is None
                seen[name].append(None if is_over else measured(command + files, folder, rounds))
    return texts, seen


def steps(runs, what, grown):
    """By what each step multiplies time or memory, and whether that is more than it may be, where the project has so grown."""
    out = []
    for smaller, larger, factor in zip(runs, runs[1:], grown):
        if not smaller or not larger:
            out.append((None, False))
            continue
        faults = max(1, larger["faults"]) / max(1, smaller["faults"])
        by = larger[what] / max(smaller[what], 0.1)
        out.append((by, larger[what] >= SMALL[what] and by > SLACK * max(factor, faults)))
    return out


def worse(seen, what):
    """Of each size, whether gqls takes more than the better of the others that answered and found the same."""
    out = []
    for ours, *others in zip(*seen.values()):
        same = [one[what] for one in others if one and ours and one["valid"] == ours["valid"]]
        out.append(bool(same) and ours[what] >= SMALL[what] and ours[what] > min(same))
    return out


def numbers_of(runs, what, marks):
    return " ".join(("%.0f%s" % (run[what], ">" if mark else "") if run else "-").rjust(7) for run, mark in zip(runs, marks))


def row(name, runs, grows, marks):
    """The line of a checker: times, memory, what it found in the largest, and what steps multiply time and memory by."""
    largest = next((run for run in reversed(runs) if run), None)
    found = "-" if not largest else "valid" if largest["valid"] else "%d faults" % largest["faults"] if name == "gqls" else "not valid"
    shown = {what: numbers_of(runs, what, marks[what]) for what in ("ms", "MB")}
    by = " ".join(("%.1f%s" % (by, "!" if is_marked else "") if by else "-").rjust(6) for what in ("ms", "MB") for by, is_marked in grows[what])
    return "  %-14s %s ms %s MB %14s   grows %s" % (name, shown["ms"], shown["MB"], found, by)


def is_slow(texts, runs):
    """Whether a project of little text has no answer, or takes too long or too much."""
    return any(not run or run["ms"] > SLOW["ms"] or run["MB"] > SLOW["MB"] for size, run in zip(texts, runs) if size <= SLOW_TEXT)


def has_mark(name, texts, seen, grown, is_family):
    """Prints what a shape came to, and says whether anything in it is marked; of a family only where it is, or is slow."""
    ours = seen["gqls"]
    grows = {one: {what: steps(runs, what, grown) for what in ("ms", "MB")} for one, runs in seen.items()}
    marks = {what: worse(seen, what) for what in ("ms", "MB")}
    is_marked = any(mark for what in ("ms", "MB") for mark in [mark for _, mark in grows["gqls"][what]] + marks[what])
    is_marked = is_marked or (is_slow(texts, ours) if is_family else not all(ours))
    if is_marked or not is_family:
        print("%s: %s KB" % (name, ", ".join("%.0f" % (size / 1000) for size in texts)))
        for one, runs in seen.items():
            shown = marks if one == "gqls" else {what: [False] * len(runs) for what in marks}
            print(row(one, runs, grows[one], shown), flush=True)
    return is_marked


def main():
    words = argparse.ArgumentParser(description=__doc__, formatter_class=argparse.RawDescriptionHelpFormatter)
    words.add_argument("program", metavar="PROGRAM")
    words.add_argument("text", nargs="?", default="", metavar="TEXT", help="only what has this in its name")
    words.add_argument("--rounds", type=int, default=3)
    words.add_argument("--sizes", type=float, default=1, metavar="K", help="each project so many times smaller, for a slow build")
    words.add_argument("--others", action="store_true", help="beside other checkers")
    words.add_argument("--all", metavar="FILE", help="over the families of a module")
    asked = words.parse_args()
    ctypes.CDLL(None).prctl(BECOME_REAPER, 1, 0, 0, 0)
    commands = checkers(asked.program, asked.others)
    chosen = sizes_of_families(asked.all, asked.sizes) if asked.all else sizes_of_shapes(asked.sizes)
    marked = 0
    for name, make, numbers in chosen:
        if asked.text in name:
            texts, seen = results(commands, make, numbers, asked.rounds)
            grown = [larger / smaller if asked.all else FACTOR for smaller, larger in zip(texts, texts[1:])]
            marked += has_mark(name, texts, seen, grown, bool(asked.all))
    print("marked: %d" % marked)
    sys.exit(marked > 0)


if __name__ == "__main__":
    main()
