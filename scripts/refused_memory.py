#!/usr/bin/env python3
"""Runs a built program over its cases once for each growth of memory, and refuses that growth.

    python3 scripts/refused_memory.py PROGRAM [--most N] [--each N] [--minutes N] [--jobs N] [TEXT]      PROGRAM as crates/gqls/out/gqls

The stored run (crates/gqls/stdin), each case of crates/gqls/cases, each session of crates/gqls/folders in which the folder stays as it
is, and each row of crates/gqls/commands that writes no file is run with ample memory first, which counts its growths; TEXT keeps those that
have it in their names. So is each file of crates/gq_rows/data by the program of that crate, where that is built; it calls the libraries.
Then it is run with the Nth growth refused, and with all from the Nth on, for each N, or for so many at even distances where there are more (`--most`, by default 60; of the stored run each, and of each case that has so many as `--each` says or fewer).
Only growths that the program itself asks for are counted. With `--minutes` no run begins that much later. scripts/refused_workers.py refuses
growths to a server with workers.

What a server may write, beside what it writes with ample memory. Where one growth is refused, one of these comes once:

- an ask is refused as `12 NoMemory`, code actions as a whole;
- what is wrong with the documents after a change is not published, for none of them; the next change tells it again;
- a change of a text loses its document: that is then the empty text at its new version, of which nothing is wrong, other documents are
  judged beside that, and asks are refused as `document lost` until it is opened again or closed. So all that comes behind is what the
  server writes with ample memory for the same session in which the changes of that text cannot be read, and that is run too;
- the run ends with `gqls: NoMemory` and the status 3, behind all that the events before wrote, and nothing of its own.

With all growths refused from one on, several of these come, the last of them the end, and one document is lost at most. `check`, `exec`
and `rename` end with `gqls: NoMemory` and the status 3, and write nothing to standard output; what `--verbose` says may be missing, too.

A program of rows may say of a row that it has no answer, or one that names the refusal, or that a project whose judgement found no
memory is handed back, or that the page on which a check writes, which takes memory, failed as a device; and it may end early.

Anything else is printed: the case, the growth and the first difference. Behind that a table counts what the runs came to, by the file of
their case, and it is said how many cases were tried at each growth, and which were not; the status is 1 where one differed."""
import argparse
import collections
import itertools
import json
import multiprocessing
import os
import re
import sys
import tempfile
import time

from trials import PUBLISH, Runner, commands, compiled, is_change, most_for, parts_of, programs_of_rows, sessions, sessions_over_folders

STATUS = 3
ENDED = b"gqls: NoMemory\n"
ASKS = {f"textDocument/{name}" for name in "hover definition references completion prepareRename rename codeAction".split()}
MANY, SHARE = 6, 250
NO_ANSWER = re.compile(rb'no answer"$|NoMemory|gqls: Device|told "\\n\d+ handed back"$')
OUTCOMES = "the same answer", "an ask refused", "not published", "a document lost", "ended with NoMemory", "else"
SAME, REFUSED, UNPUBLISHED, LOST, END, WRONG = OUTCOMES

Unit = collections.namedtuple("Unit", "own check")
State = collections.namedtuple("State", "number unit at lost left came")


def uri_of_check(message):
    """The document whose faults are told after a check. What is told of a document that is closed has no version."""
    params = message.get("params", {})
    return params.get("uri") if message.get("method") == PUBLISH and "version" in params else None


def units_of(group):
    """The messages of a body, cut into those of an event each: its own, and those of the check behind it, which tells of each document once."""
    units, own, check, told = [], [], [], set()
    for message in group:
        uri = uri_of_check(message)
        if check and (uri is None or uri in told) or own and "id" in own[-1]:
            units.append(Unit(own, check))
            own, check, told = [], [], set()
        (own if uri is None else check).append(message)
        told.add(uri)
    return units + [Unit(own, check)] if own or check else units


def refusal_of(body, unit):
    """How an ask is refused for want of memory, where it is answered or refused by a refactoring's own refusal."""
    if parts_of(body).get("method") not in ASKS or len(unit.own) != 1 or "id" not in unit.own[0]:
        return None
    error = unit.own[0].get("error")
    if error and not re.match("[0-9]+ ", str(error.get("message"))):
        return None
    return {"error": {"code": -32803, "message": "12 NoMemory"}, "id": unit.own[0]["id"], "jsonrpc": "2.0"}


class Session:
    """A session, and what it comes to with ample memory, also where changes cannot be read."""

    def __init__(self, runner, case, ample):
        self.runner, self.case, self.made = runner, case, {}
        if list(itertools.chain.from_iterable(runner.groups(case))) != ample.messages:
            raise ValueError("requests that no server knows change what it writes")

    def units(self, lost):
        if lost not in self.made:
            self.made[lost] = [units_of(group) for group in self.runner.groups(self.case, lost)]
        return self.made[lost]

    def why(self, told, has_ended, left):
        """What a run with refused growths came to, at most so many of them told; none if it should not have."""
        wanted_end = len(self.case.bodies) + 1
        seen, states = set(), [State(0, 0, 0, frozenset(), left, ())]
        while states:
            state = states.pop()
            if state[:5] in seen:
                continue
            seen.add(state[:5])
            if has_ended and state.at == len(told) and state.left:
                return state.came + (END,)
            if state.number == wanted_end:
                if state.at == len(told) and not has_ended:
                    return state.came
                continue
            states += self.next_states(state, told)
        return None

    def next_states(self, state, told):
        """What may come next, the likeliest last."""
        number, at, lost, left, came = state.number, state.at, state.lost, state.left, state.came
        body = self.case.bodies[number] if number < len(self.case.bodies) else b""
        units = self.units(lost)[number]
        found = []
        if state.unit == 0 and left and not lost and is_change(body):
            found.append(state._replace(lost=frozenset([number]), left=left - 1, came=came + (LOST,)))
        if state.unit == len(units):
            return found + [state._replace(number=number + 1, unit=0)]
        unit, ways = units[state.unit], []
        if left and unit.check:
            ways.append((unit.own, left - 1, (UNPUBLISHED,)))
        refusal = refusal_of(body, unit) if left else None
        if refusal:
            ways.append(([refusal], left - 1, (REFUSED,)))
        ways.append((unit.own + unit.check, left, ()))
        for messages, left_then, more in ways:
            if told[at : at + len(messages)] == messages:
                found.append(state._replace(unit=state.unit + 1, at=at + len(messages), left=left_then, came=came + more))
        return found


def first_difference(told, wanted):
    at = next((at for at, pair in enumerate(zip(told, wanted)) if pair[0] != pair[1]), min(len(told), len(wanted)))
    show = lambda messages: json.dumps(messages[at])[:400] if at < len(messages) else "nothing"
    return f"message {at + 1} is {show(told)}, and with ample memory {show(wanted)}"


def judged_session(session, ample, ran, goes_on):
    """What came of a run of a server, and what is wrong with it, if something is."""
    has_ended = (ran.status, ran.errors) == (STATUS, ENDED)
    if not has_ended and not ran.ends_as(ample):
        return WRONG, f"it ends with {ran.status} {ran.errors[-200:]!r}, and else with {ample.status} {ample.errors[-200:]!r}"
    came = session().why(ran.messages, has_ended, MANY if goes_on else 1)
    if not came:
        return WRONG, first_difference(ran.messages, ample.messages)
    return max(came, key=OUTCOMES.index), None


def judged_command(case, ample, ran):
    """The same of a run of another command."""
    lines = ran.errors.splitlines(keepends=True)
    said = ample.errors.splitlines(keepends=True)
    is_front = lambda front: all(line in said for line in front) and ("--verbose" in case.words or not front)
    if ran.status == STATUS and lines[-1:] == [ENDED] and not ran.output and is_front(lines[:-1]):
        return END, None
    if (ran.status, ran.output, lines[-1:]) == (ample.status, ample.output, said[-1:]) and is_front(lines[:-1]):
        return SAME, None
    told = f"{ran.status} {ran.output[:300]!r} {ran.errors[:300]!r}"
    return WRONG, f"it comes to {told}, and else to {ample.status} {ample.output[:300]!r} {ample.errors[:300]!r}"


def judged_rows(case, ample, ran):
    """The same of a run of a program of rows."""
    wanted = ample.output.splitlines()
    other = [line for line in ran.output.splitlines() if line not in wanted]
    if ran.status != 1 or ran.errors or not all(NO_ANSWER.search(line.partition(b", wanted ")[0]) for line in other):
        return WRONG, f"it ends with {ran.status} {ran.errors[-200:]!r}, and writes {other[:1]!r}"
    return (REFUSED if other else END), None


class Judge:
    """Judges the runs of a case."""

    def __init__(self, runner, case):
        self.runner, self.case, self.made = runner, case, None
        self.ample = runner.run(case)
        if case.serves and case.bodies:
            self.session()

    def session(self):
        self.made = self.made or Session(self.runner, self.case, self.ample)
        return self.made

    def judged(self, at, goes_on):
        """What came of a run with that growth refused, and what is wrong with it, if something is."""
        return self.came_of(self.runner.run(self.case, {"REFUSE_AT": at, "REFUSE_ALL": goes_on}), goes_on)

    def came_of(self, ran, goes_on):
        """What came of that run, and what is wrong with it, if something is."""
        if ran.is_as(self.ample):
            return SAME, None
        if self.case.program:
            return judged_rows(self.case, self.ample, ran)
        if self.case.serves:
            return judged_session(self.session, self.ample, ran, goes_on)
        return judged_command(self.case, self.ample, ran)


def counted(task):
    """How many growths a case has, or why it cannot be tried."""
    runner, case = task
    try:
        return Judge(runner, case).ample.growths, None
    except Exception as error:
        return 0, f"{case.name}: {type(error).__name__}: {error}"


def tried(task):
    """What came of the runs of a case at these growths, what differs, and how many runs were left out."""
    runner, case, places, deadline = task
    came, wrong, left_out, judge = collections.Counter(), [], 0, None
    for at, goes_on in itertools.product(places, (0, 1)):
        if time.time() >= deadline:
            left_out += 1
            continue
        try:
            judge = judge or Judge(runner, case)
            outcome, why = judge.judged(at, goes_on)
        except Exception as error:
            outcome, why = WRONG, f"{type(error).__name__}: {error}"
        came[outcome] += 1
        if why:
            wrong.append(f"{case.name}, growth {at}{' and all behind it' if goes_on else ''}: {why}")
    return case.name, came, wrong, left_out


def places_of(case, growths, asked):
    """The growths that are refused in turn."""
    most = growths if growths <= asked.each else most_for(case, asked.most)
    return range(1, growths + 1, max(1, -(-growths // max(1, most))))


class Table:
    """What the runs came to, by the file of their case."""

    def __init__(self):
        self.rows = collections.defaultdict(lambda: [0, 0, collections.Counter()])
        self.each, self.others = [], []

    def row(self, name):
        return self.rows[re.split("[-:]", name)[0]]

    def put_case(self, name, growths, places):
        row = self.row(name)
        row[0], row[1] = row[0] + 1, row[1] + growths
        (self.each if len(places) == growths else self.others).append((name, growths))

    def show(self):
        print(f"| Cases of | Cases | Growths | Runs | {' | '.join(OUTCOMES)} |")
        print(f"|{'---|' * (len(OUTCOMES) + 4)}")
        every = sum(row[0] for row in self.rows.values()), sum(row[1] for row in self.rows.values())
        came = sum((row[2] for row in self.rows.values()), collections.Counter())
        for name, (number, growths, counts) in [*sorted(self.rows.items()), ("all", (*every, came))]:
            print(f"| {name} | {number:,} | {growths:,} | {counts.total():,} | {' | '.join(f'{counts[one]:,}' for one in OUTCOMES)} |")
        print(f"at each growth: {len(self.each)} cases with {sum(growths for _, growths in self.each):,} growths")
        print(f"at some growths: {', '.join(f'{name} ({growths:,})' for name, growths in sorted(self.others)) or 'none'}")
        return came


def main():
    parser = argparse.ArgumentParser(description=__doc__, formatter_class=argparse.RawDescriptionHelpFormatter)
    parser.add_argument("program")
    parser.add_argument("text", nargs="?", default="")
    parser.add_argument("--most", type=int, default=60)
    parser.add_argument("--each", type=int, default=0)
    parser.add_argument("--minutes", type=float, default=600)
    parser.add_argument("--jobs", type=int, default=os.cpu_count())
    asked = parser.parse_intermixed_args()
    cases = [case for case in (*sessions(), *sessions_over_folders(), *commands(), *programs_of_rows()) if asked.text in case.name]
    deadline, table, tasks, left_out = time.time() + 60 * asked.minutes, Table(), [], 0
    with tempfile.TemporaryDirectory() as folder, multiprocessing.Pool(asked.jobs) as pool:
        runner = Runner(os.path.abspath(asked.program), compiled(folder))
        for case, (growths, why) in zip(cases, pool.imap(counted, [(runner, case) for case in cases])):
            places = places_of(case, growths, asked)
            table.put_case(case.name, growths, places)
            tasks += [(runner, case, places[at : at + SHARE], deadline) for at in range(0, len(places), SHARE)]
            if why:
                print(why, flush=True)
                table.row(case.name)[2][WRONG] += 1
        for name, came, wrong, missed in pool.imap_unordered(tried, tasks):
            table.row(name)[2].update(came)
            left_out += missed
            for line in wrong[:3]:
                print(line, flush=True)
    came = table.show()
    failed = came[WRONG]
    print(f"{came.total() - failed} passed, {failed} failed, {len(cases)} cases, {left_out} runs left out")
    return 1 if failed or not cases else 0


if __name__ == "__main__":
    sys.exit(main())
