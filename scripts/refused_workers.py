#!/usr/bin/env python3
"""Runs a built program with workers, and refuses growths of memory to its threads.

    python3 scripts/refused_workers.py PROGRAM [--workers N] [--most N] [--sessions N] [--minutes N] [--jobs N] [--threads] [TEXT]

PROGRAM is as crates/gqls/out/gqls. Served are the stored run (crates/gqls/stdin), the cases of crates/gqls/cases (but for those of rows) and
the sessions of crates/gqls/folders that are sessions of an editor, each up to its shutdown, and so many sessions made by chance
(scripts/schedules.py; by default 24); TEXT keeps those that have it in their names. The client sends bursts of messages with pauses between them, waits for all replies
and lists, a second and three times as long as one thread takes, and shuts the server down. There are two workers, unless told otherwise. A run
with ample memory counts the growths of all threads and of each. Then these are refused, each at so many places at even distances (`--most`,
by default 24), or at each where there are no more:

- **one growth** of any thread;
- **all growths** of all threads from one on;
- **one growth of a worker**, by the count of its own thread;
- **all growths of a worker** from one on. The others have ample memory.

Schedules differ from run to run, so growths do too, and what is written is judged as scripts/schedules.py judges it. On every schedule this
must hold, beside what holds with ample memory. Where one growth is refused, one of these comes once, or nothing that can be seen:

- a question is refused as `12 NoMemory`;
- what is wrong with the documents after the last change is not published;
- a change loses its document: all behind it is as on one thread that cannot read that change;
- the run ends with the status 3 and `gqls: NoMemory`, or `gqls: NoThread` where nothing was written; a front of the frames is written.

No question stays without a reply: a worker tries an order once more, and so it does what it keeps before its first one. Where all growths
of one worker are refused, each of the first two may come several times, and one order is lost, so that its question is pending until
a change or the shutdown decides it, or its list does not come; the run ends as with ample memory as long as there is another worker, and
else with `gqls: Closed`, or what was put before has no reply. Where all growths are refused, all of these may come. With `--threads` a
thread cannot be made, each in turn, the reader's last: the run ends with `gqls: NoThread`, and nothing is written.

A run that lasts 20 seconds longer than its client needs is ended, and told as one that hangs. Each run that is not so is printed: the session,
what was refused, and what is wrong. With `--minutes` no run begins that much later, and how many did not is told. The tables count what the
runs came to, and to which threads growths were refused. The status is 1 where a run was not as it must be."""
import argparse
import collections
import copy
import json
import multiprocessing
import os
import random
import sys
import tempfile
import time

from cases import SERVE
from folders import FOLDER, Server
from schedules import METHODS, TIMES_SLOWER, Desk, Maker, Message, learn_all, many_threads, one_thread, replies_of, wrong_reply
from trials import CHANGE, STORED, compiled, environment, framed, new_counts, numbers_in, parts_of, sessions, sessions_over_folders

STATUS, LIMIT, SETTLE, PATIENCE, MANY = 3, 20, 1, 0.1, 1000
GROWTHS, REFUSALS, REFUSED_THREAD, GROWTHS_OF = 0, 4, 5, 6
DESK_THREAD, FIRST_WORKER = 1, 2
REFUSAL = {"code": -32803, "message": "12 NoMemory"}
KINDS = {"textDocument/didOpen": "change", CHANGE: "change", "textDocument/didClose": "close", "$/cancelRequest": "cancel"}
OUTCOMES = (
    "as with ample memory",
    "an ask refused",
    "not published",
    "a document lost",
    "an order lost",
    "ended with NoMemory",
    "ended with Closed",
    "ended with NoThread",
    "hangs",
    "else",
)
SAME, REFUSED, UNPUBLISHED, LOST, NO_ORDER, *_, HANGS, WRONG = OUTCOMES
ONE, ALL, ONE_OF_WORKER, ALL_OF_WORKER, NO_THREAD = (
    "one growth",
    "all growths from one on",
    "one growth of a worker",
    "all growths of a worker from one on",
    "the making of a thread",
)

Allowed = collections.namedtuple("Allowed", "refusals orders faults")
Trial = collections.namedtuple("Trial", "what settings allowed")
Came = collections.namedtuple("Came", "what outcome thread why")
NOTHING = Allowed(0, 0, set())


class Written(Message):
    """A message of a case, as it stands there."""

    def __init__(self, body, versions):
        parts = parts_of(body)
        self.body, method, number = body, parts.get("method"), parts.get("id")
        kind = "request" if "id" in parts else KINDS.get(method, "other")
        if "id" in parts and method in {f"textDocument/{name}" for name in METHODS}:
            kind = "ask"
        super().__init__(kind, method, parts.get("params"), number)
        document = (self.params or {}).get("textDocument") or {}
        if kind in ("change", "close"):
            versions[os.path.basename(document["uri"])] = document.get("version") if kind == "change" else None
        self.versions = dict(versions)

    def framed(self):
        return framed(self.body)


def is_plain(body):
    """Whether it is a message of an editor, with an id of its own if any."""
    parts = parts_of(body)
    if not isinstance(parts.get("method"), str) or "id" in parts and type(parts["id"]) not in (int, str):
        return False
    if KINDS.get(parts["method"]) in ("change", "close"):
        document = parts["params"].get("textDocument") if isinstance(parts.get("params"), dict) else None
        return isinstance(document, dict) and isinstance(document.get("uri"), str)
    return parts["method"] != "$/cancelRequest" or "id" in (parts.get("params") or {})


def ends(body):
    return parts_of(body).get("method") in ("shutdown", "exit")


def written_messages(case, folder):
    """The messages of a case, each up to its shutdown, and then a shutdown; none where it is no session of an editor."""
    bodies = [body.replace(FOLDER, b"file://" + os.fsencode(folder)) for body in case.bodies]
    bodies = bodies[: next((at for at, body in enumerate(bodies) if ends(body)), len(bodies))]
    numbers = [json.dumps(parts_of(body)["id"]) for body in bodies if "id" in parts_of(body)]
    closes = any(parts_of(body).get("method") == "textDocument/didClose" for body in bodies)
    has_folder = "--root" in case.words
    if case.rest or not bodies or len(set(numbers)) < len(numbers) or has_folder and closes or not all(map(is_plain, bodies)):
        return None
    versions = {}
    made = [Written(body, versions) for body in bodies]
    return made + [Message("shutdown", "shutdown", None, "shutdown"), Message("exit", "exit", None)]


class Case:
    """A session of a case, or where it has a number one made by chance: how it is laid in a folder."""

    def __init__(self, name, case=None, seed=None):
        self.name, self.case, self.seed = name, case, seed

    def laid(self, folder):
        """The words of its command line, its messages, and whether its client waits in the end."""
        if self.case:
            self.case.lay(folder)
            return [word.replace("DIR", folder) for word in self.case.words[len(SERVE) :]], written_messages(self.case, folder), True
        maker = Maker(self.seed, folder)
        messages = maker.make()
        for name, texts in maker.files.items():
            with open(os.path.join(folder, name), "w", encoding="utf-8") as file:
                file.write(texts[-1])
        return ["--root", folder] if maker.has_folder else [], messages, maker.waits


class Session:
    """A session in its folder, and what one thread writes for it, also where a change cannot be read."""

    def __init__(self, program, library, case, folder):
        self.library, self.case = library, case
        words, self.messages, self.waits = case.laid(folder)
        self.command, self.lost = [program, "serve", *words], {}
        start = time.monotonic()
        self.learn(self.messages)
        self.settle = SETTLE + TIMES_SLOWER * (time.monotonic() - start)
        lists = [message.wrong for message in self.messages if message.wrong]
        earlier = {one for other in lists[:-1] for one in other}
        # (a last list that is told before, too, cannot be waited for)
        self.waits = self.waits and not (lists and earlier.issuperset(lists[-1]))

    def learn(self, messages):
        status, groups = one_thread(self.command, messages)
        if status != 0:
            raise ValueError(f"the status with 0 workers is {status}")
        learn_all(messages, groups)

    def where_lost(self, number):
        """The messages, and what one thread writes for them where that change cannot be read."""
        if number not in self.lost:
            messages = [again(message) for message in self.messages]
            messages[number] = Message("change", CHANGE, dict(messages[number].params, contentChanges="unreadable"))
            self.learn(messages)
            self.lost[number] = messages
        return self.lost[number]

    def changes(self):
        return [number for number, message in enumerate(self.messages) if message.method == CHANGE and isinstance(message.params, dict)]

    def run(self, workers, settings, chance):
        """What is written with so many workers, the end, and what was counted."""
        with tempfile.TemporaryDirectory() as outer:
            counts = new_counts(outer)
            words = [f"{name}={value}" for name, value in environment(self.library, counts, settings).items()]
            seconds = LIMIT + self.settle + PATIENCE * len(self.messages)
            server = Server(["env", *words, *self.command, "--workers", str(workers)], seconds)
            status, told, errors = many_threads(server, self.messages, chance, self.waits and self.settle, PATIENCE)
            return told, (status, errors), numbers_in(counts)


def again(message):
    """The same message, of which nothing is known yet."""
    fresh = copy.copy(message)
    fresh.own, fresh.answer, fresh.wrong = [], None, []
    return fresh


class RefusedDesk(Desk):
    """What a client can know of a server to which growths are refused: so many refusals and lost orders may yet show."""

    def __init__(self, messages, waits, fault, refusals, orders, came=()):
        super().__init__(messages, waits)
        self.fault, self.refusals, self.orders, self.came = fault, refusals, orders, came

    def state(self):
        return (*super().state(), self.refusals, self.orders, self.came)

    def restore(self, state):
        super().restore(state[:3])
        self.refusals, self.orders, self.came = state[3:]

    def note(self, outcome):
        self.came += (outcome,)
        self.refusals -= 1

    def is_cut_off(self, left, wanted):
        return bool(self.fault and self.refusals and left == wanted[: len(left)])

    def by_workers(self, told, may_be_list):
        body = json.loads(told[0].partition(b"\r\n\r\n")[2])
        if self.refusals and body.get("error") == REFUSAL and body.get("id") in self.pending:
            del self.pending[body["id"]]
            self.note(REFUSED)
            return 1, None
        return super().by_workers(told, may_be_list)

    def must_have_come(self):
        why = super().must_have_come()
        if not why or not self.refusals or len(self.pending) > self.orders:
            return why
        if self.pending:
            self.orders -= len(self.pending)
            self.came += (NO_ORDER,)
        if self.list:
            self.note(UNPUBLISHED)
        return None


def readings(session, fault, allowed):
    """The desks that may have written what was told, the likeliest first: what was refused shows seldom."""
    least = 1 if fault else 0
    for refusals in sorted({least, min(2, allowed.refusals), allowed.refusals}):
        yield RefusedDesk(session.messages, session.waits, fault, refusals, allowed.orders if refusals else 0)
    if allowed.refusals > least:
        for number in session.changes():
            yield RefusedDesk(session.where_lost(number), session.waits, fault, allowed.refusals - 1, allowed.orders, (LOST,))


def judged(session, told, end, allowed):
    """What a run came to, and what is wrong with it, if something is."""
    status, errors = end
    if status < 0:
        return (HANGS if status == -9 else WRONG), f"it is ended after {LIMIT} seconds, or by a signal: {status} {errors!r}"
    fault = next((name for name in allowed.faults if end == (STATUS, f"gqls: {name}\n".encode())), None)
    if not fault and end != (0, b""):
        return WRONG, f"it ends with {status} {errors[-200:]!r}"
    if fault == "NoThread" and told:
        return WRONG, "it ends with NoThread, and has written something"
    replies = replies_of(told)
    for message in session.messages:
        of_it = replies.pop(json.dumps(message.number), []) if message.number is not None else []
        why = wrong_reply(message, of_it) if message.number is not None and (of_it or not fault) else None
        if why:
            return WRONG, why
    if replies:
        return WRONG, f"there are replies to {', '.join(replies)}, which were not asked"
    first = None
    for desk in readings(session, fault, allowed):
        why = desk.judge(told)
        if not why:
            return (f"ended with {fault}" if fault else max(desk.came, key=OUTCOMES.index, default=SAME)), None
        first = first or why
    return WRONG, first


def places(count, most):
    """So many of the numbers from 1 on, at even distances."""
    return range(1, count + 1, max(1, -(-count // most)))


def trials_of(counts, workers, most, has_threads):
    """What is refused in turn, by what a run with ample memory counted, and what may come of it."""
    closed, one_less = ({"Closed"}, MANY) if workers == 1 else (set(), 1)
    one, every = Allowed(1, 0, {"NoMemory", "NoThread"}), Allowed(MANY, MANY, {"NoMemory", "NoThread", "Closed"})
    for number in places(counts[GROWTHS], most):
        yield Trial(ONE, {"REFUSE_AT": number}, one)
        yield Trial(ALL, {"REFUSE_AT": number, "REFUSE_ALL": 1}, every)
    threads = range(FIRST_WORKER, FIRST_WORKER + workers)
    each = max(1, most // workers)
    for thread in threads:
        for number in places(max(counts[GROWTHS_OF + one] for one in threads), each):
            own = {"REFUSE_AT": number, "REFUSE_OF": thread}
            yield Trial(ONE_OF_WORKER, own, Allowed(1, 0, set()))
            yield Trial(ALL_OF_WORKER, own | {"REFUSE_ALL": 1}, Allowed(MANY, one_less, closed))
    for number in range(1, workers + 2) if has_threads else ():
        yield Trial(NO_THREAD, {"THREAD_AT": number}, Allowed(1, 0, {"NoThread"}))


def came_of(session, workers, trial):
    """What came of a run in which something was refused."""
    words = " ".join(f"{name}={value}" for name, value in trial.settings.items())
    told, end, counts = session.run(workers, trial.settings, random.Random(f"{session.case.name} {words}"))
    is_refused = counts[REFUSALS] or "THREAD_AT" in trial.settings
    try:
        outcome, why = judged(session, told, end, trial.allowed if is_refused else NOTHING)
    except ValueError as error:
        outcome, why = WRONG, f"what is written cannot be read: {error}"
    place = f"{session.case.name}, {trial.what}, {words}, refused to thread {counts[REFUSED_THREAD]}"
    return Came(trial.what, outcome, counts[REFUSED_THREAD] if counts[REFUSALS] else None, why and f"{place}: {why}")


def tried(task):
    """What came of the runs of a session, how many growths it has, and how many runs were left out."""
    program, library, case, asked, deadline = task
    came, left_out = [], 0
    try:
        with tempfile.TemporaryDirectory() as outer:
            folder = os.path.join(os.path.realpath(outer), "w")
            os.mkdir(folder)
            session = Session(program, library, case, folder)
            told, end, counts = session.run(asked.workers, {}, random.Random(case.name))
            outcome, why = judged(session, told, end, NOTHING)
            if why:
                return 0, [Came("nothing", outcome, None, f"{case.name}, with ample memory: {why}")], 0
            for trial in trials_of(counts, asked.workers, asked.most, asked.threads):
                if time.time() < deadline:
                    came.append(came_of(session, asked.workers, trial))
                else:
                    left_out += 1
            return counts[GROWTHS], came, left_out
    except Exception as error:
        return 0, [*came, Came("nothing", WRONG, None, f"{case.name}: {type(error).__name__}: {error}")], left_out


def is_session(case):
    """Whether it is a session of an editor, and not one of many rows."""
    return bool((case.name == STORED or ".sessions" in case.name) and written_messages(case, "/w"))


def all_cases(asked):
    """The sessions that are asked for, those made by chance first."""
    found = [Case(f"by chance {seed}", seed=seed) for seed in range(asked.sessions)]
    found += [Case(case.name, case=case) for case in (*sessions(), *sessions_over_folders()) if is_session(case)]
    return [case for case in found if asked.text in case.name]


def print_tables(came, workers):
    """What the runs came to, by what was refused, and to whom."""
    print(f"| Refused | Runs | {' | '.join(OUTCOMES)} |\n|{'---|' * (len(OUTCOMES) + 2)}")
    for what in sorted({one.what for one in came}):
        counts = collections.Counter(one.outcome for one in came if one.what == what)
        print(f"| {what} | {counts.total()} | {' | '.join(str(counts[one]) for one in OUTCOMES)} |")
    names = {DESK_THREAD: "the desk's", FIRST_WORKER + workers: "the reader's"}
    threads = collections.Counter(names.get(one.thread, "a worker's") for one in came if one.thread is not None)
    print(f"\nthe thread that was first refused a growth: {', '.join(f'{name} {number}' for name, number in sorted(threads.items()))}")


def main():
    parser = argparse.ArgumentParser(description=__doc__, formatter_class=argparse.RawDescriptionHelpFormatter)
    parser.add_argument("program")
    parser.add_argument("text", nargs="?", default="")
    parser.add_argument("--workers", type=int, default=2, choices=range(1, 9))
    parser.add_argument("--most", type=int, default=24)
    parser.add_argument("--sessions", type=int, default=24)
    parser.add_argument("--minutes", type=float, default=60)
    parser.add_argument("--jobs", type=int, default=os.cpu_count())
    parser.add_argument("--threads", action="store_true")
    asked = parser.parse_intermixed_args()
    cases, came, growths, left_out = all_cases(asked), [], 0, 0
    deadline = time.time() + 60 * asked.minutes
    with tempfile.TemporaryDirectory() as folder, multiprocessing.Pool(asked.jobs) as pool:
        library, program = compiled(folder), os.path.abspath(asked.program)
        for count, ran, missed in pool.imap_unordered(tried, [(program, library, case, asked, deadline) for case in cases]):
            growths, left_out, came = growths + count, left_out + missed, came + ran
            for one in [one for one in ran if one.why][:3]:
                print(one.why, flush=True)
    print_tables(came, asked.workers)
    failed = sum(bool(one.why) for one in came)
    print(f"{len(came) - failed} passed, {failed} failed, {len(cases)} sessions, {growths} growths, {left_out} runs left out")
    return 1 if failed or not came else 0


if __name__ == "__main__":
    sys.exit(main())
