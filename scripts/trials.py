"""What scripts/refused_memory.py and scripts/failing_devices.py share: what they run of crates/gqls, and a library that makes calls of the
program fail. It is compiled for them, and loaded before the C library's; only calls that the program itself makes are counted. Counts are
of all threads together, and of growths also of each thread alone: the first thread has the number 1, and each that is made the next one,
up to 15; the others share the number 0.

A session is a list of bodies, each in a frame of its own, and what stands behind these in the input. To know which messages of a server
belong to which body, the session is served once more with a request behind each body that no server knows: what comes between the errors
that answer two of these belongs to the body between them."""
import glob
import json
import os
import struct
import subprocess
import tempfile

from cases import CRATE, SERVE, contents, frames
from folders import CHANGES, FOLDER, Server, read_sessions
from rows import read_rows

SOURCE = r"""
#define _GNU_SOURCE
#include <dlfcn.h>
#include <errno.h>
#include <fcntl.h>
#include <link.h>
#include <pthread.h>
#include <stdatomic.h>
#include <stdlib.h>
#include <sys/mman.h>
#include <sys/syscall.h>
#include <sys/uio.h>
#include <sys/wait.h>
#include <string.h>
#include <unistd.h>
extern void *__libc_malloc(size_t);
extern void *__libc_realloc(void *, size_t);
extern void __libc_free(void *);
enum { GROWTHS, READS, WRITES, KINDS, THREADS = KINDS, REFUSALS, REFUSED_THREAD, GROWTHS_OF, THREADS_MOST = 16, NUMBERS = GROWTHS_OF + THREADS_MOST };
static uintptr_t from, to;
static atomic_long unshared[NUMBERS], *counts = unshared;
static long first, all, of_thread, no_thread, files, at[KINDS], error[KINDS], most[KINDS];
static _Thread_local long thread __attribute__((tls_model("initial-exec")));
/* Each growth is refused in turn, in a child made at it: the growth alone, then it and all behind it. What the child wrote is put into a log,
   where that comes for the first time, and is taken back from the files of the outputs. A fork copies one thread alone, so no other can be made. */
enum { SEEN = 1 << 20, STANDARD = 3 };
static long forking;
static int is_child, log_file = -1;
static uintptr_t heap_end;
static unsigned long seen[SEEN];
static unsigned long sum(unsigned long start, const unsigned char *bytes, long count) {
    for (long i = 0; i < count; i++) start = (start ^ bytes[i]) * 1099511628211ul;
    return start;
}
static int is_first(unsigned long number) {
    unsigned long place = number % SEEN;
    if (!number) number = 1;
    while (seen[place] && seen[place] != number) place = (place + 1) % SEEN;
    return seen[place] == number ? 0 : (seen[place] = number, 1);
}
static void put(const void *bytes, long count) {
    for (long done = 0; done < count;) {
        ssize_t now = syscall(SYS_write, log_file, (const char *)bytes + done, count - done);
        if (now <= 0) _exit(99);
        done += now;
    }
}
static void note(long number, long goes_on, long status, const off_t *old) {
    static unsigned char bytes[STANDARD][1 << 24];
    long sizes[STANDARD] = {0}, record[7];
    unsigned long key = sum(14695981039346656037ul, (unsigned char *)(long[]){goes_on, status, old[1], old[2]}, 4 * sizeof(long));
    for (int file = 1; file < STANDARD; file++) {
        sizes[file] = pread(file, bytes[file], sizeof bytes[file], old[file]);
        if (sizes[file] < 0) _exit(99);
        key = sum(key, bytes[file], sizes[file]);
    }
    int is_new = is_first(key);
    memcpy(record, (long[]){number, goes_on, status, is_new, old[1], is_new ? sizes[1] : 0, is_new ? sizes[2] : 0}, sizeof record);
    put(record, sizeof record);
    put(&key, sizeof key);
    if (is_new) put(bytes[1], sizes[1]), put(bytes[2], sizes[2]);
}
static int is_refused_in_child(long number) {
    for (long goes_on = 0; goes_on < 2; goes_on++) {
        off_t old[STANDARD];
        int status;
        for (int file = 0; file < STANDARD; file++) old[file] = lseek(file, 0, SEEK_CUR);
        pid_t child = fork();
        if (child < 0) _exit(97);
        if (!child) {
            memcpy(unshared, counts, sizeof unshared);
            is_child = 1, counts = unshared, first = number, all = goes_on, heap_end = (uintptr_t)sbrk(0);
            alarm(100);
            return 1;
        }
        waitpid(child, &status, 0);
        note(number, goes_on, status, old);
        for (int file = 0; file < STANDARD; file++) {
            if (file && ftruncate(file, old[file])) _exit(96);
            lseek(file, old[file], SEEK_SET);
        }
    }
    return 0;
}
static int look(struct dl_phdr_info *info, size_t size, void *data) {
    for (int i = 0; i < info->dlpi_phnum; i++)
        if (info->dlpi_phdr[i].p_type == PT_LOAD && info->dlpi_phdr[i].p_flags & PF_X) {
            from = info->dlpi_addr + info->dlpi_phdr[i].p_vaddr;
            to = from + info->dlpi_phdr[i].p_memsz;
        }
    return 1;
}
static long setting(const char *name) { char *word = getenv(name); return word ? atol(word) : 0; }
__attribute__((constructor)) static void start(void) {
    thread = 1;
    char *path = getenv("TRIAL_COUNTS");
    if (path) {
        void *place = mmap(0, sizeof unshared, PROT_READ | PROT_WRITE, MAP_SHARED, open(path, O_RDWR), 0);
        if (place != MAP_FAILED) counts = place;
    }
    char *log_path = getenv("TRIAL_LOG");
    if (log_path) log_file = open(log_path, O_WRONLY | O_APPEND), forking = log_file >= 0;
    first = setting("REFUSE_AT");
    all = setting("REFUSE_ALL");
    of_thread = setting("REFUSE_OF");
    no_thread = setting("THREAD_AT");
    files = setting("READ_FILES");
    at[READS] = setting("READ_AT"), error[READS] = setting("READ_ERROR"), most[READS] = setting("READ_MOST");
    at[WRITES] = setting("WRITE_AT"), error[WRITES] = setting("WRITE_ERROR"), most[WRITES] = setting("WRITE_MOST");
    dl_iterate_phdr(look, 0);
}
static int is_own(void *caller) { return from <= (uintptr_t)caller && (uintptr_t)caller < to; }
static int refused(void *caller) {
    if (!is_own(caller)) return 0;
    long number = atomic_fetch_add(&counts[GROWTHS], 1) + 1, own = atomic_fetch_add(&counts[GROWTHS_OF + thread], 1) + 1, nobody = 0;
    if (forking && !is_child) return is_refused_in_child(number);
    if (of_thread) number = of_thread == thread ? own : 0;
    if (!first || number < first || (number > first && !all)) return 0;
    atomic_fetch_add(&counts[REFUSALS], 1);
    atomic_compare_exchange_strong(&counts[REFUSED_THREAD], &nobody, thread);
    return 1;
}
void *malloc(size_t size) {
    if (refused(__builtin_return_address(0))) { errno = ENOMEM; return 0; }
    return __libc_malloc(size);
}
void *realloc(void *place, size_t size) {
    if (refused(__builtin_return_address(0))) { errno = ENOMEM; return 0; }
    return __libc_realloc(place, size);
}
/* A child gives back nothing that it has from its parent: each page that it wrote to would be copied. */
void free(void *place) {
    if (!is_child || (uintptr_t)place >= heap_end) __libc_free(place);
}
static struct beginning { void *(*run)(void *); void *with; long number; } beginnings[THREADS_MOST];
static void *begin(void *place) {
    struct beginning *one = place;
    thread = one->number;
    return one->run(one->with);
}
int pthread_create(pthread_t *made, const pthread_attr_t *how, void *(*run)(void *), void *with) {
    int (*create)(pthread_t *, const pthread_attr_t *, void *(*)(void *), void *) = dlsym(RTLD_NEXT, "pthread_create");
    long number = atomic_fetch_add(&counts[THREADS], 1) + 2;
    if (forking || number - 1 == no_thread) return EAGAIN;
    if (number >= THREADS_MOST) return create(made, how, run, with);
    beginnings[number] = (struct beginning){run, with, number};
    return create(made, how, begin, &beginnings[number]);
}
static ssize_t moved(int kind, void *caller, int file, void *place, size_t size) {
    long call = kind == READS ? SYS_read : SYS_write;
    if (is_own(caller) && (kind == WRITES ? file == 1 : files ? file > 2 : file == 0)) {
        long number = atomic_fetch_add(&counts[kind], 1) + 1;
        if (number == at[kind]) {
            if (!error[kind]) return 0;
            errno = error[kind];
            return -1;
        }
        if (most[kind] && size > (size_t)most[kind]) size = most[kind];
    }
    return syscall(call, file, place, size);
}
static ssize_t moved_parts(int kind, void *caller, int file, const struct iovec *parts, int count) {
    int i = 0;
    while (i + 1 < count && !parts[i].iov_len) i++;
    return moved(kind, caller, file, parts[i].iov_base, parts[i].iov_len);
}
ssize_t read(int file, void *place, size_t size) { return moved(READS, __builtin_return_address(0), file, place, size); }
ssize_t write(int file, const void *place, size_t size) {
    return moved(WRITES, __builtin_return_address(0), file, (void *)place, size);
}
ssize_t readv(int file, const struct iovec *parts, int count) {
    return moved_parts(READS, __builtin_return_address(0), file, parts, count);
}
ssize_t writev(int file, const struct iovec *parts, int count) {
    return moved_parts(WRITES, __builtin_return_address(0), file, parts, count);
}
"""
NUMBERS = 22
SECONDS = 120
STORED, ALL = "stdin", 1_000_000
PUBLISH = "textDocument/publishDiagnostics"
CHANGE = "textDocument/didChange"


def compiled(folder):
    """The library that makes calls fail."""
    source, library = os.path.join(folder, "trials.c"), os.path.join(folder, "trials.so")
    with open(source, "w", encoding="ascii") as file:
        file.write(SOURCE)
    subprocess.run(["cc", "-O1", "-shared", "-fPIC", "-o", library, source], check=True)
    return library


def framed(body):
    return b"Content-Length: %d\r\n\r\n" % len(body) + body


def most_for(case, most):
    """At how many places a case is tried, at most: the stored run at all."""
    return ALL if case.name == STORED else most


class Case:
    """Words of a command line, what goes to the standard input, and what lies in the folder, which DIR and file:///w stand for. One of
    another program has its path."""

    def __init__(self, name, words, bodies=(), rest=b"", steps=(), program=None):
        self.name = name
        self.program = program
        self.words = words
        self.bodies = list(bodies)
        self.rest = rest
        self.steps = list(steps)

    @property
    def serves(self):
        return self.program is None and self.words[0] == "serve"

    @property
    def changes(self):
        return any(isinstance(body, Change) for body in self.bodies)

    @property
    def writes(self):
        return "--write" in self.words

    def lay(self, folder):
        """Makes what lies in the folder."""
        for word, rest in self.steps:
            if word == "bytes":
                name, data = rest
                path = os.path.join(folder, name)
                os.makedirs(os.path.dirname(path), exist_ok=True)
                if not os.path.exists(path):
                    with open(path, "wb") as file:
                        file.write(data)
            else:
                CHANGES[word](folder, rest)


def without_start_of(name, output):
    """The output, without a start of that name at its end, as a write that fails leaves one."""
    length = next((length for length in range(len(name) - 1, 0, -1) if output.endswith(name[:length])), 0)
    return output[: len(output) - length]


def new_counts(folder):
    """A file for the library to count in."""
    path = os.path.join(folder, "counts")
    with open(path, "wb") as file:
        file.write(bytes(8 * NUMBERS))
    return path


def numbers_in(path):
    """What was counted: growths, reads and writes, threads that were made, growths that were refused, the thread that was first refused one
    (0 for none), and the growths of each thread from 0 on."""
    return struct.unpack(f"{NUMBERS}q", contents(path, b""))


def environment(library, counts, settings):
    """What tells the library where it counts, and what fails."""
    return {name: str(number) for name, number in settings.items()} | {"TRIAL_COUNTS": counts, "LD_PRELOAD": library}


def files_in(folder):
    """The bytes of the files in a folder, by their paths in it."""
    paths = [path for path in glob.glob(os.path.join(folder, "**"), recursive=True) if os.path.isfile(path)]
    return {os.path.relpath(path, folder): contents(path, b"") for path in paths}


class Ran:
    """What a run wrote, how it ended, how many growths, reads and writes it asked for, and the files that it left in its folder."""

    def __init__(self, output, errors, status, counts, folder, files=None):
        name = os.fsencode(folder)
        self.output = output.replace(name, b"/w")
        self.front = without_start_of(name, self.output)
        self.errors = errors.replace(name, b"/w")
        self.status = status
        self.growths, self.reads, self.writes = counts[:3]
        self.files = files
        self.messages = [read_message(one.partition(b"\r\n\r\n")[2].replace(name, b"/w")) for one in frames(output)]

    def is_as(self, other):
        return (self.output, self.errors, self.status) == (other.output, other.errors, other.status)

    def ends_as(self, other):
        return (self.errors, self.status) == (other.errors, other.status)


def read_message(body):
    """A message, or where a frame has none what it has."""
    try:
        found = json.loads(body)
    except ValueError:
        found = None
    return found if isinstance(found, dict) else {"broken": body[-80:].decode(errors="replace")}


class Runner:
    """Runs the program over cases."""

    def __init__(self, program, library):
        self.program, self.library = program, library

    def run(self, case, settings=None, count=None):
        """A run of a case, or over so many bytes of its input alone, with these settings of the library."""
        if case.changes:
            return self.run_in_steps(case, settings)
        with tempfile.TemporaryDirectory() as outer:
            folder = os.path.join(os.path.realpath(outer), "w")
            os.mkdir(folder)
            case.lay(folder)
            counts, stream = new_counts(outer), os.path.join(outer, "input")
            with open(stream, "wb") as file:
                file.write(stream_of(case, folder)[:count])
            with open(stream, "rb") as file:
                ran = subprocess.run(
                    [case.program or self.program, *(word.replace("DIR", folder) for word in case.words)],
                    cwd=folder,
                    env=os.environ | environment(self.library, counts, settings or {}),
                    stdin=file,
                    capture_output=True,
                    timeout=SECONDS,
                )
            numbers, files = numbers_in(counts), files_in(folder) if case.writes else None
        return Ran(ran.stdout, ran.stderr, ran.returncode, numbers, folder, files)

    def run_in_steps(self, case, settings):
        """A run in which the folder changes between two messages: once a request behind the first that no server knows is answered, or the run
        has ended. These answers are left out."""
        with tempfile.TemporaryDirectory() as outer:
            folder = os.path.join(os.path.realpath(outer), "w")
            os.mkdir(folder)
            case.lay(folder)
            counts = new_counts(outer)
            words = [self.program, *(word.replace("DIR", folder) for word in case.words)]
            server = Server(words, SECONDS, os.environ | environment(self.library, counts, settings or {}))
            for number, body in enumerate(case.bodies):
                if isinstance(body, Change):
                    server.write(framed(mark(f"step {number}")))
                    server.await_that(lambda output: name_of_mark(f"step {number}").encode() in output, SECONDS)
                    CHANGES[body.step[0]](folder, body.step[1])
                else:
                    server.write(framed(body.replace(FOLDER, b"file://" + os.fsencode(folder))))
            status = server.end()
            told = b"".join(one for one in frames(bytes(server.output)) if name_of_mark("step ").encode() not in one)
            return Ran(told, bytes(server.errors), status, numbers_in(counts), folder)

    def groups(self, case, lost=frozenset()):
        """The messages that belong to each body, where these changes cannot be read, and behind them those of the rest."""
        bodies = []
        for number, body in enumerate(case.bodies):
            bodies += [unreadable(body) if number in lost else body, mark(number)]
        groups = [[]]
        for message in self.run(Case(case.name, case.words, bodies, case.rest, case.steps)).messages:
            if message.get("id") == name_of_mark(len(groups) - 1):
                groups.append([])
            else:
                groups[-1].append(message)
        return groups + [[] for _ in range(len(case.bodies) + 1 - len(groups))]


def frames_of(case, folder):
    """The frames of the bodies of a case, in which the folder has its name."""
    return [framed(body.replace(FOLDER, b"file://" + os.fsencode(folder))) for body in case.bodies]


def stream_of(case, folder):
    """The input of a case."""
    return b"".join(frames_of(case, folder)) + case.rest


def sizes_of(case):
    """The sizes of its frames in a run; the folders of all runs have names of one length."""
    with tempfile.TemporaryDirectory() as outer:
        return [len(one) for one in frames_of(case, os.path.join(os.path.realpath(outer), "w"))]


def name_of_mark(number):
    return f"behind body {number}"


def mark(number):
    """A request that no server knows."""
    return json.dumps({"jsonrpc": "2.0", "id": name_of_mark(number), "method": "$/mark"}).encode()


def parts_of(body):
    """A body as an object, if it is one."""
    try:
        found = json.loads(body)
    except ValueError:
        return {}
    return found if isinstance(found, dict) else {}


def is_change(body):
    """Whether it is a change of a text whose version can be read, so that it is one for the server whatever else it holds."""
    parts = parts_of(body)
    if parts.get("method") != CHANGE or "id" in parts or not isinstance(parts.get("params"), dict):
        return False
    document = parts["params"].get("textDocument")
    return isinstance(document, dict) and type(document.get("version")) is int


def unreadable(body):
    """The change with the same document and version, and changes that cannot be read."""
    parts = parts_of(body)
    parts["params"]["contentChanges"] = "unreadable"
    return json.dumps(parts).encode()


def cut_frames(data):
    """The bodies of the frames at the front of the input, and what stands behind them."""
    parts = frames(data)
    rest = parts.pop() if parts and b"".join(parts) == data and not is_frame(parts[-1]) else b""
    return [one.partition(b"\r\n\r\n")[2] for one in parts], rest


def is_frame(part):
    head, _, body = part.partition(b"\r\n\r\n")
    return head == b"Content-Length: %d" % len(body)


def sessions():
    """The stored run and the cases, each a session."""
    words = contents(os.path.join(CRATE, "args"), b"").decode().split()
    yield Case(STORED, words, *cut_frames(contents(os.path.join(CRATE, "stdin"), b"")))
    for path in sorted(glob.glob(os.path.join(CRATE, "cases", "*"))):
        if os.path.exists(f"{path}.stdout"):
            more = [word for word in contents(f"{path}.args", b"").decode().split("\n") if word]
            if "{}" not in more:
                yield Case(os.path.basename(path), SERVE + more, *cut_frames(contents(path, b"")))


class Change(bytes):
    """A change of a folder between two messages. It stands among the bodies of a case, as one that is empty."""

    def __new__(cls, step):
        made = super().__new__(cls)
        made.step = step
        return made


def sessions_over_folders(changing=False, many=False):
    """The sessions over folders: those in which something changes once messages come, or the others; those with files by the thousand, or the
    others."""
    for path in sorted(glob.glob(os.path.join(CRATE, "folders", "*.sessions"))):
        for session in read_sessions(path):
            words = [word for word, _ in session.steps]
            first = next((at for at, word in enumerate(words) if word not in CHANGES), len(words))
            if ("files" in words) == many and any(word in CHANGES for word in words[first:]) == changing:
                steps = [step for step in session.steps[first:] if step[0] != "<-"]
                bodies = [rest.encode() if word == "->" else Change((word, rest)) for word, rest in steps]
                more = ["--root", session.root.replace("{}", "DIR")]
                yield Case(f"{os.path.basename(path)}:{session.line}", SERVE + more, bodies, b"", session.steps[:first])


def commands(writing=False):
    """The rows of commands: those that write files, or the others."""
    for path in sorted(glob.glob(os.path.join(CRATE, "commands", "*.rows"))):
        for row in read_rows(path):
            words, names, steps = [os.path.basename(path).split(".")[0]], [], []
            for entry in row.entries:
                if entry.key == "--op":
                    words += ["--op", entry.bytes.decode()]
                elif entry.key == "--words":
                    words += entry.bytes.decode().split(" ")
                elif entry.key == "--root":
                    words += ["--root", entry.bytes.decode()]
                elif entry.key != "--shown":
                    name = entry.key
                    if name.startswith("--"):
                        name = f"{name[2:]}.json"
                        words += [entry.key, name]
                    else:
                        names.append(name)
                    if entry.bytes is not None:
                        steps.append(("bytes", (name, entry.bytes)))
            case = Case(f"{os.path.basename(path)}:{row.line}", words + ([] if "--root" in words else names), steps=steps)
            if case.writes == writing:
                yield case


def programs_of_rows():
    """The files of rows of gq_rows, each run by the program that judges them, where that is built."""
    crate = os.path.join(os.path.dirname(CRATE), "gq_rows")
    program = os.path.join(crate, "out", "gq_rows")
    if not os.path.exists(program):
        print(f"{program} is not built: its rows are not run", flush=True)
        return
    for path in sorted(glob.glob(os.path.join(crate, "data", "*"))):
        file = os.path.basename(path)
        yield Case(f"gq_rows:{file}", [file], steps=[("bytes", (file, contents(path, b"")))], program=program)
