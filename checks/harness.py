"""What the checks share: the program, cases, runs of a program, programs in the background, addresses, limits of time. Each takes
this word:

    [PROGRAM]      another program than crates/batchdb/out/batchdb

checks/hostile, checks/faults, checks/http and checks/drawn also share tallies, stories, nodes, and the test of what a journal kept. They
take more words:

    --only PART    one part alone
    --few          a twentieth of the inputs, for a quick look
    --every        all inputs of a part that tries some of them alone
    --jobs N       how many processes at once; as many as there are processors if not given
    --shown N      how many failures of a part are shown

checks/page takes one more:

    --pictures FOLDER    a folder into which pictures of the pages are written
"""

import argparse
import collections
import concurrent.futures
import contextlib
import functools
import os
import re
import shutil
import socket
import subprocess
import sys
import tempfile
import threading
import time
import traceback

import reference as own

ROOT = os.path.dirname(os.path.dirname(os.path.abspath(__file__)))
PARSER = argparse.ArgumentParser()
PARSER.add_argument("program", nargs="?", default=f"{ROOT}/crates/batchdb/out/batchdb")
# These checks have so many inputs that they are divided into parts.
if os.path.basename(sys.argv[0]) in ("hostile", "faults", "http", "drawn"):
    PARSER.add_argument("--only", metavar="PART", help="one part alone")
    PARSER.add_argument("--few", action="store_true", help="a twentieth of the inputs, for a quick look")
    PARSER.add_argument("--every", action="store_true", help="all inputs of a part that tries some of them alone")
    PARSER.add_argument("--jobs", type=int, default=len(os.sched_getaffinity(0)), metavar="N", help="how many processes at once")
    PARSER.add_argument("--shown", type=int, default=5, metavar="N", help="how many failures of a part are shown")
if os.path.basename(sys.argv[0]) == "page":
    PARSER.add_argument("--pictures", metavar="FOLDER", help="a folder into which pictures of the pages are written")
WORDS = PARSER.parse_args()
PROGRAM = os.path.abspath(WORDS.program)
FEW = 20
# No case takes nearly as long; it keeps a program that does not end from being waited for.
SECONDS_MAX = 120
SHOWN_LENGTH = 800
# In kB: how much more memory, and how much more room, a node may have after hostile input.
ROOM_MAX = 16384
ONE_TABLE = "workers 1\nreplicas 2\ntable acct int int\n"
TWO_TABLES = "workers 2\nreplicas 2\ntable acct int int\ntable site bytes2\n"
# Which cases held.
held = []


def case(name, found, expected):
    """Notes whether a case holds, and prints it at once if it does not."""
    held.append(found == expected)
    if not held[-1]:
        print(f"FAILED: {name}\n  expected {expected!r}\n  found    {found!r}")


def last_line(what):
    """Prints how many cases held, and returns the status of the check."""
    print(f"{sum(held)} of {len(held)} {what}")
    return 0 if held and all(held) else 1


class Tally:
    """How many inputs a part tried, what came of them, what differed, and lines to print."""

    def __init__(self):
        self.inputs, self.wrong, self.outcomes, self.told = 0, [], collections.Counter(), []

    def case(self, name, found, expected):
        self.inputs += 1
        if found != expected:
            self.wrong.append(f"{name}\n  expected {str(expected)[:SHOWN_LENGTH]!r}\n  found    {str(found)[:SHOWN_LENGTH]!r}")

    def add(self, other):
        self.inputs += other.inputs
        self.wrong += other.wrong
        self.outcomes += other.outcomes
        self.told += other.told


def few(inputs):
    """These inputs, or a part of them if few are to be tried."""
    return inputs[::FEW] if WORDS.few else inputs


def run(*words, given="", command=(PROGRAM,), **more):
    """Returns the exit status, and what the program wrote to its output and to its errors."""
    # (as bytes: line ends are shown, and sent, as they are)
    pipes = {"stdout": subprocess.PIPE, "stderr": subprocess.PIPE, **more}
    if "stdin" not in more:
        pipes["input"] = given.encode() if isinstance(given, str) else given
    done = subprocess.run([*command, *words], timeout=SECONDS_MAX, **pipes)
    return done.returncode, (done.stdout or b"").decode(), (done.stderr or b"").decode()


@contextlib.contextmanager
def started(*words, command=(PROGRAM,), seconds=SECONDS_MAX, **more):
    """A program that runs in the background; it is killed at the end, or after this many seconds."""
    pipes = {name: subprocess.PIPE for name in ("stdin", "stdout", "stderr")}
    process = subprocess.Popen([*command, *words], text=True, bufsize=1, **{**pipes, **more})
    watch = threading.Timer(seconds, process.kill)
    watch.start()
    try:
        yield process
    finally:
        watch.cancel()
        process.kill()
        process.wait()
        for pipe in filter(None, (process.stdin, process.stdout, process.stderr)):
            with contextlib.suppress(OSError):
                pipe.close()


def line_that(lines, pattern):
    """The match of the first line from here on that has this form; None if the program ends before."""
    for line in lines:
        found = re.search(pattern, line)
        if found:
            return found
    return None


def listening(process):
    """The address that a program says it listens on; None if it ends before."""
    found = line_that(iter(process.stderr.readline, ""), r"^listening on (\S+)$")
    return found and found[1]


def built(at, name):
    """Builds a library of this folder that is loaded before the program, with the compiler of the toolchain or another."""
    kit = os.path.dirname(os.path.dirname(os.path.realpath(shutil.which("rt") or "/")))
    for compiler in (f"{kit}/toolchain/bin/clang", "cc", "clang", "gcc"):
        if shutil.which(compiler):
            words = ["-shared", "-fPIC", "-nostdlib", "-O1", "-o", f"{at}/{name}.so", f"{ROOT}/checks/{name}.c"]
            subprocess.run([compiler, *words], check=True)
            return f"{at}/{name}.so"
    raise FileNotFoundError("a compiler of C")


def preloaded(library, **words):
    """The environment of a program before which a library is loaded, with these words for the library."""
    return {**os.environ, "LD_PRELOAD": library, **{name: str(word) for name, word in words.items()}}


def guarded(function, job):
    """The tally of a job; one that ends otherwise is a failure of it."""
    try:
        return function(job)
    except Exception:
        tally = Tally()
        tally.case(f"{function.__name__} {str(job)[:100]}", traceback.format_exc(limit=-3), "a tally")
        return tally


def spread(function, jobs):
    """Calls a function on each job, in several processes, and adds up the tallies."""
    tally = Tally()
    with concurrent.futures.ProcessPoolExecutor(WORDS.jobs) as pool:
        for other in pool.map(functools.partial(guarded, function), jobs):
            tally.add(other)
    return tally


def write(path, data):
    with open(path, "wb") as file:
        file.write(data if isinstance(data, bytes) else data.encode())


def contents(path):
    with open(path, "rb") as file:
        return file.read()


class Story:
    """A script that is written as it goes, with what its events are to answer."""

    def __init__(self, settings):
        self.world, self.settings, self.events, self.answers = own.World(own.Schema(settings)), settings, [], []

    def do(self, event):
        lines = self.world.step(event)
        self.events.append(event)
        self.answers += lines
        return lines

    def commit(self, worker, *changes):
        number = self.do("begin")[0].split(" ")[1]
        for change in changes:
            word, rest = change.split(" ", 1)
            self.do(f"{word} {number} {rest}")
        return self.do(f"commit {number} {worker}")[0]

    def sent(self, event):
        """The indexes of the datagrams that the event sends."""
        return [int(line.split(" ")[1]) for line in self.do(event) if line.startswith("sent ")]

    def batch(self, replica, *queries):
        """A batch, whatever frames the replica lacks."""
        for query in queries:
            self.do(f"open {replica} {query}")
        ask = self.sent(f"ask {replica}")[0]
        self.do(f"deliver {self.sent(f'deliver {ask} p')[0]} r{replica}")
        for want in iter(lambda: self.sent(f"run {replica}"), []):
            for index in self.sent(f"deliver {want[0]} p"):
                self.do(f"deliver {index} r{replica}")

    def check(self, tally, name):
        status, output, errors = run("sim", given=self.settings + "\n".join(self.events) + "\n")
        lines = output.splitlines()
        # What is the same is left out of what is shown.
        same = len(os.path.commonprefix([lines, self.answers]))
        tally.case(name, (status, lines[same:], errors), (0, self.answers[same:], ""))
        return output


class Lines:
    """The lines that come from a pipe, read by a thread of their own, so that whoever writes them never waits."""

    def __init__(self, pipe):
        self.pipe, self.all, self.ended, self.changed = pipe, [], False, threading.Condition()
        self.thread = threading.Thread(target=self.read, daemon=True)
        self.thread.start()

    def read(self):
        for line in self.pipe or ():
            with self.changed:
                self.all.append(line)
                self.changed.notify_all()
        with self.changed:
            self.ended = True
            self.changed.notify_all()

    def has(self, count):
        """Waits until there are this many lines, or no more come."""
        with self.changed:
            self.changed.wait_for(lambda: self.ended or len(self.all) >= count)
            return len(self.all) >= count

    def that(self, pattern):
        """The match of the first line that has this form; None if there is none."""
        number = 0
        while self.has(number + 1):
            found = re.search(pattern, self.all[number])
            if found:
                return found
            number += 1
        return None

    def whole(self):
        self.thread.join()
        return "".join(self.all)


class Node:
    """A program that runs in the background; it is killed at the end, or after this many seconds. A shell sets its limit, if it has one."""

    def __init__(self, *words, limit="-c 0", front=(), seconds=SECONDS_MAX, **more):
        # One arena: the C library sets aside 64 MB for each other one, which would hide what a number takes.
        more.setdefault("env", {**os.environ, "MALLOC_ARENA_MAX": "1"})
        pipes = {name: subprocess.PIPE for name in ("stdin", "stdout", "stderr")}
        shell = ["sh", "-c", f'ulimit {limit}; exec "$0" "$@"'] if limit else []
        limited = [*front, *shell, PROGRAM, *words]
        self.process = subprocess.Popen(limited, text=True, bufsize=1, **{**pipes, **more})
        self.watch = threading.Timer(seconds, self.process.kill)
        self.watch.start()
        self.output, self.errors = Lines(self.process.stdout), Lines(self.process.stderr)
        self.taken = 0

    def __enter__(self):
        return self

    def __exit__(self, *_):
        self.watch.cancel()
        self.process.kill()
        self.process.wait()
        self.output.thread.join()
        self.errors.thread.join()
        for pipe in filter(None, (self.process.stdin, self.process.stdout, self.process.stderr)):
            with contextlib.suppress(OSError):
                pipe.close()

    def send(self, text):
        self.process.stdin.write(text)
        self.process.stdin.flush()

    def lines(self, count):
        """The next lines of its output, as many as come."""
        self.output.has(self.taken + count)
        found = self.output.all[self.taken:self.taken + count]
        self.taken += len(found)
        return [line.rstrip("\n") for line in found]

    def ended(self):
        """Its exit status and its last line on its errors; nothing if it goes on."""
        with contextlib.suppress(subprocess.TimeoutExpired):
            return self.process.wait(SECONDS_MAX / 4), "".join(self.errors.whole().splitlines(True)[-1:])
        return None

    def end(self):
        """Closes its input, and returns its exit status."""
        self.process.stdin.close()
        return self.process.wait()

    def address(self):
        return "127.0.0.1", int(self.errors.that(r"listening on 127\.0\.0\.1:(\d+)")[1])

    def peaks(self):
        """The most memory that it had, and the most room that it had asked for, in kB."""
        if self.process.poll() is not None:
            raise EOFError(f"it ended with status {self.process.returncode}: {self.errors.whole()}")
        with open(f"/proc/{self.process.pid}/status") as file:
            found = dict(re.findall(r"(Vm\w+):\s+(\d+) kB", file.read()))
        return int(found["VmHWM"]), int(found["VmPeak"])


def own_host():
    """An address of the loopback that no other process has: where a node of this one has ended, its port may soon be that of another's
    node, and who still asks there would be answered by that."""
    number = os.getpid()
    return f"127.{number >> 16}.{number >> 8 & 255}.{number & 255}"


def bound(host="127.0.0.1"):
    """A socket on a free port."""
    it = socket.socket(socket.AF_INET, socket.SOCK_DGRAM)
    it.bind((host, 0))
    it.settimeout(SECONDS_MAX / 4)
    return it


def word_of(it):
    """The address of a socket, as a node is given it."""
    return "{}:{}".format(*it.getsockname())


def free_address(host="127.0.0.1"):
    with bound(host) as it:
        return word_of(it)


def event_of(schema, entry):
    """A change as a script or a job has it, without its transaction."""
    name, row = schema.names[entry.table], entry.row
    if entry.operation == own.DELETE:
        return f"delete {name} {row}"
    if entry.operation == own.ADD_COLUMN:
        return f"column {name} {own.value_word(entry.offset, entry.data)}"
    if entry.operation == own.INSERT:
        values = " ".join(schema.value(entry.table, column, entry.data) for column in range(len(schema.columns[entry.table])))
        return f"insert {name} {row} {values}"
    column = schema.columns[entry.table].index((entry.offset, len(entry.data)))
    return f"set {name} {row} {column} {own.value_word(schema.kinds[entry.table][column], entry.data)}"


def events_of(schema, commit):
    """The changes of a commit on tables with these columns."""
    events = []
    for entry in commit.entries:
        events.append(event_of(schema, entry))
        schema = schema.behind(entry)
    return events


def job_of(schema, commit):
    """A commit on tables with these columns, as a job."""
    return "".join(line + "\n" for line in [f"job {commit.worker}", *events_of(schema, commit), "end"])


def inserts(rows):
    """Entries that insert these rows of two zeros into the first table."""
    return [own.Entry(own.INSERT, 0, row, 0, bytes(16)) for row in rows]


def commits_of(settings, jobs):
    """The commits of jobs, each of which is made as it is."""
    story = Story(settings)
    for worker, changes in jobs:
        story.commit(worker, *changes)
        story.do("flush 1")
    return story.world.commits


def kept_in(tally, name, schema, offered, output, data, before=()):
    """Each ticket that was printed is that job's commit in the journal, and after the commits from before there is a beginning of
    each worker's jobs. Returns how many commits there are."""
    found = own.recover(schema, data)
    if not isinstance(found, own.Kept):
        tally.case(name + ": the journal", found, "kept")
        return -1
    tickets = re.findall(r"(?m)^job (\d+) ticket (\d+)$", output)
    wrong = [it for it in tickets if not 0 < int(it[1]) <= len(found.commits) or found.commits[int(it[1]) - 1] != offered[int(it[0])]]
    tally.case(name + ": tickets that are not in the journal", wrong, [])
    tally.case(name + ": the commits from before", found.commits[:len(before)], list(before))
    for worker in range(schema.workers):
        there = [it for it in found.commits[len(before):] if it.worker == worker]
        tally.case(name + f": the jobs of worker {worker}", there, [it for it in offered if it.worker == worker][:len(there)])
    return len(found.commits)


def parts_played(parts):
    """Runs the parts, or the one that the words name, and prints what differs; returns the tally of all."""
    whole = Tally()
    for part in parts:
        if WORDS.only not in (None, part.__name__):
            continue
        start = time.monotonic()
        with tempfile.TemporaryDirectory() as at:
            tally = guarded(part, at)
        print("".join(line + "\n" for line in tally.told), end="")
        for line in tally.wrong[:WORDS.shown]:
            print("FAILED: " + line)
        outcomes = "".join(f", {count} {outcome}" for outcome, count in sorted(tally.outcomes.items()))
        seconds = time.monotonic() - start
        print(f"{part.__name__}: {tally.inputs - len(tally.wrong)} of {tally.inputs} in {seconds:.0f} s{outcomes}", flush=True)
        whole.add(tally)
    return whole


def main(parts, told):
    """Runs the parts, and prints how many inputs were as they are to be."""
    whole = parts_played(parts)
    print(f"{whole.inputs - len(whole.wrong)} of {whole.inputs} {told} are as they are to be")
    return 1 if whole.wrong or not whole.inputs else 0
