"""Primaries and replicas with an HTTP service, the jobs that clients send them, what they are answered, what journals keep then, and
which reports these commits make."""

import collections
import contextlib
import itertools
import json
import re
import subprocess
import time

import reference as own
from harness import Node, commits_of, free_address, run
from http_client import Client, request, text

SETTINGS = "workers 2\nreplicas 2\ntable acct int int\ntable site bytes2\n"
ANY_PORT = "127.0.0.1:0"
REPLICA_PLACES = 64
# A node that was built without a proof is many times slower.
SECONDS_OF_A_NODE = 600
HEADER_OF_A_DUMP = re.compile(r"# kept (\d+) commits, \d+ bytes, torn \d+, version 2")
HEADER_OF_A_COMMIT = re.compile(r"# commit (\d+) of worker (\d+)")

# A worker, and the changes that it made, each as a line.
Commit = collections.namedtuple("Commit", "worker changes")


class Primary(Node):
    """A live primary with an HTTP service, which runs until it is killed."""

    def __init__(self, at, *replicas, journal="journal", turns="0", http=ANY_PORT, listen=ANY_PORT, base=None, **more):
        self.schema, self.journal = f"{at}/schema", f"{at}/{journal}"
        words = ["primary", self.schema, self.journal, listen, *replicas, "--turns", turns, "--live", "--http", http, "--say"]
        words += ["--base", base] if base else []
        super().__init__(*words, **{"stdin": subprocess.DEVNULL, "seconds": SECONDS_OF_A_NODE, **more})
        self.http = http_of(self)

    def kept(self):
        """How many commits its journal keeps."""
        return kept_in(self.schema, self.journal)

    def commits(self):
        return commits_in(self.schema, self.journal)


class Replica(Node):
    """A live replica with an HTTP service, which runs until it is killed. Each is started with a number of its own."""

    boots = itertools.count(int(time.time()))

    def __init__(self, at, listen, primary, *more_words, turns="0", http=ANY_PORT, **more):
        self.schema, self.boot = f"{at}/schema", next(Replica.boots)
        words = ["replica", self.schema, "0", str(self.boot), listen, primary, "--turns", turns, "--live", "--http", http, "--say"]
        super().__init__(*words, *more_words, **{"stdin": subprocess.DEVNULL, "seconds": SECONDS_OF_A_NODE, **more})
        self.http = http_of(self)


def http_of(node):
    """The address of a node's HTTP service."""
    found = node.errors.that(r"^http on [0-9.]+:(\d+)$")
    if not found:
        raise EOFError(f"no HTTP service: {node.errors.whole()}")
    return "127.0.0.1", int(found[1])


class Pair(contextlib.ExitStack):
    """A primary and its replica, each of which can be started again at its address; and what clients were told of their jobs."""

    def __init__(self, at, journal, *words, **more):
        super().__init__()
        self.at, self.journal, self.told = at, journal, Told()
        self.listens, self.asks = free_address(), free_address()
        try:
            self.start_primary()
            self.start_replica(*words, **more)
        except Exception:
            self.close()
            raise

    def start_primary(self):
        node = Primary(self.at, self.asks, journal=self.journal, listen=self.listens)
        self.primary = self.enter_context(node)

    def start_replica(self, *words, **more):
        self.replica = self.enter_context(Replica(self.at, self.asks, self.listens, *words, **more))

    def commit(self, *changes, worker=0):
        """Has a job done at the primary."""
        body = job(worker, *changes)
        self.told.begins(body)
        with Client(self.primary.http) as client:
            self.told.answered(body, client.post(body))

    def ask(self, *queries, fields=()):
        """What the replica answers to a batch."""
        with Client(self.replica.http) as client:
            return client.ask(batch(self.replica.http, queries, *fields))

    def reports(self):
        return Reports([commit for _, commit in sorted(self.told.tickets)])

    def expected(self, *queries):
        """The answer to a batch behind all commits that clients were told of."""
        return text(200, self.reports().at(self.told.newest, queries))


def batch(address, queries, *fields):
    """A request with these queries."""
    return request(address, "POST", "/batches", "".join(f"{it}\n" for it in queries).encode(), *fields)


class Reports:
    """Reports as they are worked out here from the first commits, as many as a report's version says."""

    def __init__(self, commits):
        self.count = len(commits)
        self.world = own.World(own.Schema(SETTINGS))
        self.world.commits = commits_of(SETTINGS, commits)

    def at(self, version, queries):
        schema = self.world.schema_at(version)
        plans = [own.read_plan(schema, it.split(" ")) for it in queries]
        return "".join(f"{line}\n" for line in own.report(schema, version, self.world.rows_after(version), plans))


def as_json(report):
    """A report of the text as it is in JSON: each word a string, since readers of JSON have no such numbers."""
    lines = iter(report.splitlines())
    words = next(lines).split(" ")
    queries = []
    for _ in range(int(words[3])):
        queries.append({"rows": [next(lines).split(" ") for _ in range(int(next(lines).split(" ")[3]))]})
    return json.dumps({"version": int(words[1]), "queries": queries}, separators=(",", ":"))


def kept_in(schema, journal):
    status, output, errors = run("journal", schema, journal)
    found = re.fullmatch(r"kept (\d+) commits, \d+ bytes, torn \d+\n", output)
    if status or errors or not found:
        raise ValueError(f"the journal {journal}: {status, output, errors}")
    return int(found[1])


def commits_in(schema, journal):
    """The commits that a journal keeps, in their order."""
    status, output, errors = run("journal", schema, journal, "--dump")
    lines = output.splitlines()
    if status or errors or not lines:
        raise ValueError(f"the dump of {journal}: {status, output[:200], errors}")
    commits = []
    for line in lines[1:]:
        found = HEADER_OF_A_COMMIT.fullmatch(line)
        if found:
            if int(found[1]) != len(commits) + 1:
                raise ValueError(f"commit {found[1]} of a dump comes after {len(commits)}")
            commits.append(Commit(int(found[2]), []))
        elif line not in ("job 0", "end"):
            commits[-1].changes.append(line)
    if HEADER_OF_A_DUMP.fullmatch(lines[0])[1] != str(len(commits)):
        raise ValueError(f"a dump of {len(commits)} commits begins with {lines[0]}")
    return [Commit(it.worker, tuple(it.changes)) for it in commits]


def job(worker, *lines):
    """A job, as a body has it."""
    return "".join(line + "\n" for line in (f"job {worker}", *lines, "end"))


def insert_of(row, *values):
    return f"insert acct {row} {' '.join(str(it) for it in values or (0, 0))}"


def jobs_in(text):
    """The commits that the jobs of a body make if each gets a ticket. Conditions change nothing."""
    jobs = []
    for line in text.splitlines():
        words = line.split(" ")
        if words[0] == "job":
            jobs.append(Commit(int(words[1]), ()))
        elif words[0] in ("insert", "set", "delete", "column"):
            jobs[-1] = jobs[-1]._replace(changes=(*jobs[-1].changes, line))
    return jobs


def outcomes(count, answer):
    """What so many jobs of a body were answered, as `ticket 4` or `refused`: exactly a line for each. The status says whether all have
    tickets."""
    lines = answer.body.decode("ascii").splitlines(True)
    found = [re.fullmatch(r"job (\d+) (ticket [1-9]\d*|conflict [1-9]\d*|refused)\n", line) for line in lines]
    if not all(found) or [int(it[1]) for it in found] != list(range(count)):
        raise ValueError(f"no answer to {count} jobs: {answer}")
    said = [it[2] for it in found]
    if answer.status != (200 if all(it.startswith("ticket") for it in said) else 409):
        raise ValueError(f"the status of {answer}")
    return said


class Told:
    """What clients were told of their jobs, and which jobs of theirs may have been done without that they were told."""

    def __init__(self):
        self.tickets, self.conflicts, self.sent, self.counts, self.newest = [], [], [], collections.Counter(), 0

    def begins(self, text):
        """A client sends this body."""
        self.sent += jobs_in(text)

    def answered(self, text, answer):
        """What its jobs were answered; each ticket is noted with its commit."""
        jobs = jobs_in(text)
        said = outcomes(len(jobs), answer)
        for it, outcome in zip(jobs, said):
            word, *number = outcome.split(" ")
            self.counts[word] += 1
            if word == "ticket":
                self.tickets.append((int(number[0]), it))
                self.newest = max(self.newest, int(number[0]))
            elif word == "conflict":
                self.conflicts.append((int(number[0]), it))
        return said

    def check(self, tally, name, commits):
        """Each ticket that was read is the commit of its job; no ticket was given twice, and no job that was sent once was done twice."""
        numbers = [number for number, _ in self.tickets]
        wrong = [it for it in self.tickets if not 0 < it[0] <= len(commits) or commits[it[0] - 1] != it[1]]
        tally.case(f"{name}: tickets that are not in the journal", wrong[:3], [])
        tally.case(f"{name}: tickets that were given twice", len(numbers) - len(set(numbers)), 0)
        apart = [it for it in self.conflicts if it[0] > len(commits) or not touched(it[1]) & touched(commits[it[0] - 1])]
        tally.case(f"{name}: conflicts with a commit of other rows", apart[:3], [])
        left = collections.Counter(commits)
        left.subtract(self.sent)
        tally.case(f"{name}: commits that nobody sent", [it for it, more in left.items() if more > 0][:3], [])


def touched(commit):
    """The rows that a commit changes."""
    return {tuple(change.split(" ")[1:3]) for change in commit.changes}


class Rows:
    """The rows of a table of numbers after commits, as they are worked out here."""

    def __init__(self, commits=()):
        self.rows = {}
        for commit in commits:
            for change in commit.changes:
                self.make(change)

    def make(self, change):
        word, name, row, *values = change.split(" ")
        if word == "insert":
            self.rows[name, row] = values
        elif word == "set":
            self.rows[name, row][int(values[0])] = values[1]
        elif word == "delete":
            del self.rows[name, row]

    def line(self, name, row):
        return " ".join([name, str(row), *self.rows[name, str(row)]]) + "\n"
