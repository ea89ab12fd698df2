"""Memory that is refused to the HTTP services of a primary and of a replica: each request for it in turn, from the start of a node to the
end of a conversation with a client. What is answered is right, or says that memory was missing; the node goes on, or ends with its line."""

import contextlib
import functools
import hashlib
import json
import mmap
import os
import re
import subprocess
import tempfile

import reference as own
from harness import WORDS, Node, Story, Tally, built, contents, few, free_address, own_host, preloaded, run, spread, write
from http_client import JSON, PLAIN, UNCACHED, Client, get, request, request_in_chunks, words_of
from http_nodes import ANY_PORT, SETTINGS, Primary, Replica, Rows, as_json, batch, commits_in, insert_of, job, jobs_in, outcomes

# How long an answer, and the end of a node, are waited for.
SECONDS = 20
# All requests for memory from one on; more than a node makes up to the end of a conversation.
ALL, NUMBER_MAX = 2**62, 10_000
HTML = "text/html; charset=utf-8"
DIGEST = hashlib.sha256(SETTINGS.encode()).hexdigest()
# The last lines of a node that ends because memory was refused, and what is counted of them.
ENDS = {
    "out of memory": re.compile(r"batchdb: (.+: )?out of memory\n"),
    "too few threads": re.compile(r"batchdb: the system makes too few threads\n"),
    "broken": re.compile(r"batchdb: the replica is broken; start it again with another BOOT\n"),
}


class Refusals:
    """Which requests for memory are refused to a program, in a file that it shares (checks/refuse.c)."""

    def __init__(self, at, library):
        path = f"{at}/refusals"
        write(path, bytes(24))
        with open(path, "r+b") as file:
            self.shared = mmap.mmap(file.fileno(), 24)
        self.numbers = memoryview(self.shared).cast("Q")
        self.env = preloaded(library, SHARED=path, MALLOC_ARENA_MAX=1)

    def count(self):
        return self.numbers[0]

    def begin(self, number, more):
        """Refuses this one, counted from 1, of a program that is started next, and this many more behind it."""
        self.numbers[0], self.numbers[1], self.numbers[2] = 0, number, more

    def end(self):
        self.numbers[1] = 0


class Talk:
    """A client that sends one request after the other, on one connection for as long as that stands."""

    def __init__(self, address):
        self.address, self.client, self.sent, self.late = address, None, None, None

    def __enter__(self):
        return self

    def __exit__(self, *_):
        self.close()

    def close(self):
        if self.client:
            self.client.socket.close()
        self.client = None

    def send(self, data):
        self.sent = data
        if self.late:
            return
        with contextlib.suppress(ConnectionRefusedError, ConnectionResetError):
            self.client = self.client or Client(self.address, SECONDS, may_lack=True)
            self.client.send(data)

    def answer(self):
        """The answer to what was sent; None if the connection ends without one, or there is nobody."""
        if not self.client:
            return None
        answer = None
        try:
            answer = self.client.answer()
        except TimeoutError:
            self.late = self.sent[:60]
        if answer is None or answer.fields.get("connection") == "close":
            self.close()
        return answer

    def ask(self, data):
        self.send(data)
        return self.answer()


def is_without_memory(answer):
    """Whether it is an answer of a node to which memory was refused, or none."""
    if answer is None:
        return True
    if answer.status != 503:
        return False
    fields = {name: value for name, value in answer.fields.items() if name not in ("date", "content-length", "connection")}
    if answer.body in (b"memory\n", b"late\n", b"full\n"):
        return fields == {"content-type": PLAIN, "cache-control": UNCACHED, "retry-after": "1"}
    return answer.body == b"" and fields == {}


def kind_of(answer):
    """What an answer counts as."""
    if answer is None:
        return "ended connections"
    return f"{answer.status} {answer.body.decode().strip() or 'without a body'}"


def end_of(node):
    """How a node ended, by the word of its line; or what it does instead."""
    found = node.ended()
    if not found:
        return f"it goes on, and does not answer: {node.errors.all}"
    status, line = found
    return next((word for word, form in ENDS.items() if status == 1 and form.fullmatch(line)), f"it ended: {found}")


def address_of(node):
    """Where it serves clients; None if it ends before."""
    found = node.errors.that(r"^http on ([0-9.]+):(\d+)$")
    return found and (found[1], int(found[2]))


def within(number, least, most):
    """The number, or the end of its range that is nearest."""
    return min(max(number, least), most)


def masked(figures):
    """Figures without their numbers."""
    return re.sub(r"(?m) \d+(\.\d+)?$", " N", figures)


def shown(answer):
    return answer.status, words_of(answer), answer.fields.get("content-type")


@functools.cache
def version_of_program():
    return run("--version")[1].split()[1]


def in_one_line(members):
    return json.dumps(members, separators=(",", ":")) + "\n"


# ---- a primary


class Step:
    """What a client sends, by name; the jobs of its body, if it has any; and whether it is sent on a new connection."""

    def __init__(self, name, data, jobs="", is_new=False):
        self.name, self.data, self.jobs, self.is_new = name, data, jobs, is_new


# A conversation has bodies of jobs: one, one with a condition, some, and one whose first job is refused.
BODIES = {
    "a job": job(0, insert_of(1, 1, 2)),
    "a condition": job(1, "expect acct 1 0 1", "set acct 1 1 7"),
    "three jobs": job(0, insert_of(2, 3, 4)) + job(1, "expect acct 2 0 3", "set acct 2 0 5")
    + job(0, "insert site 1 x4e45", "delete site 1", insert_of(7)),
    "a job that is refused": job(0, "absent acct 1", insert_of(1, 0, 0)) + job(1, insert_of(3)),
}
CHUNKS, AFTERWARDS = job(1, insert_of(4, 5, 6)), job(0, insert_of(5))
AT_ONCE = job(0, insert_of(8)), job(1, insert_of(9), "insert site 9 x0009")
UNREAD = job(0, insert_of(6)) + "job 0\nfrobnicate\nend\n"
NO_LINE = "line 5: no line of a job"


def steps_of_primary(address):
    """A conversation with a primary. The last two requests are sent at once, by two clients."""
    steps = [Step(name, post_jobs(address, body), body) for name, body in BODIES.items()]
    steps.append(Step("a body that does not read", post_jobs(address, UNREAD)))
    steps.append(Step("a row", get(address, "/tables/acct/1")))
    steps.append(Step("a row as JSON", get(address, "/tables/acct/2", "Accept: application/json")))
    steps += [Step(path, get(address, path)) for path in ("/status", "/metrics", "/", "/none")]
    in_chunks = request_in_chunks(address, "/jobs", CHUNKS.encode(), [7, 30], "Connection: close")
    steps.append(Step("a job in chunks", in_chunks, CHUNKS, is_new=True))
    return [*steps, *(Step("one of two at once", post_jobs(address, body), body) for body in AT_ONCE)]


def post_jobs(address, body):
    return request(address, "POST", "/jobs", body.encode())


def lines_of(body):
    """The lines of each job of a body."""
    return [("job" + it).splitlines() for it in body.split("job")[1:]]


def fits(lines, rows):
    """Whether a job is done on these rows. Each of a conversation that may not be done has a first line by which it is not."""
    word, name, row, *rest = lines[1].split(" ")
    there = rows.rows.get((name, row))
    if word == "expect":
        return there is not None and there[int(rest[0])] == rest[1]
    return there is None


class Judge:
    """What a primary answered to a conversation, against its journal and the rows that this makes. One client alone sends jobs, so it is
    known behind each answer which commits there are."""

    def __init__(self, tally, name, commits, pages):
        self.tally, self.name, self.commits, self.pages = tally, name, commits, pages
        # How many commits there are by now; steps without an answer, and jobs that were refused, or perhaps.
        self.rows, self.at, self.failed, self.refused, self.unsure = Rows(), 0, 0, 0, 0

    def case(self, step, found, expected):
        self.tally.case(f"{self.name}: {step}", found, expected)

    def judge(self, step, answer):
        if is_without_memory(answer):
            self.failed += 1
            self.tally.outcomes[kind_of(answer)] += 1
            for commit, lines in zip(jobs_in(step.jobs), lines_of(step.jobs)):
                self.unsure += not self.takes(commit, lines)
        elif step.jobs:
            self.jobs(step, answer)
        else:
            self.told(step, answer)

    def takes(self, commit, lines):
        """Whether the next commit of the journal is that of this job."""
        if self.at == len(self.commits) or self.commits[self.at] != commit or not fits(lines, self.rows):
            return False
        for change in commit.changes:
            self.rows.make(change)
        self.at += 1
        return True

    def jobs(self, step, answer):
        """Each job has the ticket of its commit, or is refused because it does not fit."""
        jobs = list(zip(jobs_in(step.jobs), lines_of(step.jobs)))
        try:
            found = outcomes(len(jobs), answer)
        except ValueError as fault:
            self.case(step.name, str(fault), "an answer to jobs")
            return
        expected = []
        for commit, lines in jobs:
            if self.takes(commit, lines):
                expected.append(f"ticket {self.at}")
            else:
                self.refused += 1
                expected.append("a ticket" if fits(lines, self.rows) else "refused")
        self.case(step.name, (found, answer.fields["content-type"]), (expected, PLAIN))

    def told(self, step, answer):
        """What is told of the node and its rows."""
        found = status, told, kind = shown(answer)
        if step.name in ("a row", "a row as JSON"):
            self.case(step.name, found, self.row(step))
        elif step.name == "/status":
            self.case(step.name, found, (200, self.status(answer), JSON))
        elif step.name == "/metrics":
            durable = re.findall(r"(?m)^batchdb_durable_commits (\d+)$", told)
            self.case(step.name, (status, masked(told), kind, durable), (200, masked(self.pages["/metrics"]), PLAIN, [str(self.at)]))
        elif step.name == "a body that does not read":
            faults = [(400, f"{NO_LINE}{word}\n", PLAIN) for word in (": 'frobnicate': begins no line", "")]
            self.case(step.name, found if found not in faults else faults[0], faults[0])
        elif step.name == "/none":
            self.case(step.name, found, (404, "no such path\n", PLAIN))
        else:
            self.case(step.name, found, (200, self.pages[step.name], HTML))

    def row(self, step):
        """The row that a step asks for, as it is now."""
        number = "1" if step.name == "a row" else "2"
        values = self.rows.rows.get(("acct", number))
        if values is None:
            return 404, "missing\n", PLAIN
        if step.name == "a row":
            return 200, f"version {self.at}\n{self.rows.line('acct', number)}", PLAIN
        return 200, in_one_line({"version": self.at, "table": "acct", "row": number, "values": values}), JSON

    def status(self, answer):
        """The status to the byte; rounds, connections and refused jobs are within their ends."""
        found, most = json.loads(answer.body), self.refused + self.unsure
        told = {
            "node": "primary", "version": version_of_program(), "schema": DIGEST, "durable": self.at,
            "journal_bytes": len(own.journal(own.Schema(SETTINGS), self.entries()[:self.at])),
            "connections": within(found["connections"], 1, 3),
            "jobs": {"ticket": self.at, "conflict": 0, "refused": within(found["jobs"]["refused"], self.refused, most)},
            "rounds": within(found["rounds"], min(self.at, 1), self.at + most),
            "replicas": [{"replica": 0}, {"replica": 1}],
        }
        return in_one_line(told)

    def entries(self):
        """The commits with their entries, which a journal has."""
        story = Story(SETTINGS)
        for commit in self.commits:
            story.commit(commit.worker, *commit.changes)
            story.do("flush 1")
        return story.world.commits


def words_of_primary(at):
    return "primary", f"{at}/schema", f"{at}/journal", ANY_PORT, "--turns", "0", "--live", "--http", f"{own_host()}:0", "--say"


def in_the_background(*words, env):
    """A node, whose input stays open."""
    return Node(*words, limit=None, env=env)


def conversation(address, steps):
    """What a client is answered to these steps, and the one whose answer does not come, if there is one."""
    *steps, one, other = steps
    answers = []
    with Talk(address) as talk, Talk(address) as beside:
        for step in steps:
            if step.is_new:
                talk.close()
            answers.append(talk.ask(step.data))
        talk.send(one.data)
        beside.send(other.data)
        answers += [talk.answer(), beside.answer()]
    return answers, talk.late or beside.late


def in_order(steps, answers, commits):
    """Each step with its answer; of the two that were sent at once first the one whose commit comes first."""
    pairs, both = list(zip(steps, answers)), [jobs_in(body)[0] for body in AT_ONCE]
    if [it for it in commits if it in both] == both[::-1]:
        pairs[-2:] = pairs[-1], pairs[-2]
    return pairs


def primary_without_memory(part):
    """A primary to which some requests for memory are refused, each in turn, from its start to the end of a conversation."""
    library, more, numbers, pages = part
    tally = Tally()
    with tempfile.TemporaryDirectory() as at:
        write(f"{at}/schema", SETTINGS)
        refusals = Refusals(at, library)
        for number in numbers:
            name = f"a primary, request {number}" + (" and all behind it" if more else "")
            if not one_at_primary(tally, name, at, refusals, number, more, pages):
                break
        else:
            tally.case("a primary: its last request for memory", numbers[-1], "one before")
    return tally


def pages_of_primary():
    """What a primary with memory tells."""
    with tempfile.TemporaryDirectory() as at:
        write(f"{at}/schema", SETTINGS)
        with Primary(at) as node, Talk(node.http) as talk:
            return {path: words_of(talk.ask(get(node.http, path))) for path in ("/metrics", "/")}


def one_at_primary(tally, name, at, refusals, number, more, pages):
    """A conversation with a primary. Whether a request for memory was refused."""
    with contextlib.suppress(FileNotFoundError):
        os.remove(f"{at}/journal")
    steps, answers, late, ended = [], [], None, None
    refusals.begin(number, more)
    with in_the_background(*words_of_primary(at), env=refusals.env) as node:
        address = address_of(node)
        if address:
            steps = steps_of_primary(address)
            answers, late = conversation(address, steps)
        was_refused = refusals.count() >= number
        tally.outcomes["refused requests"] += was_refused
        refusals.end()
        tally.case(f"{name}: an answer that does not come", late, None)
        last = last_of_primary(address) if address else None
        if last is None:
            ended = end_of(node)
            tally.case(f"{name}: its end", ended if ended not in ENDS else "", "")
            tally.outcomes[f"primaries ended: {ended}"] += 1
    if last is None:
        with Primary(at, env=refusals.env, limit=None) as node:
            last = last_of_primary(node.http)
    commits = commits_in(f"{at}/schema", f"{at}/journal")
    tally.case(f"{name}: a job behind that", last, f"job 0 ticket {len(commits)}\n")
    tally.case(f"{name}: its commit", commits[-1:], jobs_in(AFTERWARDS))
    judge = Judge(tally, name, commits[:-1], pages)
    for step, answer in in_order(steps, answers, commits):
        judge.judge(step, answer)
    if not more and not ended:
        tally.case(f"{name}: answers that did not come", judge.failed > 1, False)
    tally.case(f"{name}: commits that nobody sent, or twice", commits[judge.at:-1], [])
    return was_refused


def last_of_primary(address):
    """What a job more is answered once memory is there again; None if nobody answers."""
    with Talk(address) as talk:
        answer = talk.ask(post_jobs(address, AFTERWARDS))
    return answer and words_of(answer)


# ---- a replica


QUERIES = ("query acct get count sum 0", "query site get count")
OTHERS = ("query acct by 0 get count max 1", "query site by 0 get count", "query acct where 1 > 2 get count")
UNREAD_BATCH, UNFIT_BATCH = "query acct get frobnicate", "query acct get sum 2"
TABLES = "table acct int int\ntable site bytes2\n"


class Source(contextlib.ExitStack):
    """A primary that has memory, and what it has committed."""

    def __init__(self, at):
        super().__init__()
        self.at, self.story, self.listens, self.asks = at, Story(SETTINGS), *(free_address(own_host()) for _ in range(2))
        self.primary = self.enter_context(Primary(at, self.asks, listen=self.listens))
        self.talk = self.enter_context(Talk(self.primary.http))
        self.rows = 0

    def commit(self):
        """A job more, on rows that it makes."""
        self.rows += 1
        changes = [insert_of(self.rows, self.rows % 3, self.rows), f"insert site {self.rows} x{self.rows % 5:04x}"]
        self.talk.ask(post_jobs(self.primary.http, job(self.rows % 2, *changes)))
        self.story.commit(self.rows % 2, *changes)
        self.story.do("flush 1")

    def report(self, queries):
        return "".join(f"{line}\n" for line in self.story.world.report(queries))

    def words(self, turns):
        """Those of a replica that was never there, which waits for so many turns for the answer to a batch."""
        boot, http = str(next(Replica.boots)), f"{own_host()}:0"
        words = "replica", f"{self.at}/schema", "0", boot, self.asks, self.listens, "--turns", turns, "--live", "--http", http, "--say"
        return boot, words


class ReplicaTalk:
    """A conversation with a replica, each answer of which is judged at once."""

    def __init__(self, tally, name, source, boot, address, pages):
        self.tally, self.name, self.source, self.boot, self.address, self.pages = tally, name, source, boot, address, pages
        # Batches and queries that were answered; batches that perhaps were; the newest version that was told.
        self.batches, self.queries, self.unsure, self.newest = 0, 0, 0, 0
        # What its tables may be told with: the version of a report, also of one that nobody read.
        self.versions = {0}
        self.failed, self.is_broken, self.is_late, self.late = 0, False, False, None

    def case(self, step, found, expected):
        self.tally.case(f"{self.name}: {step}", found, expected)

    def run(self):
        with Talk(self.address) as talk:
            self.report("a batch", talk.ask(batch(self.address, QUERIES)), QUERIES)
            # New frames come with the next one.
            self.source.commit()
            self.report("a batch as JSON", talk.ask(batch(self.address, OTHERS, "Accept: application/json")), OTHERS)
            self.fault(talk, UNREAD_BATCH, "line 1: no plan", ": 'frobnicate': no aggregate")
            self.fault(talk, UNFIT_BATCH, "line 1: no such column", ": '2': its table has fewer columns")
            for path in ("/tables", "/status", "/metrics", "/"):
                self.told(path, talk.ask(get(self.address, path)))
            talk.close()
            in_chunks = request_in_chunks(self.address, "/batches", QUERIES[0].encode(), [7], "Connection: close")
            self.report("a batch in chunks", talk.ask(in_chunks), QUERIES[:1])
            self.at_once(talk)

    def at_once(self, talk):
        """Two clients ask at once; they may be answered together."""
        with Talk(self.address) as beside:
            talk.send(batch(self.address, OTHERS))
            beside.send(batch(self.address, QUERIES))
            self.report("one of two at once", talk.answer(), OTHERS)
            self.report("the other of two at once", beside.answer(), QUERIES)
        self.late = talk.late or beside.late

    def is_answered(self, answer):
        """Whether an answer says more than that memory was missing, or that the replica is broken."""
        is_broken = answer is not None and (answer.status, answer.body) == (500, b"broken\n")
        if not is_broken and not is_without_memory(answer):
            return True
        self.is_broken |= is_broken
        self.is_late |= answer is not None and answer.body == b"late\n"
        self.failed += 1
        self.tally.outcomes[kind_of(answer)] += 1
        return False

    def report(self, step, answer, queries):
        """The report of a batch."""
        if not self.is_answered(answer):
            self.unsure += 1
            self.versions.add(self.source.story.world.durable)
            return
        report = self.source.report(queries)
        self.versions.add(self.source.story.world.durable)
        expected = (200, as_json(report) + "\n", JSON) if "JSON" in step else (200, report, PLAIN)
        self.case(step, shown(answer), expected)
        self.batches, self.queries, self.newest = self.batches + 1, self.queries + len(queries), self.source.story.world.durable

    def fault(self, talk, query, fault, word):
        """A batch that does not read or does not fit. The word at fault is left out if there is no memory for it."""
        answer = talk.ask(batch(self.address, [query]))
        if self.is_answered(answer):
            faults = [(400, f"{fault}{more}\n", PLAIN) for more in (word, "")]
            self.case(query, shown(answer) if shown(answer) not in faults else faults[0], faults[0])

    def told(self, path, answer):
        """What is told of the replica."""
        if not self.is_answered(answer):
            return
        status, told, kind = shown(answer)
        if path == "/status":
            self.case(path, (status, told, kind), (200, self.status(told), JSON))
        elif path == "/metrics":
            self.case(path, (status, masked(told), kind), (200, masked(self.pages[path]), PLAIN))
        elif path == "/tables":
            expected = [f"version {it}\n{TABLES}" for it in sorted(self.versions)]
            self.case(path, (status, told if told not in expected else expected[-1], kind), (200, expected[-1], PLAIN))
        else:
            self.case(path, (status, told, kind), (200, self.pages[path], HTML))

    def status(self, told):
        """The status to the byte; what a batch without an answer may have changed is within its ends."""
        found = json.loads(told)
        told = {
            "node": "replica", "version": version_of_program(), "schema": DIGEST, "replica": 0, "boot": self.boot,
            "applied": within(found["applied"], self.newest, self.source.story.world.durable if self.unsure else self.newest),
            "batches": within(found["batches"], self.batches, self.batches + self.unsure),
            "queries": within(found["queries"], self.queries, self.queries + self.unsure * len(OTHERS)),
            "connections": within(found["connections"], 1, 3), "waiting": 0, "broken": self.is_broken,
        }
        return in_one_line(told)

    def last(self):
        """Whether a batch more is answered, once memory is there again. On a busy machine its turns may be used up before; and it may
        come just where memory was refused for one before it."""
        with Talk(self.address) as talk:
            for _ in range(TRIES):
                answer = talk.ask(batch(self.address, QUERIES))
                if answer is None or answer.body not in (b"late\n", b"memory\n"):
                    break
        if answer is None or answer.status in (500, 503):
            return False
        self.case("a batch behind that", shown(answer), (200, self.source.report(QUERIES), PLAIN))
        return True


# How many conversations are had with replicas of one primary: with each there is a commit more to fetch.
REPLICAS_EACH = 5
# How often a replica is asked that answers that a batch is late, or that memory was missing.
TRIES = 20


def replica_without_memory(part):
    """A replica to which some requests for memory are refused, each in turn, from its start to the end of a conversation."""
    library, more, numbers, pages = part
    tally = Tally()
    for start in range(0, len(numbers), REPLICAS_EACH):
        with tempfile.TemporaryDirectory() as at:
            if not some_at_replica(tally, at, library, more, numbers[start:start + REPLICAS_EACH], pages):
                break
    else:
        tally.case("a replica: its last request for memory", numbers[-1], "one before")
    return tally


def some_at_replica(tally, at, library, more, numbers, pages):
    """These requests, at replicas of one primary. Whether each was refused."""
    write(f"{at}/schema", SETTINGS)
    refusals = Refusals(at, library)
    with Source(at) as source:
        source.commit()
        for number in numbers:
            name = f"a replica, request {number}" + (" and all behind it" if more else "")
            if not one_at_replica(tally, name, source, refusals, number, more, pages):
                return False
    return True


def pages_of_replica():
    """What a replica with memory tells."""
    with tempfile.TemporaryDirectory() as at:
        write(f"{at}/schema", SETTINGS)
        with Source(at) as source, in_the_background(*source.words("0")[1], env=None) as node, Talk(address_of(node)) as talk:
            return {path: words_of(talk.ask(get(talk.address, path))) for path in ("/metrics", "/")}


def one_at_replica(tally, name, source, refusals, number, more, pages):
    """A conversation with a replica. Whether a request for memory was refused."""
    # A datagram without memory is lost, and asked for again: where all are, the batch is late.
    boot, words = source.words("30" if more else "0")
    refusals.begin(number, more)
    with in_the_background(*words, env=refusals.env) as node:
        address, talk = address_of(node), None
        if address:
            talk = ReplicaTalk(tally, name, source, boot, address, pages)
            talk.run()
            tally.case(f"{name}: an answer that does not come", talk.late, None)
        was_refused = refusals.count() >= number
        tally.outcomes["refused requests"] += was_refused
        refusals.end()
        if talk and talk.last():
            tally.case(f"{name}: it said that it is broken, and goes on", talk.is_broken, False)
            if not more:
                # (two that were to be answered together)
                tally.case(f"{name}: answers that did not come, or were late", (talk.failed > 2, talk.is_late), (False, False))
        else:
            ended = end_of(node)
            # Once it has answered a batch, it ends for one request only if it is broken. (With all behind that its input may end, too.)
            is_broken = talk and (talk.is_broken or talk.batches and not more)
            tally.case(f"{name}: its end", ended, "broken" if is_broken else ended if ended in ENDS else "")
            tally.outcomes[f"replicas ended: {ended}"] += 1
    return was_refused


# ---- both


# In how many parts the requests of a node are tried; and which of them with all behind them.
PARTS, EACH = 8, 3


def clients_without_memory(at):
    """Each request for memory of a node with clients, refused by itself, and then with all behind it: so only each third one, unless all
    are wanted."""
    library = built(at, "refuse")
    tally = Tally()
    nodes = (primary_without_memory, pages_of_primary()), (replica_without_memory, pages_of_replica())
    for more, step in ((0, 1), (ALL, 1 if WORDS.every else EACH)):
        for of_node, pages in nodes:
            numbers = [few(range(1 + part * step, NUMBER_MAX, PARTS * step)) for part in range(PARTS)]
            found = spread(of_node, [(library, more, it, pages) for it in numbers])
            how = "with all behind it" if more else "by itself"
            tally.told.append(f"{of_node.__name__}: {found.outcomes['refused requests']} requests refused, each {how}")
            tally.add(found)
    for outcome in ("503 memory", "ended connections", "primaries ended: out of memory", "replicas ended: out of memory"):
        tally.case(f"some are {outcome}", tally.outcomes[outcome] > 0, True)
    return tally
