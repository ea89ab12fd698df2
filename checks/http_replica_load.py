"""Clients of a replica that read while clients of its primary write, batches of standard input beside them, a primary that is away,
kills of a replica and its end. Each report is worked out here from the commits that clients were told of."""

import contextlib
import itertools
import json
import os
import random
import re
import signal
import socket
import subprocess
import threading
import time

from harness import SECONDS_MAX, WORDS, run, word_of
from http_cases import fault_of
from http_client import JSON, UNCACHED, Client, drive_all, request, seconds_until_end, shown, text
from http_figures import status_of
from http_load import beginning
from http_nodes import ANY_PORT, Pair, as_json, batch, insert_of, job

WRITERS = 6
TEXT, JSON_WANTED = (), ("Accept: application/json",)
COUNT = "query acct get count"
NO_PLAN = (400, "line 1: no plan")
LATE_BATCH = text(503, "late\n")


def report(version, answers):
    """The text of a report with these lines for each query."""
    lines = [f"version {version} queries {len(answers)}"]
    for number, found in enumerate(answers):
        lines += [f"query {number} rows {len(found)}", *found]
    return "".join(f"{line}\n" for line in lines)


def in_json(body):
    return 200, body, JSON, UNCACHED


def shown_json(answer):
    """What cases compare of an answer in JSON, whose line may have an end."""
    status, body, *fields = shown(answer)
    return status, body.removesuffix("\n"), *fields


def lone_status(client):
    """The status of a node once it knows of no other connection."""
    end = time.monotonic() + SECONDS_MAX / 8
    while (found := status_of(client))["connections"] > 1 and time.monotonic() < end:
        time.sleep(0.01)
    return found


# ---- clients at once


def drawn_query(draw):
    """A query whose answer changes while rows do."""
    number = draw.randrange(8)
    return draw.choice((
        "query acct get count sum 1 min 1 max 1",
        f"query acct where 0 = {number} get count sum 1",
        f"query acct where 1 >= {number * 10} and 1 < {number * 10 + 30} by 0 get count max 1",
        f"query acct join 0 site where 1 > {number} by j0 get count sum 1",
        f"query acct join 0 site where j0 != x{number:04x} get count sum 1 min j0",
        f"query acct by 0 get sum {number % 2} count",
        "query site by 0 get count",
    ))


class Load:
    """Clients of a replica that read while clients of its primary write: what they were answered."""

    def __init__(self, pair):
        self.pair, self.reads, self.others, self.readers, self.numbers = pair, [], [], 0, itertools.count(100)
        pair.commit(*(f"insert site {row} x{row:04x}" for row in range(8)))

    def reading(self, number, times):
        """A client that sends batches until it has done so this often, or its connection ends."""
        draw, address = random.Random(number), self.pair.replica.http
        self.readers += 1
        for _ in range(times):
            queries = [drawn_query(draw) for _ in range(draw.choice((1, 1, 1, 2, 3, 8)))]
            fields = JSON_WANTED if draw.random() < 0.3 else TEXT
            newest = self.pair.told.newest
            answer = yield batch(address, queries, *fields)
            if answer is None:
                break
            if answer.status == 503:
                self.others.append(shown(answer))
                break
            self.reads.append((newest, queries, fields, answer))
        self.readers -= 1

    def writing(self, number):
        """A client that writes rows of its own until nobody reads."""
        draw, rows, told = random.Random(number), set(), self.pair.told
        while self.readers:
            body = job(number % 2, *changes_of(draw, rows, number))
            told.begins(body)
            told.answered(body, (yield request(self.pair.primary.http, "POST", "/jobs", body.encode())))

    def run(self, readers, times, *others):
        """So many clients read, and some write; others of the replica may come with them."""
        reading = [(self.pair.replica.http, self.reading(number, times)) for number in range(readers)]
        writing = [(self.pair.primary.http, self.writing(next(self.numbers))) for _ in range(WRITERS)]
        drive_all([*reading, *writing, *((self.pair.replica.http, it) for it in others)])

    def check(self, tally, name):
        """Each report is that of its own queries on the rows of its version, which is not older than a ticket that was read before."""
        tally.case(f"{name}: tickets", sorted(number for number, _ in self.pair.told.tickets), list(range(1, self.pair.told.newest + 1)))
        reports = self.pair.reports()
        wrong = [it for it in self.reads if not is_right(reports, *it)]
        tally.case(f"{name}: wrong reports", wrong[:2], [])
        tally.case(f"{name}: reports", len(self.reads) > 0, True)
        tally.outcomes["reports under load"] += len(self.reads)
        tally.outcomes["versions of these"] += len({version_of(it[3]) for it in self.reads})


def changes_of(draw, rows, number):
    """Changes of rows that no other client writes. It is noted which of these there are then."""
    row = number * 100 + draw.randrange(12)
    changes = [f"set site {number % WRITERS} 0 x{draw.randrange(8):04x}"] if draw.random() < 0.2 else []
    if row not in rows:
        rows.add(row)
        return [*changes, insert_of(row, draw.randrange(8), draw.randrange(100))]
    if draw.random() < 0.2:
        rows.remove(row)
        return [*changes, f"delete acct {row}"]
    return [*changes, f"set acct {row} {draw.randrange(2)} {draw.randrange(100)}"]


def version_of(answer):
    if answer.fields.get("content-type") == JSON:
        return json.loads(answer.body)["version"]
    return int(answer.body.split(b" ", 2)[1])


def is_right(reports, newest, queries, fields, answer):
    """Whether an answer is the report of these queries at a version that is not too old."""
    version = version_of(answer) if answer.status == 200 else -1
    if not newest <= version <= reports.count:
        return False
    expected = reports.at(version, queries)
    if fields == JSON_WANTED:
        return shown_json(answer) == in_json(as_json(expected))
    return shown(answer) == text(200, expected)


def many_at_once(tally, at):
    """60 clients with different queries while others write."""
    with Pair(at, "load") as pair:
        load = Load(pair)
        load.run(60, 8 if WORDS.few else 25)
        load.check(tally, "60 clients")
        tally.case("60 clients: none was refused", load.others, [])
        with Client(pair.replica.http) as client:
            found = status_of(client)
        tally.case("fewer batches than requests", 0 < found["batches"] < len(load.reads), True)
        tally.case("queries of these batches", found["queries"], sum(len(it[1]) for it in load.reads))
        tally.case("the version of the newest report", found["applied"], max(version_of(it[3]) for it in load.reads))
        tally.told.append(f"replica: {len(load.reads)} requests in {found['batches']} batches, {pair.told.newest} commits meanwhile")
        answered_together(tally, pair)


def answered_together(tally, pair):
    """Requests that come while the primary says nothing wait, and are answered together, while they have 64 queries at most. The first is
    a batch of its own."""
    for count, size, most in ((40, 1, 1), (20, 3, 1), (10, 40, 10), (9, 21, 3)):
        pair.commit(insert_of(5000 + count))
        queries = [f"query acct where 1 > {number} get count" for number in range(size)]
        with Client(pair.replica.http) as client, contextlib.ExitStack() as stack:
            before = lone_status(client)
            clients = [stack.enter_context(Client(pair.replica.http)) for _ in range(count + 1)]
            with stopped(pair.primary):
                clients[0].send(batch(pair.replica.http, queries))
                time.sleep(0.2)
                for it in clients[1:]:
                    it.send(batch(pair.replica.http, queries))
                waiting = waits_for(client, count)
            found = [shown(it.answer()) for it in clients]
            tally.case(f"{count} requests of {size} queries behind one", found, [pair.expected(*queries)] * (count + 1))
            after = status_of(client)
            tally.case("how many waited for the next batch", waiting, count)
            tally.case("their batches, and that of the first", 2 <= after["batches"] - before["batches"] <= most + 1 or after, True)
            tally.case("their queries", (after["queries"] - before["queries"], after["waiting"]), ((count + 1) * size, 0))


@contextlib.contextmanager
def stopped(node):
    """A node of which no thread does anything for a while."""
    node.process.send_signal(signal.SIGSTOP)
    try:
        while set(states(node)) != {"T"}:
            time.sleep(0.002)
        yield
    finally:
        node.process.send_signal(signal.SIGCONT)


def states(node):
    """The states of a node's threads, as the system tells them."""
    for task in os.listdir(f"/proc/{node.process.pid}/task"):
        with open(f"/proc/{node.process.pid}/task/{task}/stat") as file:
            yield file.read().rpartition(")")[2].split()[0]


def waits_for(client, count):
    """How many requests wait, by the status of a replica, once there are so many."""
    end = time.monotonic() + SECONDS_MAX / 40
    while (found := status_of(client)["waiting"]) != count and time.monotonic() < end:
        time.sleep(0.01)
    return found


def input_beside(tally, at):
    """Batches on standard input and over HTTP at once."""
    count = 40 if WORDS.few else 200
    with Pair(at, "input", stdin=subprocess.PIPE) as pair:
        typed = [[f"query acct where 1 > {number} get count sum 1", COUNT] for number in range(count)]
        pair.commit(insert_of(1, 1, 50))
        whole = "".join("".join(f"{it}\n" for it in queries) + "\n" for queries in typed)
        writer = threading.Thread(target=pair.replica.send, args=(whole,))
        load = Load(pair)
        load.run(16, 5 if WORDS.few else 15, beginning(pair.replica.http, writer))
        writer.join()
        lines = pair.replica.lines(5 * count)
        load.check(tally, "beside standard input")
        reports, versions, wrong = pair.reports(), [0], []
        for number, queries in enumerate(typed):
            found = "".join(f"{it}\n" for it in lines[5 * number:5 * number + 5])
            version = int(found.split(" ", 2)[1]) if found else -1
            if not versions[-1] <= version <= reports.count or found != reports.at(version, queries):
                wrong.append((number, found))
            versions.append(version)
        tally.case("reports of standard input", wrong[:2], [])
        pair.replica.process.stdin.close()
        tally.case("the end of the input", bool(pair.replica.errors.that("^the input has ended$")), True)
        tally.case("a batch behind the end of the input", shown(pair.ask(COUNT)), pair.expected(COUNT))


# ---- nodes that are away, and ends


def primary_away(tally, at):
    """While the primary is away a batch is answered within the time that the replica waits; once it is back, with a report."""
    with Pair(at, "away", "--wait", "1") as pair:
        pair.commit(insert_of(1, 1, 100), insert_of(2, 1, 50), insert_of(3, 2, -30))
        queries = ["query acct by 0 get count sum 1 max 1", COUNT]
        tally.case("before the primary is away", shown(pair.ask(*queries)), pair.expected(*queries))
        for number in range(1 if WORDS.few else 2):
            pair.primary.process.kill()
            pair.primary.process.wait()
            late_batches(tally, pair)
            pair.start_primary()
            tally.case("once the primary is back", shown(pair.ask(*queries)), pair.expected(*queries))
            pair.commit(insert_of(50 + number, 1, 1))
            tally.case("a commit behind that", shown(pair.ask(*queries)), pair.expected(*queries))


def late_batches(tally, pair):
    clients = [Client(pair.replica.http) for _ in range(5)]
    start = time.monotonic()
    for client in clients:
        client.send(batch(client.address, [COUNT]))
    for client in clients:
        answer = client.answer()
        tally.case("no primary", (shown(answer), answer.fields.get("retry-after")), (LATE_BATCH, "1"))
        tally.case("the time of that", time.monotonic() - start < 2.5 or time.monotonic() - start, True)
    tally.case("no primary: not before the time is up", time.monotonic() - start > 0.9, True)
    tally.case("no primary: a body that does not read", fault_of(pair.ask("select 1")), NO_PLAN)
    tally.case("no primary: other paths", [clients[0].get(path).status for path in ("/tables", "/status", "/", "/metrics")], [200] * 4)
    for client in clients:
        client.socket.close()


def kills(tally, at):
    """A replica is killed while clients read, and started again. No wrong report was read."""
    draw = random.Random(17)
    with Pair(at, "kills") as pair:
        load = Load(pair)
        for number in range(2 if WORDS.few else 8):
            killer = threading.Timer(draw.uniform(0, 0.4), pair.replica.process.kill)
            load.run(32, 10_000, beginning(pair.replica.http, killer))
            killer.join()
            tally.case(f"kill {number} of a replica", pair.replica.process.wait(), -signal.SIGKILL)
            pair.start_replica()
            tally.case(f"kill {number}: a batch behind it", shown(pair.ask(COUNT)), pair.expected(COUNT))
        load.check(tally, "kills")
        tally.case("kills: no other answers", load.others, [])


def turns_used_up(tally, at):
    """The turns end a replica: its connections end, and a request that waits hears that it is late, or that its connection ends."""
    with Pair(at, "turns", turns="150") as pair:
        idle, begun, answered, waiting = (Client(pair.replica.http) for _ in range(4))
        begun.send(b"POST /batches HTTP/1.1\r\n")
        pair.commit(insert_of(1))
        tally.case("a batch before the end", shown(answered.ask(batch(pair.replica.http, [COUNT]))), pair.expected(COUNT))
        with stopped(pair.primary):
            waiting.send(batch(pair.replica.http, [COUNT]))
            for name, it in (("idle", idle), ("begun", begun), ("answered", answered)):
                seconds, came = seconds_until_end(it.socket, SECONDS_MAX / 8)
                tally.case(f"a connection at the end of the turns: {name}", (seconds is not None, came), (True, b""))
            found = waiting.answer()
            tally.case("a request that waits at the end of the turns", found is None or shown(found) == LATE_BATCH or shown(found), True)
            tally.case("when to come again", found and found.fields.get("retry-after"), found and "1")
            tally.case("its connection", waiting.ends(), True)
            tally.case("the status at the end of the turns", pair.replica.process.wait(SECONDS_MAX / 4), 0)
        said = pair.replica.errors.whole().splitlines()[-1]
        is_said = bool(re.fullmatch(r"turns used up: received \d+, ignored \d+, sent \d+, lost \d+", said))
        tally.case("the last line of a replica", is_said, True)
        for it in (idle, begun, answered, waiting):
            it.socket.close()


def end_under_load(tally, at):
    """The turns end while clients read, and behind a fault of standard input."""
    with Pair(at, "ends", turns="400") as pair:
        load = Load(pair)
        load.run(16, 10_000)
        tally.case("the status at an end under load", pair.replica.process.wait(SECONDS_MAX / 4), 0)
        load.check(tally, "an end under load")
        tally.case("an end under load: other answers", set(load.others) <= {LATE_BATCH} or load.others, True)
    with Pair(at, "faults", turns="100", stdin=subprocess.PIPE) as pair:
        pair.replica.send(f"frobnicate\n\n{COUNT}\n\n")
        tally.case("a batch behind a fault of standard input", pair.replica.lines(3), report(0, [["0"]]).splitlines())
        pair.replica.process.stdin.close()
        tally.case("a batch over HTTP then", shown(pair.ask(COUNT)), pair.expected(COUNT))
        tally.case("the status of a replica with such a fault", pair.replica.process.wait(SECONDS_MAX / 4), 2)


def wrong_words(tally, at):
    """Words that are none, and a port in use."""
    words = ("replica", f"{at}/schema", "0", "1", ANY_PORT, ANY_PORT.replace(":0", ":9"))
    advice = "; see `batchdb --help`\n"
    for it in ("", "127.0.0.1", "127.0.0.1:65536", "example.org:80", "[::1]:80"):
        status, output, errors = run(*words, "--live", "--http", it)
        is_said = bool(re.fullmatch("batchdb: bad --http: .*" + re.escape(advice), errors))
        tally.case(f"a replica with --http {it!r}", (status, output, is_said), (2, "", True))
    found = run(*words, "--http", ANY_PORT, given=f"{COUNT}\n")
    tally.case("a replica with --http without --live", found, (2, "", f"batchdb: bad --http: not without --live{advice}"))
    with socket.create_server(("127.0.0.1", 0)) as other:
        address = word_of(other)
        line = f"batchdb: {address}: bind: Address already in use (os error 98)\n"
        for turns in ("0", "5"):
            found = run(*words, "--live", "--turns", turns, "--http", address, given=f"{COUNT}\n")
            tally.case("a replica with a port in use", found, (1, "", line))
