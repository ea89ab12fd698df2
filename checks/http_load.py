"""Clients of a primary that write at once: transfers between rows, one row that all change, kills, full disks, and jobs of standard
input beside them. Each ticket that a client read is looked for in the journal."""

import contextlib
import itertools
import os
import random
import re
import signal
import subprocess
import threading
import time

from harness import WORDS, Tally, write
from http_client import Client, drive, get, request
from http_nodes import SETTINGS, Primary, Rows, Told, commits_in, insert_of, job, jobs_in

ACCOUNTS, BALANCE = 24, 1000
# A node that ends, or that is killed, does so long before a client has sent so many.
BODIES_MAX = 20_000
# Of a client that is refused, in seconds.
SHORTEST_WAIT, LONGEST_WAIT = 0.002, 0.5
# Of clients that are to be in conflict with standard input: the rounds at most, the jobs of standard input in each, and how many conflicts
# are enough.
ROUNDS_MAX, TYPED_JOBS, CONFLICTS_WANTED = 50, 200, 10
FILE_TOO_LARGE, NO_SPACE = "File too large (os error 27)", "No space left on device (os error 28)"


def post(address, text):
    return request(address, "POST", "/jobs", text.encode())


def values_of(answer):
    """The version and the values of a row that is there."""
    lines = answer.body.decode().split("\n")
    if answer.status != 200 or len(lines) != 3:
        raise ValueError(f"no row: {answer}")
    return int(lines[0].removeprefix("version ")), [int(it) for it in lines[1].split(" ")[2:]]


# ---- transfers


def transferring(address, number, told, reads, times):
    """A client that moves amounts between rows until it has done so this often; it looks again where a transfer is refused."""
    draw = random.Random(number)
    while times:
        one, other = draw.sample(range(ACCOUNTS), 2)
        mine, theirs = [], []
        for row, values in ((one, mine), (other, theirs)):
            least = told.newest
            version, found = values_of((yield get(address, f"/tables/acct/{row}")))
            reads.append((least, version, row, found))
            values += found
        amount = draw.randint(1, 50)
        text = job(
            number % 2,
            f"expect acct {one} 0 {mine[0]}",
            f"set acct {one} 0 {mine[0] - amount}",
            f"expect acct {other} 0 {theirs[0]}",
            f"set acct {other} 0 {theirs[0] + amount}",
        )
        told.begins(text)
        times -= told.answered(text, (yield post(address, text)))[0].startswith("ticket")


def wrong_reads(reads, commits):
    """Rows that were read otherwise than the commits up to their version leave them, or that are older than a ticket that was read
    before they were asked for."""
    wrong, rows, made = [], Rows(), 0
    for least, version, row, values in sorted(reads, key=lambda it: it[1]):
        for commit in commits[made:version]:
            for change in commit.changes:
                rows.make(change)
        made = max(made, version)
        if version < least or version > len(commits) or rows.line("acct", row) != f"acct {row} {values[0]} {values[1]}\n":
            wrong.append((least, version, row, values))
    return wrong


def between_rows(tally, at):
    """64 clients that transfer between rows: each transfer that a client was told is in the journal, once, and the sum is kept."""
    told, reads, times = Told(), [], 4 if WORDS.few else 20
    with Primary(at, journal="transfers") as node:
        rows = "".join(job(0, insert_of(row, BALANCE, 0)) for row in range(ACCOUNTS))
        with Client(node.http) as client:
            told.begins(rows)
            told.answered(rows, client.post(rows))
        drive(node.http, [transferring(node.http, number, told, reads, times) for number in range(64)])
        commits = node.commits()
        told.check(tally, "transfers", commits)
        tally.case("transfers: commits", len(commits), ACCOUNTS + 64 * times)
        tally.case("transfers: tickets", sorted(number for number, _ in told.tickets), list(range(1, len(commits) + 1)))
        tally.case("transfers: conflicts", told.counts["conflict"], 0)
        tally.case("transfers: rows that are not those of their version", wrong_reads(reads, commits)[:3], [])
        expected = Rows(commits)
        with Client(node.http) as client:
            found = [client.get(f"/tables/acct/{row}").body.decode() for row in range(ACCOUNTS)]
        lines = [f"version {len(commits)}\n" + expected.line("acct", row) for row in range(ACCOUNTS)]
        tally.case("transfers: the rows", found, lines)
        tally.case("transfers: the sum", sum(int(it.split(" ")[3]) for it in found), ACCOUNTS * BALANCE)
        tally.outcomes["transfers"] += 64 * times
        tally.outcomes["refused transfers"] += told.counts["refused"]


def adding(address, number, told, times):
    """A client that adds 1 to a row until it has done so this often. Where it is refused it lets others go first."""
    draw = random.Random(number)
    wait = SHORTEST_WAIT
    while times:
        yield draw.uniform(0, wait)
        _, (value, _) = values_of((yield get(address, "/tables/acct/1")))
        text = job(number % 2, f"expect acct 1 0 {value}", f"set acct 1 0 {value + 1}")
        told.begins(text)
        is_done = told.answered(text, (yield post(address, text)))[0].startswith("ticket")
        times -= is_done
        wait = max(SHORTEST_WAIT, wait / 2) if is_done else min(2 * wait, LONGEST_WAIT)


def makes_row(node, told, row=1):
    """The row that all clients change is made."""
    text = job(0, insert_of(row))
    told.begins(text)
    with Client(node.http) as client:
        told.answered(text, client.post(text))


def on_one_row(tally, at):
    """64 clients that each add 1 to one row, again and again."""
    told, times = Told(), 5 if WORDS.few else 100
    with Primary(at, journal="row") as node:
        makes_row(node, told)
        drive(node.http, [adding(node.http, number, told, times) for number in range(64)])
        with Client(node.http) as client:
            tally.case("one row of 64 clients", values_of(client.get("/tables/acct/1")), (64 * times + 1, [64 * times, 0]))
        tally.case("one row of 64 clients: conflicts", told.counts["conflict"], 0)
        told.check(tally, "one row of 64 clients", node.commits())
        tally.outcomes["additions"] += 64 * times
        tally.outcomes["refused additions"] += told.counts["refused"]


def setting(address, number, told, times):
    """A client that sets a row, whatever it is."""
    for count in range(times):
        text = job(number % 2, f"set acct 1 0 {number}", f"set acct 1 1 {count}")
        told.begins(text)
        told.answered(text, (yield post(address, text)))


def without_conditions(tally, at):
    """64 clients that set one row: none of them is refused, or in conflict with another."""
    told, times = Told(), 5 if WORDS.few else 20
    with Primary(at, journal="set") as node:
        makes_row(node, told)
        drive(node.http, [setting(node.http, number, told, times) for number in range(64)])
        tally.case("a row that 64 clients set", dict(told.counts), {"ticket": 64 * times + 1})
        commits = node.commits()
        told.check(tally, "a row that 64 clients set", commits)
        with Client(node.http) as client:
            found = client.get("/tables/acct/1").body.decode()
        tally.case("that row", found, f"version {64 * times + 1}\n" + Rows(commits).line("acct", 1))


def transfers(at):
    tally = Tally()
    write(f"{at}/schema", SETTINGS)
    between_rows(tally, at)
    on_one_row(tally, at)
    without_conditions(tally, at)
    return tally


# ---- kills and full disks


def inserting(address, draw, rows, told):
    """A client that sends bodies of one job or several until its connection ends. Some jobs look at the job before them, and some are
    refused. Half of the clients send one insert at a time, without a condition: these wait for the end of a round alone."""
    is_plain = draw.random() < 0.5
    for _ in range(BODIES_MAX):
        if is_plain:
            text = job(draw.randrange(2), insert_of(row := next(rows), row, 1))
        else:
            text = "".join(body_job(draw, next(rows)) for _ in range(draw.choice((1, 1, 1, 2, 5))))
        told.begins(text)
        answer = yield post(address, text)
        if answer is None:
            return
        # (of these its jobs may be done or not)
        if answer.status not in (500, 503):
            told.answered(text, answer)
    raise ValueError("the node does not end")


def body_job(draw, row):
    inserted = job(draw.randrange(2), f"absent acct {row}", insert_of(row, row, 1))
    kind = draw.random()
    if kind < 0.2:
        return inserted + job(draw.randrange(2), f"expect acct {row} 1 1", f"set acct {row} 1 2")
    if kind < 0.3:
        return inserted + job(draw.randrange(2), insert_of(row, 0, 0))
    return inserted


def beginning(address, thread):
    """The last of clients that come: a thread begins once the node has answered it, so that all others are there by then."""
    yield get(address, "/none")
    thread.start()


def clients_until_end(node, told, rows, seed, *others):
    """16 clients that write until the node ends, and others."""
    draw = random.Random(seed)
    drive(node.http, [*(inserting(node.http, random.Random(draw.random()), rows, told) for _ in range(16)), *others])


def kills(at):
    """A primary is killed under load, again and again, on one journal. Whatever a client was told before stays in it."""
    tally, told, rows = Tally(), Told(), itertools.count()
    write(f"{at}/schema", SETTINGS)
    draw = random.Random(13)
    for number in range(3 if WORDS.few else 20):
        with Primary(at) as node:
            killer = threading.Timer(draw.uniform(0.02, 0.4), node.process.kill)
            clients_until_end(node, told, rows, number, beginning(node.http, killer))
            killer.join()
            tally.case(f"kill {number}: the status", node.process.wait(), -signal.SIGKILL)
        commits = commits_in(node.schema, node.journal)
        told.check(tally, f"kill {number}", commits)
        tally.outcomes["kills"] += 1
    tally.case("tickets before the kills", len(told.tickets) > 0, True)
    tally.outcomes["tickets"] += len(told.tickets)
    tally.outcomes["commits"] += len(commits)
    full_disk(tally, at)
    fault_of_another(tally, at)
    return tally


def full_disk(tally, at):
    """A file that may not grow beyond some bytes, and a device that is full, where one may be mounted."""
    for blocks in (1, 9, 17, 40, 60) if WORDS.few else (1, 2, 5, *range(9, 18), 40, 60, 200, 1000):
        limit = f"-c 0; trap '' XFSZ; ulimit -f {blocks}"
        with Primary(at, journal=f"limited to {blocks}", limit=limit) as node:
            on_full_disk(tally, f"a file of {512 * blocks} bytes", node, FILE_TOO_LARGE, node.journal)
    os.mkdir(f"{at}/device")
    with contextlib.suppress(OSError, EOFError):
        limit = f"-c 0; mount -t tmpfs -o size=300k none '{at}/device' || exit 77"
        with Primary(at, journal="device/journal", limit=limit, front=("unshare", "-m")) as node:
            # (only the node's own view of the files has the device)
            with open(f"/proc/{node.process.pid}/root{node.journal}", "rb") as journal:
                on_full_disk(tally, "a full device", node, NO_SPACE, f"{at}/copied", journal)
            return
    tally.told.append("kills: no small device can be mounted here")


def on_full_disk(tally, name, node, fault, kept, journal=None):
    """Clients write until the node ends. No 200 is read for what is not in the journal."""
    told = Told()
    told.begins("".join(job(0, insert_of(1))))
    clients_until_end(node, told, itertools.count(), name)
    tally.case(f"{name}: the status and the last line", node.ended(), (1, f"batchdb: {node.journal}: write: {fault}\n"))
    if journal:
        write(kept, journal.read())
    told.check(tally, name, commits_in(node.schema, kept))
    tally.outcomes["full disks"] += 1


def fault_of_another(tally, at):
    """The journal fails by a job of standard input. A client whose next job comes before the node ends is told so, unless a job of its
    own was to be written together with that one: then its connection ends. So there are rounds until it is told, or so many."""
    for number in range(ROUNDS_MAX):
        limit = "-c 0; trap '' XFSZ; ulimit -f 40"
        with Primary(at, journal=f"fails {number}", stdin=subprocess.PIPE, limit=limit) as node:
            told = Told()
            node.send(job(1, *(insert_of(row) for row in range(1000))))
            answer = last_answer(node, told)
            tally.case("a fault of another: the end", node.ended(), (1, f"batchdb: {node.journal}: write: {FILE_TOO_LARGE}\n"))
            told.check(tally, "a fault of another", node.commits())
        if answer:
            tally.case("a fault of another: what a client is told", (answer.status, answer.body), (500, b"journal\n"))
            return
    tally.case("a fault of another: a client is told", False, True)


def last_answer(node, told):
    """The answer at which a client stops that has jobs done, one after another: one that is not 200, or none."""
    with Client(node.http) as client:
        for row in range(2000, 2000 + BODIES_MAX):
            inserted = job(0, insert_of(row))
            told.begins(inserted)
            answer = client.post(inserted)
            if answer is None or answer.status != 200:
                return answer
            told.answered(inserted, answer)
            time.sleep(SHORTEST_WAIT)
    raise ValueError("the node does not end")


# ---- standard input beside HTTP


def counting(address, draw, rows, told, times):
    """A client that sends this many bodies, and in between adds to the row that standard input changes, too."""
    for _ in range(times):
        _, (value, _) = values_of((yield get(address, "/tables/acct/1")))
        text = job(draw.randrange(2), f"expect acct 1 0 {value}", f"set acct 1 0 {value + 1}")
        told.begins(text)
        told.answered(text, (yield post(address, text)))
        text = job(draw.randrange(2), insert_of(next(rows), 7, 7))
        told.begins(text)
        told.answered(text, (yield post(address, text)))


def typed_jobs(count):
    """Jobs of standard input: rows of their own, and additions to the row that clients change, too, as long as it is still small."""
    shared = [job(0, f"expect acct 1 0 {number}", f"set acct 1 0 {number + 1}") for number in range(count // 10)]
    own = [job(number % 2, insert_of(2_000_000 + number, number, 3)) for number in range(count - len(shared))]
    whole = own + shared
    random.Random(15).shuffle(whole)
    return whole


def beside(at):
    """Jobs over standard input and HTTP at once, on rows of their own and on one that they share."""
    tally, told, rows = Tally(), Told(), itertools.count(1_000_000)
    write(f"{at}/schema", SETTINGS)
    count = 500 if WORDS.few else 20_000
    with Primary(at, stdin=subprocess.PIPE) as node:
        makes_row(node, told)
        typed = typed_jobs(count)
        writer = threading.Thread(target=node.send, args=("".join(typed),))
        times = 10 if WORDS.few else 60
        clients = [counting(node.http, random.Random(number), rows, told, times) for number in range(16)]
        drive(node.http, [*clients, beginning(node.http, writer)])
        writer.join()
        typed_answers(tally, node, typed, told)
        commits = node.commits()
        told.check(tally, "beside", commits)
        numbers = sorted(number for number, _ in told.tickets)
        tally.case("tickets without a gap, none twice", numbers, list(range(1, len(commits) + 1)))
        tally.case("both were done at once", overlap(commits) > 10, True)
        rows_are_there(tally, node, commits)
        still_there(tally, node, Rows(commits).rows["acct", "1"][0])
    tally.outcomes.update(told.counts)
    in_conflict(tally, at)
    return tally


def in_conflict(tally, at):
    """Jobs of standard input set two rows, and clients one of them, without conditions: nobody is refused, and who is in conflict is told
    a commit of that row. Whether a client is in conflict rests on what meets, so there are rounds until some are, or so many rounds."""
    told, rounds = Told(), 0
    with Primary(at, journal="conflicts", stdin=subprocess.PIPE) as node:
        makes_row(node, told)
        makes_row(node, told, 2)
        while rounds < ROUNDS_MAX and told.counts["conflict"] < CONFLICTS_WANTED:
            typed = [job(number % 2, f"set acct {1 + number % 3 % 2} 1 {number}") for number in range(TYPED_JOBS)]
            writer = threading.Thread(target=node.send, args=("".join(typed),))
            clients = [setting(node.http, number, told, 10) for number in range(16)]
            drive(node.http, [*clients, beginning(node.http, writer)])
            writer.join()
            typed_settings(tally, node, typed, told, rounds * len(typed))
            rounds += 1
        commits = node.commits()
        told.check(tally, "conflicts", commits)
        numbers = sorted(number for number, _ in told.tickets)
        tally.case("conflicts: tickets without a gap, none twice", numbers, list(range(1, len(commits) + 1)))
        tally.case("conflicts: refused jobs of clients", told.counts["refused"], 0)
        with Client(node.http) as client:
            found = client.get("/tables/acct/1").body.decode()
        tally.case("conflicts: the row", found, f"version {len(commits)}\n" + Rows(commits).line("acct", 1))
    tally.outcomes["jobs of clients in conflict"] += told.counts["conflict"]
    tally.told.append(f"beside: {told.counts['conflict']} jobs of clients in conflict, in {rounds} rounds of {TYPED_JOBS} jobs beside them")


def typed_settings(tally, node, typed, told, first):
    """What jobs of standard input were answered, of which the first has this number: tickets, and conflicts."""
    lines = [re.fullmatch(r"job (\d+) (ticket|conflict) ([1-9]\d*)", line) for line in node.lines(len(typed))]
    numbers = sorted(int(it[1]) for it in lines if it)
    tally.case("conflicts: the jobs of standard input", numbers, list(range(first, first + len(typed))))
    for it in filter(None, lines):
        text = typed[int(it[1]) - first]
        told.begins(text)
        noted = told.tickets if it[2] == "ticket" else told.conflicts
        noted += [(int(it[3]), commit) for commit in jobs_in(text)]


def typed_answers(tally, node, typed, told):
    """What the jobs of standard input were answered, in any order: each once."""
    lines = [re.fullmatch(r"job (\d+) (ticket|conflict|refused)(?: (\d+))?", line) for line in node.lines(len(typed))]
    tally.case("lines of standard input that are no answers", sum(not it for it in lines), 0)
    tally.case("the jobs of standard input", sorted(int(it[1]) for it in lines if it), list(range(len(typed))))
    for it in filter(None, lines):
        text = typed[int(it[1])]
        told.begins(text)
        tally.outcomes[f"{it[2]} of standard input"] += 1
        if it[2] == "ticket":
            told.tickets += [(int(it[3]), commit) for commit in jobs_in(text)]
        elif "expect" not in text:
            tally.case("a job of standard input on a row of its own", it[0], "a ticket")


def overlap(commits):
    """How often a commit of standard input follows one over HTTP, or the other way round."""
    kinds = [it.changes[0].split(" ")[2][0] == "2" for it in commits if it.changes[0].startswith("insert")]
    return sum(one != other for one, other in zip(kinds, kinds[1:]))


def rows_are_there(tally, node, commits):
    expected = Rows(commits)
    draw = random.Random(15)
    with Client(node.http) as client:
        for name, row in draw.sample(sorted(expected.rows), 200):
            found = client.get(f"/tables/{name}/{row}").body.decode()
            tally.case(f"the row {name} {row}", found, f"version {len(commits)}\n" + expected.line(name, row))


def still_there(tally, node, value):
    """Clients are served behind the end of the input."""
    with Client(node.http) as client:
        node.send("get acct 1 0\n")
        tally.case("a get of standard input", node.lines(1), [f"get acct 1 0 value {value}"])
        node.process.stdin.close()
        node.errors.that("^the input has ended$")
        time.sleep(0.1)
        tally.case("a row behind the end of the input", client.get("/tables/acct/1").status, 200)
        tally.case("a job behind the end of the input", client.post(job(0, insert_of(5))).status, 200)
