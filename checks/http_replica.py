"""A replica's HTTP service: what it answers to batches, its figures, hostile clients. Each report is worked out here from the commits
that clients were told of."""

import concurrent.futures
import contextlib
import hashlib
import os
import random
import threading
import time

from harness import SECONDS_MAX, WORDS, Tally, contents, free_address, run, write
from http_cases import BODY_MAX, PAGE_FIELDS, allowed, fault_of, refused
from http_client import ACCEPTS, PLAIN, UNCACHED, Answer, Client, Malformed, accepted, all_answers, exchanged, get, head, request
from http_client import request_in_chunks, shown, text
from http_figures import figures, status_of
from http_hostile import FEW_DESCRIPTORS, HOST, IDLE_SECONDS, OTHERS_SECONDS, REQUEST_SECONDS, answers_to, attempt, batches
from http_hostile import begun_behind_request, changed, deaf_client, goes_on, idle_behind_answer, idle_client, is_about, padded
from http_hostile import slow_client, slow_crowd, slow_head, slowly, without_descriptors
from http_nodes import ANY_PORT, REPLICA_PLACES, SETTINGS, Pair, Primary, Replica, as_json, batch, insert_of, job
from http_replica_load import COUNT, JSON_WANTED, TEXT, drawn_query, end_under_load, in_json, input_beside, kills, lone_status
from http_replica_load import many_at_once, primary_away, report, shown_json, stopped, turns_used_up, wrong_words

QUERIES_MAX, PLACES = 64, REPLICA_PLACES
# The accounts and the sites of the examples in FORMATS, and what is answered there.
EXAMPLE = ("insert site 1 x4e45", "insert site 2 x5357", *(f"insert acct {row} {values}" for row, values in (
    (10, "1 100"), (11, "2 50"), (12, "1 -30"), (13, "9 7"), (14, "-1 8"))))
EXAMPLES = (
    ("query acct join 0 site by j0 get count sum 1 max 1", ["x4e45 2 70 100", "x5357 1 50 50"]),
    ("query acct join 0 site where 1 > 0 and j0 != x5357 get count sum 1", ["1 100"]),
    ("query acct by 0 get count sum 1 min 1 max 1", ["-1 1 8 8 8", "1 2 70 -30 100", "2 1 50 50 50", "9 1 7 7 7"]),
    ("query acct join 0 site where j0 >= x5000 get min j0", ["x5357"]),
    ("query acct where 0 > 100 by 0 get count", []),
    ("query acct where 0 > 100 get count sum 1 min 1", ["0 0 -"]),
)
FAMILIES = {
    "batchdb_applied_commits": "gauge",
    "batchdb_batches_total": "counter",
    "batchdb_queries_total": "counter",
    "batchdb_waiting_requests": "gauge",
    "batchdb_http_requests_total": "counter",
    "batchdb_http_connections": "gauge",
    "batchdb_http_refused_total": "counter",
    "batchdb_datagrams_total": "counter",
}
LABELS = {
    "batchdb_http_requests_total": {"200", "400", "404", "405", "409", "500", "503"},
    "batchdb_datagrams_total": {"received", "ignored", "sent", "lost"},
}
# What a replica may answer to what is no good request.
STATUSES = {200, 400, 403, 404, 405, 413, 414, 421, 431, 501}


def post(client, body, *fields):
    return client.ask(request(client.address, "POST", "/batches", body if isinstance(body, bytes) else body.encode(), *fields))


# ---- what batches are answered


def reports_of_batches(tally, pair):
    """Reports as a text and as JSON: of no rows, of the examples of FORMATS, of sums that no reader of JSON has."""
    tally.case("a report of no rows", shown(pair.ask(COUNT)), text(200, report(0, [["0"]])))
    pair.commit(*EXAMPLE)
    queries, lines = zip(*EXAMPLES)
    for accept, is_json in ACCEPTS:
        answer, told = pair.ask(*queries, fields=accepted(accept)), report(1, lines)
        found, expected = (shown_json(answer), in_json(as_json(told))) if is_json else (shown(answer), text(200, told))
        tally.case(f"the examples, by {accept}", found, expected)
    for query, answer in EXAMPLES:
        tally.case(query, shown(pair.ask(query)), text(200, report(1, [answer])))
    pair.commit(*(insert_of(row, 30, 2**63 - 1) for row in (30, 31, 32)), insert_of(33, 31, -(2**63)), insert_of(34, 31, -(2**63)))
    sums = "query acct where 0 >= 30 by 0 get count sum 1 min 1"
    large = [f"30 3 {3 * (2**63 - 1)} {2**63 - 1}", f"31 2 {-(2**64)} {-(2**63)}"]
    tally.case("sums beyond 64 bits", shown(pair.ask(sums)), text(200, report(2, [large])))
    exact = f'{{"version":2,"queries":[{{"rows":[["30","3","{3 * (2**63 - 1)}","{2**63 - 1}"],["31","2","{-(2**64)}","{-(2**63)}"]]}}]}}'
    tally.case("the same as JSON", shown_json(pair.ask(sums, fields=JSON_WANTED)), in_json(exact))


def numbers_of_queries(tally, pair):
    """64 queries in a body, each answered in its place; 65, none."""
    queries = [f"query acct where 1 >= {number * 3 - 40} get count sum 1" for number in range(QUERIES_MAX)]
    tally.case("64 queries", shown(pair.ask(*queries)), pair.expected(*queries))
    found = shown_json(pair.ask(*queries, fields=JSON_WANTED))
    tally.case("64 queries as JSON", found, in_json(as_json(pair.expected(*queries)[1])))
    for fields in (TEXT, JSON_WANTED):
        found = fault_of(pair.ask(*queries, COUNT, fields=fields))
        tally.case("65 queries", found, (400, "line 65: more than 64 queries"))
        for name, body in (("nothing", ""), ("empty lines", "\n\n\n"), ("comments", "# one\n#\n"), ("a comment without an end", "#")):
            with Client(pair.replica.http) as client:
                tally.case(f"a body of {name}", shown(post(client, body, *fields)), text(400, "line 1: no plan\n"))


def comments_and_lines(tally, pair):
    """Comments, empty lines behind the last query, and a last line without an end."""
    two = shown(pair.ask(COUNT, "query site get count"))
    with Client(pair.replica.http) as client:
        for name, body in (
            ("comments", f"# one\n{COUNT}\n#two\n# \nquery site get count\n# three\n"),
            ("a last line without an end", f"{COUNT}\nquery site get count"),
            ("comments behind an empty line", f"{COUNT}\nquery site get count\n\n# one\n\n\n# two"),
            ("a comment that is no text", b"# \xff\0\t\r\n" + f"{COUNT}\nquery site get count\n".encode()),
            ("a comment of 65,536 bytes", f"#{'-' * 65_535}\n{COUNT}\nquery site get count\n"),
            ("the longest body", padded(f"{COUNT}\nquery site get count\n".encode(), BODY_MAX)),
        ):
            tally.case(f"a batch with {name}", shown(post(client, body)), two)
    tally.case("these two queries", two, pair.expected(COUNT, "query site get count"))
    with Client(pair.replica.http) as client:
        too_long = padded(f"{COUNT}\n".encode(), BODY_MAX + 1)
        tally.case("a body that is too long", post(client, too_long).status, 413)


def unread_batches(tally, pair):
    """Bodies that do not read, or whose queries do not fit."""
    with Client(pair.replica.http) as client:
        for name, body, fault in (
            ("no plan", "select 1\n", "line 1: no plan"),
            ("no plan behind one", f"{COUNT}\nquery acct get\n", "line 2: no plan"),
            ("no plan behind comments", f"# one\n\n# two\n{COUNT}\n# three\nquery acct get avg 1\n", "line 6: no plan"),
            ("no such table", "query none get count\n", "line 1: no plan"),
            ("no such table to join", "query acct join 0 none get count\n", "line 1: no plan"),
            ("CR LF", f"{COUNT}\r\n", "line 1: no plan"),
            ("a byte order mark", f"\ufeff{COUNT}\n", "line 1: no plan"),
            ("a byte that is no text", b"query acct\xff get count\n", "line 1: no plan"),
            ("a tab", f"query\tacct get count\n", "line 1: no plan"),
            ("a line of 65,537 bytes", f"{COUNT}\n#{'-' * 65_536}\n", "line 2: too long"),
            ("a job", job(0, insert_of(99)), "line 1: no plan"),
            ("a column that is not there", "query acct get sum 2\n", "line 1: no such column"),
            ("a column that is not there behind one", f"{COUNT}\n# one\nquery acct by 7 get count\n", "line 3: no such column"),
            ("a column of no join", "query acct get min j0\n", "line 1: no such column"),
            ("a sum of bytes", "query site get sum 0\n", "line 1: wrong kind of a column"),
            ("bytes of another length", "query site where 0 = x4e get count\n", "line 1: wrong kind of a column"),
            ("a join by bytes", f"{COUNT}\nquery site join 0 acct get count\n", "line 2: wrong kind of a column"),
            ("three columns to group by", "query acct by 0 1 0 get count\n",
                "line 1: too many conditions, columns to group by or aggregates"),
        ):
            for fields in (TEXT, JSON_WANTED):
                answer = post(client, body, *fields)
                tally.case(f"a batch: {name}", fault_of(answer), (400, fault))
                tally.case(f"a batch, its fields: {name}", shown(answer)[2:], (PLAIN, UNCACHED))
                tally.case(f"a batch, the bytes of its answer: {name}", answer.body.isascii() or answer.body, True)
        # (of this it is said where, and not why)
        status, said, *_ = shown(post(client, f"{COUNT}\n\n# one\n{COUNT}\n"))
        tally.case("a query behind an empty line", (status, said.startswith("line 4: ")), (400, True))
        tally.case("a batch behind these", shown(pair.ask(COUNT)), pair.expected(COUNT))


def tables(version, acct="int int", site="bytes2"):
    """What a replica tells of its tables at this version, with these columns."""
    return text(200, f"version {version}\ntable acct {acct}\ntable site {site}\n")


def added_column(tally, pair):
    """A column that is added while the replica runs. The tables are told as they are at the newest report."""
    queries = ("query acct where 2 = 3 get count sum 2", COUNT)
    client = pair.enter_context(Client(pair.replica.http))
    pair.ask(COUNT)
    newest = pair.told.newest
    tally.case("a column before it is added", fault_of(pair.ask(*queries)), (400, "line 1: no such column"))
    pair.commit("column acct 3")
    tally.case("GET /tables before a report on a new column", shown(client.get("/tables")), tables(newest))
    on_new_column(tally, pair, queries)
    tally.case("GET /tables behind a report on it", shown(client.get("/tables")), tables(newest + 1, "int int int"))
    pair.commit("set acct 10 2 -7", insert_of(40, 1, 2, 2**62))
    tally.case("its values", shown(pair.ask(*queries, "query acct by 2 get count")), pair.expected(*queries, "query acct by 2 get count"))
    pair.commit("column site x0102")
    joined = "query acct join 0 site by j1 get count min j1"
    found = shown_json(pair.ask(joined, COUNT, fields=JSON_WANTED))
    tally.case("a column of a joined table", found, in_json(as_json(pair.expected(joined, COUNT)[1])))
    tally.case("a column that is still not there", fault_of(pair.ask(COUNT, "query acct get sum 3")), (400, "line 2: no such column"))
    tally.case("GET /tables", shown(client.get("/tables")), tables(pair.told.newest, "int int int", "bytes2 bytes2"))


def on_new_column(tally, pair, queries):
    """Clients at once, of which some name a column that the replica does not know yet, and some one that is not there."""
    other = [COUNT, "query acct get sum 3"]
    with contextlib.ExitStack() as stack:
        clients = [stack.enter_context(Client(pair.replica.http)) for _ in range(12)]
        for number, client in enumerate(clients):
            client.send(batch(client.address, ([COUNT], queries, other)[number % 3]))
        answers = [client.answer() for client in clients]
    tally.case("clients beside those of a new column", [shown(it) for it in answers[::3]], [pair.expected(COUNT)] * 4)
    tally.case("a column once it is added", [shown(it) for it in answers[1::3]], [pair.expected(*queries)] * 4)
    tally.case("beside it one that is not there", [fault_of(it) for it in answers[2::3]], [(400, "line 2: no such column")] * 4)


def paths_and_methods(tally, node):
    with Client(node.http) as client:
        for method in ("OPTIONS", "POST", "PUT", "DELETE", "PATCH", "TRACE", "FROBNICATE", "get"):
            for path in ("/", "/tables", "/status", "/metrics"):
                answer = client.ask(request(node.http, method, path))
                tally.case(f"{method} {path}", (shown(answer), allowed(answer)), (text(405, "use GET\n"), ["GET", "HEAD"]))
        for method in ("GET", "OPTIONS", "PUT", "DELETE", "PATCH", "FROBNICATE", "post"):
            answer = client.ask(request(node.http, method, "/batches"))
            tally.case(f"{method} /batches", (shown(answer), allowed(answer)), (text(405, "use POST\n"), ["POST"]))
        answer = client.ask(request(node.http, "HEAD", "/batches"), is_head=True)
        tally.case("HEAD /batches", (answer.status, answer.body, allowed(answer)), (405, b"", ["POST"]))
        for path in ("/none", "/jobs", "/tables/acct/1", "/tables/", "/batches/", "/Batches", "//batches", "/%62atches", "/../tables"):
            tally.case(f"GET {path}", shown(client.get(path)), text(404, "no such path\n"))
        tally.case("POST /jobs", shown(client.post(job(0, insert_of(98)))), text(404, "no such path\n"))
        for path in ("/", "/tables", "/none"):
            got = client.get(path)
            found = client.ask(request(node.http, "HEAD", path), is_head=True)
            fields = {**found.fields, "date": got.fields["date"]}
            tally.case(f"HEAD {path}", (found.status, found.body, fields), (got.status, b"", got.fields))
        answer = client.get("/")
        found = (answer.status, *(answer.fields.get(it) for it in PAGE_FIELDS), answer.body[:15].lower(), answer.body.isascii())
        tally.case("GET /", found, (200, *PAGE_FIELDS.values(), b"<!doctype html>", True))


def denied_batches(tally, node):
    """Batches that a page of another place could send."""
    own_address = "{}:{}".format(*node.http)
    body = f"{COUNT}\n".encode()
    with Client(node.http) as client:
        for host in ("evil.example", "localhost.evil", f"evil.example:{node.http[1]}"):
            for path in ("/batches", "/status", "/none"):
                asked = head("POST" if path == "/batches" else "GET", path, f"Host: {host}", "Content-Length: 0")
                tally.case(f"{path} of {host}", shown(client.ask(asked)), text(421, "host\n"))
        others = ("http://evil.example", "null", f"https://{own_address}", "http://127.0.0.1:1")
        for line in (*(f"Origin: {it}" for it in others), "Sec-Fetch-Site: cross-site", "Sec-Fetch-Site: same-site"):
            tally.case(f"a batch of {line}", shown(post(client, body, line)), text(403, "origin\n"))
            tally.case(f"the tables of {line}", shown(client.get("/tables", line)), text(403, "origin\n"))
        for line in (f"Origin: http://{own_address}", "Sec-Fetch-Site: same-origin", "Sec-Fetch-Site: none"):
            tally.case(f"a batch of {line}", post(client, body, line).status, 200)


def forms_of_batches(tally, pair):
    """The forms in which batches may come: many in one write, in chunks, in two steps, of HTTP/1.0."""
    node = pair.replica
    queries = [f"query acct where 1 > {number} get count sum 1" for number in range(50)]
    expected = [pair.expected(it) for it in queries]
    with Client(node.http) as client:
        client.send(b"".join(batch(node.http, [it]) for it in queries))
        tally.case("50 batches in one write", [shown(client.answer()) for _ in queries], expected)
        mixed = batch(node.http, [queries[0]]) + get(node.http, "/none") + batch(node.http, [queries[1]]) + get(node.http, "/tables")
        client.send(mixed)
        found = [shown(client.answer()) for _ in range(4)][:3]
        tally.case("answers in the order of requests", found, [expected[0], text(404, "no such path\n"), expected[1]])
        body = f"{queries[2]}\n".encode()
        for sizes, more in (([1], {}), ([7], {}), ([30, 2, 1], {"extension": b";a=b", "trailers": ("X: y",)})):
            found = shown(client.ask(request_in_chunks(node.http, "/batches", body, sizes, **more)))
            tally.case(f"a batch in chunks of {sizes}", found, expected[2])
        first = client.ask(head("POST", "/batches", HOST, "Expect: 100-continue", f"Content-Length: {len(body)}"))
        tally.case("100 before a batch, and its report", (first, shown(client.ask(body))), (Answer(100, {}, b""), expected[2]))
    with Client(node.http) as client:
        data = head("POST", "/batches", HOST, f"Content-Length: {len(body)}", version="HTTP/1.0") + body
        tally.case("a batch of HTTP/1.0", (shown(client.ask(data)), client.ends()), (expected[2], True))
    with Client(node.http) as client:
        client.send(batch(node.http, [queries[2]]))
        client.send_no_more()
        tally.case("a client that sends no more gets its report", (shown(client.answer()), client.ends()), (expected[2], True))


# ---- status and figures


def status_and_figures(tally, at):
    """What a replica tells of itself, before and after batches."""
    with Pair(at, "figures") as pair, Client(pair.replica.http) as client:
        tally.case("the status of a new replica", lone_status(client), status(pair, applied=0, batches=0, queries=0))
        tally.case("the tables of a new replica", shown(client.get("/tables")), tables(0))
        kinds, before = figures(client)
        tally.case("the families of a replica's figures", kinds, FAMILIES)
        labels = {key[0]: {other[2] for other in before if other[0] == key[0]} for key in before if key[1]}
        tally.case("their labels", labels, LABELS)
        pair.commit(insert_of(1))
        for count in (1, 5, 64):
            client.ask(batch(client.address, [COUNT] * count))
        pair.commit(insert_of(2))
        client.ask(batch(client.address, ["select 1"]))
        client.get("/none")
        client.get("/batches")
        others = [Client(client.address) for _ in range(3)]
        for other in others:
            other.get("/status")
        used = status(pair, applied=1, batches=3, queries=70, connections=4)
        tally.case("the status of a used replica", status_of(client), used)
        found = figures(client)[1]
        rose = {key: found[key] - before[key] for key in before if key[0] != "batchdb_datagrams_total"}
        tally.case("figures that rose", rose, risen())
        datagrams = [key for key in found if found[key] < before[key] and FAMILIES[key[0]] == "counter"]
        tally.case("counters that fell", datagrams, [])
        for other in others:
            other.socket.close()


# How many datagrams a replica receives while no batch waits; the turn in which it has them ends with 1,024 at most.
IDLE_DATAGRAMS, TURN_DATAGRAMS, BODY_JOBS = 65_536, 1024, 20_000


def idle_replica(tally, at):
    """A replica in which no batch waits receives so many datagrams and no more, and answers the next batch all the same."""
    count = IDLE_DATAGRAMS + BODY_JOBS

    def datagrams(client, direction):
        return figures(client)[1]["batchdb_datagrams_total", "direction", direction]

    listens, asks = free_address(), free_address()
    # (what a base drops is not pushed any more)
    with Primary(at, asks, journal="idle", listen=listens, base="0") as node, Replica(at, asks, listens) as replica:
        with Client(node.http) as primary:
            for first in range(0, count, BODY_JOBS):
                primary.post("".join(job(0, insert_of(row)) for row in range(first, min(first + BODY_JOBS, count))))
            end = time.monotonic() + SECONDS_MAX
            while datagrams(primary, "sent") < count and time.monotonic() < end:
                time.sleep(0.05)
            tally.case("frames that are pushed to an idle replica", datagrams(primary, "sent") >= count, True)
        with Client(replica.http) as client:
            received = datagrams(client, "received")
            tally.case("datagrams that it receives", received <= IDLE_DATAGRAMS + TURN_DATAGRAMS or received, True)
            tally.case("its next batch", shown(client.ask(batch(client.address, [COUNT]))), text(200, report(count, [[str(count)]])))


def other_width(tally, at):
    """A replica whose table has another width than the primary's breaks at the first row: its client is told so, and it ends."""
    os.mkdir(f"{at}/wide")
    write(f"{at}/wide/schema", SETTINGS.replace("acct int int", "acct int int int"))
    listens, asks = free_address(), free_address()
    with Primary(at, asks, journal="narrow", listen=listens) as node, Replica(f"{at}/wide", asks, listens) as replica:
        with Client(replica.http) as client:
            tally.case("another width, without a row", shown(client.ask(batch(client.address, [COUNT]))), text(200, report(0, [["0"]])))
            with Client(node.http) as primary:
                primary.post(job(0, insert_of(1)))
            tally.case("another width, with a row", shown(client.ask(batch(client.address, [COUNT]))), text(500, "broken\n"))
        ended = replica.ended()
        tally.case("another width: the end", ended, (1, "batchdb: the replica is broken; start it again with another BOOT\n"))


def status(pair, **members):
    """The status of a replica: these members, and those that do not change."""
    schema = hashlib.sha256(contents(pair.replica.schema)).hexdigest()
    same = {"node": "replica", "version": run("--version")[1].split()[1], "schema": schema, "replica": 0, "boot": str(pair.replica.boot)}
    return {**same, "connections": 1, "waiting": 0, "broken": False, **members}


def risen():
    """By how much: three batches of 70 queries, one that does not read, no path, a wrong method, four times the status, the figures; three
    connections more."""
    statuses = {"200": 8, "400": 1, "404": 1, "405": 1, "409": 0, "500": 0, "503": 0}
    return {
        ("batchdb_applied_commits", None, None): 1,
        ("batchdb_batches_total", None, None): 3,
        ("batchdb_queries_total", None, None): 70,
        ("batchdb_waiting_requests", None, None): 0,
        ("batchdb_http_connections", None, None): 3,
        ("batchdb_http_refused_total", None, None): 0,
        **{("batchdb_http_requests_total", "status", it): count for it, count in statuses.items()},
    }


# ---- hostile clients


def forms_of_a_batch(address):
    body = "query acct get count sum 1\nquery site get count\n".encode()
    in_chunks = request_in_chunks(address, "/batches", body, [9], extension=b";a=b", trailers=("X: y",))
    return request(address, "POST", "/batches", body), in_chunks


def cut_batches(tally, pair):
    """A batch is cut behind each of its bytes: its client sends no more, is gone, or sends the rest a little later."""
    node = pair.replica
    expected = pair.expected("query acct get count sum 1", "query site get count")
    for form, whole in enumerate(forms_of_a_batch(node.http)):
        for number, data, came in exchanged(node.http, (whole[:cut_at] for cut_at in range(len(whole) + 1))):
            found = [shown(it)[:2] for it in all_answers(came)]
            wanted = [expected[:2]] if len(data) == len(whole) else [(400, "")] if data else []
            tally.case(f"batch {form}, cut behind {number} bytes", found, wanted)
        for number in range(len(whole)):
            it = Client(node.http)
            it.send(whole[:number])
            it.reset() if number % 2 else it.socket.close()
        goes_on(tally, f"batch {form}, cut", node)
        for cuts in batches(range(1, len(whole)), 40):
            clients = [Client(node.http) for _ in cuts]
            for client, cut_at in zip(clients, cuts):
                client.send(whole[:cut_at])
            for client, cut_at in zip(clients, cuts):
                client.send(whole[cut_at:])
            tally.case(f"batch {form}, in two parts", [shown(client.answer()) for client in clients], [expected] * len(cuts))
            for client in clients:
                client.socket.close()


def changed_batch(address, draw):
    """A request of any kind with changes: anywhere, or in its body alone, which is then framed as it is."""
    body = "".join(f"{drawn_query(draw)}\n" for _ in range(draw.choice((1, 1, 2, 4)))).encode()
    origin = f"Origin: http://127.0.0.1:{address[1]}"
    lines = draw.sample([*JSON_WANTED, "User-Agent: x/1.0", "Connection: keep-alive", origin], draw.randrange(3))
    kind, in_body = draw.random(), draw.random() < 0.5
    if kind < 0.85:
        body = changed(draw, body) if in_body else body
        make = request_in_chunks(address, "/batches", body, [draw.randint(1, 40)], *lines)
        data = request(address, "POST", "/batches", body, *lines) if kind < 0.55 else make
        return data if in_body else changed(draw, data)
    method, path = draw.choice((("GET", "/tables"), ("HEAD", "/status"), ("GET", "/metrics"), ("GET", "/")))
    return changed(draw, request(address, method, path, None, *lines))


def changed_batches(tally, pair):
    """Requests with changes, drawn from a seed. Each answer is well-formed, and each report that of the queries that were sent."""
    draw, reports = random.Random(51), pair.reports()
    count = 500 if WORDS.few else 2000
    requests = (changed_batch(pair.replica.http, draw) for _ in range(count))
    for number, data, came in exchanged(pair.replica.http, requests):
        try:
            if data and not came:
                raise Malformed("no answer")
            for answer, body in answers_to(data, came):
                note_answer(tally, reports, answer, body)
        except (Malformed, ValueError, IndexError, UnicodeDecodeError) as fault:
            tally.wrong.append(f"changed batch {number}: {data!r}\n  {came[:300]!r}\n  {fault!r}")
        tally.inputs += 1
    goes_on(tally, "changed batches", pair.replica)
    tally.case("a batch behind changed ones", shown(pair.ask(COUNT)), pair.expected(COUNT))


def note_answer(tally, reports, answer, body):
    """Counts an answer; a report has to be that of the queries of its body, on all commits, and tables those at the newest one."""
    if answer.status not in STATUSES:
        raise ValueError(f"the status {answer.status}")
    tally.outcomes[f"answers {answer.status}"] += 1
    is_json = answer.body.startswith(b'{"version":') and b'"queries":[' in answer.body[:60]
    if not is_json and (not answer.body.startswith(b"version ") or shown(answer) == tables(reports.count)):
        return
    queries = [line for line in body.decode("ascii", "surrogateescape").split("\n") if line and not line.startswith("#")]
    expected = reports.at(reports.count, queries)
    found, wanted = (shown_json(answer), in_json(as_json(expected))) if is_json else (shown(answer), text(200, expected))
    if found != wanted:
        raise ValueError(f"{found} instead of {wanted}")
    tally.outcomes["reports of changed batches"] += 1


def crowd(tally, at):
    """64 connections are answered. One more is told that there is no place, until one of them leaves."""
    with Pair(at, "crowd") as pair:
        pair.commit(insert_of(1))
        clients = [Client(pair.replica.http) for _ in range(PLACES)]
        statuses = [client.get("/none").status for client in clients]
        tally.case("64 connections", statuses, [404] * PLACES)
        with Client(pair.replica.http, SECONDS_MAX / 40) as other:
            answer = other.answer()
            tally.case("one more", (shown(answer), answer and answer.fields.get("retry-after")), (text(503, "full\n"), "1"))
            tally.case("its connection", other.ends(), True)
        found = [shown(client.ask(batch(client.address, [COUNT]))) for client in clients]
        tally.case("the others are answered", found, [pair.expected(COUNT)] * PLACES)
        clients[0].socket.close()
        with soon_in(pair.replica) as next_one:
            tally.case("the next one, once one has left", shown(next_one.ask(batch(next_one.address, [COUNT]))), pair.expected(COUNT))
            tally.case("how many were told that there is no place", refused_by(next_one) >= 1, True)
        for client in clients:
            client.socket.close()


def soon_in(node):
    """A client that has a place, once there is one."""
    end = time.monotonic() + SECONDS_MAX / 8
    while time.monotonic() < end:
        client = Client(node.http, SECONDS_MAX / 8)
        with contextlib.suppress(OSError, Malformed):
            answer = client.get("/none")
            if answer and answer.status == 404:
                return client
        client.socket.close()
    raise TimeoutError("no place")


def descriptors(tally, at):
    """A replica with few descriptors: those for which there is none wait, and are not told that there is no place."""
    with Pair(at, "few descriptors", limit=FEW_DESCRIPTORS) as pair:
        def begin():
            pair.commit(insert_of(1, 1, 100))
            return batch(pair.replica.http, [COUNT]), pair.expected(COUNT)

        with Client(pair.replica.http) as client:
            before = refused_by(client)
        without_descriptors(tally, "replica", pair.replica, begin)
        with Client(pair.replica.http) as client:
            tally.case("how many were told that there is no place", refused_by(client) - before, 0)


def refused_by(client):
    return figures(client)[1]["batchdb_http_refused_total", None, None]


def fresh_nodes(tally, at):
    """A replica that has just begun has all its places, and again once its clients have left."""
    found = []
    for _ in range(4 if WORDS.few else 12):
        with Replica(at, ANY_PORT, "127.0.0.1:9") as node:
            clients = [Client(node.http) for _ in range(PLACES)]
            found.append([client.get("/none").status for client in clients])
            for client in clients:
                client.socket.close()
            with soon_in(node):
                pass
    tally.case("64 connections of a new replica", found, [[404] * PLACES] * len(found))


def places_left(tally, at):
    """The place of a client is free once its connection has ended."""
    with Replica(at, ANY_PORT, "127.0.0.1:9") as node:
        others = [Client(node.http) for _ in range(PLACES - 1)]
        tally.case("all places but one", [client.get("/none").status for client in others], [404] * (PLACES - 1))
        found = []
        for _ in range(50 if WORDS.few else 200):
            with Client(node.http) as client:
                client.send(get(node.http, "/none"))
                client.send_no_more()
                found.append((shown(client.answer())[:2], client.ends()))
        tally.case("the last place, one client after another", set(found), {((404, "no such path\n"), True)})
        for client in others:
            client.socket.close()


# ---- limits of time


def slow_batch(tally, node):
    data = batch(node.http, [COUNT])
    seconds, came = slow_client(node, data[-30:-1], data[:-30])
    tally.case("a batch with a byte each half second", (is_about(seconds, REQUEST_SECONDS), came), (True, b""))


def slow_batch_within_limit(tally, node):
    data = batch(node.http, [COUNT])
    with Client(node.http) as client:
        slowly(client, data[:16], time.monotonic() + SECONDS_MAX)
        tally.case("a batch that takes eight seconds", shown(client.ask(data[16:])), text(200, report(0, [["0"]])))


def long_batch(tally, at):
    """A batch takes longer than a connection may be without a request. What was sent behind it is answered too."""
    with Pair(at, "long batch") as pair, Client(pair.replica.http) as client:
        with stopped(pair.primary):
            client.send(batch(client.address, [COUNT]))
            time.sleep(IDLE_SECONDS + 2)
            client.send(batch(client.address, [COUNT]))
        tally.case("a long batch, and one behind it", [shown(client.answer()) for _ in range(2)], [pair.expected(COUNT)] * 2)
        tally.case("a batch behind these", shown(client.ask(batch(client.address, [COUNT]))), pair.expected(COUNT))


def asking(pair, is_done, answers):
    """Another client, which comes anew and again, and sends a batch."""
    while not is_done.wait(0.25):
        start = time.monotonic()
        answers.append((shown(pair.ask(COUNT)), time.monotonic() - start))


def slow_ones(at):
    """Limits of time, each tried once, all beside each other. Others are answered meanwhile."""
    tally, is_done, answers = Tally(), threading.Event(), []
    tried = [slow_head, slow_batch, slow_batch_within_limit]
    if not WORDS.few:
        tried += [idle_client, idle_behind_answer, begun_behind_request, deaf_client]
    with Pair(at, "slow") as pair, Pair(at, "slow crowd") as crowded:
        threads = [threading.Thread(target=attempt, args=(tally, it, pair.replica)) for it in tried]
        threads.append(threading.Thread(target=slow_crowd, args=(tally, crowded.replica, PLACES)))
        if not WORDS.few:
            threads.append(threading.Thread(target=attempt, args=(tally, long_batch, at)))
        other = threading.Thread(target=asking, args=(pair, is_done, answers))
        for it in (*threads, other):
            it.start()
        for it in threads:
            it.join()
        is_done.set()
        other.join()
        tally.case("others beside slow clients", {it[0] for it in answers}, {pair.expected(COUNT)})
        slowest = max(it[1] for it in answers)
        tally.case("how long others wait beside slow clients", slowest < OTHERS_SECONDS or slowest, True)
    return tally


def one_replica(tally, at):
    """One replica after another case of what it answers, and hostile clients of it."""
    with Pair(at, "answers") as pair:
        reports_of_batches(tally, pair)
        numbers_of_queries(tally, pair)
        comments_and_lines(tally, pair)
        unread_batches(tally, pair)
        paths_and_methods(tally, pair.replica)
        denied_batches(tally, pair.replica)
        refused(tally, pair.replica, f"{COUNT}\n".encode())
        forms_of_batches(tally, pair)
        cut_batches(tally, pair)
        changed_batches(tally, pair)
        added_column(tally, pair)


def replica(at):
    tally = Tally()
    write(f"{at}/schema", SETTINGS)
    with concurrent.futures.ThreadPoolExecutor() as pool:
        slow = pool.submit(slow_ones, at)
        for case in (one_replica, status_and_figures, idle_replica, other_width, many_at_once, input_beside, primary_away, kills,
                     turns_used_up, end_under_load, wrong_words, crowd, descriptors, fresh_nodes, places_left):
            attempt(tally, case, at)
        tally.add(slow.result())
    return tally
