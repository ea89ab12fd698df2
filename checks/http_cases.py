"""What a primary's HTTP service answers, case by case: bodies, statuses, fields."""

import json
import re
import shutil
import subprocess
import time

from harness import SECONDS_MAX, Tally, write
from http_client import ACCEPTS, AHEAD, JSON, PLAIN, UNCACHED, Answer, Client, accepted, age_of, get, head, request, request_in_chunks
from http_client import shown, text, words_of
from http_nodes import SETTINGS, Primary, insert_of, job

BODY_MAX = 5_242_880
ROW_MAX = 2**64 - 1
SECONDS_OF_A_DATE = 4
PAGE_FIELDS = {
    "content-type": "text/html; charset=utf-8",
    "cache-control": UNCACHED,
    "x-content-type-options": "nosniff",
    "content-security-policy": "default-src 'none'; connect-src 'self'; style-src 'unsafe-inline'; script-src 'unsafe-inline'; "
    "form-action 'none'; frame-ancestors 'none'; base-uri 'none'",
}


def fault_of(answer):
    """The status of an answer and the line and the reason that it tells. The word at fault behind them is for people."""
    found = answer and re.fullmatch(r"(line \d+: [a-z0-9, ]+?)(: '[^\n]*)?\n", words_of(answer))
    return (answer.status, found[1]) if found else shown(answer)


def ended(client):
    """Whether nothing more came, and how the connection ended."""
    return "ended" if client.ends() and not client.was_reset else f"more, or a reset: {client.answers.rest()[:80]!r}"


# ---- jobs


def jobs_in_order(tally, node):
    """Jobs that are done, refused, half done; rows as they are durable."""
    rows = job(0, insert_of(1, 100, 0), insert_of(2, 5, 0))
    first = job(0, "expect acct 1 0 100", "set acct 1 0 70")
    second = job(1, "expect acct 1 0 70", "set acct 2 0 35")
    with Client(node.http) as client:
        tally.case("a job of two inserts", shown(client.post(rows)), text(200, "job 0 ticket 1\n"))
        tally.case("the same job again", shown(client.post(rows)), text(409, "job 0 refused\n"))
        found = shown(client.post(first + second))
        tally.case("two jobs, the second on what the first left", found, text(200, "job 0 ticket 2\njob 1 ticket 3\n"))
        half = job(0, insert_of(3)) + job(0, "expect acct 1 0 71", insert_of(4)) + job(0, insert_of(5))
        found = shown(client.post(half))
        tally.case("three jobs, the second with a false condition", found, text(409, "job 0 ticket 4\njob 1 refused\njob 2 ticket 5\n"))
        tally.case("the journal after these", node.kept(), 5)
        unread_bodies(tally, client)
        tally.case("the journal after bodies that do not read", node.kept(), 5)
        rows_by_path(tally, client)


def unread_bodies(tally, client):
    """Bodies that do not read, of which nothing is done."""
    good = job(0, insert_of(60))
    for name, body, fault in (
        ("the second job does not read", good + job(0, "insert acct x 1 1"), "line 5: bad words"),
        ("the second job has no such table", good + job(0, "insert none 1 1 1"), "line 5: no table"),
        ("a job without its end", f"job 0\n{insert_of(60)}\n", "line 3: a job without its end"),
        ("a second job without its end", good + "job 0\n", "line 5: a job without its end"),
        ("get behind a job", good + "get acct 1 0\n", "line 4: no line of a job"),
        ("a base behind a job", good + "base\n", "line 4: no line of a job"),
        ("CR LF", good.replace("\n", "\r\n"), "line 1: bad words"),
        ("a byte order mark", "\ufeff" + good, "line 1: no line of a job"),
        ("a byte that is no text", good + "job 0\ninsert acct \udcff 1 1\nend\n", "line 5: bad words"),
        ("no such worker", good + job(2, insert_of(61)), "line 4: bad words"),
        ("a change outside of a job", good + insert_of(61) + "\n", "line 4: a line that stands in the wrong place"),
        ("a job inside of a job", "job 0\n" + good, "line 2: a line that stands in the wrong place"),
        ("a tab", good.replace(" ", "\t"), "line 1: no line of a job"),
        ("a line of 65,537 bytes", good + "#" * 65537 + "\n", "line 4: too long"),
        ("a fault behind comments", "# one\n\n# two\n" + good + "frobnicate\n", "line 7: no line of a job"),
    ):
        answer = client.post(body.encode("utf-8", "surrogateescape"))
        tally.case(f"a body: {name}", fault_of(answer), (400, fault))
        tally.case(f"a body, its fields: {name}", shown(answer)[2:], (PLAIN, UNCACHED))
        tally.case(f"a body, the bytes of its answer: {name}", answer.body.isascii(), True)
    for name, body in (("no job", ""), ("empty lines", "\n\n"), ("a comment", "# job 0\n")):
        tally.case(f"a body: {name}", shown(client.post(body)), text(400, "line 1: no job\n"))
    # Of this it is not said which reason.
    status, *_ = found = fault_of(client.post(f"job 0\n{insert_of(60)}\nget acct 1 0\nend\n"))
    tally.case("a body: get inside of a job", (status, found[1].startswith("line 3: ")), (400, True))
    word_that_is_no_text(tally, client)


def word_that_is_no_text(tally, client):
    """Texts are of ASCII: what is none of a body's word is shown as a question mark."""
    for word in (b"x\xff", "x\u00e9".encode(), "x\u20ac".encode()):
        answer = client.post(b"job 0\ninsert acct " + word + b" 1 1\nend\n")
        found = re.fullmatch(rb"line 2: bad words: 'x(\?+)'.*\n", answer.body)
        tally.case(f"a word {word!r} that is no text", (answer.status, bool(found) or answer.body), (400, True))


def rows_by_path(tally, client):
    """Rows as they are durable, and paths that are none."""
    for path, expected in (
        ("acct/1", text(200, "version 5\nacct 1 70 0\n")),
        ("acct/2", text(200, "version 5\nacct 2 35 0\n")),
        ("acct/9", text(404, "missing\n")),
        ("acct/4", text(404, "missing\n")),
        ("none/1", text(404, "no such table\n")),
        (f"acct/{ROW_MAX}", text(404, "missing\n")),
        ("site/1", text(404, "missing\n")),
    ):
        tally.case(f"GET /tables/{path}", shown(client.get(f"/tables/{path}")), expected)
    wrong = ("acct/01", "acct/", "acct", "", "acct/-1", "acct/+1", "acct/x", "acct/1/", "acct/1/0", "/1", "ACCT/1", "acct/%31")
    for path in (*wrong, f"acct/{ROW_MAX + 1}"):
        answer = client.get(f"/tables/{path}")
        known = answer.body in (b"no such path\n", b"no such table\n", b"missing\n")
        tally.case(f"GET /tables/{path}", (answer.status, known), (404, True))


def rows_as_json(tally, node):
    """The same rows as JSON, if `Accept` names it."""
    with Client(node.http) as client:
        bytes_too = job(0, "insert site 10 x4e45", insert_of(10, -(2**63), 2**63 - 1))
        tally.case("rows of both kinds", shown(client.post(bytes_too)), text(200, "job 0 ticket 6\n"))
        numbers = '{"version":6,"table":"acct","row":"10","values":["-9223372036854775808","9223372036854775807"]}'
        site = '{"version":6,"table":"site","row":"10","values":["x4e45"]}'
        plain = text(200, "version 6\nacct 10 -9223372036854775808 9223372036854775807\n")
        for accept, is_json in ACCEPTS:
            found = shown(client.get("/tables/acct/10", *accepted(accept)))
            tally.case(f"a row as {accept}", found, (200, numbers + "\n", JSON, UNCACHED) if is_json else plain)
        found = shown(client.get("/tables/site/10", "Accept: application/json"))
        tally.case("bytes of a row as JSON", found, (200, site + "\n", JSON, UNCACHED))
        tally.case("bytes of a row", shown(client.get("/tables/site/10")), text(200, "version 6\nsite 10 x4e45\n"))
        missing = shown(client.get("/tables/acct/11", "Accept: application/json"))
        tally.case("no row as JSON", missing, text(404, "missing\n"))


def jobs_on_each_other(tally, at):
    """Jobs of one body find what those before them left, also where they are of several workers."""
    for name, workers in (("one worker", (0, 0, 0)), ("two workers", (0, 1, 0))):
        first, second, third = workers
        with Primary(at, journal=f"of {name}") as node, Client(node.http) as client:
            tally.case(f"{name}: a row", shown(client.post(job(0, insert_of(1, 70, 0)))), text(200, "job 0 ticket 1\n"))
            old = job(first, "set acct 1 0 60") + job(second, "expect acct 1 0 70", insert_of(2))
            tally.case(f"{name}: not on the old value", shown(client.post(old)), text(409, "job 0 ticket 2\njob 1 refused\n"))
            new = job(first, insert_of(50)) + job(second, "set acct 50 1 9")
            tally.case(f"{name}: a row that is set", shown(client.post(new)), text(200, "job 0 ticket 3\njob 1 ticket 4\n"))
            again = job(first, "delete acct 50") + job(second, insert_of(50)) + job(third, "expect acct 50 1 0", "set acct 50 1 8")
            found = shown(client.post(again))
            tally.case(f"{name}: a row that comes again", found, text(200, "job 0 ticket 5\njob 1 ticket 6\njob 2 ticket 7\n"))
            absent = job(second, "absent acct 50", insert_of(50, 4, 4)) + job(third, "absent acct 50", insert_of(50))
            absent = job(first, "delete acct 50") + absent
            found = shown(client.post(absent))
            tally.case(f"{name}: a row that is absent, once", found, text(409, "job 0 ticket 8\njob 1 ticket 9\njob 2 refused\n"))
            tally.case(f"{name}: the row", shown(client.get("/tables/acct/50")), text(200, "version 9\nacct 50 4 4\n"))
            steps = [(f"expect acct 50 0 {number + 4}", f"set acct 50 0 {number + 5}") for number in range(100)]
            hundred = "".join(job(number % 2 and second, *step) for number, step in enumerate(steps))
            lines = "".join(f"job {number} ticket {number + 10}\n" for number in range(100))
            tally.case(f"{name}: a hundred jobs on a row", shown(client.post(hundred)), text(200, lines))
            grown = job(first, "column acct 3") + job(second, "set acct 50 2 7")
            tally.case(f"{name}: a column", shown(client.post(grown)), text(200, "job 0 ticket 110\njob 1 ticket 111\n"))
            tally.case(f"{name}: a row with a column", shown(client.get("/tables/acct/50")), text(200, "version 111\nacct 50 104 4 7\n"))
            for row, values in ((50, '"104","4","7"'), (1, '"60","0","3"')):
                found = shown(client.get(f"/tables/acct/{row}", "Accept: application/json"))
                expected = f'{{"version":111,"table":"acct","row":"{row}","values":[{values}]}}\n'
                tally.case(f"{name}: the row {row} with a column as JSON", found, (200, expected, JSON, UNCACHED))
            # Neither looks at a row, so nothing but the conflict with what is pending has the second one wait.
            both = job(first, "set acct 50 0 1") + job(second, "set acct 50 0 2")
            tally.case(f"{name}: two jobs that set a row", shown(client.post(both)), text(200, "job 0 ticket 112\njob 1 ticket 113\n"))
            tally.case(f"{name}: that row", shown(client.get("/tables/acct/50")), text(200, "version 113\nacct 50 2 4 7\n"))


def largest_job(tally, at):
    """The largest job has fewer bytes than a body may have."""
    with open(f"{at}/schema", "w") as file:
        file.write("workers 1\nreplicas 1\ntable wide" + " bytes64" * 8 + "\n")
    values = " ".join("x" + "a5" * 64 for _ in range(8))
    body = job(0, *(f"insert wide {ROW_MAX - number} {values}" for number in range(4096)))
    with Primary(at, journal="wide") as node, Client(node.http) as client:
        tally.case("the largest job", (shown(client.post(body)), len(body) < BODY_MAX), (text(200, "job 0 ticket 1\n"), True))
        last = ROW_MAX - 4095
        tally.case("its last row", shown(client.get(f"/tables/wide/{last}")), text(200, f"version 1\nwide {last} {values}\n"))


def clients_that_leave(tally, node):
    """A whole job is done though nobody waits for its answer; half a job is not."""
    whole, half = (request(node.http, "POST", "/jobs", job(0, insert_of(row)).encode()) for row in (70, 71))
    for data in (whole, half[:-1]):
        it = Client(node.http)
        it.send(data)
        it.socket.close()
    with Client(node.http) as client:
        too_many = job(0, *(insert_of(row) for row in range(10_000, 14_097)))
        tally.case("a job of one change more than it may have", shown(client.post(too_many)), text(409, "job 0 refused\n"))
        end = time.monotonic() + SECONDS_MAX / 4
        while client.get("/tables/acct/70").status == 404 and time.monotonic() < end:
            time.sleep(0.01)
        tally.case("a client that sends a whole job and leaves", client.get("/tables/acct/70").status, 200)
        client.post(job(0, "delete acct 70"))
        tally.case("a row that was deleted", shown(client.get("/tables/acct/70")), text(404, "missing\n"))
        tally.case("a client that sends half a job and leaves", shown(client.get("/tables/acct/71")), text(404, "missing\n"))


# ---- HTTP


def methods(tally, node):
    with Client(node.http) as client:
        for path in ("/tables/acct/1", "/tables/acct/9", "/tables/none/1", "/none", "/status", "/metrics"):
            got = client.get(path)
            found = client.ask(request(node.http, "HEAD", path), is_head=True)
            length = {"content-length": str(len(got.body))}
            # (a figure may have one digit more than it had before)
            fields = {**found.fields, **(length if path in ("/status", "/metrics") else {}), "date": got.fields.get("date")}
            tally.case(f"HEAD {path}", (found.status, found.body, fields), (got.status, b"", {**got.fields, **length}))
        for path in ("/", "/tables/acct/1", "/none", "/status", "/jobs"):
            seconds = age_of(client.get(path).fields["date"])
            tally.case(f"how many seconds ago the date of {path} was", -AHEAD <= seconds < SECONDS_OF_A_DATE or seconds, True)
        found = client.ask(request(node.http, "HEAD", "/jobs"), is_head=True)
        tally.case("HEAD /jobs", (found.status, found.body), (405, b""))
        for method in ("OPTIONS", "POST", "PUT", "DELETE", "PATCH", "TRACE", "FROBNICATE", "get"):
            for path in ("/status", "/metrics", "/tables/acct/1"):
                answer = client.ask(request(node.http, method, path))
                tally.case(f"{method} {path}", (shown(answer), allowed(answer)), (text(405, "use GET\n"), ["GET", "HEAD"]))
        for method in ("GET", "OPTIONS", "PUT", "DELETE", "PATCH", "TRACE", "FROBNICATE", "post"):
            answer = client.ask(request(node.http, method, "/jobs"))
            tally.case(f"{method} /jobs", (shown(answer), allowed(answer)), (text(405, "use POST\n"), ["POST"]))
        for path in ("/none", "/../status", "/%73tatus", "/status/", "//status", "/jobs/", "/Status", "/tables", "/batches"):
            tally.case(f"GET {path}", shown(client.get(path)), text(404, "no such path\n"))


def allowed(answer):
    return sorted(re.split(", *", answer.fields.get("allow", "")))


def page(tally, node):
    """The page for people: it may load nothing, and ask its own node alone."""
    with Client(node.http) as client:
        for name, lines in (("nothing", []), ("HTML", ["Accept: text/html,*/*;q=0.8"]), ("JSON", ["Accept: application/json"])):
            answer = client.get("/", *lines)
            found = (answer.status, *(answer.fields.get(it) for it in PAGE_FIELDS), answer.body.isascii())
            tally.case(f"GET / as {name}", found, (200, *PAGE_FIELDS.values(), True))
            tally.case(f"GET / as {name}: a page", answer.body[:15].lower(), b"<!doctype html>")
        found = client.ask(request(node.http, "HEAD", "/"), is_head=True)
        length = {**answer.fields, "date": found.fields.get("date")}
        tally.case("HEAD /", (found.status, found.body, found.fields), (200, b"", length))
        for method in ("POST", "PUT", "DELETE", "OPTIONS"):
            answer = client.ask(request(node.http, method, "/"))
            tally.case(f"{method} /", (shown(answer), allowed(answer)), (text(405, "use GET\n"), ["GET", "HEAD"]))


def forms(tally, node):
    """The forms in which a request may come."""
    rows = range(1000, 1100)
    with Client(node.http) as client:
        client.post("".join(job(row % 2, insert_of(row, row, 1)) for row in rows))
        first = client.get("/tables/acct/1000").body.split(b"\n")[0].decode()
        wanted = [1000 + number * 7 % 100 for number in range(500)]
        client.send(b"".join(get(node.http, f"/tables/acct/{row}") for row in wanted))
        found = [client.answer().body.decode() for _ in wanted]
        tally.case("500 requests in one write", found, [f"{first}\nacct {row} {row} 1\n" for row in wanted])
        jobs = [job(0, insert_of(1200))] + [job(1, f"expect acct 1200 0 {number}", f"set acct 1200 0 {number + 1}") for number in range(50)]
        client.send(b"".join(request(node.http, "POST", "/jobs", it.encode()) for it in jobs))
        tally.case("jobs in one write, each on what the one before left", [client.answer().status for _ in jobs], [200] * len(jobs))
        tally.case("the row of these jobs", client.get("/tables/acct/1200").body.split(b"\n")[1], b"acct 1200 50 0")
    bodies_in_chunks(tally, node)
    row_behind_its_job(tally, node)
    lasting(tally, node)
    continued(tally, node)


def bodies_in_chunks(tally, node):
    row = 1300
    with Client(node.http) as client:
        for name, sizes, more in (
            ("one byte a chunk", [1], {}),
            ("seven bytes a chunk", [7], {}),
            ("one chunk", [1 << 20], {}),
            ("chunks of many sizes, with extensions", [1, 30, 2], {"extension": b";a=b"}),
            ("trailers", [10], {"trailers": ("X-Digest: 7", "X-Other: y")}),
        ):
            body = job(0, insert_of(row)).encode()
            answer = client.ask(request_in_chunks(node.http, "/jobs", body, sizes, **more))
            found = answer.status, client.get(f"/tables/acct/{row}").body.decode().split("\n")[1:2]
            tally.case(f"a body in chunks: {name}", found, (200, [f"acct {row} 0 0"]))
            row += 1


def row_behind_its_job(tally, node):
    """A row that is asked for before the answer to its job was read may be there or not; behind that answer it is."""
    for row in range(1320, 1340):
        with Client(node.http) as client:
            client.send(request(node.http, "POST", "/jobs", job(0, insert_of(row)).encode()) + get(node.http, f"/tables/acct/{row}"))
            first, second = client.answer(), client.answer()
            found = re.fullmatch(r"job 0 ticket (\d+)\n", words_of(first))
            tally.case("a job and, in the same write, a request for its row: the job", (first.status, bool(found)), (200, True))
            there = text(200, f"version {found[1] if found else 0}\nacct {row} 0 0\n")
            known = shown(second) in (text(404, "missing\n"), there)
            tally.case("a job and, in the same write, a request for its row: the row", known or shown(second), True)
            tally.case("a request for a row behind its ticket", shown(client.get(f"/tables/acct/{row}")), there)


def lasting(tally, node):
    """Whether a connection goes on behind an answer."""
    host = "Host: 127.0.0.1"
    for name, lines, version, goes_on in (
        ("HTTP/1.1", [], "HTTP/1.1", True),
        ("HTTP/1.1, close", ["Connection: close"], "HTTP/1.1", False),
        ("HTTP/1.0", [], "HTTP/1.0", False),
        ("HTTP/1.0, keep-alive", ["Connection: keep-alive"], "HTTP/1.0", True),
    ):
        with Client(node.http) as client:
            asked = head("GET", "/tables/acct/1000", host, *lines, version=version)
            first = client.ask(asked)
            tally.case(f"{name}: an answer", (first.status, first.body.split(b"\n")[1]), (200, b"acct 1000 1000 1"))
            if goes_on:
                tally.case(f"{name}: another one", shown(client.ask(asked)), shown(first))
            else:
                tally.case(f"{name}: its end", ended(client), "ended")
    behind_the_last(tally, node)
    with Client(node.http) as client:
        client.send(get(node.http, "/tables/acct/1000"))
        client.send_no_more()
        tally.case("a client that sends no more gets its answer", (client.answer().status, ended(client)), (200, "ended"))


def behind_the_last(tally, node):
    """Nothing is done of what comes behind a request that ends its connection, or behind bytes that are none."""
    first, second = (request(node.http, "POST", "/jobs", job(0, insert_of(row)).encode()) for row in (1500, 1501))
    closing = request(node.http, "POST", "/jobs", job(0, insert_of(1502)).encode(), "Connection: close")
    longer = job(0, insert_of(1503)).encode()
    lengths = f"Content-Length: {len(longer) + 5}", "Transfer-Encoding: chunked"
    both = head("POST", "/jobs", "Host: localhost", *lengths) + b"0\r\n\r\n" + longer
    for name, data, statuses in (
        ("a request that ends its connection", closing + second, [200]),
        ("bytes that are no request", first + b"frobnicate\r\n\r\n" + second, [200, 400]),
        ("a request of which it is not clear where it ends", both + second, [400]),
        ("a request for a proxy", get(node.http, "http://evil/") + second, [400]),
    ):
        with Client(node.http) as client:
            client.send(data)
            found = [it.status for it in iter(client.answer, None)]
            tally.case(f"behind {name}", found, statuses)
    with Client(node.http) as client:
        done = [row for row in range(1500, 1504) if client.get(f"/tables/acct/{row}").status == 200]
        tally.case("the jobs before and behind these", done, [1500, 1502])


def continued(tally, node):
    body = job(0, insert_of(1400)).encode()
    with Client(node.http) as client:
        first = client.ask(head("POST", "/jobs", "Host: localhost", "Expect: 100-continue", f"Content-Length: {len(body)}"))
        tally.case("100 before the body", first, Answer(100, {}, b""))
        tally.case("200 behind it", client.ask(body).status, 200)
    with Client(node.http) as client:
        first = client.ask(head("POST", "/jobs", "Host: localhost", "Expect: 100-continue", f"Content-Length: {BODY_MAX + 1}"))
        tally.case("no 100 for a body that is too long", (first.status, first.body, ended(client)), (413, b"", "ended"))


def denials(tally, node):
    """Requests that a page of another place could make, or that are meant for a proxy."""
    own = "{}:{}".format(*node.http)
    with Client(node.http) as client:
        names = ("evil.example", "localhost.evil", "localhostx", "127.0.0.1.evil", "x127.0.0.1", "xn--localhost")
        for host in (*names, f"evil.example:{node.http[1]}"):
            for path in ("/status", "/none"):
                found = shown(client.ask(head("GET", path, f"Host: {host}")))
                tally.case(f"GET {path} of {host}", found, text(421, "host\n"))
        for host in ("localhost", "LOCALHOST", "localhost:80", "127.0.0.1", "127.0.0.1:1", "10.0.0.1:8080", "[::1]", "[::1]:80", own):
            tally.case(f"GET of {host}", client.ask(head("GET", "/status", f"Host: {host}")).status, 200)
        job_of_a_page = job(0, insert_of(90)).encode()
        others = ("http://evil.example", "null", f"https://{own}", "http://127.0.0.1:1", "http://127.0.0.1", f"http://{own}.evil")
        pages = [f"Origin: {it}" for it in (*others, f"http://{own}/")]
        for line in (*pages, "Sec-Fetch-Site: cross-site", "Sec-Fetch-Site: same-site"):
            found = shown(client.ask(request(node.http, "POST", "/jobs", job_of_a_page, line)))
            tally.case(f"a job of {line}", found, text(403, "origin\n"))
            tally.case(f"a GET of {line}", shown(client.get("/tables/acct/1", line)), text(403, "origin\n"))
        own_page, other_page = f"Origin: http://{own}", "Origin: http://evil.example"
        own_site, other_site = "Sec-Fetch-Site: same-origin", "Sec-Fetch-Site: cross-site"
        for lines in ((own_page, other_page), (other_page, own_page), (own_page, own_page), (own_site, other_site), (other_site, own_site)):
            found = shown(client.ask(request(node.http, "POST", "/jobs", job_of_a_page, *lines)))
            tally.case(f"a job of {' and '.join(lines)}", found, text(403, "origin\n"))
        tally.case("no job of a page is done", shown(client.get("/tables/acct/90")), text(404, "missing\n"))
        for line in (f"Origin: http://{own}", "Sec-Fetch-Site: same-origin", "Sec-Fetch-Site: none"):
            tally.case(f"a GET of {line}", client.get("/tables/acct/1", line).status, 200)
        found = client.ask(head("GET", "/tables/acct/1", "Host: evil.example", "Origin: http://evil.example"))
        tally.case("a name that was turned to this address, with its own page", shown(found), text(421, "host\n"))
    for method, target in (
        ("GET", "http://evil/status"),
        ("POST", "http://evil/jobs"),
        ("GET", f"http://{own}/status"),
        ("CONNECT", "x:1"),
        ("CONNECT", own),
    ):
        with Client(node.http) as client:
            answer = client.ask(request(node.http, method, target))
            tally.case(f"{method} {target}", (*shown(answer)[:2], ended(client)), (400, "", "ended"))
            tally.case(f"{method} {target}: the fields of its answer", fields_of(answer), ["cache-control"])


def fields_of(answer):
    """Which fields of those that an answer with a body has."""
    return [it for it in ("content-type", "cache-control", "date") if it in answer.fields]


def no_requests(body):
    """Bytes that are no request, or none that is taken."""
    host = "Host: 127.0.0.1"
    fields = [f"X-{number}: 1" for number in range(70)]
    too_long = f"Content-Length: {BODY_MAX + 1}"
    return (
        (400, "no Host", head("GET", "/status")),
        (400, "two Hosts", head("GET", "/status", host, host)),
        (400, "a bad Host", head("GET", "/status", "Host: a b")),
        (400, "a bad port", head("GET", "/status", "Host: 127.0.0.1:x")),
        (400, "no HTTP", b"hello\r\n\r\n"),
        (400, "a job without a request", body + b"\r\n\r\n"),
        (400, "LF alone", head("GET", "/status", host).replace(b"\r\n", b"\n")),
        (400, "a length and chunks", head("POST", "/jobs", host, f"Content-Length: {len(body)}", "Transfer-Encoding: chunked") + body),
        (400, "two lengths", head("POST", "/jobs", host, f"Content-Length: {len(body)}", "Content-Length: 3") + body),
        (400, "a length below zero", head("POST", "/jobs", host, "Content-Length: -1")),
        (400, "a length with a sign", head("POST", "/jobs", host, f"Content-Length: +{len(body)}") + body),
        (400, "a byte 00 in a field", head("GET", "/status", host, "X: a\0b")),
        (400, "CR alone in a field", head("GET", "/status", host, "X: a\rb")),
        (400, "no name of a field", head("GET", "/status", host, ": b")),
        (400, "two spaces in a request line", head("GET ", "/status", host)),
        (400, "a tab in a request line", head("GET\t", "/status", host)),
        (400, "a length in hexadecimal", head("POST", "/jobs", host, "Content-Length: 0x10") + body),
        (400, "no chunk", head("POST", "/jobs", host, "Transfer-Encoding: chunked") + b"x\r\n"),
        (400, "a chunk that is longer than it says", head("POST", "/jobs", host, "Transfer-Encoding: chunked") + b"2\r\nabc\r\n0\r\n\r\n"),
        (400, "a space before a colon", head("GET", "/status", host, "X : 1")),
        (400, "a field over two lines", head("GET", "/status", host, "X: 1", " 2")),
        (400, "HTTP/2.0", head("GET", "/status", host, version="HTTP/2.0")),
        (400, "the preface of HTTP/2", b"PRI * HTTP/2.0\r\n\r\nSM\r\n\r\n"),
        (400, "TLS", bytes.fromhex("16030100c8010000c40303") + bytes(100) + b"\r\n\r\n"),
        (413, "Content-Length: 99999999999", head("POST", "/jobs", host, "Content-Length: 99999999999")),
        (413, "the greatest length of 64 bits", head("POST", "/jobs", host, f"Content-Length: {2**64 - 1}")),
        (400, "a length of 65 bits", head("POST", "/jobs", host, f"Content-Length: {2**64}")),
        (400, "a length of 30 digits", head("POST", "/jobs", host, "Content-Length: " + "9" * 30)),
        (413, "a body that is too long, of which some comes", head("POST", "/jobs", host, too_long) + bytes(30000)),
        (414, "a target of 20,000 bytes", head("GET", "/" + "a" * 20000, host)),
        (431, "70 fields", head("GET", "/status", host, *fields)),
        (431, "a field of 20,000 bytes", head("GET", "/status", host, "X: " + "a" * 20000)),
        (400, "gzip", head("POST", "/jobs", host, "Transfer-Encoding: gzip") + body),
        (501, "gzip in chunks", head("POST", "/jobs", host, "Transfer-Encoding: gzip, chunked") + b"0\r\n\r\n"),
    )


def refusals(tally, node):
    """Requests that are none, at a node whose rows do not change by them."""
    body = job(0, insert_of(91)).encode()
    refused(tally, node, body)
    for name, data in (("inside of a head", b"GET /sta"), ("inside of a body", request(node.http, "POST", "/jobs", body)[:-1])):
        with Client(node.http) as client:
            client.send(data)
            client.send_no_more()
            tally.case(f"the end of what is sent {name}", (client.answer().status, ended(client)), (400, "ended"))
    with Client(node.http) as client:
        tally.case("the node after these", shown(client.get("/tables/acct/91")), text(404, "missing\n"))


def refused(tally, node, body):
    """Requests that are none, or go beyond a limit: a status without a body, and the connection ends."""
    for status, name, data in no_requests(body):
        for is_cut in (False, True):
            with Client(node.http) as client:
                client.send(data)
                if is_cut:
                    client.send_no_more()
                answer = client.answer()
                found = (*shown(answer)[:2], fields_of(answer), ended(client)) if answer else "no answer"
                tally.case(f"{name}{', and no more' * is_cut}", found, (status, "", [], "ended"))


def by_curl(tally, at, node):
    """What a person types."""
    if not shutil.which("curl"):
        tally.told.append("cases: there is no curl here, so what a person types is not tried")
        return
    url = "http://{}:{}".format(*node.http)
    write(f"{at}/jobs", job(0, insert_of(2000, 7, 8)))
    found = curl("--data-binary", f"@{at}/jobs", f"{url}/jobs")
    tally.case("curl: a job", (found[0], found[1].startswith("job 0 ticket ")), ("200", True))
    tally.case("curl: a row", curl(f"{url}/tables/acct/2000")[1].split("\n")[1], "acct 2000 7 8")
    found = curl("-H", "Accept: application/json", f"{url}/tables/acct/2000")
    tally.case("curl: a row as JSON", json.loads(found[1])["values"], ["7", "8"])
    tally.case("curl: the head of a row", curl("--head", f"{url}/tables/acct/2000")[0], "200")
    # (curl asks before it sends such a body)
    write(f"{at}/jobs", job(0, insert_of(2001)) + f"#{'-' * 60_000}\n" * 20)
    tally.case("curl: a long body", curl("--data-binary", f"@{at}/jobs", f"{url}/jobs")[0], "200")


def curl(*words):
    """The status of a request, and the body or, of a head, its lines."""
    words = ["curl", "-s", "--max-time", str(SECONDS_MAX), "-w", "\n%{http_code}", *words]
    done = subprocess.run(words, capture_output=True, text=True, check=True)
    body, _, status = done.stdout.rpartition("\n")
    return status, body


def cases(at):
    tally = Tally()
    write(f"{at}/schema", SETTINGS)
    with Primary(at) as node:
        jobs_in_order(tally, node)
        rows_as_json(tally, node)
        clients_that_leave(tally, node)
        methods(tally, node)
        page(tally, node)
        denials(tally, node)
        refusals(tally, node)
        forms(tally, node)
        by_curl(tally, at, node)
    jobs_on_each_other(tally, at)
    largest_job(tally, at)
    return tally
