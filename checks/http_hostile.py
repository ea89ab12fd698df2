"""Hostile clients of a primary: requests that are cut, changed or beyond limits, clients that are slow, deaf, too many, or gone. The node
goes on, answers others meanwhile, and has the rows that whole good jobs leave."""

import contextlib
import itertools
import json
import random
import socket
import threading
import time

from harness import SECONDS_MAX, WORDS, Tally, built, preloaded, write
from http_client import Answers, Client, Malformed, all_answers, connected, exchanged, get, head, request, request_in_chunks
from http_client import seconds_until_end, shown, text
from http_nodes import SETTINGS, Primary, Rows, insert_of, job, jobs_in, outcomes

BODY_MAX, HEAD_MAX, FIELDS_MAX, CONNECTIONS_MAX = 5_242_880, 16_384, 64, 256
# Seconds: of a request from its first byte to its last, of a connection without one and of an answer that nobody reads; and by how much
# an end may be later.
REQUEST_SECONDS, IDLE_SECONDS, ANSWER_SECONDS, LATE = 10, 30, 30, 3
# In MiB: how much a node holds of requests in all, and how much memory it may have beside that, since room that grows is up to twice
# what is in it. And clients that send more.
HELD_MAX, HELD_MORE, HOARDERS, HOARD_SECONDS = 256, 320, 120, 3
# How many microseconds a sync of a slow disk takes longer, and how many jobs with a sync each take longer there than a request may.
SYNC_MICROSECONDS, JOBS_OF_A_LONG_ROUND = 2_000, 6_000
# Within how many seconds others are answered meanwhile.
OTHERS_SECONDS = 1
# What a node may answer to what is no good request.
STATUSES = {200, 400, 403, 404, 405, 409, 413, 414, 421, 431, 501}
HOST = "Host: 127.0.0.1"


def post(address, text):
    return request(address, "POST", "/jobs", text.encode())


def goes_on(tally, name, node):
    """The node answers the next client."""
    with Client(node.http) as client:
        tally.case(f"{name}: the next client", (node.process.poll(), client.get("/none").status), (None, 404))


def rows_there(node, rows):
    """Which of these rows there are."""
    with Client(node.http) as client:
        client.send(b"".join(get(node.http, f"/tables/acct/{row}") for row in rows))
        return [row for row in rows if client.answer().status == 200]


# ---- requests that are cut


def forms_of_a_job(address, row):
    """A job that inserts this row, with a length and in chunks."""
    body = job(0, insert_of(row)).encode()
    return request(address, "POST", "/jobs", body), request_in_chunks(address, "/jobs", body, [9], extension=b";a=b", trailers=("X: y",))


def cut(tally, node):
    """A request is cut behind each of its bytes: its client sends no more, or is gone. It is not done. Behind its last byte it is."""
    rows = itertools.count(10_000)
    for form in range(2):
        length = len(forms_of_a_job(node.http, 10_000)[form])
        half = list(itertools.islice(rows, length))
        requests = [forms_of_a_job(node.http, row)[form][:cut_at] for cut_at, row in enumerate(half)]
        for number, data, came in exchanged(node.http, requests):
            found = [it.status for it in all_answers(came)]
            tally.case(f"form {form}, cut behind {number} bytes", found, [400] if data else [])
        whole = next(rows)
        for number in range(0, length + 1, 1):
            it = Client(node.http)
            it.send(forms_of_a_job(node.http, half[number] if number < length else whole)[form][:number])
            # (some go with a reset, which may overtake what was sent)
            it.reset() if number % 2 and number < length else it.socket.close()
        goes_on(tally, f"form {form}, cut", node)
        tally.case(f"form {form}: rows of half requests", rows_there(node, half), [])
        tally.case(f"form {form}: the row of a whole request", soon_there(node, whole), True)
        in_two_parts(tally, node, form, rows, length)


def soon_there(node, row):
    end = time.monotonic() + SECONDS_MAX / 4
    while not rows_there(node, [row]) and time.monotonic() < end:
        time.sleep(0.01)
    return bool(rows_there(node, [row]))


def in_two_parts(tally, node, form, rows, length):
    """A request that comes in two parts, cut behind each of its bytes, is done."""
    for cuts in batches(range(1, length), 100):
        clients = [(Client(node.http), cut_at, next(rows)) for cut_at in cuts]
        for client, cut_at, row in clients:
            client.send(forms_of_a_job(node.http, row)[form][:cut_at])
        for client, cut_at, row in clients:
            client.send(forms_of_a_job(node.http, row)[form][cut_at:])
        found = [(cut_at, client.answer().status) for client, cut_at, _ in clients]
        tally.case(f"form {form}, in two parts", [it for it in found if it[1] != 200], [])
        for client, _, _ in clients:
            client.socket.close()


def batches(values, size):
    return [values[start:start + size] for start in range(0, len(values), size)]


# ---- limits of lengths


def lengths(tally, node):
    """Bodies, heads and fields of every length around their limits."""
    row = itertools.count(20_000)
    with_lengths = 2 if WORDS.few else 3
    for length in range(BODY_MAX - with_lengths, BODY_MAX + with_lengths + 1):
        for name, make in (("of this length", request), ("in chunks", chunked)):
            body = padded(job(0, insert_of(next(row))).encode(), length)
            with Client(node.http) as client:
                client.send(make(node.http, "POST", "/jobs", body))
                tally.case(f"a body of {length} bytes, {name}", client.answer().status, 200 if length <= BODY_MAX else 413)
    slowly_read = request_in_chunks(node.http, "/jobs", padded(job(0, insert_of(next(row))).encode(), 200_000), [1])
    tally.case("a body of 200,000 chunks", status_of(node, slowly_read), 200)
    plain = request(node.http, "GET", "/none")
    for length in range(HEAD_MAX - 4, HEAD_MAX + 5):
        beside = plain[:-2] + b"X: "
        by_fields = beside + b"a" * (length - len(beside) - 4) + b"\r\n\r\n"
        tally.case(f"lines of {length} bytes before the body", status_of(node, by_fields), 404 if length <= HEAD_MAX else 431)
    for length in (HEAD_MAX - 200, HEAD_MAX + 1, HEAD_MAX + 2, 3 * HEAD_MAX):
        target = "/" + "a" * (length - len("GET / HTTP/1.1"))
        tally.case(f"a request line of {length} bytes", status_of(node, head("GET", target, HOST)), 404 if length < HEAD_MAX else 414)
    for count in range(FIELDS_MAX - 3, FIELDS_MAX + 4):
        lines = [HOST, *(f"X-{number}: 1" for number in range(count - 1))]
        tally.case(f"{count} fields", status_of(node, head("GET", "/none", *lines)), 404 if count <= FIELDS_MAX else 431)
    goes_on(tally, "lengths", node)


def chunked(address, _, target, body):
    return request_in_chunks(address, target, body, [1 << 16, 4097])


def padded(body, length):
    """A body with comments before it, so that it has this length."""
    left = length - len(body)
    lines = left // 30_000
    sizes = [30_000] * (lines - 1) + [left - 30_000 * (lines - 1)]
    return b"".join(b"#" * (size - 1) + b"\n" for size in sizes) + body


def status_of(node, data):
    with Client(node.http) as client:
        answer = client.ask(data)
        return answer and answer.status


# ---- changed requests


def changed_request(address, draw, row):
    """A request of any kind, whose row no other has, with changes: anywhere, or in its body alone, which is then framed as it is."""
    body = job(draw.randrange(2), f"absent acct {row}", insert_of(row, row, -row))
    if draw.random() < 0.3:
        body += job(draw.randrange(2), f"expect acct {row} 0 {row}", f"set acct {row} 1 7", f"insert site {row} x4e45")
    origin = f"Origin: http://127.0.0.1:{address[1]}"
    fields = ["Accept: application/json", "User-Agent: x/1.0", "Connection: keep-alive", "Content-Type: text/plain", origin]
    lines = draw.sample(fields, draw.randrange(4))
    kind, in_body = draw.random(), draw.random() < 0.4
    body = changed(draw, body.encode()) if in_body else body.encode()
    if kind < 0.55:
        data = request(address, "POST", "/jobs", body, *lines)
    elif kind < 0.85:
        data = request_in_chunks(address, "/jobs", body, [draw.randint(1, 40)], *lines)
    else:
        method, path = draw.choice((("GET", f"/tables/acct/{row - 3}"), ("HEAD", "/status"), ("GET", "/metrics"), ("GET", "/status")))
        data, in_body = request(address, method, path, None, *lines), False
    return data if in_body else changed(draw, data)


def changed(draw, data):
    """Bytes with one change or a few: some that are others, more, fewer, or elsewhere."""
    for _ in range(draw.choice((1, 1, 1, 2, 5))):
        at = draw.randrange(len(data) + 1)
        kind = draw.randrange(9)
        if kind == 0 and at < len(data):
            data = data[:at] + bytes([draw.randrange(256)]) + data[at + 1:]
        elif kind == 1 and at < len(data):
            data = data[:at] + bytes([data[at] ^ (1 << draw.randrange(8))]) + data[at + 1:]
        elif kind == 2:
            data = data[:at] + draw.choice((b"\r\n", b"0", b" ", b"\n", b"\0", b"9", b"\xff", b":", b"job 0\n", b"end\n")) + data[at:]
        elif kind == 3:
            data = data[:at] + data[at + draw.randint(1, 8):]
        elif kind == 4:
            data = data[:at] + data[max(0, at - draw.randint(1, 60)):]
        elif kind == 5:
            data = b"\n".join(with_line_again(draw, data.split(b"\n")))
        else:
            # (most of what is still a job is one in which a digit is another)
            places = [place for place, byte in enumerate(data) if byte in b"0123456789"] or [0]
            at = draw.choice(places)
            data = data[:at] + bytes([draw.choice(b"0123456789")]) + data[at + 1:]
    return data


def with_line_again(draw, lines):
    line = draw.choice(lines)
    at = draw.randrange(len(lines) + 1)
    return [*lines[:at], line, *lines[at:]]


def first_body(data):
    """The method and the body of the request at the beginning of bytes that the node has answered with what jobs are answered."""
    lines, _, rest = data.partition(b"\r\n\r\n")
    fields = {}
    for line in lines.lstrip(b"\r\n").split(b"\r\n")[1:]:
        name, _, value = line.partition(b":")
        fields[name.lower()] = value.strip(b" \t")
    if b"content-length" in fields:
        length = int(fields[b"content-length"])
        return rest[:length], rest[length:]
    if b"transfer-encoding" not in fields:
        return b"", rest
    body = b""
    while True:
        size, _, rest = rest.partition(b"\r\n")
        count = int(size.partition(b";")[0].strip(b" \t"), 16)
        if count == 0:
            break
        body, rest = body + rest[:count], rest[count + 2:]
    while not rest.startswith(b"\r\n"):
        rest = rest.partition(b"\r\n")[2]
    return body, rest[2:]


def is_head(data):
    return data.lstrip(b"\r\n").startswith(b"HEAD ")


def answers_to(data, came):
    """Each answer that came to these bytes, with the body of its request."""
    answers, found = Answers(came), []
    while answers.rest():
        answer = answers.next(is_head(data))
        if not answer:
            raise Malformed(f"an answer without an end: {answers.rest()[:100]!r}")
        body = b""
        # A request that was answered so was read whole, so the next one begins behind it.
        if answer.status in (200, 403, 404, 405, 409, 421) or (answer.status == 400 and answer.body):
            body, data = first_body(data)
        found.append((answer, body))
    return found


def changed_requests(tally, node):
    """Requests with changes, drawn from a seed. Each answer is well-formed; of the jobs exactly those with tickets are done."""
    draw = random.Random(50)
    count = 2000 if WORDS.few else 50_000
    before = len(node.commits())
    tickets = {}
    requests = (changed_request(node.http, draw, row) for row in range(100_000, 100_000 + count))
    for number, data, came in exchanged(node.http, requests):
        try:
            for answer, body in answers_to(data, came):
                note_answer(tally, tickets, answer, body)
            if data and not came:
                raise Malformed("no answer")
        except (Malformed, ValueError, IndexError, UnicodeDecodeError) as fault:
            tally.wrong.append(f"changed request {number}: {data!r}\n  {came[:300]!r}\n  {fault!r}")
        tally.inputs += 1
    commits = node.commits()
    wrong = [it for it in tickets.items() if not before < it[0] <= len(commits) or commits[it[0] - 1] != it[1]]
    tally.case("tickets of changed requests that are not in the journal", wrong[:3], [])
    tally.case("commits of changed requests", sorted(tickets), list(range(before + 1, len(commits) + 1)))
    same_rows(tally, node, draw, commits)
    tally.outcomes["tickets of changed requests"] += len(tickets)
    goes_on(tally, "changed requests", node)


def note_answer(tally, tickets, answer, body):
    """Counts an answer, and notes the jobs that have tickets."""
    if answer.status not in STATUSES:
        raise ValueError(f"the status {answer.status}")
    tally.outcomes[f"answers {answer.status}"] += 1
    if not answer.body.startswith(b"job "):
        return
    jobs = jobs_in(body.decode("ascii", "backslashreplace"))
    for it, outcome in zip(jobs, outcomes(len(jobs), answer)):
        word, _, number = outcome.partition(" ")
        if word == "ticket":
            if int(number) in tickets:
                raise ValueError(f"ticket {number} again")
            tickets[int(number)] = it


def same_rows(tally, node, draw, commits):
    """Some rows over HTTP are those of the journal's commits."""
    expected = Rows(commits)
    drawn = draw.sample(sorted(expected.rows), min(200, len(expected.rows)))
    with Client(node.http) as client:
        client.send(b"".join(get(node.http, f"/tables/{name}/{row}") for name, row in drawn))
        found = [client.answer().body.decode().split("\n", 1)[1] for _ in drawn]
    tally.case("rows behind changed requests", found, [expected.line(*it) for it in drawn])


# ---- clients that are gone, too many, or take all descriptors


def early_ends(tally, node):
    """Clients that leave at once, or read no answer; what they sent whole is done."""
    rows = list(range(30_000, 30_200))
    for row in rows:
        it = Client(node.http)
        it.send(post(node.http, job(0, insert_of(row))))
        if row % 2:
            it.send_no_more()
        it.socket.close()
    for _ in range(200):
        Client(node.http).reset()
    goes_on(tally, "clients that leave", node)
    tally.case("jobs of clients that leave", [row for row in rows if not soon_there(node, row)], [])


def crowd(tally, node):
    """300 connections at once: 256 are answered, the others are told so, or closed. Once some leave, others come in."""
    tally.case("the connections before a crowd", alone(node), True)
    clients = [Client(node.http, SECONDS_MAX / 4) for _ in range(300)]
    found = []
    for client in clients:
        with contextlib.suppress(Malformed):
            client.send(get(node.http, "/none"))
    for client in clients:
        answer = client.answer()
        found.append(answer.status if answer else None)
        if answer and answer.status == 503:
            tally.case("an answer of a full node", shown(answer), text(503, "full\n"))
            tally.case("when to come again", (answer.fields.get("retry-after"), client.ends()), ("1", True))
    tally.case("answers of 300 connections", found.count(404), CONNECTIONS_MAX)
    tally.case("others", set(found) <= {404, 503, None}, True)
    tally.outcomes["connections that were told of no place"] += found.count(503)
    inside = [client for client, status in zip(clients, found) if status == 404]
    start = time.monotonic()
    statuses = [client.get("/none").status for client in inside]
    tally.case("all inside are answered again", (statuses, time.monotonic() - start < SECONDS_MAX / 4), ([404] * len(inside), True))
    for client in clients[::2]:
        client.socket.close()
    tally.case("a client once others have left", comes_in(node), True)
    for client in clients:
        client.socket.close()
    tally.case("all have left", comes_in(node), True)


def alone(node):
    """Whether all other connections have ended, soon; then this one's, too."""
    end = time.monotonic() + SECONDS_MAX / 4
    while time.monotonic() < end:
        with Client(node.http) as client:
            if b'"connections":1,' in client.get("/status").body:
                client.send_no_more()
                return client.ends()
        time.sleep(0.01)
    return False


def comes_in(node):
    """Whether a new client is answered, soon."""
    end = time.monotonic() + SECONDS_MAX / 4
    while time.monotonic() < end:
        with Client(node.http, SECONDS_MAX / 4) as client, contextlib.suppress(OSError):
            answer = client.get("/none")
            if answer and answer.status == 404:
                return True
    return False


# How a shell limits a node to so many descriptors, and how many clients come then; of these so many find one at least, and so many leave.
DESCRIPTORS, CLIENTS, INSIDE, LEAVING = 40, 60, 20, 30
FEW_DESCRIPTORS = f"-c 0; ulimit -n {DESCRIPTORS}"


def descriptors(tally, at):
    """A primary with few descriptors."""
    with Primary(at, journal="few descriptors", limit=FEW_DESCRIPTORS) as node:
        asked, done = post(node.http, job(0, insert_of(1))), text(200, "job 0 ticket 1\n")
        without_descriptors(tally, "hostile", node, lambda: (asked, done))


def without_descriptors(tally, part, node, begin):
    """A node with few descriptors: connections that find none wait, and it goes on, and takes them once others leave. `begin` is called
    when there is no descriptor left; it tells what is asked then, and the answer."""
    clients = [Client(node.http, SECONDS_MAX / 4) for _ in range(CLIENTS)]
    for client in clients:
        client.send(get(node.http, "/none"))
    first = [clients[number].answer().status for number in range(INSIDE)]
    tally.case(f"the first of {CLIENTS} clients of a node with {DESCRIPTORS} descriptors", first, [404] * INSIDE)
    asked, expected = begin()
    tally.case("a request while there is no descriptor", shown(clients[0].ask(asked)), expected)
    inside = json.loads(clients[1].get("/status").body)["connections"]
    tally.case("the connections then", INSIDE <= inside < DESCRIPTORS or inside, True)
    start, spent = time.monotonic(), spent_by(node)
    time.sleep(0.5)
    clients[1].get("/none")
    busy = (spent_by(node) - spent) / (time.monotonic() - start)
    tally.told.append(f"{part}: without a descriptor a node with waiting connections uses {busy:.2f} of a processor")
    for client in clients[:LEAVING]:
        client.socket.close()
    found = [client.answer() for client in clients[LEAVING:]]
    tally.case("the others once these have left", [it and it.status for it in found], [404] * (CLIENTS - LEAVING))
    for client in clients[LEAVING:]:
        client.socket.close()
    tally.case("a new client", comes_in(node), True)
    tally.case("the node", node.process.poll(), None)


def hoard(tally, at):
    """Clients that send most of a long body and then nothing: a node holds no more than so many bytes of all of them, and once they have
    left it answers others."""
    with Primary(at, journal="hoard") as node:
        clients = [Client(node.http, SECONDS_MAX / 4) for _ in range(HOARDERS)]
        for client in clients:
            client.socket.setblocking(False)
            client.socket.send(head("POST", "/jobs", HOST, f"Content-Length: {BODY_MAX}"))
        left = {client: BODY_MAX - 10 for client in clients}
        piece = b"#" * (1 << 16)
        end = time.monotonic() + HOARD_SECONDS
        while left and time.monotonic() < end:
            for client in list(left):
                with contextlib.suppress(BlockingIOError):
                    left[client] -= client.socket.send(piece[:left[client]])
                    if left[client] == 0:
                        del left[client]
        memory = settled(lambda: node.peaks()[0])
        tally.case("memory for bodies without an end, in MiB", memory // 1024 <= HELD_MAX + HELD_MORE, True)
        tally.told.append(f"hostile: {memory // 1024} MiB for bodies without an end, {len(left)} of {HOARDERS} are not read to their ends")
        for client in clients:
            client.reset()
        tally.case("a client once these have left", comes_in(node), True)


def settled(measure):
    """What is measured once it has not changed for a while."""
    found, since = measure(), time.monotonic()
    while time.monotonic() < since + 0.5:
        time.sleep(0.05)
        if measure() != found:
            found, since = measure(), time.monotonic()
    return found


def spent_by(node):
    """How many seconds of a processor a node has used."""
    with open(f"/proc/{node.process.pid}/stat") as file:
        words = file.read().rpartition(")")[2].split()
    return (int(words[11]) + int(words[12])) / 100


def hostile(at):
    tally = Tally()
    write(f"{at}/schema", SETTINGS)
    with Primary(at) as node:
        cut(tally, node)
        lengths(tally, node)
        early_ends(tally, node)
        crowd(tally, node)
    with Primary(at, journal="changed") as node:
        changed_requests(tally, node)
    descriptors(tally, at)
    if not WORDS.few:
        hoard(tally, at)
    return tally


# ---- limits of time, one of each, side by side


def slowly(client, data, ends):
    """Sends a byte each half second, until a time or the connection's end."""
    for byte in data:
        if time.monotonic() > ends or not client.send(bytes([byte])):
            return
        time.sleep(0.5)


def slow_client(node, data, at_once=b""):
    """After how many seconds the connection of a client ends that is slow behind what it sends at once, and what came."""
    client = Client(node.http)
    client.send(at_once)
    sender = threading.Thread(target=slowly, args=(client, data, time.monotonic() + REQUEST_SECONDS + 2 * LATE))
    sender.start()
    found = seconds_until_end(client.socket, IDLE_SECONDS + 2 * LATE)
    sender.join()
    client.socket.close()
    return found


def slow_head(tally, node):
    seconds, came = slow_client(node, get(node.http, "/none"))
    tally.case("a head with a byte each half second", (is_about(seconds, REQUEST_SECONDS), came), (True, b""))


def slow_body(tally, node):
    data = post(node.http, job(0, insert_of(1)))
    seconds, came = slow_client(node, data[-30:-1], data[:-30])
    tally.case("a body with a byte each half second", (is_about(seconds, REQUEST_SECONDS), came), (True, b""))


def idle_client(tally, node):
    with Client(node.http) as client:
        seconds, came = seconds_until_end(client.socket, IDLE_SECONDS + 2 * LATE)
    tally.case("a connection without a request", (is_about(seconds, IDLE_SECONDS), came), (True, b""))


def idle_behind_answer(tally, node):
    """The time without a request counts from the last one on."""
    with Client(node.http) as client:
        client.get("/none")
        time.sleep(5)
        client.get("/none")
        seconds, came = seconds_until_end(client.socket, IDLE_SECONDS + 2 * LATE)
    tally.case("a connection without a request behind one", (is_about(seconds, IDLE_SECONDS), came), (True, b""))


def begun_behind_request(tally, node):
    """The time of a request whose first byte came with the end of another begins with the next bytes; until then there is no request."""
    with Client(node.http) as silent, Client(node.http) as slow:
        start = time.monotonic()
        for client in (silent, slow):
            tally.case("a request with the first byte of another", client.ask(get(node.http, "/none") + b"G").status, 404)
        time.sleep(5)
        slow.send(b"E")
        seconds, came = seconds_until_end(slow.socket, REQUEST_SECONDS + 2 * LATE)
        tally.case("the other one, of which more came", (is_about(seconds, REQUEST_SECONDS), came), (True, b""))
        seconds, came = seconds_until_end(silent.socket, IDLE_SECONDS + 2 * LATE)
        found = is_about(time.monotonic() - start, IDLE_SECONDS), seconds is not None, came
        tally.case("the other one, of which nothing more came", found, (True, True, b""))


def slow_within_limit(tally, node):
    """A request that takes eight seconds is answered."""
    data = post(node.http, job(0, insert_of(2)))
    with Client(node.http) as client:
        slowly(client, data[:16], time.monotonic() + SECONDS_MAX)
        tally.case("a request that takes eight seconds", client.ask(data[16:]).status, 200)


def deaf_client(tally, node):
    """A client that never reads: its requests wait once answers do, and it goes once nobody has read them for so long."""
    it = connected(node.http)
    it.setsockopt(socket.SOL_SOCKET, socket.SO_RCVBUF, 4096)
    it.settimeout(2)
    asked = get(node.http, "/metrics") * 50
    sent = 0
    with contextlib.suppress(TimeoutError, OSError):
        while sent < 10**9:
            sent += it.send(asked)
    tally.case("a client that never reads is no longer read", 0 < sent < 10**9, True)
    start = time.monotonic()
    end = start + ANSWER_SECONDS + 2 * LATE
    # (its socket tells of the end without that anything is read)
    while time.monotonic() < end and not is_over(it):
        time.sleep(0.05)
    seconds = time.monotonic() - start
    tally.case("a client that never reads", is_about(seconds + 2, ANSWER_SECONDS, 2 + LATE), True)
    it.close()


def is_over(it):
    """Whether a connection was ended from the other side, by the state that the system tells of it."""
    established = 1
    return it.getsockopt(socket.IPPROTO_TCP, socket.TCP_INFO, 1)[0] != established


def jobs_of_the_deaf(tally, node):
    """An answer that nobody reads is no reason to drop a job."""
    rows = range(40_000, 40_100)
    with Client(node.http) as client:
        client.send(b"".join(post(node.http, job(0, insert_of(row))) for row in rows))
        tally.case("jobs of a client that reads nothing", [row for row in rows if not soon_there(node, row)], [])


def slow_crowd(tally, node, places=CONNECTIONS_MAX):
    """So many slow clients that there is no place for others: there is one again once their time is up."""
    clients = [Client(node.http) for _ in range(places)]
    for client in clients:
        client.send(b"G")
    start = time.monotonic()
    with Client(node.http) as client, contextlib.suppress(Malformed):
        answer = client.get("/none")
        tally.case("a client beside a crowd of slow ones", answer and answer.status in (503, None), answer and True)
    is_in = comes_in(node)
    tally.case("a client behind a crowd of slow ones", (is_in, is_about(time.monotonic() - start, REQUEST_SECONDS)), (True, True))
    found = [seconds_until_end(client.socket, LATE) for client in clients]
    tally.case("the crowd of slow ones", [it for it in found if it[0] is None or it[1]], [])
    for client in clients:
        client.socket.close()


def long_round(tally, node):
    """The jobs of one client take longer than a request may: the time in which nobody is heard counts against no other."""
    jobs = job(0, "expect acct 60000 0 0", "set acct 60000 1 1") * JOBS_OF_A_LONG_ROUND
    data = post(node.http, job(0, insert_of(3)))
    with Client(node.http) as slow, Client(node.http) as other:
        tally.case("the row of a long round", other.post(job(0, insert_of(60_000))).status, 200)
        slow.send(data[:-20])
        time.sleep(0.5)
        start = time.monotonic()
        found = other.post(jobs).status, time.monotonic() - start > REQUEST_SECONDS
        tally.case("a client whose jobs take longer than a request may", found, (200, True))
        # (its connection is looked at, and goes on)
        for at in range(-20, -10):
            slow.send(data[at:at + 1])
            time.sleep(0.1)
        tally.case("a request that was begun before them", shown(slow.ask(data[-10:])), text(200, "job 0 ticket 6002\n"))


def is_about(seconds, limit, late=LATE):
    return seconds is not None and limit - 0.2 <= seconds <= limit + late


def asking(node, is_done, slowest):
    """Another client, which comes anew and again, and asks, and sends a job."""
    row = 50_000
    while not is_done.wait(0.25):
        start = time.monotonic()
        with Client(node.http) as client:
            statuses = client.get("/none").status, client.post(job(0, insert_of(row))).status
        slowest.append((time.monotonic() - start, statuses))
        row += 1


def waits(at):
    """Limits of time, each tried once, all beside each other. Others are answered meanwhile."""
    tally, slowest, is_done = Tally(), [], threading.Event()
    write(f"{at}/schema", SETTINGS)
    tried = (slow_head, slow_body, idle_client, idle_behind_answer, begun_behind_request, slow_within_limit, deaf_client, jobs_of_the_deaf)
    disk = preloaded(built(at, "failing"), FILE=f"{at}/slow", SLOW=SYNC_MICROSECONDS)
    with Primary(at) as node, Primary(at, journal="crowded") as crowded, Primary(at, journal="slow", env=disk) as slow:
        threads = [threading.Thread(target=attempt, args=(tally, it, node)) for it in tried]
        threads.append(threading.Thread(target=attempt, args=(tally, slow_crowd, crowded)))
        threads.append(threading.Thread(target=attempt, args=(tally, long_round, slow)))
        other = threading.Thread(target=asking, args=(node, is_done, slowest))
        for it in (*threads, other):
            it.start()
        for it in threads:
            it.join()
        is_done.set()
        other.join()
        tally.case("others meanwhile", {it[1] for it in slowest}, {(404, 200)})
        tally.case("how long others wait", max(it[0] for it in slowest) < OTHERS_SECONDS, True)
        tally.case("rows of half requests", rows_there(node, [1]), [])
        tally.told.append(f"waits: {len(slowest)} other clients, the slowest waited {max(it[0] for it in slowest):.2f} s")
    return tally


def attempt(tally, case, node):
    """One case; one that ends otherwise is a failure of it."""
    try:
        case(tally, node)
    except Exception as fault:
        tally.case(case.__name__, repr(fault), "an end")
