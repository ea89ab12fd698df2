"""A client of a node's HTTP service over plain sockets, written from what an answer is to be and not from the node's code. It sends
any bytes, and reads answers strictly: one that is not well-formed is a `Malformed`."""

import collections
import contextlib
import datetime
import re
import selectors
import socket
import struct
import time

# How long an answer is waited for. No node takes nearly as long for one.
SECONDS_OF_AN_ANSWER = 60
HEAD_MAX = 65536
STATUS_LINE = re.compile(rb"HTTP/1\.[01] ([1-5][0-9][0-9]) [A-Za-z][A-Za-z -]*")
# The names of fields are in lower case, so that none is there twice unnoticed.
FIELD = re.compile(rb"([a-z0-9-]+): ([!-~](?:[ -~]*[!-~])?)")
LENGTH = re.compile(r"0|[1-9][0-9]*")
# A connection that is closed so is reset at once, with all that waits.
AT_ONCE = struct.pack("ii", 1, 0)

PLAIN, JSON, UNCACHED = "text/plain; charset=us-ascii", "application/json", "no-store"
# The fields `Accept` of requests, each its lines, of which the first have the answer be JSON.
ACCEPTS = (
    *((accept, True) for accept in (
        ["application/json"], ["Application/JSON"], ["text/html, application/json;q=0.9"], ["text/html,application/json"],
        ["application/json ; q=0"], ["*/*\t,\tAPPLICATION/JSON"], ["application/json,text/html"], ["text/html", "application/json"],
        ["application/json", "text/html"], ["text/html;q=0.5", "", "text/plain ,application/json"])),
    *((accept, False) for accept in (
        [], [""], ["*/*"], ["text/plain"], ["text/html"], ["application/*"], ["application/json-seq"],
        ["application/jsonp,application/jso"], ["xapplication/json"], ["text/html;x=application/json"], ["application /json"],
        ["application/json text/html"], ["application", "/json"], ["application/", "json"])),
)

# Refused before the node looks at a request: with such a status there is no body; with these bodies there is no date.
REFUSED, UNDATED = (400, 413, 414, 431, 501), ((403, b"origin\n"), (421, b"host\n"), (503, b"full\n"))
# How far the clock of an answer may be ahead, and how long an answer may have been on its way, in seconds.
AHEAD, ON_ITS_WAY = 2, SECONDS_OF_AN_ANSWER

Answer = collections.namedtuple("Answer", "status fields body")


class Malformed(Exception):
    """Bytes that are no answer."""


def head_of(head):
    """The status and the fields of the lines before a body."""
    lines = head.split(b"\r\n")
    found = STATUS_LINE.fullmatch(lines[0])
    if not found:
        raise Malformed(f"the status line {lines[0][:200]!r}")
    fields = {}
    for line in lines[1:]:
        field = FIELD.fullmatch(line)
        if not field:
            raise Malformed(f"the field {line[:200]!r}")
        name, value = field[1].decode(), field[2].decode()
        if name in fields:
            raise Malformed(f"two fields {name}")
        fields[name] = value
    return int(found[1]), fields


def body_length(status, fields, is_head):
    """How many bytes of a body follow. Each answer says so, since none ends with its connection or comes in chunks."""
    if status < 200:
        if "content-length" in fields:
            raise Malformed(f"a body of {status}")
        return 0
    if "transfer-encoding" in fields:
        raise Malformed("an answer in chunks")
    length = fields.get("content-length", "0" if is_head else "")
    if not LENGTH.fullmatch(length):
        raise Malformed(f"the length {length!r} of a body with the status {status}")
    return 0 if is_head else int(length)


def check_fields(answer, may_lack=False):
    """An answer has the fields that one of its kind has: that it is not to be kept, and when it was made. It may lack the second, and
    503 both, if memory may be refused for them."""
    is_refused = answer.status in ((*REFUSED, 503) if may_lack else REFUSED) and answer.fields.get("content-length") == "0"
    if answer.status < 200 or is_refused:
        return
    if answer.fields.get("cache-control") != UNCACHED:
        raise Malformed(f"cache-control of {answer}")
    date = answer.fields.get("date")
    if (answer.status, answer.body) in UNDATED:
        if date is not None:
            raise Malformed(f"a date of {answer}")
    elif answer.body and date is None and not may_lack:
        raise Malformed(f"no date of {answer}")
    elif date is not None and not -AHEAD <= age_of(date) <= ON_ITS_WAY:
        raise Malformed(f"the date of {answer}")


def age_of(date):
    """How many seconds ago a date of HTTP was."""
    try:
        then = datetime.datetime.strptime(date, "%a, %d %b %Y %H:%M:%S GMT").replace(tzinfo=datetime.timezone.utc)
    except ValueError:
        raise Malformed(f"the date {date!r}") from None
    # (that reader takes other forms, too)
    if then.strftime("%a, %d %b %Y %H:%M:%S GMT") != date:
        raise Malformed(f"the date {date!r}")
    return time.time() - then.timestamp()


class Answers:
    """Answers out of bytes as they come, which may lack fields or not."""

    def __init__(self, data=b"", may_lack=False):
        self.data, self.start, self.may_lack = data, 0, may_lack

    def add(self, data):
        self.data = self.data[self.start:] + data
        self.start = 0

    def next(self, is_head=False):
        """The next answer; None if it is not whole yet."""
        end = self.data.find(b"\r\n\r\n", self.start)
        if end < 0:
            if len(self.data) - self.start > HEAD_MAX:
                raise Malformed("a head without an end")
            return None
        status, fields = head_of(self.data[self.start:end])
        begin = end + 4
        stop = begin + body_length(status, fields, is_head)
        if len(self.data) < stop:
            return None
        self.start = stop
        answer = Answer(status, fields, self.data[begin:stop])
        check_fields(answer, self.may_lack)
        return answer

    def rest(self):
        return self.data[self.start:]


def all_answers(data):
    """All answers of a connection that sent these bytes until its end."""
    answers = Answers(data)
    found = list(iter(answers.next, None))
    if answers.rest():
        raise Malformed(f"an answer without an end: {answers.rest()[:200]!r}")
    return found


def shown(answer):
    """What cases compare of an answer."""
    if answer is None:
        return "no answer"
    return answer.status, words_of(answer), answer.fields.get("content-type"), answer.fields.get("cache-control")


def words_of(answer):
    return answer.body.decode("ascii", "backslashreplace")


def text(status, body):
    return status, body, PLAIN, UNCACHED


def word_of(address):
    return "{}:{}".format(*address)


def head(method, target, *lines, version="HTTP/1.1"):
    """The lines before a body, as they are to be sent."""
    return "\r\n".join([f"{method} {target} {version}", *lines, "", ""]).encode()


def request(address, method, target, body=None, *lines):
    """A request to this address, with these lines beside its own."""
    more = [] if body is None else [f"Content-Length: {len(body)}"]
    return head(method, target, f"Host: {word_of(address)}", *more, *lines) + (body or b"")


def get(address, target, *lines):
    return request(address, "GET", target, None, *lines)


def accepted(accept):
    """The lines of these fields `Accept`."""
    return [f"Accept: {it}" for it in accept]


def in_chunks(body, sizes, extension=b"", trailers=()):
    """A body in chunks of these sizes, again and again."""
    parts, at, turn = [], 0, 0
    while at < len(body):
        part = body[at:at + sizes[turn % len(sizes)]]
        parts.append(b"%x%s\r\n%s\r\n" % (len(part), extension, part))
        at, turn = at + len(part), turn + 1
    return b"".join(parts) + b"0\r\n" + b"".join(line.encode() + b"\r\n" for line in trailers) + b"\r\n"


def request_in_chunks(address, target, body, sizes, *lines, extension=b"", trailers=()):
    first = head("POST", target, f"Host: {word_of(address)}", "Transfer-Encoding: chunked", *lines)
    return first + in_chunks(body, sizes, extension, trailers)


def connected(address, source="127.0.0.1"):
    # (from ports of any loopback address, since those of one are not enough for so many connections)
    it = socket.create_connection(address, SECONDS_OF_AN_ANSWER, source_address=(source, 0))
    # A port at which nobody listens may be the one that the system chose for this side: then it is connected to itself.
    if it.getsockname() == tuple(address):
        it.close()
        raise ConnectionRefusedError(f"nobody listens at {address}")
    it.setsockopt(socket.IPPROTO_TCP, socket.TCP_NODELAY, 1)
    return it


class Client:
    """A connection to a node, on which one waits for answers."""

    def __init__(self, address, seconds=SECONDS_OF_AN_ANSWER, may_lack=False):
        self.address, self.answers = address, Answers(may_lack=may_lack)
        self.socket = connected(address)
        self.socket.settimeout(seconds)
        self.has_ended = self.was_reset = False

    def __enter__(self):
        return self

    def __exit__(self, *_):
        self.socket.close()

    def send(self, data):
        """Sends these bytes. Whether the connection took them: a node may end it before all have come."""
        try:
            self.socket.sendall(data)
            return True
        except (BrokenPipeError, ConnectionResetError):
            return False

    def send_no_more(self):
        with contextlib.suppress(OSError):
            self.socket.shutdown(socket.SHUT_WR)

    def reset(self):
        """Ends the connection with all that waits on it."""
        self.socket.setsockopt(socket.SOL_SOCKET, socket.SO_LINGER, AT_ONCE)
        self.socket.close()

    def read(self):
        """Reads once; whether the connection goes on."""
        try:
            data = self.socket.recv(1 << 18)
        except ConnectionResetError:
            data, self.was_reset = b"", True
        self.has_ended = not data
        self.answers.add(data)
        return not self.has_ended

    def answer(self, is_head=False):
        """The next answer; None if the connection ends before its first byte."""
        while True:
            found = self.answers.next(is_head)
            if found:
                return found
            if not self.read():
                if self.answers.rest():
                    raise Malformed(f"an answer without an end: {self.answers.rest()[:200]!r}")
                return None

    def ask(self, data, is_head=False):
        self.send(data)
        return self.answer(is_head)

    def get(self, target, *lines):
        return self.ask(get(self.address, target, *lines))

    def post(self, body, *lines):
        return self.ask(request(self.address, "POST", "/jobs", body if isinstance(body, bytes) else body.encode(), *lines))

    def ends(self):
        """Waits for the end of the connection, and whether it ended without a byte more."""
        while self.read():
            pass
        return not self.answers.rest()


class Driven:
    """A connection of a client that is a generator: it yields what it sends next, and is given the answer; or for how many seconds it
    sends nothing, and is given nothing."""

    def __init__(self, address, steps):
        self.steps, self.answers = steps, Answers()
        self.socket = connected(address)
        self.socket.setblocking(False)
        self.waiting, self.wakes = b"", None
        self.goes_on = True

    def step(self, answer):
        """Gives it its answer, and sends what it has next."""
        try:
            sent = self.steps.send(answer)
        except StopIteration:
            self.goes_on = False
            return
        if isinstance(sent, float):
            self.wakes = time.monotonic() + sent
        else:
            self.waiting = sent
            self.send()

    def send(self):
        """Sends what the socket takes. If it takes nothing more, its end is read."""
        with contextlib.suppress(BlockingIOError, BrokenPipeError, ConnectionResetError):
            self.waiting = self.waiting[self.socket.send(self.waiting):]

    def hear(self):
        """Reads once, and goes on if an answer is whole."""
        try:
            data = self.socket.recv(1 << 16)
        except BlockingIOError:
            return
        except ConnectionResetError:
            data = b""
        if not data:
            self.end()
            return
        self.answers.add(data)
        if found := self.answers.next():
            self.step(found)

    def end(self):
        """Its connection has ended: it hears of that, and sends no more."""
        if self.answers.rest():
            raise Malformed(f"an answer without an end: {self.answers.rest()[:200]!r}")
        self.goes_on = False
        with contextlib.suppress(StopIteration):
            self.steps.send(None)


class Driver:
    """Clients side by side, in one thread."""

    def __init__(self):
        self.selector, self.sleeping = selectors.DefaultSelector(), set()

    def __enter__(self):
        return self

    def __exit__(self, *_):
        for key in list(self.selector.get_map().values()):
            key.fileobj.close()
        self.selector.close()

    def begin(self, it):
        self.selector.register(it.socket, selectors.EVENT_READ, it)
        it.step(None)
        self.note(it)

    def note(self, it):
        """Notes what a client waits for now."""
        if not it.goes_on:
            self.selector.unregister(it.socket)
            self.sleeping.discard(it)
            it.socket.close()
            return
        if it.wakes is not None:
            self.sleeping.add(it)
        events = selectors.EVENT_READ | (selectors.EVENT_WRITE if it.waiting else 0)
        if self.selector.get_key(it.socket).events != events:
            self.selector.modify(it.socket, events, it)

    def turn(self):
        """Waits until a client has something to do, and has it do that."""
        soonest = min((it.wakes for it in self.sleeping), default=None)
        wait = SECONDS_OF_AN_ANSWER if soonest is None else max(0, soonest - time.monotonic())
        ready = self.selector.select(wait)
        if not ready and soonest is None:
            raise TimeoutError(f"{len(self.selector.get_map())} clients wait for answers")
        for key, events in ready:
            if events & selectors.EVENT_WRITE:
                key.data.send()
            if events & selectors.EVENT_READ:
                key.data.hear()
            self.note(key.data)
        self.wake(time.monotonic())

    def wake(self, now):
        for it in [it for it in self.sleeping if it.wakes <= now]:
            self.sleeping.discard(it)
            it.wakes = None
            it.step(None)
            self.note(it)


def drive(address, clients):
    """Runs clients of a node side by side, each on a connection of its own, until the last is done. Each is a generator that yields the
    bytes of a request and is given its answer, or None once its connection has ended; or that yields seconds to wait, as a float."""
    drive_all((address, steps) for steps in clients)


def drive_all(clients):
    """The same of clients of several nodes, each with its address. All are there before the first sends: a node may end by what it says."""
    with Driver() as driver:
        for it in [Driven(address, steps) for address, steps in clients]:
            driver.begin(it)
        while driver.selector.get_map():
            driver.turn()


def exchanged(address, requests, at_once=32):
    """Sends each of these on a connection of its own, on which nothing more is sent. Yields each with its number and all bytes that
    came until the connection ended."""
    numbered = enumerate(requests)
    with selectors.DefaultSelector() as selector:
        opened = True
        while opened or selector.get_map():
            while opened and len(selector.get_map()) < at_once:
                number, data = next(numbered, (None, None))
                opened = data is not None
                if opened:
                    begin_exchange(selector, address, number, data)
            ready = selector.select(SECONDS_OF_AN_ANSWER)
            if not ready and selector.get_map():
                raise TimeoutError(f"{len(selector.get_map())} connections wait for their ends")
            for key, _ in ready:
                number, data, came = key.data
                if not read_to_end(key.fileobj, came):
                    selector.unregister(key.fileobj)
                    key.fileobj.close()
                    yield number, data, b"".join(came)


def begin_exchange(selector, address, number, data):
    """Sends all of a request at once; what a socket does not take was not read by the node, which has refused it by then."""
    it = connected(address, f"127.0.0.{1 + number % 200}")
    with contextlib.suppress(BrokenPipeError, ConnectionResetError):
        it.sendall(data)
    with contextlib.suppress(OSError):
        it.shutdown(socket.SHUT_WR)
    it.setblocking(False)
    selector.register(it, selectors.EVENT_READ, (number, data, []))


def read_to_end(it, came):
    """Reads once; whether the connection goes on."""
    try:
        data = it.recv(1 << 16)
    except BlockingIOError:
        return True
    except ConnectionResetError:
        data = b""
    came.append(data)
    return bool(data)


def seconds_until_end(it, most):
    """After how many seconds a connection ends, and what came before; None if it is not ended after so many."""
    start, came = time.monotonic(), b""
    while (left := start + most - time.monotonic()) > 0:
        it.settimeout(left)
        try:
            data = it.recv(1 << 16)
        except TimeoutError:
            break
        except ConnectionResetError:
            data = b""
        if not data:
            return time.monotonic() - start, came
        came += data
    return None, came
