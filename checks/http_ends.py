"""The words of a node with an HTTP service, addresses that it cannot have, and its end."""

import itertools
import random
import re
import socket
import subprocess

from harness import SECONDS_MAX, Tally, run, word_of, write
from http_client import Client, drive, seconds_until_end, shown, text
from http_load import inserting
from http_nodes import ANY_PORT, SETTINGS, Primary, Told, insert_of, job

ADVICE = "; see `batchdb --help`\n"


def end(at):
    """The words, addresses that cannot be had, and the end of the turns."""
    tally = Tally()
    write(f"{at}/schema", SETTINGS)
    wrong_words(tally, at)
    port_in_use(tally, at)
    any_address(tally, at)
    turns_used_up(tally, at)
    input_ends_first(tally, at)
    end_under_load(tally, at)
    return tally


def wrong_words(tally, at):
    words = ("primary", f"{at}/schema", f"{at}/none", ANY_PORT)
    wrong = ("x", "", "127.0.0.1", "127.0.0.1:", ":80", "127.0.0.1:65536", "example.org:80", "256.0.0.1:80", "[::1]:80")
    for it in (*wrong, "http://127.0.0.1:80"):
        status, output, errors = run(*words, "--live", "--http", it)
        is_said = bool(re.fullmatch("batchdb: bad --http: .*" + re.escape(ADVICE), errors))
        tally.case(f"--http {it!r}", (status, output, is_said), (2, "", True))
    found = run(*words, "--http", ANY_PORT, given=job(0, insert_of(1)))
    tally.case("--http without --live", found, (2, "", f"batchdb: bad --http: not without --live{ADVICE}"))
    status, output, errors = run(*words, "--live", "--http")
    tally.case("--http without an address", (status, output, errors.endswith(ADVICE)), (2, "", True))
    status, output, errors = run(*words, "--live", "--http", ANY_PORT, "--http", ANY_PORT)
    tally.case("--http twice", (status, output, errors.endswith(ADVICE)), (2, "", True))
    tally.case("no journal is made by wrong words", run("journal", *words[1:3])[0], 1)


def port_in_use(tally, at):
    with socket.create_server(("127.0.0.1", 0)) as other:
        address = word_of(other)
        for live in ("0", "1"):
            words = ("primary", f"{at}/schema", f"{at}/unbound", ANY_PORT, "--live", "--turns", live, "--http", address)
            line = f"batchdb: {address}: bind: Address already in use (os error 98)\n"
            tally.case("a port in use", run(*words, given=job(0, insert_of(1))), (1, "", line))
        tally.case("the journal then", run("journal", f"{at}/schema", f"{at}/unbound")[1][:14], "kept 0 commits")
    with Primary(at, journal="bound", http=address) as node, Client(node.http) as client:
        tally.case("the port once it is free", (node.http, client.get("/none").status), (other_address(address), 404))


def other_address(word):
    host, _, port = word.partition(":")
    return host, int(port)


def any_address(tally, at):
    for http, said in (("0.0.0.0:0", "0.0.0.0"), ("localhost:0", "127.0.0.1"), ("127.0.0.1:0", "127.0.0.1")):
        with Primary(at, journal="any", http=http) as node, Client(node.http) as client:
            line = node.errors.that(r"^http on (\S+)$")[1]
            tally.case(f"--http {http}", (line, client.get("/none").status), (f"{said}:{node.http[1]}", 404))


def turns_used_up(tally, at):
    """The turns end a node with clients: its connections end, and it says that all was done."""
    with Primary(at, journal="turns", turns="150") as node:
        idle, begun, client = (Client(node.http) for _ in range(3))
        begun.send(b"POST /jobs HTTP/1.1\r\n")
        tally.case("a job before the end", shown(client.post(job(0, insert_of(1)))), text(200, "job 0 ticket 1\n"))
        for name, it in (("idle", idle), ("begun", begun), ("answered", client)):
            seconds, came = seconds_until_end(it.socket, SECONDS_MAX / 2)
            tally.case(f"a connection at the end of the turns: {name}", (seconds is not None, came), (True, b""))
            it.socket.close()
        tally.case("the status at the end of the turns", node.process.wait(SECONDS_MAX / 4), 0)
        said = node.errors.whole().splitlines()[-1]
        tally.case("the last line then", bool(re.fullmatch(r"turns used up: received \d+, ignored \d+, sent \d+, lost \d+", said)), True)
        tally.case("the journal then", node.kept(), 1)


def input_ends_first(tally, at):
    """The end of standard input does not end HTTP, and faults of jobs there end a node with status 2 once the turns are used up."""
    with Primary(at, journal="input", turns="150", stdin=subprocess.PIPE) as node, Client(node.http) as client:
        node.send("frobnicate\n" + job(0, insert_of(1)))
        tally.case("a job of standard input", node.lines(1), ["job 0 ticket 1"])
        tally.case("a job over HTTP then", shown(client.post(job(0, insert_of(2)))), text(200, "job 0 ticket 2\n"))
        node.process.stdin.close()
        tally.case("the end of the input", bool(node.errors.that("^the input has ended$")), True)
        tally.case("a job over HTTP behind it", shown(client.post(job(0, insert_of(3)))), text(200, "job 0 ticket 3\n"))
        tally.case("its end", (client.answer(), node.process.wait(SECONDS_MAX / 4)), (None, 2))


def end_under_load(tally, at):
    """The turns end while clients write. What they were told is in the journal."""
    told, rows = Told(), itertools.count()
    with Primary(at, journal="load", turns="60") as node:
        drive(node.http, [inserting(node.http, random.Random(number), rows, told) for number in range(16)])
        tally.case("the status at an end under load", node.process.wait(SECONDS_MAX / 4), 0)
        told.check(tally, "an end under load", node.commits())
        tally.case("tickets before an end under load", len(told.tickets) > 0, True)
