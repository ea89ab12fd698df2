"""What a primary tells of itself over HTTP: its figures and its status."""

import hashlib
import json
import re
import struct
import time

from harness import SECONDS_MAX, Tally, bound, contents, run, word_of, write
from http_client import JSON, PLAIN, Client, shown
from http_nodes import SETTINGS, Primary, insert_of, job

FAMILIES = {
    "batchdb_durable_commits": "gauge",
    "batchdb_journal_bytes": "gauge",
    "batchdb_jobs_total": "counter",
    "batchdb_rounds_total": "counter",
    "batchdb_replica_version": "gauge",
    "batchdb_replica_seconds": "gauge",
    "batchdb_http_requests_total": "counter",
    "batchdb_http_connections": "gauge",
    "batchdb_http_refused_total": "counter",
    "batchdb_datagrams_total": "counter",
}
HELP = re.compile(r"# HELP ([a-zA-Z_:][a-zA-Z0-9_:]*) (\S(?:[^\\\n]|\\\\|\\n)*)")
TYPE = re.compile(r"# TYPE ([a-zA-Z_:][a-zA-Z0-9_:]*) (counter|gauge)")
SAMPLE = re.compile(r'([a-zA-Z_:][a-zA-Z0-9_:]*)(?:\{([a-zA-Z_][a-zA-Z0-9_]*)="((?:[^"\\\n]|\\\\|\\"|\\n)*)"\})? (\d+(?:\.\d+)?)')


def figures_in(body):
    """The kinds of families of figures, and each sample by its family and its label. A text that does not read is a ValueError: each
    family begins with what it means and then its kind, its samples follow, and nothing is there twice."""
    kinds, samples, explained, family = {}, {}, None, None
    whole = body.decode("ascii")
    if not whole.endswith("\n"):
        raise ValueError("the last line has no end")
    for line in whole.splitlines():
        if found := HELP.fullmatch(line):
            explained, family = found[1], None
        elif found := TYPE.fullmatch(line):
            family = found[1]
            if explained != family or family in kinds:
                raise ValueError(f"the place of {line!r}")
            kinds[family], explained = found[2], None
        elif found := SAMPLE.fullmatch(line):
            key = found[1], found[2], found[3]
            if found[1] != family or key in samples:
                raise ValueError(f"the place of {line!r}")
            samples[key] = float(found[4])
        else:
            raise ValueError(f"the line {line!r}")
    return kinds, samples


def figures(client):
    answer = client.get("/metrics")
    if shown(answer)[::2] != (200, PLAIN):
        raise ValueError(f"{answer}")
    return figures_in(answer.body)


def figures_of_replica(client):
    """The figures once there are those of a replica that was told a version. It may be told before that is counted."""
    end = time.monotonic() + SECONDS_MAX / 4
    while True:
        found = figures(client)[1]
        if any(key[1] == "replica" for key in found) or time.monotonic() > end:
            return found


def asked_by_replica(port, primary, request_number):
    """A replica asks for the newest version; what it is told."""
    port.sendto(bytes.fromhex("424403020017") + struct.pack(">BQQ", 0, 7, request_number), primary)
    # (frames come, too)
    told = next(data for data in iter(lambda: port.recv(1200), b"") if data[3] == 3)
    return struct.unpack(">Q", told[23:31])[0]


def status_of(client):
    """The status of a node, without a member that is there twice."""
    answer = client.get("/status")
    if shown(answer)[::2] != (200, JSON):
        raise ValueError(f"{answer}")

    def members(pairs):
        if len(dict(pairs)) != len(pairs):
            raise ValueError(f"a member twice: {pairs}")
        return dict(pairs)

    return json.loads(answer.body, object_pairs_hook=members)


def metrics(at):
    """What a node tells of itself, before and after jobs and a replica that asks."""
    tally = Tally()
    write(f"{at}/schema", SETTINGS)
    with bound() as port, Primary(at, word_of(port)) as node, Client(node.http) as client:
        new_node(tally, node, client)
        kinds, before = figures(client)
        tally.case("the families of figures", kinds, FAMILIES)
        for row in range(9):
            client.post(job(row % 2, insert_of(row)))
        client.post(job(0, insert_of(9)) + job(0, insert_of(1)))
        client.get("/none")
        told = asked_by_replica(port, node.address(), 1)
        tally.case("the version that a replica is told", told, 10)
        after = figures_of_replica(client)
        tally.case("the figures that rose", {key: after[key] - before.get(key, 0) for key in after if is_exact(key)}, risen())
        falling = [key for key in before if FAMILIES.get(key[0]) == "counter" and after.get(key, -1) < before[key]]
        tally.case("counters that fell", falling, [])
        tally.case("rounds", 1 <= after["batchdb_rounds_total", None, None] - before["batchdb_rounds_total", None, None] <= 10, True)
        tally.case("the bytes of the journal", after["batchdb_journal_bytes", None, None], len(contents(node.journal)))
        seconds = {key: value < SECONDS_MAX for key, value in after.items() if key[0] == "batchdb_replica_seconds"}
        tally.case("how long ago a replica was told", seconds, {("batchdb_replica_seconds", "replica", "0"): True})
        labels = {key[0]: {other[2] for other in after if other[0] == key[0] and other[1]} for key in after if key[1]}
        statuses = labels.pop("batchdb_http_requests_total")
        expected = {
            "batchdb_jobs_total": {"ticket", "conflict", "refused"},
            "batchdb_replica_version": {"0"},
            "batchdb_replica_seconds": {"0"},
            "batchdb_datagrams_total": {"received", "ignored", "sent", "lost"},
        }
        tally.case("the labels", labels, expected)
        tally.case("the labels of requests", [it for it in statuses if not re.fullmatch("[2-5][0-9][0-9]", it)], [])
        used_node(tally, node, client)
    return tally


def is_exact(key):
    """Whether it is known by how much a figure rises."""
    return key[0] in ("batchdb_durable_commits", "batchdb_jobs_total", "batchdb_replica_version") or key[2] in ("404", "409")


def risen():
    """By how much: ten jobs with tickets, one without; the row of the tenth request is set aside by its second job."""
    return {
        ("batchdb_durable_commits", None, None): 10,
        ("batchdb_jobs_total", "answer", "ticket"): 10,
        ("batchdb_jobs_total", "answer", "conflict"): 0,
        ("batchdb_jobs_total", "answer", "refused"): 1,
        ("batchdb_replica_version", "replica", "0"): 10,
        ("batchdb_http_requests_total", "status", "404"): 1,
        ("batchdb_http_requests_total", "status", "409"): 1,
    }


def node_facts(node):
    """What the status of a node has in any case."""
    version = run("--version")[1].split()[1]
    schema = hashlib.sha256(contents(node.schema)).hexdigest()
    return {"node": "primary", "version": version, "schema": schema, "journal_bytes": len(contents(node.journal)), "connections": 1}


def new_node(tally, node, client):
    jobs = {"ticket": 0, "conflict": 0, "refused": 0}
    expected = {**node_facts(node), "durable": 0, "jobs": jobs, "rounds": 0, "replicas": [{"replica": 0}, {"replica": 1}]}
    tally.case("the status of a new node", status_of(client), expected)


def used_node(tally, node, client):
    others = [Client(node.http) for _ in range(4)]
    for other in others:
        other.get("/none")
    found = status_of(client)
    rounds, seconds = found.pop("rounds"), found["replicas"][0].pop("seconds", None)
    jobs = {"ticket": 10, "conflict": 0, "refused": 1}
    replicas = [{"replica": 0, "version": 10}, {"replica": 1}]
    expected = {**node_facts(node), "durable": 10, "jobs": jobs, "connections": 5, "replicas": replicas}
    tally.case("the status of a node that was used", found, expected)
    tally.case("its rounds, and how long ago a replica asked", (1 <= rounds <= 10, 0 <= seconds < SECONDS_MAX), (True, True))
    for other in others:
        other.socket.close()
