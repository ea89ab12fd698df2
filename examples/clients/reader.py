#!/usr/bin/env python3
"""Follows a BatchDB primary as an analytic replica does, and prints its tables as `dump` does: once at the start, and once more
for each line of standard input, each time at the newest durable version.

    reader.py SCHEMA NUMBER BOOT LISTEN PRIMARY

SCHEMA is the primary's schema file. NUMBER and LISTEN are those of one of the primary's replicas: the primary sends to the
address that it was given for a replica, not to the one that a datagram came from. BOOT is a number with which this replica was
never started before. The exit status is 3 if the primary does not answer.
"""

import os
import select
import socket
import struct
import sys
import time

FRAME, ASK, HEAD, WANT, PIECE, PULL = 1, 2, 3, 4, 5, 6
INSERT, PATCH, DELETE, ADD_COLUMN = 1, 2, 3, 4
ENTRY_FORMS = {INSERT: ">BBQH", PATCH: ">BBQHH", DELETE: ">BBQ", ADD_COLUMN: ">BBB"}
WANT_MAX = 16  # frames that answer one Want at most, or pieces that answer one Pull
SECONDS_OF_A_TRY = 0.1
TRIES_MAX = 100  # of an Ask without the Head
FETCH_TRIES_MAX = 16  # of a Want or a Pull without what it names; then the primary may have another base


def read_schema(path):
    """Returns the number of workers and, for each table, its name and its columns' widths, where 0 stands for an int."""
    lines = [line.split() for line in open(path, encoding="ascii") if line.strip() and not line.startswith("#")]
    tables = [(words[1], [0 if kind == "int" else int(kind[len("bytes"):]) for kind in words[2:]]) for words in lines[2:]]
    return int(lines[0][1]), tables


def address(word):
    host, _, port = word.partition(":")
    return host, int(port)


def datagram(kind, form, *fields):
    body = struct.pack(">" + form, *fields)
    return struct.pack(">2sBBH", b"BD", 3, kind, 6 + len(body)) + body


def read_entries(body, count):
    entries, at = [], 0
    for _ in range(count):
        form = ENTRY_FORMS[body[at]]
        operation, table, row, *sizes = struct.unpack_from(form, body, at)
        at += struct.calcsize(form)
        offset = sizes[0] if operation == PATCH else 0
        size = sizes[-1] if sizes else 0
        if operation == ADD_COLUMN:  # the column's width, where 0 stands for an int, in place of a row
            size = row or 8
        entries.append((operation, table, row, offset, body[at:at + size]))
        at += size
    if at != len(body):
        raise ValueError("length")
    return entries


class Reader:
    def __init__(self, schema, number, boot, listen, primary):
        self.workers, self.tables = read_schema(schema)
        self.number, self.boot, self.request, self.primary = int(number), int(boot), 0, address(primary)
        self.version, self.head = 0, None
        self.clear()
        self.base, self.pieces = 0, {}  # entries by a piece's number, of the image at that base
        self.frames = [{} for _ in range(self.workers)]  # by seq: the commit's number and the entries; until they are applied
        self.applied = [0] * self.workers  # how many frames of each worker were applied
        self.socket = socket.socket(socket.AF_INET, socket.SOCK_DGRAM)
        self.socket.bind(address(listen))
        self.typed = b""  # what was typed and does not make a line yet

    def clear(self):
        """The tables are as the schema file has them, without rows."""
        self.rows = [{} for _ in self.tables]
        self.columns = [list(widths) for _, widths in self.tables]

    def take(self, data):
        """Takes one datagram: a Frame or a Piece that is new, or the Head that is waited for. Everything else is ignored."""
        if struct.unpack_from(">2sBxH", data) != (b"BD", 3, len(data)) or len(data) > 1200:
            return
        if data[3] == FRAME:
            worker, seq, commit, _, count = struct.unpack_from(">BQQBH", data, 6)
            if worker < self.workers and seq >= self.applied[worker] and seq not in self.frames[worker]:
                self.frames[worker][seq] = commit, read_entries(data[26:], count)
        elif data[3] == PIECE and self.head is not None:
            base, number, _, count = struct.unpack_from(">QQBH", data, 6)
            if base == self.base and number < self.head[2] and number not in self.pieces:
                self.pieces[number] = read_entries(data[25:], count)
        elif data[3] == HEAD and self.head is None:
            number, boot, request, version, base, pieces, _, *counts = struct.unpack(f">BQQQQQB{2 * data[47]}Q", data[6:])
            lows, counts = counts[0::2], counts[1::2]
            own = (self.number, self.boot, self.request, self.workers)
            needed = lows if base > self.version else counts
            is_newer = version >= self.version and all(count >= applied for count, applied in zip(needed, self.applied))
            if (number, boot, request, len(counts)) == own and is_newer:
                self.head = version, base, pieces, lows, counts
                base = base if base > self.version else 0  # an image that is not needed
                if base != self.base:
                    self.base, self.pieces = base, {}

    def receive(self, seconds):
        """Takes a datagram if one arrives in that time."""
        self.socket.settimeout(seconds)
        try:
            self.take(self.socket.recv(65536))
        except (TimeoutError, struct.error, LookupError, ValueError):
            pass  # nothing arrived, or no datagram

    def next_line(self):
        """Waits for a line of standard input, and takes what arrives meanwhile; false at the end of the input."""
        while b"\n" not in self.typed:
            ready, _, _ = select.select([self.socket, 0], [], [])
            if self.socket in ready:
                self.receive(SECONDS_OF_A_TRY)
            if 0 in ready:
                data = os.read(0, 65536)
                if not data:
                    return False
                self.typed += data
        self.typed = self.typed.partition(b"\n")[2]
        return True

    def send_until(self, data, done, tries=TRIES_MAX):
        """Sends a datagram, and again after each time without an answer, until done."""
        for _ in range(tries):
            self.socket.sendto(data, self.primary)
            end = time.monotonic() + SECONDS_OF_A_TRY
            while (left := end - time.monotonic()) > 0:
                self.receive(left)
                if done():
                    return
        raise TimeoutError

    def fetch(self):
        """Fetches a Head, and what it names. Returns false if that does not come: the primary may have another base by now."""
        self.request, self.head = self.request + 1, None
        self.send_until(datagram(ASK, "BQQ", self.number, self.boot, self.request), lambda: self.head is not None)
        _, _, pieces, lows, counts = self.head

        def fetch_all(kept, first, count, asking):
            for number in range(first, count):
                if number not in kept:
                    answer = range(number, min(number + WANT_MAX, count))
                    self.send_until(asking(number), lambda: all(it in kept for it in answer), FETCH_TRIES_MAX)

        try:
            if self.base:
                fetch_all(self.pieces, 0, pieces, lambda number: datagram(PULL, "BQQ", self.number, self.base, number))
            for worker, count in enumerate(counts):
                first = lows[worker] if self.base else self.applied[worker]
                fetch_all(self.frames[worker], first, count, lambda seq: datagram(WANT, "BBQ", self.number, worker, seq))
        except TimeoutError:
            return False
        return True

    def update(self):
        """Brings the tables to the version that is durable when the primary answers."""
        while not self.fetch():
            pass
        version, base, pieces, lows, counts = self.head
        if self.base:  # the image stands for all commits up to there
            self.clear()
            for number in range(pieces):
                self.change(self.pieces[number])
            self.version, self.applied = base, lows
            self.base, self.pieces = 0, {}
        commits = {}
        for worker, count in enumerate(counts):
            for seq in range(self.applied[worker], count):
                commit, entries = self.frames[worker].pop(seq)
                commits.setdefault(commit, []).extend(entries)
            self.applied[worker] = count
            self.frames[worker] = {seq: frame for seq, frame in self.frames[worker].items() if seq >= count}
        if sorted(commits) != list(range(self.version + 1, version + 1)):
            raise ValueError(f"the frames of version {version} are not those of its commits")
        for commit in range(self.version + 1, version + 1):
            self.change(commits[commit])
        self.version = version

    def change(self, entries):
        for operation, table, row, offset, data in entries:
            if operation == DELETE:
                del self.rows[table][row]
            elif operation == ADD_COLUMN:
                self.columns[table].append(row)
                for was in self.rows[table].values():
                    was.extend(data)
            else:  # an insert's data, with the offset 0, is the whole row
                self.rows[table].setdefault(row, bytearray())[offset:offset + len(data)] = data

    def text(self):
        lines = [f"version {self.version} rows {sum(map(len, self.rows))}"]
        for (name, _), widths, rows in zip(self.tables, self.columns, self.rows):
            for row, data in sorted(rows.items()):
                words, at = [name, str(row)], 0
                for width in widths:
                    part, at = data[at:at + (width or 8)], at + (width or 8)
                    words.append("x" + part.hex() if width else str(int.from_bytes(part, "big", signed=True)))
                lines.append(" ".join(words))
        return "\n".join(lines)


def main():
    if len(sys.argv) != 6:
        sys.exit("usage: reader.py SCHEMA NUMBER BOOT LISTEN PRIMARY")
    reader = Reader(*sys.argv[1:])
    try:
        while True:
            reader.update()
            print(reader.text(), flush=True)
            if not reader.next_line():
                return 0
    except TimeoutError:
        print("reader: no answer from " + sys.argv[5], file=sys.stderr)
        return 3


sys.exit(main())
