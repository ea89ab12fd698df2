"""The formats and the simulator once more, slowly and plainly, as docs/FORMATS.md has them: entries, datagrams, journals, plans,
reports, and what each event of a script answers. It shares nothing with the program; checks/hostile and checks/faults compare the two.
"""

import copy
import struct
from collections import namedtuple

INSERT, PATCH, DELETE, ADD_COLUMN = 1, 2, 3, 4
FRAME, ASK, HEAD, WANT, PIECE, PULL = 1, 2, 3, 4, 5, 6
COLUMNS_MAX, ROW_MAX = 16, 512
DATAGRAM_MAX = 1200
# The bytes of a frame, and of a piece of an image, that are before its entries.
FRAME_OVERHEAD, PIECE_OVERHEAD = 26, 25
WANTED_MAX = 16
WINDOW = 4096
ENTRIES_MAX = 4096
# The least length of a record, by the version of the part in which it is: that of a delete, and that of a column of one byte.
RECORD_MIN, RECORD_MAX = {1: 21, 2: 15}, 2146315
# Between the parts of a journal that was begun in version 1: a length that no record has.
MARK = bytes(4)
WAITING_MAX = 64
U64_MAX = 2**64 - 1

# An insert and a patch have data, and a patch has an offset. An added column has no row, its kind in place of the offset, and as data
# its value.
Entry = namedtuple("Entry", "operation table row offset data")
Commit = namedtuple("Commit", "worker entries")
Frame = namedtuple("Frame", "worker seq commit last entries")
Ask = namedtuple("Ask", "replica boot request")
# The base counts of the workers are its lows.
Head = namedtuple("Head", "replica boot request version base pieces lows counts")
Want = namedtuple("Want", "replica worker start")
Piece = namedtuple("Piece", "base number last entries")
Pull = namedtuple("Pull", "replica base start")


class Schema:
    """The settings; a column's kind is 0 for an `int`, or how many bytes it has."""

    def __init__(self, text):
        self.text = text
        lines = [line.split(" ") for line in text.splitlines() if line and not line.startswith("#")]
        self.workers, self.replicas = int(lines[0][1]), int(lines[1][1])
        self.names = [words[1] for words in lines[2:]]
        self.have([[0 if kind == "int" else int(kind[5:]) for kind in words[2:]] for words in lines[2:]])

    def have(self, kinds):
        """The tables have columns of these kinds."""
        self.kinds = kinds
        sizes = [[kind or 8 for kind in kinds] for kinds in self.kinds]
        self.columns = [[(sum(it[:column]), it[column]) for column in range(len(it))] for it in sizes]
        self.widths = [sum(it) for it in sizes]

    def fits(self, entry):
        if entry.table >= len(self.names):
            return False
        if entry.operation == INSERT:
            return len(entry.data) == self.widths[entry.table]
        if entry.operation == ADD_COLUMN:
            return len(self.kinds[entry.table]) < COLUMNS_MAX and self.widths[entry.table] + len(entry.data) <= ROW_MAX
        return entry.operation == DELETE or (entry.offset, len(entry.data)) in self.columns[entry.table]

    def behind(self, entry):
        """The settings behind an entry that fits: an added column is the last of its table."""
        if entry.operation != ADD_COLUMN:
            return self
        it = copy.copy(self)
        it.have([[*kinds, entry.offset] if table == entry.table else kinds for table, kinds in enumerate(self.kinds)])
        return it

    def has_tables(self, entries):
        return all(entry.table < len(self.names) for entry in entries)

    def value(self, table, column, data):
        """The value of a column, as it is printed."""
        offset, size = self.columns[table][column]
        return value_word(self.kinds[table][column], data[offset:offset + size])


def value_word(kind, data):
    """A value as it is printed."""
    return "x" + data.hex() if kind else str(int.from_bytes(data, "big", signed=True))


def value_bytes(word):
    """The kind of a value of a script, which is None if it has no bytes, and its bytes."""
    if word.startswith("x"):
        return len(word) // 2 or None, bytes.fromhex(word[1:])
    return 0, int(word).to_bytes(8, "big", signed=True)


# ---- entries


def spell_entry(entry):
    if entry.operation == ADD_COLUMN:
        return struct.pack(">BBB", entry.operation, entry.table, entry.offset) + entry.data
    head = struct.pack(">BBQ", entry.operation, entry.table, entry.row)
    if entry.operation == INSERT:
        return head + struct.pack(">H", len(entry.data)) + entry.data
    if entry.operation == PATCH:
        return head + struct.pack(">HH", entry.offset, len(entry.data)) + entry.data
    return head


def read_entries(body, count):
    """The entries, if the bytes are exactly this many entries; otherwise None."""
    entries, at = [], 0
    for _ in range(count):
        if body[at:at + 1] == bytes([ADD_COLUMN]):
            table, kind = [*body[at + 1:at + 3], 255, 255][:2]
            at, size = at + 3, kind or 8
            if table >= 16 or kind > 64 or len(body) < at + size:
                return None
            entries.append(Entry(ADD_COLUMN, table, None, kind, body[at:at + size]))
            at += size
            continue
        if len(body) < at + 10:
            return None
        operation, table, row = struct.unpack_from(">BBQ", body, at)
        at += 10
        sizes = {INSERT: 2, PATCH: 4, DELETE: 0}.get(operation)
        if sizes is None or table >= 16 or len(body) < at + sizes:
            return None
        offset = int.from_bytes(body[at:at + 2], "big") if operation == PATCH else 0
        size = int.from_bytes(body[at + sizes - 2:at + sizes], "big") if sizes else 0
        at += sizes
        if operation == INSERT and not 1 <= size <= 512 or operation == PATCH and not (1 <= size <= 64 and offset + size <= 512):
            return None
        if len(body) < at + size:
            return None
        entries.append(Entry(operation, table, row, offset, body[at:at + size]))
        at += size
    return entries if at == len(body) else None


# ---- datagrams


def spell(datagram):
    if isinstance(datagram, Frame):
        kind, body = FRAME, struct.pack(">BQQBH", *datagram[:4], len(datagram.entries)) + b"".join(map(spell_entry, datagram.entries))
    elif isinstance(datagram, Ask):
        kind, body = ASK, struct.pack(">BQQ", *datagram)
    elif isinstance(datagram, Head):
        each = b"".join(struct.pack(">QQ", low, count) for low, count in zip(datagram.lows, datagram.counts))
        kind, body = HEAD, struct.pack(">BQQQQQB", *datagram[:6], len(datagram.counts)) + each
    elif isinstance(datagram, Piece):
        kind, body = PIECE, struct.pack(">QQBH", *datagram[:3], len(datagram.entries)) + b"".join(map(spell_entry, datagram.entries))
    elif isinstance(datagram, Pull):
        kind, body = PULL, struct.pack(">BQQ", *datagram)
    else:
        kind, body = WANT, struct.pack(">BBQ", *datagram)
    return struct.pack(">2sBBH", b"BD", 3, kind, 6 + len(body)) + body


def plain_head(replica, boot, request, version, counts):
    """A Head without a base."""
    return Head(replica, boot, request, version, 0, 0, (0,) * len(counts), tuple(counts))


def read_datagram(data):
    """The datagram that the bytes are; None if they are none."""
    if len(data) < 6 or data[:3] != b"BD\x03" or data[3] not in (FRAME, ASK, HEAD, WANT, PIECE, PULL):
        return None
    if int.from_bytes(data[4:6], "big") != len(data) or len(data) > DATAGRAM_MAX:
        return None
    kind, body = data[3], data[6:]
    if kind == FRAME and len(body) >= 20:
        worker, seq, commit, last, count = struct.unpack_from(">BQQBH", body)
        entries = read_entries(body[20:], count)
        if worker < 16 and commit >= 1 and last <= 1 and count >= 1 and entries is not None:
            return Frame(worker, seq, commit, last, entries)
    if kind == ASK and len(body) == 17 and body[0] < 16:
        return Ask(*struct.unpack(">BQQ", body))
    if kind == HEAD and len(body) >= 42 and body[0] < 16 and 1 <= body[41] <= 16 and len(body) == 42 + 16 * body[41]:
        numbers = struct.unpack(f">{2 * body[41]}Q", body[42:])
        head = Head(*struct.unpack(">BQQQQQ", body[:41]), numbers[0::2], numbers[1::2])
        within = head.base <= head.version and all(low <= count for low, count in zip(head.lows, head.counts))
        if within and (head.pieces > 0 if head.base else head.pieces == 0 and not any(head.lows)):
            return head
    if kind == WANT and len(body) == 10 and body[0] < 16 and body[1] < 16:
        return Want(*struct.unpack(">BBQ", body))
    if kind == PIECE and len(body) >= 19:
        base, number, last, count = struct.unpack_from(">QQBH", body)
        entries = read_entries(body[19:], count)
        if base >= 1 and last <= 1 and (count >= 1 or number == 0 and last == 1) and entries is not None:
            return Piece(base, number, last, entries)
    if kind == PULL and len(body) == 17 and body[0] < 16:
        return Pull(*struct.unpack(">BQQ", body))
    return None


def parted(overhead, entries):
    """The entries, each with those that fit beside it into a datagram, of which so many bytes are before them."""
    parts, length = [[]], overhead
    for entry in entries:
        size = len(spell_entry(entry))
        if parts[-1] and length + size > DATAGRAM_MAX:
            parts.append([])
            length = overhead
        parts[-1].append(entry)
        length += size
    return parts


def cut(worker, commit, seq, entries):
    """The frames of a commit, the first with that seq."""
    parts = parted(FRAME_OVERHEAD, entries)
    return [spell(Frame(worker, seq + it, commit, int(it == len(parts) - 1), part)) for it, part in enumerate(parts)]


def image(opened, now, rows):
    """The entries that make these rows, of the settings `now`, out of the tables as they were opened."""
    entries = []
    for table, kinds in enumerate(now.kinds):
        added = kinds[len(opened.kinds[table]):]
        entries += [Entry(ADD_COLUMN, table, None, kind, bytes(kind or 8)) for kind in added]
        entries += [Entry(INSERT, table, row, 0, rows[table][row]) for row in sorted(rows[table])]
    return entries


def pieces(base, entries):
    """The pieces of the image of a base above 0."""
    parts = parted(PIECE_OVERHEAD, entries)
    return [spell(Piece(base, it, int(it == len(parts) - 1), part)) for it, part in enumerate(parts)]


# ---- tables and journals


def change(rows, entry):
    """Makes a change that fits, and returns whether it is defined. A row's bytes are never changed in place."""
    here = rows[entry.table]
    if entry.operation == ADD_COLUMN:
        rows[entry.table] = {row: data + entry.data for row, data in here.items()}
        return True
    if (entry.operation == INSERT) == (entry.row in here):
        return False
    if entry.operation == DELETE:
        del here[entry.row]
    elif entry.operation == INSERT:
        here[entry.row] = entry.data
    else:
        old = here[entry.row]
        here[entry.row] = old[:entry.offset] + entry.data + old[entry.offset + len(entry.data):]
    return True


def behind(schema, rows, entries):
    """Makes changes one after another, and returns the settings behind them; None if one of them does not fit or is not defined."""
    for entry in entries:
        if not schema.fits(entry) or not change(rows, entry):
            return None
        schema = schema.behind(entry)
    return schema


def header(schema, version=2):
    tables = b"".join(bytes([len(kinds), *kinds]) for kinds in schema.kinds)
    return b"BDJ%d" % version + bytes([schema.workers, len(schema.kinds)]) + tables


def record(number, commit):
    body = struct.pack(">BQH", commit.worker, number, len(commit.entries)) + b"".join(map(spell_entry, commit.entries))
    return struct.pack(">I", len(body)) + body


def records(commits, before=0):
    """The records of commits, of which so many stand before."""
    return b"".join(record(before + number + 1, commit) for number, commit in enumerate(commits))


def journal(schema, commits):
    return header(schema) + records(commits)


def old_journal(schema, commits, before=None):
    """A journal that was begun in version 1, with the mark behind so many of its commits; without one if that is not given."""
    if before is None:
        return header(schema, 1) + records(commits)
    return header(schema, 1) + records(commits[:before]) + MARK + records(commits[before:], before)


# The version is that of what may be appended.
Kept = namedtuple("Kept", "commits bytes version")
Refused = namedtuple("Refused", "fault at")


def recover(schema, data):
    """What a journal keeps, or why it is refused."""
    headers = {version: header(schema, version) for version in (1, 2)}
    if any(len(data) < len(it) and it.startswith(data) for it in headers.values()):
        return Kept([], 0, 2)
    version = next((version for version, it in headers.items() if data.startswith(it)), None)
    if version is None:
        return Refused("OtherHeader", None)
    now, rows, commits, at = schema, [{} for _ in schema.kinds], [], len(headers[version])
    while True:
        if len(data) - at < 4:
            return Kept(commits, at, version)
        if version == 1 and data[at:at + 4] == MARK:
            version, at = 2, at + 4
            continue
        length = int.from_bytes(data[at:at + 4], "big")
        if not RECORD_MIN[version] <= length <= RECORD_MAX:
            return Refused("Damaged", at)
        if len(data) - at - 4 < length:
            return Kept(commits, at, version)
        worker, number, count = struct.unpack_from(">BQH", data, at + 4)
        entries = read_entries(data[at + 15:at + 4 + length], count) if 1 <= count <= ENTRIES_MAX else None
        if entries is None or version == 1 and any(it.operation == ADD_COLUMN for it in entries):
            return Refused("Damaged", at)
        if number != len(commits) + 1:
            return Refused("OutOfOrder", at)
        now = behind(now, rows, entries) if worker < schema.workers else None
        if now is None:
            return Refused("Illegal", at)
        commits.append(Commit(worker, entries))
        at += 4 + length


def started(schema, data):
    """What a start leaves of a journal that it does not refuse."""
    kept = recover(schema, data)
    if kept.bytes == 0:
        return header(schema)
    return data[:kept.bytes] + (MARK if kept.version == 1 else b"")


FAULT_LINES = {
    "OtherHeader": "the journal is of another schema or of another number of workers",
    "Damaged": "the journal is damaged at byte {}",
    "OutOfOrder": "a commit is out of order at byte {} of the journal",
    "Illegal": "a commit is not legal at byte {} of the journal",
}


# ---- plans and reports

Plan = namedtuple("Plan", "table join conditions by aggregates")
COMPARED = {
    "=": lambda a, b: a == b,
    "!=": lambda a, b: a != b,
    "<": lambda a, b: a < b,
    "<=": lambda a, b: a <= b,
    ">": lambda a, b: a > b,
    ">=": lambda a, b: a >= b,
}


def read_plan(schema, words):
    """The plan of these words, which read. A column is whether it is of the joined table, and its number."""

    def column(word):
        return word.startswith("j"), int(word.lstrip("j"))

    words = words[1:]
    table, join, conditions, by, aggregates = schema.names.index(words.pop(0)), None, [], [], []
    if words[0] == "join":
        join = int(words[1]), schema.names.index(words[2])
        words = words[3:]
    while words[0] in ("where", "and"):
        conditions.append((column(words[1]), words[2], value_bytes(words[3])))
        words = words[4:]
    if words[0] == "by":
        end = words.index("get")
        by, words = [column(word) for word in words[1:end]], words[end:]
    words = words[1:]
    while words:
        word = words.pop(0)
        aggregates.append((word, None if word == "count" else column(words.pop(0))))
    return Plan(table, join, conditions, by, aggregates)


def plan_fault(schema, plan):
    """The number of a plan's first fault, or None."""

    def kind(column):
        joined, number = column
        if joined and plan.join is None:
            return None
        kinds = schema.kinds[plan.join[1] if joined else plan.table]
        return kinds[number] if number < len(kinds) else None

    if len(plan.conditions) > 8 or len(plan.by) > 2 or len(plan.aggregates) > 8:
        return 4
    if not plan.aggregates:
        return 5
    if plan.join is not None:
        found = kind((False, plan.join[0]))
        if found is None or found:
            return 2 if found is None else 3
    for column, _, (given, _) in plan.conditions:
        found = kind(column)
        if found is None or found != given:
            return 2 if found is None else 3
    for column in plan.by:
        if kind(column) is None:
            return 2
    for word, column in plan.aggregates:
        found = None if column is None else kind(column)
        if column is not None and (found is None or found and word == "sum"):
            return 2 if found is None else 3
    return None


def answer(schema, rows, plan):
    """The lines of a plan's answer on these rows."""

    def typed(table, column, data):
        offset, size = schema.columns[table][column]
        part = data[offset:offset + size]
        return part if schema.kinds[table][column] else int.from_bytes(part, "big", signed=True)

    def shown(value):
        return "-" if value is None else "x" + value.hex() if isinstance(value, bytes) else str(value)

    groups = {} if plan.by else {(): []}
    for data in rows[plan.table].values():
        other = None
        if plan.join is not None:
            named = typed(plan.table, plan.join[0], data)
            other = rows[plan.join[1]].get(named) if named >= 0 else None
            if other is None:
                continue

        def look(column):
            return typed(plan.join[1], column[1], other) if column[0] else typed(plan.table, column[1], data)

        def wanted(given):
            return given[1] if given[0] else int.from_bytes(given[1], "big", signed=True)

        if all(COMPARED[sign](look(column), wanted(given)) for column, sign, given in plan.conditions):
            values = [None if column is None else look(column) for _, column in plan.aggregates]
            groups.setdefault(tuple(look(column) for column in plan.by), []).append(values)
    lines = []
    for key in sorted(groups):
        words = [shown(value) for value in key]
        for place, (word, _) in enumerate(plan.aggregates):
            values = [it[place] for it in groups[key]]
            if word == "count":
                words.append(str(len(values)))
            elif word == "sum":
                words.append(str(sum(values)))
            else:
                words.append(shown((min if word == "min" else max)(values) if values else None))
        lines.append(" ".join(words))
    return lines


def report(schema, version, rows, plans):
    lines = [f"version {version} queries {len(plans)}"]
    for number, plan in enumerate(plans):
        found = answer(schema, rows, plan)
        lines += [f"query {number} rows {len(found)}", *found]
    return lines


def table_text(schema, version, rows):
    lines = [f"version {version} rows {sum(map(len, rows))}"]
    for table, name in enumerate(schema.names):
        for row in sorted(rows[table]):
            values = [schema.value(table, column, rows[table][row]) for column in range(len(schema.kinds[table]))]
            lines.append(" ".join([name, str(row), *values]))
    return lines


# ---- the simulator


class Replica:
    def __init__(self, number, workers, boots):
        self.number, self.boots, self.boot = number, boots, boots[-1]
        self.request, self.version, self.broken = 0, 0, False
        self.known = [set() for _ in range(workers)]
        # The numbers of the pieces that it has, of the image at that base.
        self.pieces_base, self.pieces = 0, set()
        self.waiting, self.batch, self.head = [], None, None

    def is_by_image(self):
        """Whether its batch goes by the image at the base of its Head."""
        return self.head is not None and self.head.base > self.version

    def low(self, worker):
        """From which seq on it needs the worker's frames."""
        return self.head.lows[worker] if self.is_by_image() else 0

    def first_missing(self, worker):
        seq = self.low(worker)
        while seq in self.known[worker]:
            seq += 1
        return seq

    def first_missing_piece(self):
        number = 0
        while number in self.pieces:
            number += 1
        return number

    def lacked_piece(self):
        """The number of the first piece that is missing of the image by which it goes; or None."""
        number = self.first_missing_piece()
        return number if self.is_by_image() and number < self.head.pieces else None

    def lacked(self):
        """The least worker of whom a frame below the Head's count is missing, and the first such; or None."""
        for worker, count in enumerate(self.head.counts):
            if self.first_missing(worker) < count:
                return worker, self.first_missing(worker)
        return None

    def take(self, head):
        """Takes a Head. A base that is not above its version is none for its pieces."""
        base = head.base if head.base > self.version else 0
        if base != self.pieces_base:
            self.pieces_base, self.pieces = base, set()
        self.head = head

    def catch_up(self):
        """Brings the tables to the version of its Head. An image stands for the frames below its base counts."""
        if self.is_by_image():
            for known, low in zip(self.known, self.head.lows):
                known.update(range(low))
            self.pieces_base, self.pieces = 0, set()
        self.version = self.head.version


class Draft:
    """An open transaction: its snapshot with its own changes made, and these."""

    def __init__(self, version, schema, rows):
        self.version, self.schema, self.rows, self.entries = version, schema, rows, []


def conflict(entries, others):
    """Whether two commits touch one row, or one adds a column to a table in which the other has any entry."""
    rows, tables = {(it.table, it.row) for it in entries}, {it.table for it in entries}
    grown = {it.table for it in entries if it.operation == ADD_COLUMN}
    return any(
        (it.table, it.row) in rows or it.table in grown or it.operation == ADD_COLUMN and it.table in tables for it in others
    )


class World:
    """The simulator. `step` answers an event's lines and leaves what is so after it; `without_memory` leaves what may be so where
    a growth was refused in it."""

    def __init__(self, schema):
        self.schema = schema
        self.commits, self.durable, self.base, self.stopped = [], 0, 0, False
        # The rows after each number of commits, and the settings with the columns that were added by then.
        self.tables, self.schemas = [[{} for _ in schema.kinds]], [schema]
        self.transactions = []
        self.sent, self.sent_set = [], set()
        self.replicas = [Replica(number, schema.workers, [1]) for number in range(schema.replicas)]

    # -- the primary

    def rows_after(self, version):
        while len(self.tables) <= version:
            rows = [dict(it) for it in self.tables[-1]]
            entries = self.commits[len(self.tables) - 1].entries
            self.schemas.append(behind(self.schemas[-1], rows, entries))
            self.tables.append(rows)
        return self.tables[version]

    def schema_at(self, version):
        self.rows_after(version)
        return self.schemas[version]

    def table(self, name):
        return self.schema.names.index(name)

    def journal(self, count):
        return journal(self.schema, self.commits[:count])

    def report(self, queries):
        """The lines of a replica's report at the durable version."""
        schema = self.schema_at(self.durable)
        return report(schema, self.durable, self.rows_after(self.durable), [read_plan(schema, it.split(" ")) for it in queries])

    def frames(self, worker, version=None):
        """The worker's stream of durable frames, up to that version if one is given."""
        frames = []
        for number, commit in enumerate(self.commits[:self.durable if version is None else version]):
            if commit.worker == worker:
                frames += cut(worker, number + 1, len(frames), commit.entries)
        return frames

    def low(self, worker):
        """How many frames of the worker are not kept: those up to the base."""
        return len(self.frames(worker, self.base))

    def pieces(self):
        """The pieces of the base."""
        if self.base == 0:
            return []
        return pieces(self.base, image(self.schema, self.schema_at(self.base), self.rows_after(self.base)))

    def send(self, data):
        self.sent.append(data)
        self.sent_set.add(data)
        return f"sent {len(self.sent) - 1} {len(data)}"

    def draft(self, number):
        return self.transactions[int(number)] if int(number) < len(self.transactions) else None

    def changed(self, number, make):
        """A change of a transaction; `make` is given the transaction, and answers an entry or what is said instead."""
        draft = self.draft(number)
        if draft is None:
            return ["no tx"]
        entry = make(draft)
        if isinstance(entry, str):
            return [entry]
        if len(draft.entries) == ENTRIES_MAX:
            return ["too many entries"]
        draft.schema = behind(draft.schema, draft.rows, [entry])
        draft.entries.append(entry)
        return ["ok"]

    def on_insert(self, number, name, row, *values):
        table, typed = self.table(name), [value_bytes(word) for word in values]

        def make(draft):
            if [kind for kind, _ in typed] != draft.schema.kinds[table]:
                return "unfit"
            return "exists" if int(row) in draft.rows[table] else Entry(INSERT, table, int(row), 0, b"".join(part for _, part in typed))

        return self.changed(number, make)

    def on_set(self, number, name, row, column, value):
        table, (kind, data) = self.table(name), value_bytes(value)

        def make(draft):
            if int(column) >= len(draft.schema.kinds[table]) or draft.schema.kinds[table][int(column)] != kind:
                return "unfit"
            if int(row) not in draft.rows[table]:
                return "missing"
            return Entry(PATCH, table, int(row), draft.schema.columns[table][int(column)][0], data)

        return self.changed(number, make)

    def on_delete(self, number, name, row):
        table = self.table(name)
        return self.changed(number, lambda draft: Entry(DELETE, table, int(row), 0, b"") if int(row) in draft.rows[table] else "missing")

    def on_column(self, number, name, value):
        table, (kind, data) = self.table(name), value_bytes(value)

        def make(draft):
            entry = Entry(ADD_COLUMN, table, None, kind, data)
            return entry if data and draft.schema.fits(entry) else "unfit"

        return self.changed(number, make)

    def on_get(self, number, name, row, column):
        draft, table = self.draft(number), self.table(name)
        if draft is None:
            return ["no tx"]
        if int(column) >= len(draft.schema.kinds[table]):
            return ["unfit"]
        if int(row) not in draft.rows[table]:
            return ["missing"]
        return ["value " + draft.schema.value(table, int(column), draft.rows[table][int(row)])]

    def on_begin(self):
        rows = [dict(it) for it in self.rows_after(self.durable)]
        self.transactions.append(Draft(self.durable, self.schema_at(self.durable), rows))
        return [f"tx {len(self.transactions) - 1} at {self.durable}"]

    def on_abort(self, number):
        if self.draft(number) is None:
            return ["no tx"]
        self.transactions[int(number)] = None
        return ["ok"]

    def on_commit(self, number, worker):
        draft = self.draft(number)
        if draft is None:
            return ["no tx"]
        self.transactions[int(number)] = None
        if not draft.entries:
            return ["read only"]
        for other in range(len(self.commits), draft.version, -1):
            if conflict(draft.entries, self.commits[other - 1].entries):
                return [f"conflict {other}"]
        self.commits.append(Commit(int(worker), draft.entries))
        return [f"ticket {len(self.commits)}"]

    def on_flush(self, count):
        self.durable = min(self.durable + int(count), len(self.commits))
        return [f"durable {self.durable}"]

    def on_base(self):
        self.base = self.durable
        return [f"base {self.base} pieces {len(self.pieces())}"]

    def on_stop(self, count):
        left = self.journal(len(self.commits))[:len(self.journal(self.durable)) + int(count)]
        self.commits = recover(self.schema, left).commits
        self.durable, self.stopped = len(self.commits), True
        del self.tables[self.durable + 1:], self.schemas[self.durable + 1:]
        self.transactions = [None] * len(self.transactions)
        return ["stopped"]

    def on_start(self):
        if not self.stopped:
            return ["running"]
        self.stopped, self.base = False, 0
        return [f"durable {self.durable}"]

    # -- the network

    def on_push(self, worker, seq):
        frames = self.frames(int(worker))
        return [self.send(frames[int(seq)])] if self.low(int(worker)) <= int(seq) < len(frames) else ["no frame"]

    def arrived(self, node, data):
        datagram = read_datagram(data)
        if node == "p":
            if isinstance(datagram, Ask):
                workers = range(self.schema.workers)
                lows, counts = (tuple(each(worker) for worker in workers) for each in (self.low, lambda it: len(self.frames(it))))
                return [self.send(spell(Head(*datagram, self.durable, self.base, len(self.pieces()), lows, counts)))]
            if isinstance(datagram, Want) and datagram.worker < self.schema.workers:
                kept = max(datagram.start, self.low(datagram.worker))
                found = self.frames(datagram.worker)[kept:datagram.start + WANTED_MAX]
                return [self.send(it) for it in found] or ["ignored"]
            if isinstance(datagram, Pull) and datagram.base == self.base:
                found = self.pieces()[datagram.start:datagram.start + WANTED_MAX]
                return [self.send(it) for it in found] or ["ignored"]
            return ["ignored"]
        replica = self.replicas[int(node[1:])]
        if replica.broken:
            return ["broken"]
        if isinstance(datagram, Frame):
            if datagram.worker >= self.schema.workers or not self.schema.has_tables(datagram.entries):
                return ["ignored"]
            if datagram.seq in replica.known[datagram.worker]:
                return ["repeat"]
            if datagram.seq >= replica.first_missing(datagram.worker) + WINDOW or datagram.seq == U64_MAX:
                return ["ahead"]
            replica.known[datagram.worker].add(datagram.seq)
            return ["stored"]
        if isinstance(datagram, Piece):
            if not replica.is_by_image() or datagram.base != replica.head.base or datagram.number >= replica.head.pieces:
                return ["ignored"]
            if not self.schema.has_tables(datagram.entries):
                return ["ignored"]
            if datagram.number in replica.pieces:
                return ["repeat"]
            if datagram.number >= replica.first_missing_piece() + WINDOW:
                return ["ahead"]
            replica.pieces.add(datagram.number)
            return ["stored"]
        if isinstance(datagram, Head) and datagram[:3] == (replica.number, replica.boot, replica.request):
            if replica.batch is not None and replica.head is None:
                replica.take(datagram)
                return [f"head {datagram.version}"]
        return ["ignored"]

    def on_deliver(self, index, node):
        return self.arrived(node, self.sent[int(index)]) if int(index) < len(self.sent) else ["never sent"]

    def on_raw(self, node, word):
        data = b"" if word == "-" else bytes.fromhex(word)
        if data not in self.sent_set and read_datagram(data) is not None:
            return ["forged"]
        return self.arrived(node, data)

    def on_show(self, index):
        return [self.sent[int(index)].hex()] if int(index) < len(self.sent) else ["never sent"]

    # -- a replica

    def on_open(self, number, *words):
        replica = self.replicas[int(number)]
        if replica.broken or len(replica.waiting) >= WAITING_MAX:
            return ["broken" if replica.broken else "batch full"]
        plan = read_plan(self.schema, list(words))
        fault = plan_fault(self.schema_at(replica.version), plan)
        if fault is not None:
            return [f"bad plan {fault}"]
        replica.waiting.append(plan)
        return [f"opened {len(replica.waiting)}"]

    def on_ask(self, number):
        replica = self.replicas[int(number)]
        if replica.broken:
            return ["broken"]
        if replica.head is not None:
            return ["busy"]
        if replica.batch is None:
            if not replica.waiting:
                return ["empty"]
            replica.batch, replica.waiting = replica.waiting, []
            replica.request += 1
        return [self.send(spell(Ask(replica.number, replica.boot, replica.request)))]

    def on_renew(self, number):
        replica = self.replicas[int(number)]
        if replica.broken or replica.batch is None or replica.head is None:
            return ["broken" if replica.broken else "empty" if replica.batch is None else "no head"]
        replica.head = None
        replica.request += 1
        return [self.send(spell(Ask(replica.number, replica.boot, replica.request)))]

    def on_run(self, number):
        replica = self.replicas[int(number)]
        if replica.broken or replica.batch is None or replica.head is None:
            return ["broken" if replica.broken else "no batch" if replica.batch is None else "waiting head"]
        piece = replica.lacked_piece()
        if piece is not None:
            return [f"waiting piece {piece}", self.send(spell(Pull(replica.number, replica.head.base, piece)))]
        lacked = replica.lacked()
        if lacked is not None:
            return ["waiting {} {}".format(*lacked), self.send(spell(Want(replica.number, *lacked)))]
        replica.catch_up()
        lines = report(self.schema_at(replica.version), replica.version, self.rows_after(replica.version), replica.batch)
        replica.batch = replica.head = None
        return lines

    def on_restart(self, number, boot):
        replica = self.replicas[int(number)]
        if int(boot) in replica.boots:
            return ["boot used"]
        self.replicas[int(number)] = Replica(int(number), self.schema.workers, [*replica.boots, int(boot)])
        return [f"boot {boot}"]

    def on_version(self, number):
        return [f"version {self.replicas[int(number)].version}"]

    def on_dump(self, number):
        replica = self.replicas[int(number)]
        if replica.broken:
            return ["broken"]
        return table_text(self.schema_at(replica.version), replica.version, self.rows_after(replica.version))

    # -- all of it

    OF_THE_PRIMARY = ("begin", "insert", "set", "delete", "column", "get", "commit", "abort", "flush", "base", "stop", "push")

    def step(self, line):
        word, *words = line.split(" ")
        if self.stopped and (word in self.OF_THE_PRIMARY or word == "deliver" and words[1] == "p" or word == "raw" and words[0] == "p"):
            return ["stopped"]
        return getattr(self, "on_" + word)(*words)

    TAKES_MEMORY = {
        "begin": ("tx",), "insert": ("ok",), "set": ("ok",), "delete": ("ok",), "column": ("ok",), "commit": ("ticket",),
        "start": ("durable",), "push": ("sent",), "ask": ("sent",), "renew": ("sent",), "deliver": ("sent", "stored"),
        "raw": ("sent", "stored"), "open": ("opened",), "run": ("waiting", "version"), "dump": ("version",), "restart": ("boot",),
    }

    def without_memory(self, line):
        """What an event may answer where memory is refused, each with the world after it."""
        word, *words = line.split(" ")
        after = copy.deepcopy(self)
        lines = after.step(line)
        if word == "flush":
            takes = not self.stopped and min(int(words[0]), len(self.commits) - self.durable) > 0
        elif word == "base":
            takes = not self.stopped and self.base < self.durable
        elif word == "stop":
            takes = not self.stopped
        elif word == "show":
            takes = lines != ["never sent"]
        else:
            takes = lines[0].split(" ")[0] in self.TAKES_MEMORY.get(word, ()) and lines[0] not in ("waiting head", "boot used")
        if not takes:
            return []
        found = [(["memory"], copy.deepcopy(self))]
        if word == "run" and lines[0].startswith("version"):
            replica = self.replicas[int(words[0])]
            if replica.version < replica.head.version:
                for answered in ("memory", "broken"):
                    world = copy.deepcopy(self)
                    other = world.replicas[int(words[0])]
                    if answered == "memory":
                        other.catch_up()
                    else:
                        other.broken = True
                    found.append(([answered], world))
        return found


def read_script(text):
    """The settings of a script, and its events."""
    lines = [line for line in text.splitlines() if line and not line.startswith("#")]
    settings = [line for line in lines if line.split(" ")[0] in ("workers", "replicas", "table")]
    return Schema("\n".join(settings)), lines[len(settings):]


def told(text):
    """What a script prints while no memory is refused."""
    schema, events = read_script(text)
    world = World(schema)
    return [line for event in events for line in world.step(event)]
