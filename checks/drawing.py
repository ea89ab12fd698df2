"""Scripts that are drawn from numbers. The world of reference.py goes along while one is drawn, so that most events do something: they
name rows, columns, transactions, datagrams and versions that are there, and now and then some that are not.
"""

import reference as own

U64_MAX = own.U64_MAX
# How many queries a script has to choose from.
QUERIES = 12
# One more than a query may have of conditions or aggregates.
PARTS = 9
# Eight rows of `wide` do not go into one frame. A row of `full` has room for 64 bytes more, and no others.
TABLES = {
    "acct": "int int", "item": "int bytes2 bytes1", "site": "bytes2", "wide": "bytes64 int bytes64", "full": " ".join(["bytes64"] * 7),
}
SCHEMAS = (("acct", "site"), ("item", "wide"), ("acct", "item", "wide"), ("site", "wide", "acct"), ("full", "site"))
# What columns hold: identifiers that are there or not, negative numbers, the ends; bytes that are negative where they are signed.
NUMBERS = (-2, -1, 0, 1, 2, 3, 4, 5, 100, -100, -(2**63), 2**63 - 1)
BYTES = (0x00, 0x4E, 0x7F, 0x80, 0xFF)
# What is drawn next, and how often. A round is what brings a batch of a replica on, a write what brings a transaction on.
WEIGHTS = {
    "round": 60, "write": 60, "begin": 3, "insert": 4, "set": 4, "delete": 2, "column": 3, "get": 3, "commit": 4, "abort": 2, "flush": 9,
    "base": 3, "stop": 2, "start": 1, "push": 9, "deliver": 14, "show": 6, "open": 3, "ask": 2, "run": 2, "renew": 2, "version": 2,
    "dump": 5, "restart": 2, "raw": 5,
}
CHOICES = [choice for choice, weight in WEIGHTS.items() for _ in range(weight)]


class Numbers:
    """Numbers that look random, from a seed: the same ones with each Python."""

    def __init__(self, seed):
        self.state = seed
        self.below(1)

    def below(self, count):
        self.state = (self.state * 6364136223846793005 + 1442695040888963407) % 2**64
        return (self.state >> 33) % count

    def pick(self, items):
        return items[self.below(len(items))]

    def one_in(self, count):
        return self.below(count) == 0

    def recent(self, count, recent):
        """A number of a list of so many: mostly one of the last, seldom one that is not in it."""
        if self.one_in(40):
            return self.pick((U64_MAX, 1 << 33, 999))
        if self.one_in(20):
            return count + self.below(2)
        back = (self.below(count) if count else 0) if self.one_in(8) else self.below(recent)
        return max(count - 1 - back, 0)

    def row(self):
        """A row, mostly one of few."""
        return self.pick((U64_MAX, 1 << 32, 1 << 63)) if self.one_in(60) else self.below(8)

    def value(self, kind):
        """The word of a value of a column of this kind."""
        if kind == 0:
            return str(self.pick(NUMBERS))
        last = self.pick(BYTES)
        front = self.pick(BYTES)
        return "x" + (bytes([front] * (kind - 1)) + bytes([last])).hex()

    def any_value(self, kind):
        """A value that seldom is of another kind."""
        return self.value(self.pick((0, 1, 2, 3, 64)) if self.one_in(30) else kind)


def kind_at(kinds, column):
    """The kind of a column; that of numbers if it is not there."""
    return kinds[column] if column < len(kinds) else 0


class Query:
    """A query that mostly fits the tables as they are opened."""

    def __init__(self, draw, schema):
        self.draw, self.schema = draw, schema
        self.table = draw.below(len(schema.names))
        self.join = self.drawn_join()
        conditions = [self.condition(), self.condition()]
        conditions += conditions[:1] * (PARTS - 2)
        by = self.groups()
        aggregates = [self.aggregate() for _ in range(3)] + ["count"] * (PARTS - 3)
        conditions, aggregates = conditions[:self.count(0)], aggregates[:self.count(1)]
        join = f" join {self.join[0]} {schema.names[self.join[1]]}" if self.join else ""
        self.text = f"query {schema.names[self.table]}" + join + " where " * bool(conditions) + " and ".join(conditions)
        self.text += " by " * bool(by) + " ".join(by) + " get " + " ".join(aggregates)

    def count(self, least):
        """How many parts of a kind it has: few, seldom too many."""
        return PARTS if self.draw.one_in(40) else max(self.draw.below(3), least)

    def column_of(self, kinds):
        """A column of these, seldom the next one, which may be added and is not there yet, or one that no table has."""
        if self.draw.one_in(8):
            return len(kinds)
        return 255 if self.draw.one_in(60) else self.draw.below(len(kinds))

    def drawn_join(self):
        kinds = self.schema.kinds[self.table]
        number = kinds.index(0) if 0 in kinds else None
        if not self.draw.one_in(3) or number is None and not self.draw.one_in(8):
            return None
        column = self.column_of(kinds) if self.draw.one_in(12) else number or 0
        return column, self.draw.below(len(self.schema.names))

    def side(self):
        """Whether a part names the joined table, and the kinds of the columns that it may name then."""
        joined = self.join is not None and self.draw.one_in(2)
        return joined, self.schema.kinds[self.join[1] if joined else self.table]

    def condition(self):
        joined, kinds = self.side()
        column = self.column_of(kinds)
        value = self.draw.any_value(kind_at(kinds, column))
        return f"{'j' * joined}{column} {self.draw.pick(tuple(own.COMPARED))} {value}"

    def column(self):
        """A column by which it groups, or of which it looks for the least: mostly one that is there. And whether that has numbers."""
        joined, kinds = self.side()
        column = self.column_of(kinds)
        return "j" * (joined or self.draw.one_in(150)) + str(column), kind_at(kinds, column) == 0

    def groups(self):
        if self.draw.one_in(40):
            return ["0"] * PARTS
        return [self.column()[0] for _ in range(self.draw.below(3))]

    def aggregate(self):
        column, is_number = self.column()
        word = self.draw.pick(("count", "min", "max", "sum"))
        if word == "count" or word == "sum" and not is_number and not self.draw.one_in(30):
            return "count"
        return f"{word} {column}"


class Drawing:
    """A script that is drawn event by event, with the world in which they happen and what they answer."""

    def __init__(self, seed):
        draw = self.draw = Numbers(seed)
        lines = [f"workers {draw.below(3) + 1}", f"replicas {draw.below(3) + 1}"]
        lines += [f"table {name} {TABLES[name]}" for name in draw.pick(SCHEMAS)]
        self.settings = "".join(line + "\n" for line in lines)
        self.world, self.events, self.answers = own.World(own.Schema(self.settings)), [], []
        self.queries = [Query(draw, self.world.schema).text for _ in range(QUERIES)]
        # Of how many events of a transaction one commits it; whether many queries are opened; whether replicas go by image.
        self.patience, self.opens, self.bases = draw.pick((3, 4, 6, 20)), draw.one_in(16), draw.one_in(2)
        # What was sent, as it reads, and the first index of each frame and each piece.
        self.sent, self.frames, self.pieces = [], {}, {}

    def text(self):
        return self.settings + "".join(event + "\n" for event in self.events)

    def do(self, event):
        """Lets an event happen, and returns its lines."""
        lines = self.world.step(event)
        self.events.append(event)
        self.answers.append(lines)
        for index in range(len(self.sent), len(self.world.sent)):
            datagram = own.read_datagram(self.world.sent[index])
            self.sent.append(datagram)
            if isinstance(datagram, own.Frame):
                self.frames.setdefault((datagram.worker, datagram.seq), index)
            elif isinstance(datagram, own.Piece):
                self.pieces.setdefault((datagram.base, datagram.number), index)
        return lines

    def event(self):
        """The next event."""
        draw, world = self.draw, self.world
        choice, replica = draw.pick(CHOICES), draw.below(world.schema.replicas)
        if world.stopped and draw.one_in(4):
            return "start"
        if self.opens and 40 < len(self.events) < 150 and not draw.one_in(8):
            return self.open(0)
        if choice == "base" and not self.bases:
            choice = "flush"
        if choice in ("round", "open", "raw"):
            return getattr(self, choice)(replica)
        if choice in ("write", "flush", "stop", "push", "deliver"):
            return getattr(self, choice)()
        if choice in ("base", "start"):
            return choice
        if choice in ("ask", "run", "renew", "version", "dump"):
            return f"{choice} {replica}"
        if choice == "show":
            return f"show {draw.recent(len(self.sent), 3)}"
        if choice == "restart":
            return f"restart {replica} {draw.below(8)}"
        return self.transacting(choice)

    # -- transactions

    def last_open(self):
        """The number of the last transaction that is open."""
        return next((it for it in reversed(range(len(self.world.transactions))) if self.world.transactions[it]), None)

    def kinds(self, transaction, table):
        """The columns of a table that a transaction sees; those it is opened with if there is no such transaction."""
        draft = self.world.draft(transaction)
        return (draft.schema if draft else self.world.schema).kinds[table]

    def transacting(self, choice):
        """An event of a transaction that may be open or not, at a row that may be there or not."""
        number, draw = self.last_open(), self.draw
        if number is None or draw.one_in(3):
            number = draw.recent(len(self.world.transactions), 4)
        table, row = draw.below(len(self.world.schema.names)), draw.row()
        if choice == "commit":
            return f"commit {number} {draw.below(self.world.schema.workers)}"
        if choice == "abort":
            return f"abort {number}"
        return "begin" if choice == "begin" else self.change(choice, number, table, row)

    def change(self, choice, number, table, row):
        """A change of a transaction, or a look at a row."""
        draw, kinds, name = self.draw, self.kinds(number, table), self.world.schema.names[table]
        if choice == "delete":
            return f"delete {number} {name} {row}"
        if choice == "insert":
            count = draw.below(len(kinds) + 2) + 1 if draw.one_in(30) else len(kinds)
            return f"insert {number} {name} {row} {' '.join(draw.any_value(kind_at(kinds, column)) for column in range(count))}"
        if choice == "column":
            return f"column {number} {name} {draw.value(draw.pick((0, 0, 1, 2, 64)))}"
        column = draw.pick((len(kinds), 255)) if draw.one_in(30) else draw.below(len(kinds))
        if choice == "set":
            return f"set {number} {name} {row} {column} {draw.any_value(kind_at(kinds, column))}"
        return f"get {number} {name} {row} {column}"

    def write(self):
        """What brings a transaction on, at a row that is mostly as it must be."""
        draw, number = self.draw, self.last_open()
        if number is None:
            return "begin"
        if draw.one_in(self.patience):
            return f"commit {number} {draw.below(self.world.schema.workers)}"
        table, row = draw.below(len(self.world.schema.names)), draw.row()
        if draw.one_in(16):
            return self.change("column", number, table, row)
        if row not in self.world.draft(number).rows[table]:
            return self.change("insert", number, table, row)
        return self.change(draw.pick(("delete", "get", "set", "set")), number, table, row)

    def flush(self):
        return f"flush {self.draw.pick((0, 4294967295)) if self.draw.one_in(6) else self.draw.below(3) + 1}"

    def stop(self):
        """A stop, mostly within the records of what is pending, or at their end."""
        draw, world = self.draw, self.world
        pending, how = len(own.records(world.commits[world.durable:], world.durable)), draw.below(4)
        if how == 0:
            return f"stop {max(pending - draw.below(2), 0)}"
        return f"stop {draw.pick((0, U64_MAX)) if how == 1 else draw.below(pending + 2)}"

    # -- what is sent, and batches

    def push(self):
        """A push: mostly of a frame that a replica lacks, or of one of the last."""
        draw, world = self.draw, self.world
        worker, replica = draw.below(world.schema.workers), world.replicas[draw.below(world.schema.replicas)]
        if draw.one_in(3):
            return f"push {worker} {draw.recent(len(world.frames(worker)) + 1, 4)}"
        return f"push {worker} {replica.first_missing(worker)}"

    def node(self, replica=None):
        if self.draw.one_in(3):
            return "p"
        return f"r{self.draw.below(self.world.schema.replicas) if replica is None else replica}"

    def deliver(self):
        """A delivery: mostly of one of the last datagrams, or else of any."""
        draw, count = self.draw, len(self.sent)
        index = draw.below(max(count, 1)) if draw.one_in(3) else draw.recent(count, 8)
        return f"deliver {index} {self.node()}"

    def raw(self, replica):
        """Bytes as they are: a datagram that was sent, mostly a recent one, or one that was changed, cut or lengthened; or none."""
        draw, index = self.draw, self.draw.recent(len(self.sent), 6)
        data = bytearray(self.world.sent[index] if index < len(self.sent) else b"")
        how = draw.below(6)
        if how == 0:
            del data[-1:]
        elif how == 1:
            data.append(draw.below(256))
        elif how in (2, 3):
            at, byte = draw.below(max(len(data), 1)), draw.pick((0, 1, 2, 4, 16, 255))
            data[at:at + 1] = bytes([byte] * bool(data))
        return f"raw {self.node(replica)} {data.hex() or '-'}"

    def open(self, replica):
        return f"open {replica} {self.queries[self.draw.below(QUERIES)]}"

    def round(self, number):
        """What brings a replica's batch on; without a batch a query is opened, or asked."""
        replica = self.world.replicas[number]
        if replica.head is not None:
            return self.fetched(replica)
        if replica.batch is not None:
            return self.asked(number)
        return f"ask {number}" if replica.waiting and not self.draw.one_in(3) else self.open(number)

    def asked(self, number):
        """What brings a batch on that waits for a version."""
        index, last = len(self.sent) - 1, self.sent[-1] if self.sent else None
        if isinstance(last, own.Ask) and not self.world.stopped:
            return f"deliver {index} p"
        if isinstance(last, own.Head) and last.replica == number:
            return f"deliver {index} r{number}"
        return f"ask {number}"

    def needed(self, replica):
        """The first index of what a batch lacks; seldom that of a piece of another base, or of the first one again. None if it was not
        sent."""
        piece = replica.lacked_piece()
        if piece is None:
            return self.frames.get(replica.lacked())
        base = replica.head.base
        if self.draw.one_in(6):
            return min((index for other, index in self.pieces.items() if other[0] != base), default=None)
        return self.pieces.get((base, 0 if self.draw.one_in(6) else piece))

    def fetched(self, replica):
        """What brings a batch on that has a version. If the primary has another base than its Head told, it is mostly renewed soon."""
        if replica.head.base != self.world.base and self.draw.one_in(4):
            return f"renew {replica.number}"
        if replica.lacked_piece() is None and replica.lacked() is None:
            return f"run {replica.number}"
        index = self.needed(replica)
        if index is not None:
            return f"deliver {index} r{replica.number}"
        if self.sent and isinstance(self.sent[-1], (own.Want, own.Pull)) and not self.world.stopped:
            return f"deliver {len(self.sent) - 1} p"
        return f"run {replica.number}"
