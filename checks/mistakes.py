"""Mistakes that whoever writes such a program might make. Each is made in checks/reference.py alone, and checks/drawn has to tell it: so
what its scripts are compared with, and the scripts themselves, are worth something.
"""

from unittest import mock

import reference as own
from reference import Replica, World


def changes(target, name):
    """Makes a mistake of what stands below, in place of a call of the reference: the right one is its first argument."""
    right = getattr(target, name)
    return lambda wrong: lambda: mock.patch.object(target, name, lambda *words: wrong(right, *words))


@changes(own, "change")
def delete_keeps_its_row(right, rows, entry):
    return entry.operation == own.DELETE or right(rows, entry)


@changes(own, "change")
def set_changes_the_first_column(right, rows, entry):
    return right(rows, entry._replace(offset=0) if entry.operation == own.PATCH else entry)


@changes(own, "change")
def added_column_is_zero(right, rows, entry):
    return right(rows, entry._replace(data=bytes(len(entry.data))) if entry.operation == own.ADD_COLUMN else entry)


@changes(own, "conflict")
def columns_are_in_no_conflict(right, entries, others):
    return right(*([it for it in some if it.operation != own.ADD_COLUMN] for some in (entries, others)))


@changes(own, "image")
def image_lacks_added_columns(right, opened, now, rows):
    return right(now, now, rows)


@changes(own, "answer")
def groups_are_the_wrong_way(right, schema, rows, plan):
    return right(schema, rows, plan)[::-1]


@changes(own, "answer")
def condition_at_its_end_holds(right, schema, rows, plan):
    others = {"<": "<=", ">": ">="}
    return right(schema, rows, plan._replace(conditions=[(at, others.get(sign, sign), it) for at, sign, it in plan.conditions]))


@changes(own, "answer")
def last_condition_is_left_out(right, schema, rows, plan):
    return right(schema, rows, plan._replace(conditions=plan.conditions[:1]))


@changes(own, "table_text")
def dump_begins_with_its_last_row(right, *words):
    first, *lines = right(*words)
    return [first, *lines[::-1]]


@changes(Replica, "catch_up")
def run_stops_one_commit_short(right, self):
    right(self)
    self.version -= self.version > 0


@changes(World, "on_begin")
def transaction_sees_what_is_pending(right, self):
    with mock.patch.object(self, "durable", len(self.commits)):
        return right(self)


@changes(World, "on_abort")
def abort_leaves_its_transaction(right, self, number):
    return ["no tx"] if self.draft(number) is None else ["ok"]


@changes(World, "on_flush")
def flush_takes_one_commit_more(right, self, count):
    return right(self, int(count) + 1)


@changes(World, "on_stop")
def stop_loses_one_byte_more(right, self, count):
    return right(self, max(int(count) - 1, 0))


@changes(World, "on_start")
def start_keeps_the_base(right, self):
    base, lines = self.base, right(self)
    self.base = base
    return lines


@changes(World, "low")
def base_keeps_the_frames_below_it(right, self, worker):
    return 0


@changes(Replica, "low")
def image_needs_the_frames_below_it(right, self, worker):
    return 0


def of_datagram(self, node, data):
    """The replica to which a datagram comes, and what that is; no replica if it comes to the primary."""
    return None if node == "p" else self.replicas[int(node[1:])], own.read_datagram(data)


@changes(World, "arrived")
def piece_of_another_base_is_stored(right, self, node, data):
    replica, datagram = of_datagram(self, node, data)
    if replica is not None and isinstance(datagram, own.Piece) and replica.is_by_image():
        data = own.spell(datagram._replace(base=replica.head.base))
    return right(self, node, data)


@changes(World, "arrived")
def frame_below_a_base_count_is_known(right, self, node, data):
    replica, datagram = of_datagram(self, node, data)
    is_low = replica is not None and isinstance(datagram, own.Frame) and datagram.seq < replica.low(datagram.worker)
    return ["repeat"] if is_low else right(self, node, data)


@changes(World, "arrived")
def head_of_an_earlier_request_is_taken(right, self, node, data):
    replica, datagram = of_datagram(self, node, data)
    if replica is not None and isinstance(datagram, own.Head) and datagram.boot == replica.boot:
        data = own.spell(datagram._replace(request=replica.request))
    return right(self, node, data)


@changes(World, "arrived")
def head_of_an_earlier_boot_is_taken(right, self, node, data):
    replica, datagram = of_datagram(self, node, data)
    if replica is not None and isinstance(datagram, own.Head):
        data = own.spell(datagram._replace(boot=replica.boot))
    return right(self, node, data)


@changes(Replica, "take")
def pieces_of_an_earlier_base_stay(right, self, head):
    self.head = head


@changes(Replica, "catch_up")
def image_leaves_the_frames_below_it_missing(right, self):
    self.version, self.pieces_base, self.pieces = self.head.version, 0, set()


@changes(Replica, "lacked")
def run_waits_for_the_first_worker_alone(right, self):
    found = right(self)
    return found if found and found[0] == 0 else None


@changes(World, "on_renew")
def renewal_has_the_request_of_its_ask(right, self, number):
    replica = self.replicas[int(number)]
    replica.request -= replica.head is not None
    return right(self, number)


@changes(World, "on_restart")
def restart_keeps_the_version(right, self, number, boot):
    version = self.replicas[int(number)].version
    lines = right(self, number, boot)
    self.replicas[int(number)].version = version
    return lines


@changes(World, "on_open")
def plan_is_checked_at_the_durable_version(right, self, number, *words):
    with mock.patch.object(self.replicas[int(number)], "version", self.durable):
        return right(self, number, *words)


@changes(World, "on_raw")
def bytes_that_were_sent_are_forged(right, self, node, word):
    with mock.patch.object(self, "sent_set", set()):
        return right(self, node, word)


MISTAKES = {
    "a delete keeps its row": delete_keeps_its_row,
    "a set changes the first column": set_changes_the_first_column,
    "an added column is zero in each row": added_column_is_zero,
    "columns are in no conflict": columns_are_in_no_conflict,
    "an image lacks added columns": image_lacks_added_columns,
    "groups are in the wrong order": groups_are_the_wrong_way,
    "a condition holds at its end": condition_at_its_end_holds,
    "a second condition is left out": last_condition_is_left_out,
    "a dump begins with its last row": dump_begins_with_its_last_row,
    "a run stops one commit short": run_stops_one_commit_short,
    "a transaction sees what is pending": transaction_sees_what_is_pending,
    "an abort leaves its transaction": abort_leaves_its_transaction,
    "a flush takes one commit more": flush_takes_one_commit_more,
    "a stop loses one byte more": stop_loses_one_byte_more,
    "a start keeps the base": start_keeps_the_base,
    "a base keeps the frames below it": base_keeps_the_frames_below_it,
    "an image needs the frames below it": image_needs_the_frames_below_it,
    "a piece of another base is stored": piece_of_another_base_is_stored,
    "a frame below a base count is known": frame_below_a_base_count_is_known,
    "a Head of an earlier request is taken": head_of_an_earlier_request_is_taken,
    "a Head of an earlier boot is taken": head_of_an_earlier_boot_is_taken,
    "pieces of an earlier base stay": pieces_of_an_earlier_base_stay,
    "an image leaves the frames below it missing": image_leaves_the_frames_below_it_missing,
    "a run waits for the first worker alone": run_waits_for_the_first_worker_alone,
    "a renewal has the request of its Ask": renewal_has_the_request_of_its_ask,
    "a restart keeps the version": restart_keeps_the_version,
    "a plan is checked at the durable version": plan_is_checked_at_the_durable_version,
    "bytes that were sent are forged": bytes_that_were_sent_are_forged,
    "one query more may wait": lambda: mock.patch.object(own, "WAITING_MAX", own.WAITING_MAX + 1),
}


def made(name):
    """Makes a mistake for a while."""
    return MISTAKES[name]()
