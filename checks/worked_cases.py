"""Scripts that were worked by hand, each event with what it answers: `EVENT -> LINE | LINE`. checks/faults runs each of them with all of
its memory, and then with each of its requests for memory refused. What events may answer then was worked by hand as well.
"""

ONE_TABLE = "workers 2\nreplicas 2\ntable acct int int\n"
WITH_SITES = ONE_TABLE + "table site bytes2\n"

# The frame of commit 1 of worker 0, which inserts row 7 with the values 5 and -1, and the same bytes changed in one way each.
FRAME = "424403010036" "00" "0000000000000000" "0000000000000001" "01" "0001" "0100" "0000000000000007" "0010" "0000000000000005" + "ff" * 8
CUT, WITH_A_BYTE_MORE = FRAME[:-2], FRAME + "00"
OF_OTHER_MAGIC, OF_VERSION_1, OF_LAST_2 = "4245" + FRAME[4:], "424401" + FRAME[6:], FRAME[:46] + "02" + FRAME[48:]
# The Head of version 2, whose base is commit 1, in one piece; base counts and counts of worker 0 are 1 and 1, of worker 1 0 and 1.
HEAD_OF_BASE = "424403030050" "00" + "0000000000000001" * 2 + "0000000000000002" + "0000000000000001" * 2 + "02" \
    + "0000000000000001" * 2 + "00" * 8 + "0000000000000001"
# The piece of that base, with row 7.
PIECE = "424403050035" "0000000000000001" "0000000000000000" "01" "0001" "0100" "0000000000000007" "0010" "0000000000000005" + "ff" * 8

ROW_7_PENDING = """
begin -> tx 0 at 0
insert 0 acct 7 5 -1 -> ok
commit 0 0 -> ticket 1
"""
ROW_7 = ROW_7_PENDING + "flush 1 -> durable 1"


def batch(replica, first, version, queries, report):
    """A batch of a replica that has all frames; the index of its Ask is `first`."""
    opened = "".join(f"open {replica} {query} -> opened {number + 1}\n" for number, query in enumerate(queries))
    return f"""{opened}
ask {replica} -> sent {first} 23
deliver {first} p -> sent {first + 1} 80
deliver {first + 1} r{replica} -> head {version}
run {replica} -> version {version} queries {len(queries)} | {report}
"""


def inserts(count):
    """So many rows are inserted."""
    return "\n".join(f"insert 0 acct {row} {row} 0 -> ok" for row in range(count))


CASES = {
    "a commit is reported": (ONE_TABLE, f"""
{ROW_7}
push 0 0 -> sent 0 54
deliver 0 r0 -> stored
{batch(0, 1, 1, ["query acct get count"], "query 0 rows 1 | 1")}
show 0 -> {FRAME}
"""),
    "an empty database": (ONE_TABLE, batch(0, 0, 0, ["query acct get count sum 0 min 0"], "query 0 rows 1 | 0 0 -")),
    "a commit without entries": (ONE_TABLE, """
begin -> tx 0 at 0
commit 0 0 -> read only
begin -> tx 1 at 0
insert 1 acct 1 0 0 -> ok
commit 1 0 -> ticket 1
"""),
    "a commit of two frames": (ONE_TABLE, f"""
begin -> tx 0 at 0
{inserts(42)}
commit 0 0 -> ticket 1
flush 1 -> durable 1
push 0 0 -> sent 0 1174
push 0 1 -> sent 1 54
push 0 2 -> no frame
"""),
    "the longest frame": (ONE_TABLE, "\n".join([
        "begin -> tx 0 at 0", inserts(38), *(f"delete 0 acct {row} -> ok" for row in range(11)),
        "commit 0 0 -> ticket 1", "flush 1 -> durable 1", "push 0 0 -> sent 0 1200", "push 0 1 -> no frame",
    ])),
    "the first committer wins": (ONE_TABLE, f"""
{ROW_7}
begin -> tx 1 at 1
begin -> tx 2 at 1
set 1 acct 7 0 6 -> ok
set 2 acct 7 0 8 -> ok
commit 1 0 -> ticket 2
commit 2 1 -> conflict 2
"""),
    "write skew": (ONE_TABLE, """
begin -> tx 0 at 0
insert 0 acct 7 5 -1 -> ok
insert 0 acct 8 5 -1 -> ok
commit 0 0 -> ticket 1
flush 1 -> durable 1
begin -> tx 1 at 1
begin -> tx 2 at 1
get 1 acct 8 0 -> value 5
get 2 acct 7 0 -> value 5
set 1 acct 7 0 0 -> ok
set 2 acct 8 0 0 -> ok
commit 1 0 -> ticket 2
commit 2 1 -> ticket 3
"""),
    "a column is added": (ONE_TABLE, f"""
{ROW_7}
push 0 0 -> sent 0 54
deliver 0 r0 -> stored
{batch(0, 1, 1, ["query acct get count"], "query 0 rows 1 | 1")}
begin -> tx 1 at 1
begin -> tx 2 at 1
column 1 acct 3 -> ok
get 1 acct 7 2 -> value 3
insert 1 acct 8 1 2 -> unfit
insert 1 acct 8 1 2 4 -> ok
column 1 acct x61 -> ok
set 1 acct 8 3 x62 -> ok
set 2 acct 7 0 9 -> ok
commit 1 0 -> ticket 2
commit 2 1 -> conflict 2
stop 80 -> stopped
start -> durable 1
begin -> tx 3 at 1
get 3 acct 7 2 -> unfit
column 3 acct 3 -> ok
insert 3 acct 8 1 2 4 -> ok
column 3 acct x61 -> ok
set 3 acct 8 3 x62 -> ok
commit 3 0 -> ticket 2
stop 81 -> stopped
start -> durable 2
begin -> tx 4 at 2
get 4 acct 7 2 -> value 3
get 4 acct 8 3 -> value x62
open 0 query acct get sum 2 -> bad plan 2
push 0 1 -> sent 3 92
deliver 3 r0 -> stored
{batch(0, 4, 2, ["query acct get count sum 0"], "query 0 rows 1 | 2 6")}
{batch(0, 6, 2, ["query acct by 3 get count sum 2"], "query 0 rows 2 | x61 1 3 | x62 1 4")}
dump 0 -> version 2 rows 2 | acct 7 5 -1 3 x61 | acct 8 1 2 4 x62
dump 1 -> version 0 rows 0
"""),
    "a base": (ONE_TABLE, f"""
{ROW_7}
open 1 query acct get count -> opened 1
ask 1 -> sent 0 23
deliver 0 p -> sent 1 80
deliver 1 r1 -> head 1
base -> base 1 pieces 1
push 0 0 -> no frame
base -> base 1 pieces 1
run 1 -> waiting 0 0 | sent 2 16
deliver 2 p -> ignored
begin -> tx 1 at 1
insert 1 acct 8 1 1 -> ok
column 1 acct 3 -> ok
commit 1 1 -> ticket 2
base -> base 1 pieces 1
flush 1 -> durable 2
push 1 0 -> sent 3 65
open 0 query acct get count sum 0 -> opened 1
ask 0 -> sent 4 23
deliver 4 p -> sent 5 80
show 5 -> {HEAD_OF_BASE}
deliver 5 r0 -> head 2
run 0 -> waiting piece 0 | sent 6 23
base -> base 2 pieces 1
deliver 6 p -> ignored
push 1 0 -> no frame
stop 0 -> stopped
base -> stopped
start -> durable 2
deliver 2 p -> sent 7 54
deliver 7 r1 -> stored
run 1 -> version 1 queries 1 | query 0 rows 1 | 1
"""),
    "an image": (ONE_TABLE, f"""
{ROW_7}
base -> base 1 pieces 1
push 0 0 -> no frame
begin -> tx 1 at 1
insert 1 acct 8 1 1 -> ok
commit 1 1 -> ticket 2
flush 1 -> durable 2
open 0 query acct get count sum 0 -> opened 1
ask 0 -> sent 0 23
deliver 0 p -> sent 1 80
deliver 1 r0 -> head 2
run 0 -> waiting piece 0 | sent 2 23
deliver 2 p -> sent 3 53
deliver 3 r0 -> stored
run 0 -> waiting 1 0 | sent 4 16
deliver 4 p -> sent 5 54
deliver 5 r0 -> stored
run 0 -> version 2 queries 1 | query 0 rows 1 | 2 6
deliver 3 r0 -> ignored
show 3 -> {PIECE}
"""),
    "a Head is given up": (ONE_TABLE, f"""
{ROW_7}
open 0 query acct get count -> opened 1
ask 0 -> sent 0 23
deliver 0 p -> sent 1 80
deliver 1 r0 -> head 1
base -> base 1 pieces 1
run 0 -> waiting 0 0 | sent 2 16
deliver 2 p -> ignored
renew 0 -> sent 3 23
deliver 1 r0 -> ignored
deliver 3 p -> sent 4 80
deliver 4 r0 -> head 1
run 0 -> waiting piece 0 | sent 5 23
"""),
    "a stop before the last byte": (ONE_TABLE, f"""
{ROW_7_PENDING}
stop 42 -> stopped
start -> durable 0
begin -> tx 1 at 0
insert 1 acct 9 1 2 -> ok
commit 1 1 -> ticket 1
flush 1 -> durable 1
push 0 0 -> no frame
push 1 0 -> sent 0 54
deliver 0 r0 -> stored
deliver 0 r1 -> stored
{batch(0, 1, 1, ["query acct get count"], "query 0 rows 1 | 1")}
{batch(1, 3, 1, ["query acct get count"], "query 0 rows 1 | 1")}
dump 0 -> version 1 rows 1 | acct 9 1 2
dump 1 -> version 1 rows 1 | acct 9 1 2
"""),
    "a stop behind the last byte": (ONE_TABLE, f"""
{ROW_7_PENDING}
stop 43 -> stopped
start -> durable 1
push 0 0 -> sent 0 54
"""),
    "a stop in the second of two": (ONE_TABLE, f"""
{ROW_7_PENDING}
begin -> tx 1 at 0
insert 1 acct 8 5 -1 -> ok
commit 1 0 -> ticket 2
stop 60 -> stopped
start -> durable 1
begin -> tx 2 at 1
insert 2 acct 9 5 -1 -> ok
commit 2 0 -> ticket 2
flush 1 -> durable 2
stop 0 -> stopped
start -> durable 2
"""),
    "two boots": (ONE_TABLE, """
open 0 query acct get count -> opened 1
ask 0 -> sent 0 23
deliver 0 p -> sent 1 80
restart 0 2 -> boot 2
open 0 query acct get count -> opened 1
ask 0 -> sent 2 23
deliver 1 r0 -> ignored
run 0 -> waiting head
deliver 2 p -> sent 3 80
deliver 3 r0 -> head 0
run 0 -> version 0 queries 1 | query 0 rows 1 | 0
restart 0 1 -> boot used
restart 0 2 -> boot used
"""),
    "a frame is wanted": (ONE_TABLE, f"""
{ROW_7_PENDING}
begin -> tx 1 at 0
insert 1 acct 8 5 -1 -> ok
commit 1 1 -> ticket 2
flush 2 -> durable 2
push 0 0 -> sent 0 54
push 1 0 -> sent 1 54
deliver 1 r0 -> stored
deliver 1 r0 -> repeat
open 0 query acct get count -> opened 1
ask 0 -> sent 2 23
deliver 2 p -> sent 3 80
deliver 3 r0 -> head 2
run 0 -> waiting 0 0 | sent 4 16
deliver 4 p -> sent 5 54
deliver 5 r0 -> stored
deliver 0 r0 -> repeat
run 0 -> version 2 queries 1 | query 0 rows 1 | 2
"""),
    "bytes that are no datagram": (ONE_TABLE, f"""
raw r0 {CUT} -> ignored
raw r0 {WITH_A_BYTE_MORE} -> ignored
raw r0 {OF_OTHER_MAGIC} -> ignored
raw r0 {OF_VERSION_1} -> ignored
raw r0 {OF_LAST_2} -> ignored
dump 0 -> version 0 rows 0
raw r0 - -> ignored
raw r0 {FRAME} -> forged
"""),
    "a sum of 65 bits": (ONE_TABLE, f"""
begin -> tx 0 at 0
insert 0 acct 1 9223372036854775807 0 -> ok
insert 0 acct 2 9223372036854775807 0 -> ok
commit 0 0 -> ticket 1
flush 1 -> durable 1
push 0 0 -> sent 0 82
deliver 0 r0 -> stored
{batch(0, 1, 1, ["query acct get sum 0"], "query 0 rows 1 | 18446744073709551614")}
"""),
    "a join": (WITH_SITES, f"""
begin -> tx 0 at 0
insert 0 site 1 x4e45 -> ok
insert 0 site 2 x5357 -> ok
insert 0 acct 10 1 100 -> ok
insert 0 acct 11 2 50 -> ok
insert 0 acct 12 1 -30 -> ok
insert 0 acct 13 9 7 -> ok
insert 0 acct 14 -1 8 -> ok
commit 0 0 -> ticket 1
flush 1 -> durable 1
push 0 0 -> sent 0 194
deliver 0 r0 -> stored
open 0 query site get sum 0 -> bad plan 3
{batch(0, 1, 1, [
    "query acct join 0 site by j0 get count sum 1 max 1",
    "query acct join 0 site where 1 > 0 and j0 != x5357 get count sum 1",
    "query acct where 0 > 100 by 0 get count",
], "query 0 rows 2 | x4e45 2 70 100 | x5357 1 50 50 | query 1 rows 1 | 1 100 | query 2 rows 0")}
"""),
    "Asks that are not answered": (ONE_TABLE, """
ask 0 -> empty
run 0 -> no batch
open 0 query acct get count -> opened 1
ask 0 -> sent 0 23
ask 0 -> sent 1 23
show 0 -> 42440302001700 0000000000000001 0000000000000001
show 1 -> 42440302001700 0000000000000001 0000000000000001
deliver 0 p -> sent 2 80
deliver 2 r0 -> head 0
deliver 2 r0 -> ignored
ask 0 -> busy
deliver 0 r1 -> ignored
deliver 2 p -> ignored
raw p 42440302001700 0000000000000001 0000000000000001 -> sent 3 80
""".replace("00 0000000000000001 0000000000000001", "00" + "0000000000000001" * 2)),
}

INSERT = "insert 0 acct 7 5 -1"
BEGUN = "begin -> tx 0 at 0"
BASED = ROW_7 + "\nbase -> base 1 pieces 1"
OPENED = "open 0 query acct get count -> opened 1"
ASKED = OPENED + "\nask 0 -> sent 0 23"
# The two lines in place of these take the Head of the version.
HEADED = ASKED + "\ndeliver 0 p -> sent 1 80\ndeliver 1 r0 -> head "

# What happened before, and events that may answer `memory` then; and events that may not, since they ask for none.
MAY_LACK_MEMORY = {
    "": (
        ["open 0 query acct get count", "dump 0", "restart 0 2"],
        [INSERT, "set 0 acct 7 0 1", "delete 0 acct 7", "column 0 acct 3", "get 0 acct 7 0", "commit 0 0", "abort 0", "flush 1", "base",
         "start", "push 0 0", "deliver 0 r0", "raw r0 -", "show 0", "ask 0", "run 0", "renew 0", "version 0", "restart 0 1"],
    ),
    BEGUN: ([INSERT, "column 0 acct 3", "stop 0"], ["abort 0", "commit 0 0", "get 0 acct 7 0", "set 0 acct 7 0 1", "delete 0 acct 7"]),
    f"{BEGUN}\n{INSERT} -> ok": (["set 0 acct 7 0 1", "delete 0 acct 7", "commit 0 0"], [INSERT, "get 0 acct 7 0", "abort 0"]),
    ROW_7_PENDING: (["flush 1"], ["flush 0", "base"]),
    ROW_7: (["base", "push 0 0"], ["push 0 1"]),
    BASED: ([], ["base", "push 0 0"]),
    "stop 0 -> stopped": (["start"], ["base", "stop 0", "begin"]),
    OPENED: (["ask 0"], ["renew 0"]),
    ASKED: (["deliver 0 p", "show 0"], ["run 0", "renew 0"]),
    HEADED + "0": (["run 0", "renew 0"], []),
    BASED + "\n" + HEADED + "1": (["run 0", "renew 0"], []),
}

# A commit of which a replica has all and the version; and a replica that goes by image and has its piece.
ROUND = f"""
{ROW_7}
push 0 0 -> sent 0 54
deliver 0 r0 -> stored
{OPENED}
ask 0 -> sent 1 23
deliver 1 p -> sent 2 80
deliver 2 r0 -> head 1
"""
WITH_IMAGE = f"""
{ROW_7}
push 0 0 -> sent 0 54
base -> base 1 pieces 1
{OPENED}
ask 0 -> sent 1 23
deliver 1 p -> sent 2 80
deliver 2 r0 -> head 1
run 0 -> waiting piece 0 | sent 3 23
deliver 3 p -> sent 4 53
deliver 4 r0 -> stored
"""
REPORT = "version 1 queries 1 | query 0 rows 1 | 1 | "

# What happened before; further events; and what these may print where memory is refused, or with which of them that is wrong: by its
# number among them, which is behind the last if they print too much. An event that is out of memory changes nothing, but that a run may
# have brought its replica to the version of its Head; and one that is out of memory there may break the replica. A run by image leaves it
# before the image or after it: then the frames below the base are known, and the piece is of no use.
PRINTED_WITHOUT_MEMORY = [
    (ROUND, ["run 0", "run 0", "version 0"], [
        (REPORT + "no batch | version 1", None),
        ("memory | " + REPORT + "version 1", None),
        ("memory | memory | version 0", None),
        ("memory | memory | version 1", None),
        ("memory | memory | version 2", 2),
        ("memory | broken | version 0", None),
        ("memory | broken | version 1", 2),
        ("broken | broken | version 0", None),
        ("broken | broken | version 1", 2),
        ("broken | no batch | version 0", 1),
        (REPORT + "broken | version 1", 1),
        (REPORT + "no batch | version 0", 2),
    ]),
    (WITH_IMAGE, ["run 0", "deliver 0 r0", "deliver 4 r0", "version 0"], [
        (REPORT + "repeat | ignored | version 1", None),
        (REPORT + "stored | ignored | version 1", 1),
        (REPORT + "repeat | repeat | version 1", 2),
        ("memory | stored | repeat | version 0", None),
        ("memory | repeat | ignored | version 1", None),
        ("memory | memory | repeat | version 0", None),
        ("memory | stored | ignored | version 1", 2),
        ("memory | repeat | repeat | version 1", 2),
        ("memory | repeat | ignored | version 0", 3),
        ("broken | broken | broken | version 0", None),
    ]),
    ("", ["begin", INSERT, "commit 0 0", "commit 0 0", "flush 1"], [
        ("tx 0 at 0 | ok | memory | ticket 1 | durable 1", None),
        ("tx 0 at 0 | ok | memory | no tx | durable 0", 3),
        ("tx 0 at 0 | ok | memory | ticket 2 | durable 1", 3),
        ("tx 0 at 0 | memory | read only | no tx | durable 0", None),
        ("memory | no tx | no tx | no tx | durable 0 | ok", 5),
    ]),
]


def case_of(text):
    """The events of a case, and the lines that each answers."""
    steps = [line.split(" -> ") for line in text.splitlines() if line]
    return [event for event, _ in steps], [line for _, lines in steps for line in lines.split(" | ")]
