"""A crate whose wrong bodies are tried: copies of it with edits made, checks of these by the prover, and what a check says of an edit."""

import collections
import os
import re
import shutil
import subprocess
import tempfile

from edits import Fault, Sources, edits_of, read, rounds_of
from planting import Planting, may_be_copied

PARTS = ("src", "specs", "proofs")
# The files of a function's proof that a hole stands for.
ANSWERS = ("Invariants.antt", "Answers.antt")
HOLE = "use {statement}.{{statement}}\n\npub {name}_spec : {{M : Type 1}} → statement M\n{name}_spec = ?\n"
# What stands for a body that nothing reads, since its proof is a hole.
NO_BODY = "unreachable!()"
# A hole that the prover has no use for.
UNWANTED = re.compile(r"\./proofs/(\S+)/Proof\.antt: error(?:\[reserved-name\]|: rattle does not read this file)")
# The path of a function that is asked for, and that the prover knows under another name.
UNKNOWN = re.compile(r"rattle: error: `\w+` has no function `([^`]+)`")
MISREAD = re.compile(r"(src/\S+?):(\d+):\d+: error")
PLACE = re.compile(r"(?:note: )?(?:\./)?((?:src|specs|proofs)/\S+?):(\d+):\d+: (.*)")
# What a proof file says because a text names what an edit took away, or because something else is not proved.
NO_REASON = re.compile(r"has no field|is not in scope|has no `|was not admitted|depends on .* rejected")
# What the prover says where it cannot read a text.
UNREAD = re.compile(r"is not in scope|has no field|is no name|operand is missing|expected the end|cannot continue")
LIMIT = re.compile(r"antt ran out of|outgrew the memory limit|stopped at the step limit")
OWN_GOAL = re.compile(r"`search` did not prove (`[^`]+`)")

# What a check came to: its status, the lines that it printed, and its processor seconds.
Checked = collections.namedtuple("Checked", "status lines seconds")
# Whether an edit is refused, and why or why not.
Verdict = collections.namedtuple("Verdict", "is_refused reason")


class Crate:
    """A crate, whose libraries are those that stand in crates/*/out of the tree `built`."""

    def __init__(self, root, built, kit, name, named):
        self.name, self.kit, self.folder = name, kit, f"{root}/crates/{name}"
        self.libraries = [f"{built}/crates/{it}/out/rlib/{it}.rlib" for it in below(name, named)]
        lost = next((it for it in self.libraries if not os.path.isdir(it)), None)
        if lost:
            raise Fault(f"{name}: its library {os.path.basename(lost)} is not built")
        self.words = self.words_of(built, named)
        self.sources = Sources(self.folder)
        self.edits = edits_of(name, self.folder, self.sources)
        self.cited = self.cited_proofs()
        self.keep = set(self.cited)

    def words_of(self, built, named):
        """The prover's words for a check of the crate, as `rt` gives them."""
        root = "src/main.rt" if os.path.isfile(f"{self.folder}/src/main.rt") else "src/lib.rt"
        words = ["--crate-name", self.name, root]
        for it in ["std", *named[self.name]]:
            folder = f"{built}/crates/{it}/out/rlib" if it in named else f"{self.kit}/rlibs"
            words += ["--extern", f"{it}={folder}/{it}.rlib"]
        for it in [f"{self.kit}/rlibs", *(os.path.dirname(it) for it in self.libraries)]:
            words += ["-L", f"dependency={it}"]
        logic = ["--antt-project", f"{self.kit}/rattle/logic/antt-project.json", "--logic-built", f"{self.kit}/logic_built"]
        return [*words, *logic, "--links", f"{self.name}="]

    def size(self):
        return sum(len(it) for it in self.sources.texts.values())

    def cited_proofs(self):
        """The paths of the functions whose proof files a file elsewhere names: these stay."""
        files = "Answers|Invariants|Goals|Given|Proof"
        own, found = re.compile(rf"Rattle\.{self.name}\.proofs\.([\w.+-]+?)\.(?:{files})\b"), set()
        for at, _, names in os.walk(f"{self.folder}/proofs"):
            here = os.path.relpath(at, f"{self.folder}/proofs").replace("/", ".")
            for name in names:
                with open(f"{at}/{name}", encoding="utf-8") as file:
                    found |= {it for it in own.findall(file.read()) if it != here}
        return {it.replace(".", "::") for it in found}

    def is_in_cycle(self, function):
        """Whether the function is one of a cycle of calls: the proofs of such functions look into each other's bodies."""
        *above, own = function.path.split("::")
        return os.path.isdir("/".join([self.folder, "proofs", *above, f"+{own}"]))

    def may_be_copied(self, function):
        """Whether the function may stand once more under another name, also for who names its proof files."""
        return may_be_copied(self.sources, function) and function.path not in self.cited

    def rounds(self):
        return rounds_of(self.edits, self.is_in_cycle, self.may_be_copied)

    def planting(self, edits, makes_edits=True):
        return Planting(self.name, self.folder, self.sources, edits, makes_edits)

    def leave_holes(self, copy, changed):
        """Puts a hole in the place of the proof of each function that is not changed, so that it counts by its contract alone."""
        for function in self.sources.functions():
            if self.has_hole(function, changed):
                *above, own = function.path.split("::")
                folder = "/".join([copy, "proofs", *above, own])
                os.makedirs(folder, exist_ok=True)
                for it in (it for it in ANSWERS if os.path.exists(f"{folder}/{it}")):
                    os.remove(f"{folder}/{it}")
                with open(f"{folder}/Proof.antt", "w", encoding="utf-8") as proof:
                    proof.write(HOLE.format(statement=".".join(["Rattle", self.name, "proofs", *above, own, "Statement"]), name=own))

    def empty_bodies(self, copy, changed):
        """Empties the bodies of the functions that have holes, so that nothing is asked of what they call. Each line stays where it is."""
        functions = [it for it in self.sources.functions() if self.may_be_empty(it, changed)]
        for file in {it.file for it in functions}:
            lines = read(f"{copy}/{file}").split("\n")
            for first, last in (it.inside for it in functions if it.file == file):
                lines[first - 1 : last] = [NO_BODY] + [""] * (last - first)
            with open(f"{copy}/{file}", "w", encoding="utf-8") as emptied:
                emptied.write("\n".join(lines))

    def may_be_empty(self, function, changed):
        """Whether the function has a hole, and only its own proof reads its body: a constant may be computed by it, or a type be told."""
        first, last = function.inside
        head = "\n".join(self.sources.texts[function.file].split("\n")[function.first - 1 : first - 1])
        return self.has_hole(function, changed) and first <= last and not re.search(r"\bconst fn\b|-> .*\bimpl\b", head)

    def has_hole(self, function, changed):
        """Whether a hole stands for the function's proof; one of a cycle of calls keeps its proof."""
        return function.has_body and function.path not in changed | self.keep and not self.is_in_cycle(function)

    def copy_with(self, planting, room):
        copy = tempfile.mkdtemp(prefix=f"{self.name}-", dir=room)
        for part in PARTS:
            if os.path.isdir(f"{self.folder}/{part}"):
                shutil.copytree(f"{self.folder}/{part}", f"{copy}/{part}")
        planting.make(copy)
        return copy

    def check(self, planting, functions, room, empties=True):
        """Checks a copy with these edits: these functions of it, over holes for the others; or all of it if none is named."""
        copy = self.copy_with(planting, room)
        words = [f"{self.kit}/bin/rattle", "check", *self.words, "--jobs", "1"]
        if functions:
            self.leave_holes(copy, functions)
            if empties:
                self.empty_bodies(copy, functions)
            words += ["--allow-holes", *(it for path in sorted(functions) for it in ("--only", path))]
        checked = run(words, copy)
        shutil.rmtree(copy)
        unknown = functions & {it for line in checked.lines for it in UNKNOWN.findall(line)}
        if unknown:
            return self.check_again(planting, functions - unknown, room, empties, checked, unknown)
        unwanted = {it.replace("/", "::") for line in checked.lines for it in UNWANTED.findall(line)} - self.keep
        is_read = not functions or checked.status < 0 or any(it.startswith("only=") for it in checked.lines)
        if not unwanted and (is_read or not empties):
            return checked
        # The prover says so at once, before it proves anything: there is no such hole, or the text is not read, with its bodies or without.
        return self.check_again(planting, functions, room, empties and bool(unwanted), checked, unwanted)

    def check_again(self, planting, functions, room, empties, checked, keep):
        """Checks once more, where a check judged nothing: with the proofs of these functions as they are. None is left if the prover knows
        none of them."""
        self.keep |= keep
        again = self.check(planting, functions, room, empties) if functions else checked
        return again._replace(seconds=checked.seconds + again.seconds)


def below(crate, named):
    """The crates of the repository that a crate stands on, lowest first."""
    found = [other for it in named[crate] if it in named for other in [*below(it, named), it]]
    return list(dict.fromkeys(found))


def run(words, folder):
    with tempfile.TemporaryFile("w+", errors="replace") as said:
        started = subprocess.Popen(words, cwd=folder, stdin=subprocess.DEVNULL, stdout=said, stderr=subprocess.STDOUT)
        _, status, used = os.wait4(started.pid, 0)
        started.returncode = os.waitstatus_to_exitcode(status)
        said.seek(0)
        return Checked(started.returncode, said.read().rstrip("\n").split("\n"), used.ru_utime + used.ru_stime)


def own_reason(crate, planting, edit, lines):
    """Why a function in which the edit is made is not proved, for a reason of its own, or None. There is none in a copy of a function, if
    the copy without an edit has one too. (In a round without edits each tells.)"""
    if planting.makes_edits and any(reason_at(crate, it, lines) for it in planting.needed(edit)):
        return None
    return next(filter(None, (reason_at(crate, it, lines) for it in planting.places[edit])), None)


def reason_at(crate, function, lines):
    """Why a function is not proved, for a reason of its own, or None. That it calls one that is not proved is none."""
    said = next((it for it in lines if it.startswith(f"fn {crate.name}::{function.path}: ")), "")
    if not re.match(r"fn \S+: (not proved|no proof)", said):
        return None
    goal = OWN_GOAL.search(said)
    reason = goal[1] if goal else next(filter(None, (reason_in(function, it) for it in lines)), None)
    return reason and f"{function.path}: {reason}"


def unread_edits(planting, lines):
    """The edits of a round in whose functions the prover read a text that it does not take; none if it judged the round."""
    if any(it.startswith("only=") for it in lines):
        return []
    places = [(it[1], int(it[2])) for it in map(MISREAD.match, lines) if it]
    return [edit for edit, functions in planting.places.items() if any(is_in(it, places) for it in functions if it)]


def is_in(function, places):
    return any(function.file == file and function.first <= line <= function.last for file, line in places)


def reason_in(function, line):
    """What a line says of a goal of the function that is not proved, or of a written answer of it that does not prove its goal; or None."""
    place = PLACE.match(line)
    if not place or NO_REASON.search(place[3]):
        return None
    is_goal = place[1] == function.file and function.first <= int(place[2]) <= function.last and "is not proved" in place[3]
    is_answer = place[1].startswith(f"proofs/{function.path.replace('::', '/')}/") and place[3].startswith("error: ")
    return place[3].removeprefix("error: ") if is_goal or is_answer else None


def verdict_alone(checked):
    """What a check of a whole crate with one edit says, by the rules of `rt must-fail`. That a proof names what the edit took away says
    nothing of a contract, though it refuses the edit: so this is told."""
    status, lines = checked.status, checked.lines
    told = [it for it in lines if PLACE.match(it) and (": error" in it or it.startswith("note: "))]
    unread = next((it for it in told if PLACE.match(it)[1].startswith(("src/", "specs/")) and UNREAD.search(it)), "")
    if status == 1 and lines[-1].startswith("logic=not-proved") and not unread:
        reason = next((it for it in told if not NO_REASON.search(it)), "")
        nothing = "alone, ONLY SINCE A PROOF NAMES WHAT IT TOOK AWAY, which says nothing of a contract: change a value, keep names"
        return Verdict(True, f"alone: {reason}" if reason else nothing)
    if status == 3 and any(LIMIT.search(it) for it in lines):
        return Verdict(True, "alone, by a limit of the prover")
    if status == 0:
        return Verdict(False, "the crate is still proved")
    if status < 0:
        return Verdict(False, "its check was killed, most likely for memory: run this again with fewer lanes")
    return Verdict(False, f"it does not reach the prover: {unread or next((it for it in lines if 'error' in it), lines[-1])}")
