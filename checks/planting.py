"""How the edits of a round are made in one copy of their crate, though several may change one function.

The first edit of a function is made in the function. For each other one the function stands once more, at the end of its file, under a name
of its own and with a copy of its proof, and the edit is made there. Beside these stands one in which nothing is changed: if the prover has
a reason to refuse that, the copies tell nothing of their edits.
"""

import os
import re
import shutil

from edits import IMPL, Fault, Function, depth, impl_above, read

# The name of a function that stands once more.
AGAIN = "{name}_again{count}"


def may_be_copied(sources, function):
    """Whether a function may stand once more under another name: one of a trait, or of a trait's impl, may not."""
    lines = sources.texts[function.file].split("\n")
    above = impl_above(lines, function.first - 1)
    return function.has_body and (above is None or bool(re.match(r" *impl\b", lines[above])) and not IMPL.match(lines[above])["trait"])


class Planting:
    """The edits of a round, in which functions each is made, and the functions that stand once more; without `makes_edits` the same, but
    nothing is changed."""

    def __init__(self, crate, folder, sources, edits, makes_edits=True):
        self.crate, self.folder, self.sources, self.makes_edits = crate, folder, sources, makes_edits
        # What stands at the ends of files, and the functions whose proofs are copied, with the names of their copies.
        self.ends, self.copies = {}, []
        self.changed, self.in_place, self.unchanged = set(), [], {}
        # For each edit the functions in which it is made, as they stand there.
        self.places = {it: self.place(it) for it in edits}

    def place(self, edit):
        """The functions in which an edit is made: its own, if no edit before it changes one of them."""
        if not self.changed & edit.functions:
            self.changed |= edit.functions
            self.in_place.append(edit)
            return set(edit.functions)
        for function in edit.functions - set(self.unchanged):
            self.unchanged[function] = self.copied(function, [])
        return {self.copied(it, [change for change, at in zip(edit.changes, edit.changed) if at == it]) for it in edit.functions}

    def needed(self, edit):
        """The functions that have to be proved, or what is said of the places of an edit tells nothing of it."""
        return set() if edit in self.in_place else {self.unchanged[it] for it in edit.functions}

    def copied(self, function, changes):
        """A copy of a function with these changes, at the end of its file."""
        name = function.path.rpartition("::")[2]
        again = AGAIN.format(name=name, count=1 + sum(it == function for it, _ in self.copies))
        text, front = text_of(self.sources.texts[function.file], function, again)
        for change in changes if self.makes_edits else []:
            if text.count(change.old) != 1:
                raise Fault(f"{function.path}: an old text is in it {text.count(change.old)} times, and not once")
            text = text.replace(change.old, change.new)
        before = self.sources.texts[function.file] + self.ends.get(function.file, "")
        self.ends[function.file] = self.ends.get(function.file, "") + text
        self.copies.append((function, again))
        first = before.count("\n") + 1 + front
        path = function.path[: -len(name)] + again
        return Function(function.file, first, first + function.last - function.first, path, True, (0, 0))

    def judged(self):
        """The paths of the functions that are to be judged."""
        return {it.path for functions in [self.unchanged.values(), *self.places.values()] for it in functions if it}

    def make(self, copy):
        """Makes all that in a copy of the crate."""
        for edit in self.in_place if self.makes_edits else []:
            edit.apply(copy)
        for file, end in self.ends.items():
            with open(f"{copy}/{file}", "a", encoding="utf-8") as text:
                text.write(end)
        for function, again in self.copies:
            self.copy_proof(copy, function, again)

    def copy_proof(self, copy, function, again):
        """Copies what is written of the proof of a function, in which its path and the name of its theorem become those of the copy."""
        *above, own = function.path.split("::")
        written = "/".join([self.folder, "proofs", *above, own])
        if not os.path.isdir(written):
            return
        folder = shutil.copytree(written, "/".join([copy, "proofs", *above, again]))
        path = re.compile(rf"\bRattle\.{self.crate}\.(proofs|specs\.contracts)\.{re.escape('.'.join([*above, own]))}(?![\w'-])")
        for at, _, names in os.walk(folder):
            for name in names:
                text = path.sub(lambda it: ".".join(["Rattle", self.crate, it[1], *above, again]), read(f"{at}/{name}"))
                with open(f"{at}/{name}", "w", encoding="utf-8") as file:
                    file.write(re.sub(rf"(?<![\w'-]){re.escape(own)}_spec(?![\w'-])", f"{again}_spec", text))


def text_of(text, function, name):
    """The text of a function under another name, in an impl as its own if it is in one, and how many of its lines are before its head."""
    lines, first = text.split("\n"), function.first - 1
    begins = first
    while begins and lines[begins - 1].strip() and depth(lines[begins - 1]) >= depth(lines[first]):
        begins -= 1
    head = re.sub(r"\bfn \w+", f"fn {name}", lines[first], count=1)
    own = [*lines[begins:first], head, *lines[first + 1 : function.last]]
    above = impl_above(lines, first)
    front = [] if above is None else front_of(lines, above)
    ends = [] if above is None else [" " * depth(lines[above]) + "}"]
    return "\n".join(["", *front, *own, *ends, ""]), 1 + len(front) + first - begins


def front_of(lines, first):
    """The head of the impl that begins at this line, and what it imports right behind that for its clauses."""
    last = next(it for it in range(first, len(lines)) if lines[it].rstrip().endswith("{"))
    while re.match(r" *(ghost use .*|[^(]*\};|)$", lines[last + 1]):
        last += 1
    return lines[first : last + 1]
