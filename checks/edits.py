"""The wrong bodies crates/NAME/must-fail/*.edit: what each changes, in which functions of its crate, and in which rounds they are tried.

An edit is a line `file: PATH`, and then pairs of lines `old: TEXT` and `new: TEXT`; each old text is in the file exactly once. Functions
are found by the layout of rt fmt, and named as the prover names them: by the module of their type, and of a trait's method by the type, the
trait and the trait's arguments.
"""

import collections
import os
import re

HEAD = re.compile(r"( *)(?:pub(?:\([^)]*\))? )?(?:const )?fn (\w+)")
IMPL = re.compile(r"( *)(?:impl\b(?:<.*?>)? (?:(?P<trait>[\w:]+)(?:<(?P<arguments>.*)>)? for )?|(?:pub )?trait )(?P<type>\w+)")
TYPE = re.compile(r"^(?:pub(?:\([^)]*\))? )?(?:struct|enum|trait|union) (\w+)", re.M)
# What ends an item, or begins another one.
ENDS = re.compile(r"\}|(?:pub(?:\([^)]*\))? )?(?:struct|enum|const|static|type|use|impl|trait|mod|macro_rules!)\b")
CLAUSE = re.compile(r" *(?:requires|ensures|ghost)\*?(?: \w+)? \{.*\}$")

Change = collections.namedtuple("Change", "path old new")
# Its file, its first and last line there, its path below the crate, whether it has a body, and the first and last line inside of that.
Function = collections.namedtuple("Function", "file first last path has_body inside")


class Fault(Exception):
    """What an edit or a crate has that cannot be tried."""


def read(path):
    with open(path, encoding="utf-8") as file:
        return file.read()


def depth(line):
    return len(line) - len(line.lstrip())


class Sources:
    """The source files of a crate: their texts, and the functions in them."""

    def __init__(self, folder):
        found = [os.path.relpath(f"{at}/{name}", folder) for at, _, names in os.walk(f"{folder}/src") for name in names]
        self.texts = {it: read(f"{folder}/{it}") for it in sorted(found) if it.endswith(".rt")}
        self.modules = {name: module_of(file) for file, text in self.texts.items() for name in TYPE.findall(text)}

    def function_at(self, file, offset):
        """The function of a file in which an offset lies; None outside functions."""
        if file not in self.texts:
            return None
        text = self.texts[file]
        lines, number = text.split("\n"), text.count("\n", 0, offset)
        first = head_above(lines, number)
        if first is None:
            return None
        last = end_of(lines, first)
        path = self.path_of(file, lines, first)
        if not path or number > last:
            return None
        return Function(file, first + 1, last + 1, path, has_body(lines, first), (opening_of(lines, first, last) + 2, last))

    def path_of(self, file, lines, first):
        """The path of the function whose head is this line; None where the lines above do not show it."""
        indent, name = HEAD.match(lines[first]).groups()
        if not indent:
            return "::".join([*module_of(file), name])
        above = impl_above(lines, first)
        if above is None:
            return None
        found = IMPL.match(lines[above])
        of_trait = (found["trait"] or "").rpartition("::")[2] + argument_words(found["arguments"] or "", found["type"])
        return "::".join([*self.modules.get(found["type"], module_of(file)), found["type"] + of_trait, name])

    def functions(self):
        for file, text in self.texts.items():
            for head in re.finditer(rf"(?m)^{HEAD.pattern}", text):
                function = self.function_at(file, head.end())
                if function:
                    yield function


def argument_words(arguments, of_type):
    """What the prover puts behind a trait's name for its arguments: their words, but for the type itself."""
    words = ["Unit" if it == "()" else it[0].upper() + it[1:] for it in re.findall(r"\w+|\(\)", arguments)]
    return "".join(it for it in words if it != of_type)


def module_of(file):
    module = re.sub(r"(?:/?(?:lib|main|mod))?\.rt\Z", "", file.removeprefix("src/"))
    return [it for it in module.split("/") if it]


def impl_above(lines, first):
    """The line of the head of the impl or trait that the function is in whose head is this line; None of a free function."""
    indent = HEAD.match(lines[first])[1]
    above = ((IMPL.match(lines[it]), it) for it in range(first, -1, -1))
    return next((it for found, it in above if found and len(found[1]) < len(indent)), None)


def head_above(lines, number):
    """The line of the head of the function in which a line lies."""
    for first in range(number, -1, -1):
        if HEAD.match(lines[first]) and (first == number or depth(lines[first]) < depth(lines[number])):
            return first
        if first < number and ENDS.match(lines[first]):
            return None
    return None


def end_of(lines, first):
    """The last line of the function whose head is this line."""
    indent = HEAD.match(lines[first])[1]
    for number in range(first, len(lines)):
        line = lines[number].rstrip()
        if line in (f"{indent}}}", f"{indent}}};") or number == first and line.endswith("}"):
            return number
    return first


def has_body(lines, first):
    """Whether the function has a body: the head of a method that a trait leaves to its impls ends with a semicolon."""
    opens = next((it for it in lines[first:] if it.endswith(("{", "}", ";")) and not CLAUSE.match(it)), "}")
    return not opens.endswith(";")


def opening_of(lines, first, last):
    """The line at whose end the body of the function opens, whose head and last line these are: a line of its own after clauses."""
    alone = f"{HEAD.match(lines[first])[1]}{{"
    ends = range(first, last)
    return next((it for it in ends if lines[it].rstrip() == alone), next((it for it in ends if lines[it].endswith("{")), last))


class Edit:
    """A wrong body: its name, what it changes, and the functions that it changes, None for what is outside of them: for each change, and
    each once."""

    def __init__(self, crate, folder, name, sources):
        self.crate, self.name = crate, name.removesuffix(".edit")
        self.text = read(f"{folder}/must-fail/{name}")
        self.changes = list(self.read_changes())
        if not self.changes:
            raise Fault(f"{self}: it changes nothing")
        self.changed = [self.function_of(folder, it, sources) for it in self.changes]
        self.functions = set(self.changed)

    def __str__(self):
        return f"{self.crate}/{self.name}"

    def read_changes(self):
        path = old = None
        for line in self.text.split("\n"):
            if line.startswith("file: "):
                path = line.removeprefix("file: ").strip()
            elif line.startswith("old: "):
                old = line.removeprefix("old: ")
            elif line.startswith("new:"):
                if path is None or old is None:
                    raise Fault(f"{self}: a line 'new:' before the lines 'file:' and 'old:'")
                yield Change(path, old, line.removeprefix("new:").removeprefix(" "))
                old = None

    def function_of(self, folder, change, sources):
        text = sources.texts.get(change.path) or read(f"{folder}/{change.path}")
        return sources.function_at(change.path, self.place(text, change))

    def place(self, text, change):
        """Where the change is in a text."""
        if text.count(change.old) != 1:
            raise Fault(f"{self}: an old text is in {change.path} {text.count(change.old)} times, and not once")
        return text.index(change.old)

    def apply(self, copy):
        """Makes the changes in a copy of the crate."""
        for change in self.changes:
            text = read(f"{copy}/{change.path}")
            at = self.place(text, change)
            with open(f"{copy}/{change.path}", "w", encoding="utf-8") as file:
                file.write(text[:at] + change.new + text[at + len(change.old) :])


def edits_of(crate, folder, sources):
    names = sorted(os.listdir(f"{folder}/must-fail")) if os.path.isdir(f"{folder}/must-fail") else []
    return [Edit(crate, folder, it, sources) for it in names if it.endswith(".edit")]


def rounds_of(edits, must_be_alone, may_be_copied):
    """Lays edits out in rounds: in none two edits change one function, if that may not be copied. Returns the rounds, and the edits that are
    tried alone: those outside functions, and those of functions for which must_be_alone says so."""
    rounds, alone = [], []
    for edit in edits:
        if any(it is None or must_be_alone(it) for it in edit.functions):
            alone.append(edit)
            continue
        once = {it for it in edit.functions if not may_be_copied(it)}
        free = next((it for it in rounds if not any(once & other.functions for other in it)), None)
        if free is None:
            rounds.append([edit])
        else:
            free.append(edit)
    return rounds, alone
