"""What checks/documents reads and runs documents with: their blocks and tables, and folders in which their commands are typed. In a
block `$` marks a command, `>` a line that is typed while it runs, and `!` a line on standard error; the rest is standard output.
"""

import collections
import contextlib
import glob
import os
import queue
import random
import re
import signal
import socket
import subprocess
import sys
import tempfile
import threading
import time

from harness import PROGRAM, ROOT, case

# No line takes nearly as long; it keeps one that does not come from being waited for.
SECONDS_MAX = 20
# Ports below those that the system gives to whoever asks for any.
to_try = iter(range(random.randrange(10000, 30000), 32000))
Block = collections.namedtuple("Block", "heading language lines")
Table = collections.namedtuple("Table", "head rows")
# Each line that a command wrote, with the command, and the blocks that were run.
said, shown = [], []


def read(path):
    with open(f"{ROOT}/{path}", encoding="utf-8") as file:
        return file.read()


def names(*forms):
    return [name for it in forms for name in glob.glob(it, root_dir=ROOT)]


def codes(text):
    return re.findall(r"`([^`\n]+)`", text)


def numbers(text):
    return [int(it.replace(",", "")) for it in re.findall(r"-?\d[\d,]*\b", text)]


class Document:
    """A document's blocks and tables, and the rest of the text below each heading. Parts that are generated are left out."""

    def __init__(self, path):
        self.path, self.blocks, self.prose, heading = path, [], collections.defaultdict(str), ""
        text = re.sub(r"^<!-- [\w ]+: begin -->$.*?^<!-- [\w ]+: end -->$", "", read(path), flags=re.S | re.M)
        parts = re.split(r"^```(\w*)\n(.*?)^```$", text, flags=re.S | re.M)
        for prose, language, block in zip(parts[::3], [*parts[1::3], ""], [*parts[2::3], ""]):
            for line in prose.split("\n"):
                heading = line if line.startswith("#") else heading
                self.prose[heading] += line + "\n"
            self.blocks += [Block(heading, language, block.splitlines())] if block else []
        self.text = "".join(self.prose.values())
        tables = re.findall(r"^(\|.*\n)\|---.*\n((?:\|.*\n)+)", self.text, re.M)
        cells = [[[it.strip() for it in line[1:-1].split("|")] for line in (head + rows).splitlines()] for head, rows in tables]
        self.tables = [Table(head, rows) for head, *rows in cells]

    def one(self, what, found):
        if len(found) != 1:
            sys.exit(f"checks/documents: {self.path} is to have one {what}, and has {len(found)}")
        return found[0]

    def table(self, *head):
        return self.one(f"table of {head}", [it.rows for it in self.tables if it.head[: len(head)] == [*head]])

    def some(self, test):
        """The blocks whose lines are such; they count as run."""
        found = [it for it in self.blocks if test(it.lines)]
        shown.extend(found)
        return found

    def block(self, pattern):
        """The block with a line of this form."""
        return self.one(f"block with {pattern!r}", self.some(lambda lines: any(re.search(pattern, it) for it in lines)))

    def typed(self):
        return self.some(lambda lines: lines[0].startswith("$ "))


class Shell:
    """A command in a folder, and the lines that it writes, by the mark of their stream."""

    def __init__(self, command, at):
        pipe = subprocess.PIPE
        self.command, self.lines = command, {"": queue.Queue(), "! ": queue.Queue()}
        words = ["sh", "-c", command]
        self.process = subprocess.Popen(words, cwd=at, stdin=pipe, stdout=pipe, stderr=pipe, text=True, start_new_session=True)
        for mark, stream in (("", self.process.stdout), ("! ", self.process.stderr)):
            threading.Thread(target=self.read, args=(mark, stream), daemon=True).start()

    def read(self, mark, stream):
        for line in stream:
            said.append((line.rstrip("\n"), self))
            self.lines[mark].put(mark + line.rstrip("\n"))
        self.lines[mark].put(None)

    def send(self, text):
        with contextlib.suppress(BrokenPipeError):
            self.process.stdin.write(text)
            self.process.stdin.flush()

    def next(self, mark):
        """The next line of a stream; None at its end, or if nothing comes."""
        with contextlib.suppress(queue.Empty):
            return self.lines[mark].get(timeout=SECONDS_MAX)

    def says(self, text):
        """Whether a line with this is written, soon or before."""
        end = time.monotonic() + SECONDS_MAX
        while not (found := any(it is self and text in line for line, it in said)) and time.monotonic() < end:
            time.sleep(0.01)
        return found

    def rest(self):
        """What is still written when the input has ended, and the status."""
        with contextlib.suppress(BrokenPipeError):
            self.process.stdin.close()
        return [line for mark in self.lines for line in iter(lambda: self.next(mark), None)], self.ended()

    def ended(self, number=0):
        """The status with which it ends, by a signal if there is one."""
        if number and self.process.poll() is None:
            os.killpg(self.process.pid, number)
        with contextlib.suppress(subprocess.TimeoutExpired):
            return self.process.wait(SECONDS_MAX)


class Room:
    """A temporary folder with the program and a schema, at addresses of its own; what runs there is killed at the end."""

    def __init__(self, schema):
        self.folder, self.ports, self.shells = tempfile.TemporaryDirectory(), {}, []
        self.at = self.folder.name
        os.symlink(PROGRAM, f"{self.at}/batchdb")
        os.symlink(f"{ROOT}/examples", f"{self.at}/examples")
        self.write("schema", schema.encode())

    def __enter__(self):
        return self

    def __exit__(self, *_):
        for shell in self.shells:
            shell.ended(signal.SIGKILL)
        self.folder.cleanup()

    def write(self, name, data):
        with open(f"{self.at}/{name}", "wb") as file:
            file.write(data)

    def bytes(self, name):
        with open(f"{self.at}/{name}", "rb") as file:
            return file.read()

    def port(self, found):
        """A free port in place of one of the document."""
        while found[0] not in (*self.ports, *self.ports.values()):
            number = next(to_try)
            with contextlib.suppress(OSError), socket.socket(socket.AF_INET, socket.SOCK_DGRAM) as it:
                it.bind(("127.0.0.1", number))
                self.ports[found[0]] = str(number)
        return self.ports.get(found[0], found[0])

    def text(self, line):
        return re.sub(r"(?<=127\.0\.0\.1:)[1-9]\d*", self.port, line)

    def start(self, command, given=""):
        # A single command takes the place of its shell: so it has ended, and its address is free, when that has.
        self.shells.append(Shell(("" if re.search(r"[|;&\n]", command) else "exec ") + self.text(command), self.at))
        self.shells[-1].send(given)
        return self.shells[-1]

    def run(self, command, given=""):
        return self.start(command, given).rest()

    def serve(self, words):
        """A primary without jobs, when it listens."""
        shell = self.start(f"./batchdb primary {words} --turns 0 --say < /dev/null")
        shell.says("listening on ")
        return shell

    def jobs(self, journal, *changes):
        """Commits each of these by worker 0, and returns the journal's bytes."""
        self.run(f"./batchdb primary schema {journal} 127.0.0.1:0 --turns 1", "".join(f"job 0\n{it}\nend\n" for it in changes))
        return self.bytes(journal)

    def play(self, name, lines):
        """Types the commands of a block, a case each, and returns those that are live: they run on."""
        live = []
        for typed in re.split(r"^\$ ", "\n".join(lines), flags=re.M)[1:]:
            command, *expected = self.text(typed).rstrip("\n").split("\n")
            shell, found = self.start(command), []
            for line in expected if "--live" in command else []:
                if line.startswith(">"):
                    shell.send(line[2:] + "\n")
                found.append(line if line.startswith(">") else shell.next("! " if line.startswith("! ") else ""))
                if found[-1] is None:
                    break
            if "--live" in command:
                live.append(shell)
            else:
                # All of one stream, and then all of the other one.
                lines, status = shell.rest()
                found = [lines, status == 0]
                expected = [sorted(expected, key=lambda it: it.startswith("! ")), not any(it.startswith("! batchdb: ") for it in expected)]
            case(f"{name}: {typed.partition(chr(10))[0]}", found, expected)
        return live
