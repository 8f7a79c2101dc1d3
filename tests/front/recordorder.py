"""The order of writes and syncs of the record, by strace."""

import os
import re
import signal
import subprocess

import pytest

from program.bench import PROGRAM as RBAC
from program.bench import SECONDS

from .program import Front, children
from .running import PROGRAM

# What strace shows of a command, as letters: a write to the log of the record, its sync, the line for the replay, and the answer
# to the client.
EVENTS = [
    ("W", r'pwrite64\(\d+<[^>]*/office\.record/record\.db-wal>'),
    ("S", r"f(?:data)?sync\(\d+<[^>]*/office\.record/record\.db-wal>"),
    ("L", r'write\(\d+<pipe:[^>]*>, "\{\\"fn\\":\\"addUser'),
    ("A", r'write\(\d+<(?:TCP|socket):[^>]*>, "HTTP/1\.1 200'),
]  # fmt: skip

COMMANDS = 12


class Traced:
    """A front under strace."""

    def __init__(self, bench):
        self.bench, self.trace = bench, bench.path("trace")
        self.front = Front(bench)
        calls = "trace=pwrite64,write,fsync,fdatasync"
        self.front.prefix = ["strace", "-f", "-y", "-qq", "-s", "120", "-e", calls, "-o", self.trace]

    def letters(self, ask):
        """The events while a client asks for something, and then the front ends."""
        with self.front as front:
            connection = front.connection()
            ask(front, connection)
            connection.close()
            for process in children(front.process.pid):
                os.kill(process, signal.SIGTERM)
            self.bench.same("the end", front.process.wait(SECONDS), 0)
        with open(self.trace, encoding="utf-8", errors="replace") as file:
            lines = [line for line in file if " resumed>" not in line]
        found = "".join(letter for line in lines for letter, pattern in EVENTS if re.search(pattern, line))
        # It begins with the write before the first line.
        return found[found.rfind("S", 0, found.find("L")) - 1 : found.rfind("A") + 1]


@pytest.mark.needs("strace")
def check_order(bench):
    """Each command is written to the record and synced, then sent; its answer is written to the record, then sent."""

    def ask(front, connection):
        for number in range(COMMANDS):
            bench.same("a command", front.ask("addUser", {"user": str(number)}, connection)[0], 200)

    story = Traced(bench).letters(ask)
    bench.judge("the order", [] if re.fullmatch(r"(W+SLW+A)+", story) and story.count("A") == COMMANDS else [story])
    return {"record: commands seen by strace": COMMANDS}


@pytest.mark.needs("strace")
@pytest.mark.parametrize("path", ["/record?limit=1", "/record/links?after=1"])
def check_heads_are_durable(bench, path):
    """An answer is synced before anybody gets a head that has it. After a power loss another head could be found."""

    def ask(front, connection):
        for number in range(COMMANDS):
            bench.same("a command", front.ask("addUser", {"user": str(number)}, connection)[0], 200)
            bench.same("a head", front.exchange("GET", path, None, connection)[0], 200)
            bench.same("the same head", front.exchange("GET", path, None, connection)[0], 200)

    story = Traced(bench).letters(ask)
    bench.judge("the order", [] if re.fullmatch(r"(W+SLW+ASAA)+", story) else [story])


@pytest.mark.needs("strace")
def check_printed_heads_are_durable(bench):
    """What was written is synced before a head is logged, or printed beside the front."""
    traced = Traced(bench)

    def ask(front, connection):
        bench.same("a command", front.ask("addUser", {"user": "ann"}, connection)[0], 200)
        for words in (["head"], ["verify", "--program", RBAC]):
            trace = bench.path(words[0])
            calls = ["strace", "-f", "-y", "-qq", "-e", "trace=write,fsync", "-o", trace, os.environ[PROGRAM]]
            done = subprocess.run([*calls, "record", *words, "--office", front.office], capture_output=True, text=True, check=False)
            bench.same(f"{words[0]}: its status", (done.returncode, done.stderr), (0, ""))
            bench.judge(f"{words[0]}: the order", faults_of(trace, r'write\(1<.*"(head )?\d+:'))

    traced.letters(ask)
    bench.judge("the log: the order", faults_of(traced.trace, r'write\(2<.*the head of the record'))


def faults_of(trace, says):
    """What is wrong with the last head that a program has written: nothing, if what was last written to the record was synced before."""
    with open(trace, encoding="utf-8", errors="replace") as file:
        lines = list(file)
    heads = [number for number, line in enumerate(lines) if re.search(says, line)]
    if not heads:
        return [f"no head in {trace}"]
    before = lines[: heads[-1]]
    synced = [number for number, line in enumerate(before) if re.search(EVENTS[1][1], line)]
    written = [number for number, line in enumerate(before) if re.search(EVENTS[0][1], line)]
    return [] if synced and synced[-1] > max(written, default=-1) else [f"{trace}: {synced[-1:]} after {written[-1:]}"]
