"""The record of a front, as an auditor reads it: its entries by SQLite, its chain, and what the plain model makes of it."""

import hashlib
import os
import re
import shutil
import sqlite3
import subprocess
import time
from collections import namedtuple
from contextlib import closing
from pathlib import Path

from machine.replaying import Replay
from machine.texts import rows
from program.bench import PROGRAM as RBAC
from program.bench import SECONDS

from .running import PROGRAM

Entry = namedtuple("Entry", "n at caller reason request answer found chain")

# The answer to a command that the office never got.
LOST = '{"lost":true}'

# The kinds of pairs that begin with the name of a session.
OF_SESSIONS = (7, 8)

# How a long request begins that was refused: it changes nothing, and only its beginning is recorded.
BOUNDED = re.compile(r'\{"fn":"[a-zA-Z]+","bytes":\d+,"sha256":"[0-9a-f]{64}","begins":"')

# How long a command about a record may take on a machine that is busy.
LONG_SECONDS = 10 * SECONDS


def digest(name):
    """What stands outside the office for the name of a session."""
    return hashlib.sha3_256(name.encode()).hexdigest()[:32]


def path_of(office, name="record.db"):
    """The path of a file of the record."""
    return f"{office}.record/{name}"


def entries(office, after=0, file="record.db"):
    """The entries after one."""
    with closing(sqlite3.connect(f"file:{path_of(office, file)}?mode=ro", uri=True, timeout=SECONDS)) as opened:
        return [Entry(*row) for row in opened.execute("SELECT * FROM entry WHERE n > ? ORDER BY n", (after,))]


def link(before, entry):
    """The link of an entry, by the page."""
    fields = [before, str(entry.n), entry.at, entry.caller, entry.reason, entry.request, entry.answer, str(entry.found)]
    return hashlib.sha256("".join(f"{field}\n" for field in fields).encode()).hexdigest()


def chain_again(office, before="", file="record.db"):
    """Computes the whole chain of a file anew, as somebody does who may write the record."""
    with closing(sqlite3.connect(path_of(office, file))) as opened:
        for entry in [Entry(*row) for row in opened.execute("SELECT * FROM entry ORDER BY n")]:
            before = link(before, entry)
            opened.execute("UPDATE entry SET chain = ? WHERE n = ?", (before, entry.n))
        opened.commit()


def change(office, *statements, file="record.db"):
    """Changes the record by SQL."""
    with closing(sqlite3.connect(path_of(office, file), timeout=SECONDS)) as opened:
        for statement in statements:
            opened.execute(statement)
        opened.commit()


def rows_of(office, folder):
    """The rows of an office that nobody writes now, in which sessions have their digests. They are read from a copy."""
    shutil.rmtree(folder, ignore_errors=True)
    os.mkdir(folder)
    for name in (office, f"{office}-wal"):
        if os.path.exists(name):
            shutil.copy(name, folder)
    with closing(sqlite3.connect(Path(folder) / os.path.basename(office))) as opened:
        found = {
            table: opened.execute(f"SELECT * FROM {table}").fetchall()
            for table in ("meta_row", "name_row", "pair_row", "grant_row", "set_row", "locked_row")
        }
    found["pair_row"] = [(kind, digest(a) if kind in OF_SESSIONS else a, b) for kind, a, b in found["pair_row"]]
    return {table: sorted(lines) for table, lines in found.items()}


class Model:
    """The plain model, which does the entries of a record one after another."""

    def __init__(self):
        self.replay = Replay()
        self.last = 0

    def go_on(self, new):
        """Does more entries, and returns what is wrong with them."""
        faults = []
        for entry in new:
            if entry.n != self.last + 1:
                faults.append(f"entry {entry.n} comes after {self.last}")
            self.last = entry.n
            if '"record":' in entry.request or entry.answer == LOST:
                continue
            if BOUNDED.match(entry.request) and entry.answer.startswith('{"code":'):
                continue
            answer = self.replay.answer(entry.request.encode())
            answer = answer if isinstance(answer, str) else answer.decode()
            if answer != entry.answer:
                faults.append(f"entry {entry.n} has the answer {entry.answer}, and the model gives {answer}")
        return faults

    def rows(self):
        """The rows that the entries give."""
        return {table: sorted(lines) for table, lines in rows(self.replay.state).items()}


def tool(*words, program=True):
    """The status and the outputs of a command about a record. Its first words come before its options."""
    names = [word for word in words if not word.startswith("-")][:2] if words[0] == "record" else [words[0]]
    rest = list(words[len(names) :])
    if program and words[:2] not in (("record", "show"), ("record", "head")):
        rest = ["--program", RBAC, *rest]
    done = subprocess.run(
        [os.environ[PROGRAM], *names, *rest], capture_output=True, text=True, timeout=LONG_SECONDS, check=False
    )
    return done.returncode, done.stdout, done.stderr


# How verify ends if a part was moved away, and all else is good.
MISSING = (2, "rbac-node: what is here is good, but entries are missing\n")


def verified(bench, what, office, *more, is_whole=True):
    """Counts whether `record verify` finds nothing, and the office has the rows that the record gives. No front runs."""
    deadline = time.monotonic() + SECONDS
    while True:
        status, out, said = tool("record", "verify", "--office", office, *more)
        # The replay of a front that was killed may need a moment to end.
        if "a front has the office" not in out or time.monotonic() > deadline:
            break
    ending = (0, "") if is_whole else MISSING
    faults = [] if (status, said) == ending and "the office has the rows that the record gives" in out else [out + said]
    bench.judge(f"verify {what}", faults)


def refuted(bench, what, office, says, *more):
    """Counts whether `record verify` finds this, and says it in one line."""
    status, out, said = tool("record", "verify", "--office", office, *more)
    faults = [] if status == 1 and says in said and said.count("\n") == 1 else [f"{status} {out}{said}"]
    bench.judge(f"verify {what}: {says}", faults)


def left_in_memory(office):
    """The folders in memory that belong to an office."""
    part = hashlib.sha256(os.path.abspath(office).encode()).hexdigest()[:16]
    return [name for name in os.listdir("/dev/shm") if name.startswith("rbac-record-") and part in name]


def files_with(folder, text):
    """The files below a folder that have a text."""
    found = []
    for path in Path(folder).rglob("*"):
        if path.is_file() and text.encode() in path.read_bytes():
            found.append(str(path))
    return found
