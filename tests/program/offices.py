"""Offices in files: made by the program, read and changed by SQLite, compared with the plain model."""

import os
import shutil
import sqlite3
from contextlib import closing, contextmanager
from urllib.parse import quote

from machine.assignments import export
from machine.replaying import Replay
from machine.texts import report, rows

from .bench import TESTS

# A small office with something of everything is made by these lines.
SMALL = (TESTS / "rows/reviewed.jsonl").read_bytes().splitlines(keepends=True)[:16]

STORE = b'{"code":41,"error":"Store"}'
NO_OFFICE = b'{"code":50,"error":"NotAnOffice"}'

# These statements turn an office of version 2 without locks into one of version 1.
INTO_VERSION_1 = ["DROP TABLE locked_row", "UPDATE meta_row SET version = 1 WHERE tag = 'rbac'"]


def version_refused(version):
    """The text that refuses an office for its version."""
    return b'{"code":51,"error":"Version","version":%d}' % version


def damaged(check):
    """The text that refuses an office for the check that fails."""
    return b'{"check":%d,"code":52,"error":"Damaged"}' % check


class Office:
    """An office in a file, and the plain model of it, which gets the same lines."""

    def __init__(self, bench, name="office"):
        self.bench = bench
        self.path = bench.path(name)
        self.name = name
        self.model = Replay()
        bench.ends(["init", self.path], makes=[name])

    def replay(self, lines):
        """One run over some lines: the answers are those of the model, and a stop is reported as the model reports it."""
        run = Replay()
        run.state = self.model.state
        text = b"".join(lines)
        answers = b"".join(run.answers(text))
        self.model = run
        status = 1 if run.stop else 0
        self.bench.ends(["replay", self.path], answers, run.message(), status, given=text)

    def compare_with_model(self):
        """Checks that the office is that of the model: by what the program prints, and by what SQLite reads."""
        compare_with_state(self.bench, self.path, self.model.state)

    def change(self, statements):
        """Changes the file by SQLite."""
        change(self.path, statements)

    def become_version_1(self):
        """Turns the office into one of version 1, and the model with it."""
        self.change(INTO_VERSION_1)
        self.model.state = self.model.state.but(version=1)


def compare_with_state(bench, path, state):
    """Checks that the program and SQLite read this state from the file."""
    bench.ends(["check", path], b"good\n", keeps=True)
    bench.ends(["report", path], report(state), keeps=True)
    bench.ends(["export", path], export(state), keeps=True)
    same_rows(bench, f"the rows of {os.path.basename(path)}", read_rows(path), rows(state))


def same_rows(bench, what, given, wanted):
    """Counts whether the rows of all tables are those that are wanted, and shows the tables that differ."""
    tables = [table for table in {**wanted, **given} if given.get(table) != wanted.get(table)]
    bench.same(what, {table: given.get(table) for table in tables}, {table: wanted.get(table) for table in tables})


def small_office(bench, name="office"):
    """The small office in a file."""
    office = Office(bench, name)
    office.replay(SMALL)
    return office


def change(path, statements):
    """Runs statements by SQLite over a file, and leaves all of it in that one file. Checks of columns are off."""
    with closing(sqlite3.connect(path, isolation_level=None)) as base:
        base.execute("PRAGMA ignore_check_constraints = 1")
        for statement in statements:
            base.execute(statement)
        base.execute("PRAGMA wal_checkpoint(TRUNCATE)").fetchall()


@contextmanager
def changed(office, statements):
    """The path of a copy of an office that SQLite has changed. The copy is removed at the end."""
    path = office.bench.path("changed")
    shutil.copyfile(office.path, path)
    change(path, statements)
    yield path
    os.remove(path)


def read_rows(path):
    """The rows of each table, read by SQLite from the file alone, which it can't change."""
    with closing(sqlite3.connect(f"file:{quote(path)}?mode=ro&immutable=1", uri=True)) as base:
        return rows_of(base)


def rows_of(base):
    """The rows of each table of a database, in order."""
    named = base.execute("SELECT name FROM sqlite_master WHERE type = 'table'").fetchall()
    found = {}
    for (table,) in named:
        count = len(base.execute(f"PRAGMA table_info({table})").fetchall())
        order = ", ".join(str(column) for column in range(1, count + 1))
        found[table] = base.execute(f"SELECT * FROM {table} ORDER BY {order}").fetchall()
    return found
