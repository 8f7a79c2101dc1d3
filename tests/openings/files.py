"""Databases that SQLite writes and reads, and what the program has to print for one."""

import sqlite3
from contextlib import closing

from machine import opening
from machine.assignments import export
from machine.state import Refused
from machine.texts import refused, report

ADD_USER = b'{"fn":"addUser","user":"somebody"}\n'


def is_utf_8(value):
    """Whether a value is no text with halves of surrogate pairs, which are bytes that aren't UTF-8."""
    try:
        str(value).encode()
    except UnicodeEncodeError:
        return False
    return True


def insert(base, table, columns, row):
    """Inserts a row into a table, unless the table refuses it."""
    holders = ", ".join("?" if is_utf_8(value) else "CAST(? AS TEXT)" for value in row)
    values = [value if is_utf_8(value) else value.encode("utf-8", "surrogateescape") for value in row]
    try:
        base.execute(f"INSERT INTO {table} ({', '.join(columns)}) VALUES ({holders})", values)
    except sqlite3.IntegrityError:
        pass


def insert_all(base, table, columns, rows):
    """Inserts rows into a table, each unless the table refuses it."""
    for row in rows:
        insert(base, table, columns, row)


def statements_of(path):
    """The statements by which the tables of a database were made, by the names of the tables."""
    with closing(sqlite3.connect(path)) as base:
        return dict(base.execute("SELECT name, sql FROM sqlite_master WHERE type = 'table'"))


def loose(table, columns):
    """The statement that makes a table without types, keys and checks."""
    return f"CREATE TABLE {table} ({', '.join(columns)})"


def write(path, statements, tables, after=()):
    """Writes a database: the tables that these statements make, those of the rows that they accept, and what the statements
    `after` make of all that.
    """
    with closing(sqlite3.connect(path, isolation_level=None)) as base:
        base.execute("PRAGMA synchronous = OFF")
        base.execute("BEGIN")
        for statement in statements:
            base.execute(statement)
        for table, rows in tables.items():
            insert_all(base, table, opening.COLUMNS[table], rows)
        for statement in after:
            base.execute(statement)
        base.execute("COMMIT")


def read(path):
    """The tables of a database: the columns and the rows of each, by its name; names without regard to case."""
    found = {}
    with closing(sqlite3.connect(path, isolation_level=None)) as base:
        for (table,) in base.execute("SELECT name FROM sqlite_master WHERE type = 'table'").fetchall():
            columns = [row[1].lower() for row in base.execute(f"PRAGMA table_info({table})")]
            found[table.lower()] = columns, rows_of(base, table)
    return found


def rows_of(base, table):
    """The rows of a table, with texts that are no UTF-8 as a `str` too."""
    try:
        return base.execute(f"SELECT * FROM {table}").fetchall()
    except sqlite3.OperationalError:
        base.text_factory = lambda text: text.decode("utf-8", "surrogateescape")
        return base.execute(f"SELECT * FROM {table}").fetchall()


def judged(judge, tables):
    """Returns the state that `judge` returns for tables, and the answer that refuses them; one of the two is None."""
    try:
        return judge(tables), None
    except Refused as refusal:
        return None, refused(refusal)


def line_of(answer):
    """Returns the line on standard error with which a run is refused."""
    return b"rbac: " + answer + b"\n"


def expect_good(bench, what, path, state):
    """Counts whether the program prints for a file what the model prints for the state, and changes nothing."""
    for word, text in [("check", b"good\n"), ("report", report(state)), ("export", export(state))]:
        bench.ends([word, path], text, keeps=True, what=f"{word}: {what}")


def expect_refused(bench, what, path, answer, words=("check", "replay")):
    """Counts whether subcommands refuse a file with this answer, and change nothing."""
    for word in words:
        bench.ends([word, path], err=line_of(answer), status=1, given=ADD_USER, keeps=True, what=f"{word}: {what}")


def expect_migrated(bench, what, path, tables):
    """Counts whether a file is migrated to version 2, or refused and kept, as the model decides for its tables."""
    state, answer = judged(opening.migrated_state, tables)
    if answer:
        expect_refused(bench, what, path, answer, ["migrate"])
        return
    bench.ends(["migrate", path], what=f"migrate: {what}")
    after, _ = judged(opening.open_state, read(path))
    bench.same(f"the state after migrate: {what}", after, state)
    expect_good(bench, f"after migrate: {what}", path, state)
