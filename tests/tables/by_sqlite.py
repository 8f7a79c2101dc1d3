#!/usr/bin/env python3
"""Writes databases by SQLite itself: by_sqlite.py FOLDER.

plain.db has the small office of the tests in version 2. TABLE.db has it too, with a trigger on that table;
without_rowid.db has its names in a table WITHOUT ROWID.
"""
import os
import sqlite3
import sys

TABLES = {
    "meta_row": ("tag TEXT NOT NULL, version INTEGER NOT NULL, PRIMARY KEY (tag)", [("rbac", 2)]),
    "name_row": (
        "kind INTEGER NOT NULL CHECK (kind BETWEEN 1 AND 3), a TEXT NOT NULL, PRIMARY KEY (kind, a)",
        [(1, "ann"), (1, "bob"), (2, "boss"), (2, "clerk"), (2, "temp"), (3, "safe")],
    ),
    "pair_row": (
        "kind INTEGER NOT NULL CHECK (kind BETWEEN 1 AND 8), a TEXT NOT NULL, b TEXT NOT NULL,"
        " PRIMARY KEY (kind, a, b)",
        [
            (1, "safe", "open"),
            (1, "safe", "view"),
            (2, "ann", "boss"),
            (2, "bob", "clerk"),
            (3, "boss", "clerk"),
            (4, "boss", "clerk"),
            (5, "pay", "clerk"),
            (5, "pay", "temp"),
            (6, "till", "boss"),
            (6, "till", "temp"),
            (7, "s1", "ann"),
            (8, "s1", "boss"),
        ],
    ),
    "grant_row": (
        "ob TEXT NOT NULL, op TEXT NOT NULL, role TEXT NOT NULL, PRIMARY KEY (ob, op, role)",
        [("safe", "open", "clerk"), ("safe", "view", "boss")],
    ),
    "set_row": (
        "kind INTEGER NOT NULL CHECK (kind BETWEEN 1 AND 2), name TEXT NOT NULL,"
        " n INTEGER NOT NULL CHECK (n >= 2), PRIMARY KEY (kind, name)",
        [(1, "pay", 2), (2, "till", 2)],
    ),
    "locked_row": ("a TEXT NOT NULL, PRIMARY KEY (a)", []),
}


def write(path, trigger_on=None, without_rowid=None):
    """The small office, with a trigger on a table, or a table WITHOUT ROWID."""
    base = sqlite3.connect(path, isolation_level=None)
    base.execute("PRAGMA page_size = 512")
    base.execute("PRAGMA journal_mode = WAL")
    for name, (columns, rows) in TABLES.items():
        kind = "STRICT, WITHOUT ROWID" if name == without_rowid else "STRICT"
        base.execute(f"CREATE TABLE {name} ({columns}) {kind}")
        for row in rows:
            marks = ", ".join("?" for _ in row)
            base.execute(f"INSERT INTO {name} VALUES ({marks})", row)
    if trigger_on:
        base.execute(
            f"CREATE TRIGGER away AFTER INSERT ON {trigger_on} BEGIN DELETE FROM {trigger_on}; END"
        )
    base.execute("PRAGMA wal_checkpoint(TRUNCATE)")
    base.close()


def main():
    folder = sys.argv[1]
    write(os.path.join(folder, "plain.db"))
    for table in TABLES:
        write(os.path.join(folder, f"{table}.db"), trigger_on=table)
    write(os.path.join(folder, "without_rowid.db"), without_rowid="name_row")


if __name__ == "__main__":
    main()
