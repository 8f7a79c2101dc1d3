#!/usr/bin/env python3
"""bench/access_sqlite.py FOLDER: the decisions of `access` by SQLite, in this process and in memory.

It reads rows.csv and questions.csv, asks one prepared statement over a stored closure, and prints
`stored-closure`, how many answers were right, and the nanoseconds that they took.
"""

import csv
import sqlite3
import sys
import time

TABLES = {
    "assigned": "user, role",
    "edge": "senior, junior",
    "granted": "object, operation, role",
    "closure": "senior, junior",
    "active": "session, role",
}
QUESTION = (
    "SELECT EXISTS(SELECT 1 FROM active JOIN closure ON closure.senior = active.role "
    "JOIN granted ON granted.role = closure.junior "
    "WHERE active.session = ? AND granted.object = ? AND granted.operation = ?)"
)
ROUNDS = 3


def main():
    """Asks all questions, and prints the best of the rounds."""
    folder = sys.argv[1]
    base = sqlite3.connect(":memory:")
    for name, columns in TABLES.items():
        typed = columns.replace(",", " TEXT NOT NULL,") + " TEXT NOT NULL"
        base.execute(f"CREATE TABLE {name}({typed}, PRIMARY KEY({columns})) STRICT, WITHOUT ROWID")
    with open(f"{folder}/rows.csv", encoding="utf-8", newline="") as file:
        for name, *values in csv.reader(file):
            base.execute(f"INSERT INTO {name} VALUES({', '.join('?' * len(values))})", values)
    base.commit()
    with open(f"{folder}/questions.csv", encoding="utf-8", newline="") as file:
        rows = list(csv.reader(file))
    asked = [(f"s{user}", thing, operation) for user, operation, thing, _ in rows]
    wanted = [int(want) for *_, want in rows]
    for _ in range(ROUNDS):
        start = time.perf_counter_ns()
        got = [base.execute(QUESTION, it).fetchone()[0] for it in asked]
        nanos = time.perf_counter_ns() - start
        right = sum(a == b for a, b in zip(got, wanted))
        print("stored-closure", right, nanos)


if __name__ == "__main__":
    main()
