#!/usr/bin/env python3
"""bench/access_postgres.py FOLDER: the decisions of `access` by a PostgreSQL server of its own, over a local socket.

It reads rows.csv and questions.csv, and asks in two ways: `member` uses pg_has_role, with users and roles as roles of
PostgreSQL, each granted to those that have it; `stored-closure` uses the statement of access_sqlite.py. For each way it
prints how many answers were right, and the nanoseconds for that number of answers. One statement over all questions
compares the answers; the time is that of pgbench with one client, which sends the first questions as prepared
statements. The server is stopped at the end, and its folder is removed.
"""

import csv
import glob
import os
import pwd
import re
import shutil
import subprocess
import sys
import tempfile

SERVER_USER = "postgres"
TABLES = {
    "assigned": ["username", "role"],
    "edge": ["senior", "junior"],
    "granted": ["object", "operation", "role"],
    "closure": ["senior", "junior"],
    "active": ["session", "role"],
    "asked": ["number", "username", "operation", "object", "wanted"],
}
# What is asked, of a user, an operation and an object.
WAYS = {
    "member": "EXISTS(SELECT 1 FROM granted WHERE object = {object} AND operation = {operation} "
    "AND pg_has_role(CAST({user} AS name), CAST(role AS name), 'member'))",
    "stored-closure": "EXISTS(SELECT 1 FROM active JOIN closure ON closure.senior = active.role "
    "JOIN granted ON granted.role = closure.junior "
    "WHERE active.session = {session} AND granted.object = {object} AND granted.operation = {operation})",
}
COLUMNS = {
    "user": "'u' || username",
    "session": "'s' || username",
    "operation": "asked.operation",
    "object": "asked.object",
}
# How many questions are timed, and how often each is asked in a round. The first time includes their preparation.
QUESTIONS = 1_000
TIMES = 50
ROUNDS = 3


def find_programs():
    """The folder of PostgreSQL's programs, or None if it isn't installed."""
    folders = sorted(glob.glob("/usr/lib/postgresql/*/bin"))
    found = shutil.which("initdb", path=os.pathsep.join([*reversed(folders), os.environ["PATH"]]))
    return os.path.dirname(os.path.realpath(found)) if found else None


class Server:
    """A server in a folder of its own, which belongs to the user that may run it: not to root."""

    def __init__(self, programs):
        self.programs = programs
        self.folder = tempfile.mkdtemp(prefix="rbac-postgres-")
        self.user = None
        if os.getuid() == 0:
            self.user = SERVER_USER
            os.chown(self.folder, pwd.getpwnam(SERVER_USER).pw_uid, -1)

    def run(self, program, *words, source=""):
        """Runs a program of PostgreSQL, and returns its output."""
        told = subprocess.run(
            [f"{self.programs}/{program}", *words],
            input=source,
            stdout=subprocess.PIPE,
            text=True,
            cwd=self.folder,
            user=self.user,
            check=True,
        )
        return told.stdout

    def start(self, more="-c listen_addresses= -c fsync=off"):
        """Makes the database, and starts the server on a socket in its folder, with more settings."""
        self.run("initdb", "-D", f"{self.folder}/data", "-A", "trust", "-E", "UTF8", "--locale=C")
        settings = f"-k {self.folder} {more}"
        log = f"{self.folder}/log"
        self.run("pg_ctl", "-D", f"{self.folder}/data", "-w", "-o", settings, "-l", log, "start")

    def stop(self):
        """Stops the server, and removes its folder."""
        if os.path.exists(f"{self.folder}/data/postmaster.pid"):
            self.run("pg_ctl", "-D", f"{self.folder}/data", "-w", "-m", "fast", "stop")
        shutil.rmtree(self.folder)

    def query(self, statements):
        """Runs statements, and returns their output without headings."""
        words = ["-q", "-A", "-t", "-v", "ON_ERROR_STOP=1", "-h", self.folder, "-d", "postgres"]
        return self.run("psql", *words, source=statements)

    def time(self, statements):
        """The nanoseconds that pgbench needs for statements, each a line."""
        path = f"{self.folder}/statements.sql"
        with open(path, "w", encoding="utf-8") as file:
            file.writelines(f"{statement};\n" for statement in statements)
        os.chmod(path, 0o644)
        words = ["-n", "-M", "prepared", "-h", self.folder, "-c", "1", "-t", str(TIMES), "-f", path, "postgres"]
        told = self.run("pgbench", *words)
        found = re.search(r"^tps = ([\d.]+) \(without initial connection time\)$", told, re.M)
        return 1e9 / float(found[1])


def read_rows(path):
    """The rows of a CSV file."""
    with open(path, encoding="utf-8", newline="") as file:
        return list(csv.reader(file))


def text(value):
    """A text as SQL writes it."""
    return f"'{value}'"


def load(server, rows, questions):
    """Makes the tables and the roles."""
    found = {name: [] for name in TABLES}
    for name, *values in rows:
        found[name].append(values)
    found["asked"] = [[number, *values] for number, values in enumerate(questions)]
    script = ["BEGIN;"]
    for name, columns in TABLES.items():
        typed = ", ".join(f"{it} text NOT NULL" for it in columns)
        script.append(f"CREATE TABLE {name}({typed}, PRIMARY KEY({', '.join(columns)}));")
        for values in found[name]:
            script.append(f"INSERT INTO {name} VALUES({', '.join(map(text, values))});")
    roles = {senior for senior, _ in found["closure"]} | {user for user, _ in found["assigned"]}
    script += [f"CREATE ROLE {role};" for role in sorted(roles)]
    script += [f"GRANT {junior} TO {senior};" for senior, junior in found["edge"] + found["assigned"]]
    script += ["COMMIT;", "ANALYZE;"]
    server.query("\n".join(script))


def count_right(server, way):
    """How many answers to all questions are right."""
    condition = WAYS[way].format(**COLUMNS)
    return int(server.query(f"SELECT count(*) FROM asked WHERE {condition} = (wanted = '1');"))


def statements_of(way, questions):
    """The statements that ask the first questions."""
    statements = []
    for user, operation, thing, _ in questions[:QUESTIONS]:
        told = {"user": f"u{user}", "session": f"s{user}", "operation": operation, "object": thing}
        statements.append("SELECT " + WAYS[way].format(**{name: text(it) for name, it in told.items()}))
    return statements


def main():
    """Asks in both ways. If PostgreSQL is missing, it prints nothing."""
    folder = sys.argv[1]
    programs = find_programs()
    if not programs:
        print("no PostgreSQL: apt-get install postgresql", file=sys.stderr)
        return
    rows, questions = read_rows(f"{folder}/rows.csv"), read_rows(f"{folder}/questions.csv")
    server = Server(programs)
    try:
        server.start()
        load(server, rows, questions)
        for way in WAYS:
            right, statements = count_right(server, way), statements_of(way, questions)
            for _ in range(ROUNDS):
                print(way, right, round(server.time(statements) / len(statements) * right))
    finally:
        server.stop()


if __name__ == "__main__":
    main()
