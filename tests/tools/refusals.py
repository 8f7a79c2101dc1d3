"""Files that are no office, damaged offices and offices in use: each tool refuses them, reports why, and changes nothing."""

import os
import random
import re
import shutil
import sqlite3
from collections import Counter
from contextlib import closing

from machine.opening import COLUMNS
from openings.drawn import drawn_tables, loosened
from openings.faults import NAMED, TYPED, all_faults
from openings.files import is_utf_8, loose, statements_of, write
from openings.pairs import count_rows, faulty_tables, small_state
from program import damaged
from program.offices import change, changed, small_office
from program.web import Server, post

from .running import REPORTS, keeping, numbers_shown, refuses, run_script, run_tool

# The number of offices with random changes of their rows.
CHANGED = 80

# One in how many faults of a single value is tried, and the most rows of a fault that is tried.
ONE_VALUE_IN = 8
MOST_ROWS = 1_100

# What is printed about a database whose rows or tables are not those of a good office.
NO_GOOD_OFFICE = "this is no good office: rbac check says why"
NO_OFFICE = "this is no office"

# Names of files, each with what a tool prints about it.
FILES = {
    "missing": "unable to open database",
    "folder": "unable to open database|disk I/O error",
    "empty": NO_OFFICE,
    "text": "file is not a database",
    "others": NO_OFFICE,
    "half": "malformed|damaged",
    "overwritten": "malformed|damaged",
    "altered": "the database is damaged",
    "logged": "a log is beside this file",
}

# Further changes of an office by SQLite, each with what a tool prints about it.
CHANGES = {
    "no table of locks": ("the table of locks is missing", ["DROP TABLE locked_row"]),
    "no grants": (NO_OFFICE, ["DROP TABLE grant_row"]),
    "another column": ("no such column", ["ALTER TABLE set_row RENAME COLUMN n TO m"]),
    "version 3": ("no office of version 1 or 2", ["UPDATE meta_row SET version = 3"]),
    "no version": ("no office of version 1 or 2", ["DELETE FROM meta_row"]),
    "too many roles": (NO_GOOD_OFFICE, damaged.roles(1_022)),
}


def refused_by_reports(bench, what, path, message):
    """Counts whether each tool that sqlite3 runs refuses a file."""
    for name in REPORTS:
        done = keeping(bench, f"{name} of {what}", run_tool, name, path)
        refuses(bench, f"{what}, {name}", done, message)


def refused_as_evidence(bench, what, path):
    """Counts whether no evidence is made of a file."""
    done = keeping(bench, f"evidence of {what}", run_script, "evidence.py", "2026-01-02", path, bench.path("evidence"))
    refuses(bench, f"{what}, evidence", done, ".")


def write_files(bench, office):
    """Writes the files that are no office."""
    with open(office.path, "rb") as file:
        content = file.read()
    os.mkdir(bench.path("folder"))
    bench.write("empty", b"")
    bench.write("text", b"an office\n" * 1_000)
    with closing(sqlite3.connect(bench.path("others"))) as base:
        base.execute("CREATE TABLE name_row (kind, a)")
    bench.write("half", content[: len(content) // 2])
    page = 4_096
    bench.write("overwritten", content[:page] + b"\xff" * page * 4 + content[5 * page :])
    # A name is in a table and in its index: here it is altered at one of the two.
    bench.write("altered", content.replace(b"temp", b"tamp", 1))
    bench.write("logged", content)
    bench.write("logged-wal", b"\0" * 100)


def check_refuses_files(bench):
    """What is no database, no office or a damaged database, and an office with a log."""
    office = small_office(bench)
    write_files(bench, office)
    for name, message in FILES.items():
        refused_by_reports(bench, name, bench.path(name), message)
        refused_as_evidence(bench, name, bench.path(name))


def check_refuses_damages(bench):
    """An office with rows or tables that `rbac check` refuses."""
    office = small_office(bench)
    known = {name: (NO_GOOD_OFFICE, statements) for name, (_, statements) in {**damaged.DAMAGES, **damaged.LOCKS}.items()}
    for name, (message, statements) in {**known, **CHANGES}.items():
        with changed(office, statements) as path:
            refused_by_reports(bench, name, path, message)
    with changed(office, damaged.LOCKS["a locked user with a session"][1]) as path:
        refused_as_evidence(bench, "a damaged office", path)


def check_refuses_in_use(bench):
    """The file of a running server, which has a log: the file alone lacks what was done last."""
    office = small_office(bench)
    with Server(bench, office.path, 2) as server:
        server.ask(post("addUser", b'{"user":"zed"}'))
        for name in REPORTS:
            refuses(bench, f"an office in use, {name}", run_tool(name, office.path), "a log is beside this file")
        server.ask(post("addUser", b'{"user":"zoe"}'))
        server.ends()


def check_reads_copy_with_log(bench):
    """A copy with its log is refused until `rbac check` has merged the log, and then has all that was answered."""
    office = small_office(bench)
    with Server(bench, office.path, 2) as server:
        server.ask(post("addUser", b'{"user":"zed"}'))
        for end in ("", "-wal"):
            shutil.copyfile(office.path + end, bench.path("copy") + end)
        server.ask(post("deleteUser", b'{"user":"zed"}'))
        server.ends()
    refuses(bench, "a copy with its log", run_tool("dump", bench.path("copy")), "a log is beside this file")
    bench.same("the check of the copy", bench.run(["check", bench.path("copy")]).out, b"good\n")
    done = run_tool("dump", bench.path("copy"))
    bench.same("the user is in the dump", b'{"fn":"addUser","user":"zed"}\n' in done.out, True)


def check_refuses_folder(bench):
    """In another folder a tool does not find tools/office.sql, prints that, and reports nothing."""
    office = small_office(bench)
    for name in REPORTS:
        done = run_tool(name, office.path, bench.folder)
        refuses(bench, f"another folder, {name}", done, 'cannot open "tools/office.sql"')


def check_reads_odd_tables(bench):
    """Tables of other programs beside those of an office are ignored, whatever their names."""
    office = small_office(bench)
    before = {name: run_tool(name, office.path) for name in REPORTS}
    change(office.path, [f"CREATE TABLE {name} (x)" for name in ("user", "role", "held", "text", "office", "file")])
    for name in REPORTS:
        bench.same(f"{name} beside tables of others", run_tool(name, office.path), before[name])


def check_reads_only(bench):
    """A file and a folder that may not be written are read."""
    office = small_office(bench)
    before = {name: run_tool(name, office.path) for name in REPORTS}
    os.chmod(office.path, 0o400)
    os.chmod(bench.folder, 0o500)
    for name in REPORTS:
        bench.same(f"{name} of what may not be written", run_tool(name, office.path), before[name])
    os.chmod(bench.folder, 0o700)


def is_seen(tables):
    """Whether the tools see all of these values: they do not look for bytes that are no UTF-8."""
    return all(is_utf_8(value) for rows in tables.values() for row in rows for value in row)


def agrees(bench, what, statements, tables, after=()):
    """Returns whether `rbac check` calls an office with these tables good, and counts whether the tools do the same.

    tools/damage.sql prints nothing for a good office, and otherwise among its lines one with the number of the check.
    """
    path = bench.path("changed")
    write(path, statements, tables, after)
    checked, measured = bench.run(["check", path]), run_tool("room", path)
    said = (checked.err or checked.out).decode().strip()
    bench.same(f"{what}, {said}: whether it is refused", measured.status != 0, checked.status != 0)
    check = re.search(r'"check":(\d+)|"code":(32)', said)
    if checked.status == 0 or check:
        numbers, faults = numbers_shown(path)
        is_right = (check[1] or check[2]) in numbers if check else not numbers
        bench.same(f"{what}, {said}: whether {sorted(numbers)} are shown rightly", (is_right, faults), (True, ""))
    os.remove(path)
    return checked.status == 0


def check_agrees_on_changes(bench):
    """Of offices with random changes of their rows a tool refuses those that `rbac check` refuses, and no others."""
    own = statements_of(small_office(bench, "new").path)
    counts = Counter()
    for seed in range(CHANGED):
        draws = random.Random(seed)
        tables = drawn_tables(draws, seed, draws.choice([1, 2, 2]))
        statements = [own[table] for table in tables]
        if draws.randrange(2):
            statements, tables = loosened(draws, tables)
        if is_seen(tables):
            is_good = agrees(bench, f"file {seed}", statements, tables)
            counts[f"files with random changes: {'good' if is_good else 'refused'}"] += 1
    return counts


def check_agrees_on_faults(bench):
    """A tool refuses the faults that an opening looks for, each alone."""
    state, counts = small_state(2), Counter()
    one_in = {TYPED: ONE_VALUE_IN, NAMED: ONE_VALUE_IN}
    for number, fault in enumerate(all_faults(2)):
        tables, after = faulty_tables(state, [fault])
        if number % one_in.get(fault.place, 1) == 0 and is_seen(tables) and count_rows(fault) <= MOST_ROWS:
            statements = [loose(table, COLUMNS[table]) for table in tables]
            is_good = agrees(bench, fault.name, statements, tables, after)
            counts[f"single faults: {'good' if is_good else 'refused'}"] += 1
    return counts
