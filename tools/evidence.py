#!/usr/bin/env python3
"""Makes all reports of an office in a new folder, with a text that identifies them: evidence.txt.

    evidence.py [--with-sessions] [--user U] [--role R] [--object O] [--operation P] DATE COPY FOLDER

DATE, such as 2026-11-26, is only written into the text: it is your date and not that of a clock, so that the same copy gives the
same bytes on another day. COPY is a copy of an office. It is read and not written: the program checks a further copy of its
bytes, which is deleted at the end. FOLDER must not exist.

With --user, --role, --object or --operation permissions.csv has only the lines of this user, of this role, at `assigned` or
`granted`, of this object or operation; evidence.txt says so. One of them is needed if it would have above 1,000,000 lines.

evidence.txt has a line with the SHA-256 of COPY, of the program and of each report. `sha256sum -c evidence.txt` in FOLDER
compares them again. Its first lines have the date, what `rbac check` printed, the version of sqlite3, and how sessions are shown.

Whoever knows the name of a session can use it, so the reports show the digest of each session's name (tools/office.sql). With
--with-sessions they show the name: then protect FOLDER like the office.

The program is release/rbac, or the one that the variable RBAC_PROGRAM names. The reports are made by sqlite3 and the SQL
files beside this one. The status is 0 if all was made, 1 if COPY is refused or something failed, 2 for invalid arguments.
"""

import argparse
import hashlib
import json
import os
import shutil
import sqlite3
import subprocess
import sys
import tempfile
from contextlib import closing
from datetime import date
from pathlib import Path
from urllib.parse import quote

TOOLS = Path(__file__).absolute().parent
PROGRAM = Path(os.environ.get("RBAC_PROGRAM", TOOLS.parent / "release/rbac")).absolute()

# How many bytes of a file are read at once.
PIECE = 1 << 20

# Each tool with the file of its report.
REPORTS = {
    "permissions.sql": "permissions.csv",
    "near.sql": "near.csv",
    "sessions.sql": "sessions.csv",
    "room.sql": "room.csv",
    "dump.sql": "dump.jsonl",
    "picture.sql": "roles.dot",
}


# The filters of permissions.csv, how many lines it may have, and how many it would have. Nothing is made to count them: each role
# gives as many grants as there are to it and to its juniors, and each assignment to it has a line for each.
FILTERS = ("user", "role", "object", "operation")
MOST_LINES = 1_000_000
COUNT = """
WITH granted(role, n) AS (
    SELECT role, count(*) FROM grant_row
    WHERE (:object IS NULL OR ob = :object) AND (:operation IS NULL OR op = :operation) GROUP BY role
), given(role, n) AS (
    SELECT senior, sum(n)
    FROM (SELECT a AS senior, b AS junior FROM pair_row WHERE kind = 4 UNION ALL SELECT a, a FROM name_row WHERE kind = 2)
    JOIN granted ON role = junior WHERE :role IS NULL OR :role IN (senior, junior) GROUP BY senior
)
SELECT total(n) FROM pair_row JOIN given ON role = b WHERE kind = 2 AND (:user IS NULL OR a = :user)
"""

# The arguments that make sqlite3 show sessions by name, and what evidence.txt says of it.
NAMED = ["-cmd", ".parameter set @with_sessions 1"]
SHOWN = {False: "by the digests of their names", True: "by their names"}


class Refused(Exception):
    """Why there is no evidence."""


def run(command, given=None, made=subprocess.PIPE, **more):
    """What a command prints, unless it prints into a file. It has to end with status 0."""
    try:
        done = subprocess.run(command, stdin=given, stdout=made, stderr=subprocess.PIPE, check=False, **more)
    except OSError as fault:
        raise Refused(f"{command[0]}: {fault.strerror}") from fault
    if done.returncode != 0:
        raise Refused(done.stderr.decode(errors="replace").strip() or f"{command[0]}: status {done.returncode}")
    return done.stdout


def checked(copy):
    """What the program prints for a further copy of the same bytes."""
    with tempfile.TemporaryDirectory() as folder:
        further = Path(folder) / "copy"
        shutil.copyfile(copy, further)
        return run([str(PROGRAM), "check", str(further)]).decode().strip()


def count_permissions(copy, chosen):
    """How many lines permissions.csv would have. A file that is no office has none: the tools say what is wrong with it."""
    try:
        with closing(sqlite3.connect(f"file:{quote(str(copy))}?immutable=1", uri=True)) as office:
            return int(office.execute(COUNT, {key: chosen.get(key) for key in FILTERS}).fetchone()[0])
    except sqlite3.Error:
        return 0


def parameter(key, value):
    """The argument that gives sqlite3 the value of a parameter, whatever it has."""
    return ["-cmd", f".parameter set @{key} \"CAST(x'{value.encode().hex()}' AS TEXT)\""]


def report(copy, tool, place, more):
    """Makes a file with what a tool reports of the copy. It may be too long for memory."""
    with open(TOOLS / tool, "rb") as statements, open(place, "wb") as made:
        command = ["sqlite3", "-init", os.devnull, "-readonly", *more, f"file:{quote(str(copy))}?immutable=1"]
        run(command, statements, made, cwd=TOOLS.parent)


def digest(path, folder):
    """The line with which `sha256sum -c` compares a file in the folder."""
    name = os.path.relpath(path, folder)
    if "\\" in name or "\n" in name:
        raise Refused(f"{path}: a backslash or a line feed in a path")
    total = hashlib.sha256()
    with open(path, "rb") as file:
        while piece := file.read(PIECE):
            total.update(piece)
    return f"{total.hexdigest()}  {name}"


def fill(folder, day, copy, has_names, chosen):
    """Makes the reports and the text in a folder."""
    before = digest(copy, folder)
    said = checked(copy)
    count = count_permissions(copy, chosen)
    if count > MOST_LINES:
        most = f"permissions.csv would have {count:,} lines, above {MOST_LINES:,}"
        raise Refused(f"{most}: choose by --user, --role, --object or --operation")
    filters = [word for key, value in chosen.items() for word in parameter(key, value)]
    for tool, name in REPORTS.items():
        report(copy, tool, folder / name, [*(NAMED if has_names else []), *(filters if tool == "permissions.sql" else [])])
    if digest(copy, folder) != before:
        raise Refused(f"{copy}: the file changed meanwhile")
    version = run(["sqlite3", "--version"]).decode().split()[0]
    lines = [f"# Reports of an office, dated {day}", f"# rbac check: {said}", f"# sqlite3: {version}"]
    lines.append(f"# sessions: {SHOWN[has_names]}")
    if chosen:
        lines.append(f"# permissions: only those of {', '.join(f'{key} {json.dumps(value)}' for key, value in chosen.items())}")
    lines += [digest(path, folder) for path in (copy, PROGRAM, *(folder / name for name in REPORTS.values()))]
    (folder / "evidence.txt").write_text("".join(f"{line}\n" for line in lines), encoding="utf-8")


def make(folder, day, copy, has_names, chosen):
    """Makes the folder with its reports and its text. If that fails, nothing is left of it."""
    folder.mkdir(0o700)
    try:
        fill(folder, day, copy, has_names, chosen)
    except BaseException:
        shutil.rmtree(folder)
        raise


def main():
    """Makes the evidence, and returns the status."""
    parser = argparse.ArgumentParser(description=__doc__, formatter_class=argparse.RawDescriptionHelpFormatter)
    parser.add_argument("--with-sessions", action="store_true")
    for key in FILTERS:
        parser.add_argument(f"--{key}", metavar="NAME")
    parser.add_argument("day", metavar="DATE", type=date.fromisoformat)
    parser.add_argument("copy", metavar="COPY")
    parser.add_argument("folder", metavar="FOLDER")
    arguments = parser.parse_args()
    copy, folder = Path(arguments.copy).absolute(), Path(arguments.folder).absolute()
    # argparse makes a list of nothing of the name of two dashes.
    chosen = {key: "--" if value == [] else value for key in FILTERS if (value := getattr(arguments, key)) is not None}
    try:
        make(folder, arguments.day, copy, arguments.with_sessions, chosen)
    except (Refused, OSError) as fault:
        print(f"evidence.py: {fault}", file=sys.stderr)
        return 1
    return 0


if __name__ == "__main__":
    sys.exit(main())
