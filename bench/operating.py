#!/usr/bin/env python3
"""bench/operating.py: measures on the built program what docs/howto/operate.md states about a served office, and prints it.

It runs the program that RBAC_PROGRAM names, or release/rbac, and works in a folder of its own in TMPDIR.
All runs of the program are on one core. Each time is processor time, which other work on the machine changes little, and is the
best of three. Only the commands with their synced writes are timed by the clock, since they wait for the disk.
"""

import os
import re
import sqlite3
import statistics
import subprocess
import sys
import tempfile
import time
from contextlib import closing
from pathlib import Path

BENCH = Path(__file__).resolve().parent
PROGRAM = os.path.abspath(os.environ.get("RBAC_PROGRAM", BENCH / "../release/rbac"))
RUNS = 3
DECISIONS = 200_000
# How many commands of a kind are done, one after the other, when bytes are counted.
COMMANDS = 500
# How many commands are timed by the clock, and how many times.
TIMED, TIMES = 5_000, 5
CORE = max(os.sched_getaffinity(0))


def say(what, figure):
    """Prints a row of the table."""
    print(f"| {what} | {figure} |", flush=True)


def on_one_core():
    """Restricts the process to one core."""
    os.sched_setaffinity(0, {CORE})


def start(words, **streams):
    """The program, started on one core."""
    return subprocess.Popen([PROGRAM, *map(str, words)], preexec_fn=on_one_core, **streams)


def seconds(words, given=None):
    """The processor seconds of a run of the program that ends with status 0, and the most MB that it used."""
    with open(given or os.devnull, "rb") as source, open(os.devnull, "wb") as sink:
        process = start(words, stdin=source, stdout=sink)
        _, status, used = os.wait4(process.pid, 0)
    process.returncode = os.waitstatus_to_exitcode(status)
    if process.returncode:
        sys.exit(f"{words} ends with status {process.returncode}")
    return used.ru_utime + used.ru_stime, used.ru_maxrss / 1_000


def best(words, given=None):
    """The best of some runs."""
    return min(seconds(words, given) for _ in range(RUNS))


def lines(folder, what, count):
    """A file with the lines of bench/lines.py that set up an office, and one with those that follow."""
    text = subprocess.run([sys.executable, BENCH / "lines.py", what, str(count)], capture_output=True, check=True).stdout
    made = text.splitlines(keepends=True)
    (folder / "setup").write_bytes(b"".join(made[:-count]))
    (folder / "asked").write_bytes(b"".join(made[-count:]))
    return folder / "setup", folder / "asked"


def decisions(folder):
    """Decisions a second over an office in a file, without the time in which it is opened and closed."""
    office = folder / "office"
    setup, asked = lines(folder, "access", DECISIONS)
    seconds(["init", office])
    seconds(["replay", office], setup)
    empty, _ = best(["replay", office])
    took, held = best(["replay", office], asked)
    say("decisions a second, by lines", f"{DECISIONS / (took - empty):,.0f}")
    say("to open and close that office", size_of(office, empty, held))


def size_of(path, took, held):
    """The seconds that an opening took, with the sizes of the file and of the memory."""
    return f"{took:.3g} s, {path.stat().st_size / 1e6:.1f} MB of file, {held:.0f} MB held"


def put_rows(path, what):
    """Inserts the rows of an office at the limits into a new office, as bench/tables_lines.py has them."""
    seconds(["init", path])
    text = subprocess.run([sys.executable, BENCH / "tables_lines.py", what], capture_output=True, check=True, text=True).stdout
    rows = {}
    for line in text.splitlines():
        if line.startswith("+ "):
            _, table, *values = line.split()
            rows.setdefault(f"{table}_row", []).append(values)
    with closing(sqlite3.connect(path)) as base, base:
        for table, found in rows.items():
            base.executemany(f"INSERT INTO {table} VALUES ({', '.join('?' * len(found[0]))})", found)


def openings(folder):
    """The time in which an office at the limits is opened and closed."""
    for what, name in (("limits", "no separation of duty sets"), ("limits-sets", "64 of each kind")):
        path = folder / what
        put_rows(path, what)
        took, held = best(["check", path])
        say(f"to open and close an office at the limits, {name}", size_of(path, took, held))


def written_by(process):
    """How many bytes a process has written to the system, including its answers."""
    (count,) = re.findall(r"^wchar: (\d+)$", Path(f"/proc/{process.pid}/io").read_text(encoding="ascii"), re.M)
    return int(count)


def added(path, commands):
    """The bytes that each command writes, those by which all of them lengthen the file, and the longest log meanwhile."""
    before, log = path.stat().st_size, Path(f"{path}-wal")
    process = start(["replay", path], stdin=subprocess.PIPE, stdout=subprocess.PIPE)
    written, longest, so_far = [], 0, None
    for command in commands:
        process.stdin.write(command.encode() + b"\n")
        process.stdin.flush()
        answer = process.stdout.readline()
        if not answer.startswith(b'{"ok":true'):
            sys.exit(f"{command} is answered by {answer}")
        now, longest = written_by(process), max(longest, log.stat().st_size)
        # The first command comes after everything that an opening writes.
        written += [] if so_far is None else [now - so_far - len(answer)]
        so_far = now
    process.stdin.close()
    if process.wait():
        sys.exit(f"a replay ends with status {process.returncode}")
    return written, path.stat().st_size - before, longest


def command(function, **keys):
    """The line of a command whose names have eight bytes each."""
    words = ",".join(f'"{key}":{value}' if value.startswith("[") else f'"{key}":"{value}"' for key, value in keys.items())
    return f'{{"fn":"{function}",{words}}}'


def bytes_added(folder):
    """The bytes that commands write and add to the file, of an office that starts empty and grows."""
    path = folder / "growing"
    seconds(["init", path])
    users = [f"user{number:04}" for number in range(COMMANDS)]
    setup = [command("addRole", role="role0000")]
    added(path, setup)
    for name, made in {
        "addUser": [command("addUser", user=user) for user in users],
        "assignUser": [command("assignUser", user=user, role="role0000") for user in users],
        "createSession": [
            command("createSession", user=user, roles='["role0000"]', session=f"sess{user[4:]}") for user in users
        ],
    }.items():
        written, file, longest = added(path, made)
        mean = sum(written) / len(written)
        say(f"bytes that {name} writes", f"{statistics.median(written):,.0f} mostly, {mean:,.0f} on average")
        say(f"bytes that {name} adds to the file", f"{file / len(made):,.0f}")
        say(f"bytes of the longest log of {COMMANDS} {name}", f"{longest:,}")


def rows_synced(folder):
    """The microseconds of an addUser with its synced write, over a new office: the least and the most of some runs."""
    given, took = folder / "users", []
    given.write_text("".join(f"{command('addUser', user=f'user{number:04}')}\n" for number in range(TIMED)), encoding="ascii")
    for number in range(TIMES):
        path = folder / f"timed{number}"
        seconds(["init", path])
        before = time.monotonic()
        seconds(["replay", path], given)
        took.append((time.monotonic() - before) / TIMED * 1e6)
    command_line = ["findmnt", "-n", "-o", "FSTYPE", "-T", folder]
    *_, kind = subprocess.run(command_line, capture_output=True, check=True, text=True).stdout.split()
    say(f"an addUser with its synced write, on {kind}", f"{min(took):.0f} to {max(took):.0f} microseconds")


def main():
    """Measures everything."""
    (processor,) = set(re.findall(r"^model name\s*: (.*)$", Path("/proc/cpuinfo").read_text(encoding="ascii"), re.M))
    with tempfile.TemporaryDirectory() as name:
        folder = Path(name)
        say("processor", processor)
        decisions(folder)
        openings(folder)
        bytes_added(folder)
        rows_synced(folder)


if __name__ == "__main__":
    main()
