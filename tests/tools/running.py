"""Runs the tools over the file of an office, which has to stay as it is."""

import csv
import io
import re
import subprocess
from urllib.parse import quote

from program.bench import SECONDS, TESTS, Done

ROOT = TESTS.parent
TOOLS = ROOT / "tools"

# The tools that sqlite3 runs over an office.
REPORTS = ["permissions", "near", "sessions", "room", "dump", "picture"]

# The arguments that make sqlite3 show sessions by their names, as the header of tools/dump.sql says.
NAMED = ["-cmd", ".parameter set @with_sessions 1"]


def run(words, given=b"", folder=ROOT):
    """Runs a command, in the folder of the repository unless another one is passed."""
    done = subprocess.run(words, input=given, cwd=folder, capture_output=True, timeout=SECONDS, check=False)
    return Done(done.stdout, done.stderr, done.returncode)


def run_tool(name, path, folder=ROOT, has_names=False):
    """Runs a tool over a file as its header says, with the names of sessions if they are wanted."""
    statements = (TOOLS / f"{name}.sql").read_bytes()
    more = NAMED if has_names else []
    return run(["sqlite3", "-readonly", *more, f"file:{quote(path)}?immutable=1"], statements, folder)


def lines_of_damage(path):
    """The lines that tools/damage.sql shows of the file of an office, and what sqlite3 complains of."""
    done = run(["sqlite3", path], (TOOLS / "damage.sql").read_bytes())
    return done.out.decode(errors="replace").splitlines(), done.err.decode()


def numbers_shown(path):
    """The numbers of the checks that tools/damage.sql shows to fail, and what sqlite3 complains of."""
    lines, faults = lines_of_damage(path)
    return {line.partition("|")[0] for line in lines}, faults


def run_script(name, *words):
    """Runs a tool that is a script."""
    return run([str(TOOLS / name), *map(str, words)])


def keeping(bench, what, function, *given):
    """Returns what a function returns, and counts whether each file in the folder of the bench stays the same to the byte."""
    before = bench.contents()
    done = function(*given)
    after = bench.contents()
    changed = [name for name in {**before, **after} if before.get(name) != after.get(name)]
    bench.same(f"the files that {what} has changed", changed, [])
    return done


def report(bench, name, path, has_names=False):
    """Returns what a tool reports of an office. It has to succeed, and to change no file."""
    done = keeping(bench, name, run_tool, name, path, ROOT, has_names)
    bench.same(f"the end of {name}", (done.err, done.status), (b"", 0))
    return done.out.decode()


def records(text):
    """Returns the records of a CSV text after its heading, and the heading."""
    heading, *rows = csv.reader(io.StringIO(text, newline=""))
    return [tuple(row) for row in rows], heading


def refuses(bench, what, done, message):
    """Counts whether a tool prints in one line why it refuses, and reports nothing."""
    said = done.err.decode()
    faults = []
    if done.status == 0 or done.out:
        faults.append(f"it ended with status {done.status}, and printed {done.out[:100]}")
    if not re.search(message, said) or said.count("\n") != 1:
        faults.append(f"it printed {said!r}")
    bench.judge(f"{what} is refused", faults)
