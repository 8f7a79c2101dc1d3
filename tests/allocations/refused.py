"""Fails the allocations of the program in turn: of each subcommand over an office in a file, of a server, and of each row.

`refuse.c` is loaded into the program and fails one allocation a run. A run ends with all of its
output, or with status 1 and one line (40, 41, `stop Memory after K` or `stop Store after K`) after a prefix of its
answers; a request gets its reply, 503, 500 or nothing. An office in a file is then the one before or after, and the same run
without a failure completes the rest. If a run makes more allocations than are tried, those that are tried are spread evenly.
Of three rows in memory each allocation is tried.
"""

import os
import re
from collections import Counter

import pytest

from machine.replaying import Replay
from machine.state import State
from program.bench import TESTS, Done, beside
from program.offices import STORE, Office
from program.web import reply
from stopped.serving import replies_of, reply_of, request_of
from stopped.shim import Shim
from stopped.stories import LINES, REFUSED, judge_office, lay, replay_story, small_office, story_named

STORIES = ["init", "replay", "import", "export", "report", "check", "migrate"]

ROWS = [
    str(path.relative_to(TESTS))
    for path in sorted((TESTS / "rows").rglob("*.jsonl"))
    if path.parent.name != "version-1"
]

# How many parts share the allocations of a subcommand or a server. The most allocations that all parts try, and the most
# of a row: over an office in memory, and over one in a file of those by which it is opened, which are the same for each
# row, and of those after that; then the same with `--gate`, and with `--long`.
PARTS = 4
TRIED = {"subcommand": 80, "memory": 6, "opening": 1, "file": 2}
GATE_TRIED = {"subcommand": 240, "memory": 16, "opening": 2, "file": 6}
MORE_TRIED = {"subcommand": 20_000, "memory": 10_000, "opening": 8, "file": 10_000}

# The rows of which each allocation is tried, over an office in memory.
WHOLE_ROWS = ["rows/first-run.jsonl", "rows/access.jsonl", "rows/bad-requests.jsonl"]

# Longer rows are for `--long` only, and this many allocations of each are tried.
LONG_ROW = 5_000
OF_LONG_ROW = 16

# More allocations than any of these runs makes.
MOST = 1 << 20

MEMORY = b'{"code":40,"error":"Memory"}'
NO_MEMORY = b"rbac: " + MEMORY + b"\n"
STOP = re.compile(rb"rbac: stop (Memory|Store) after (\d+)\n")

# What else a server prints if one of its allocations failed.
SERVER_LINES = [b"rbac: cannot listen\n", b"rbac: cannot accept\n", b"rbac: closed\n"]


def most_of(bench, kind):
    """The most allocations that are tried of one kind."""
    return (MORE_TRIED if bench.is_long else GATE_TRIED if bench.is_gate else TRIED)[kind]


def size_of(row):
    """The bytes of a row."""
    return (TESTS / row).stat().st_size


def long_rows(rows):
    """These rows as parameters, the longer ones for `--long` only."""
    for row in rows:
        yield pytest.param(row, marks=[pytest.mark.long] if size_of(row) > LONG_ROW else [])


def rows_over_file():
    """The rows that are replayed to their ends: all without a file for another status."""
    yield from long_rows(row for row in ROWS if not (TESTS / row).with_suffix(".status").exists())


def rows_in_memory():
    """The rows, each as one check, or several of those of which each allocation is tried."""
    for param in long_rows(ROWS):
        parts = PARTS if param.values[0] in WHOLE_ROWS else 1
        for part in range(parts):
            yield pytest.param(param.values[0], part, parts, marks=param.marks)


class Refuser(Shim):
    """The shim that refuses an allocation."""

    def __init__(self, bench):
        super().__init__(bench, "refuse.c")

    def settings(self, number):
        """The settings by which the allocation of this number is refused."""
        return {"REFUSE": number, "REFUSED": self.file}

    def counting(self):
        """The settings by which allocations are counted, and none is refused."""
        return {"COUNTED": self.file}

    def counted(self):
        """How many allocations the last run made, which counted them."""
        return int(self.ask() or 0)


def tried(count, most, part=0, parts=1):
    """The allocations that a part tries of this count: all parts try each, or as many as they may, spread evenly."""
    most = min(count, most)
    spread = [number * count // most + 1 for number in range(most)]
    return spread[part::parts]


def faults_of_replay(whole, done):
    """Returns what is wrong with a replay in which an allocation failed, and which has not printed all of this."""
    count = done.out.count(b"\n")
    faults = [] if whole.startswith(done.out) else [f"other answers: {done.out[-200:]!r}"]
    if done.out and not done.out.endswith(b"\n"):
        faults.append(f"an answer is truncated: {done.out[-80:]!r}")
    found = STOP.fullmatch(done.err)
    if done.status != 1:
        faults.append(f"the status is {done.status}, and standard error is {done.err[-200:]!r}")
    elif found and int(found[2]) != count:
        faults.append(f"{count} answers, and {done.err!r}")
    elif not found and (done.err not in (NO_MEMORY, REFUSED) or count > 0):
        faults.append(f"{count} answers, and {done.err!r}")
    return faults


def judge(bench, what, story, done):
    """Counts whether a run in which an allocation failed prints what it may print."""
    whole, faults = b"".join(story.answers), []
    is_refusal = done.status == 1 and done.err in (NO_MEMORY, REFUSED) and whole.startswith(done.out)
    if done != Done(whole, b"", 0):
        faults = faults_of_replay(whole, done) if story.word == "replay" else [] if is_refusal else [str(done)]
    bench.judge(f"{what}: what it prints", faults)


def allowed(story, done):
    """Returns the places of the states that are allowed: only the one before the run, if the opening of a replay was refused."""
    if story.word == "replay" and done.status == 1 and done.err in (NO_MEMORY, REFUSED):
        return range(1)
    return story.allowed(done)


def refuse_over_file(bench, name, content, story, numbers):
    """Runs a story with one allocation failing, for each number that `numbers` returns for the count of allocations."""
    refuser, counts = Refuser(bench), Counter()

    def run(settings):
        path = lay(bench, content)
        return path, refuser.run(story.words(path), story.given, **settings)

    run(refuser.counting())
    count = refuser.counted()
    for number in numbers(count):
        path, done = run(refuser.settings(number))
        what = f"{name}, allocation {number} of {count} refused"
        bench.same(f"{what}: it was asked for", refuser.report, "")
        judge(bench, what, story, done)
        counts[f"{story.word}: ended with {end_of(done)}"] += 1
        counts["runs that left a log beside the file"] += os.path.exists(f"{path}-wal")
        counts["allocations refused over a file"] += 1
        judge_office(bench, what, story, path, allowed(story, done))
    return counts


def end_of(done):
    """How an end is counted: the line on standard error without its number."""
    return re.sub(r" after \d+", "", done.err.decode().strip()) or "status 0"


@pytest.mark.parametrize("part", range(PARTS))
@pytest.mark.parametrize("name", STORIES)
def check_refuse_subcommand(bench, name, part):
    """Refuses a part of the allocations of a subcommand over a small office."""
    content, story = story_named(bench, name, beside(bench, "records.csv"))
    return refuse_over_file(bench, name, content, story, lambda count: tried(count, most_of(bench, "subcommand"), part, PARTS))


# How many allocations the opening of an office makes, by what its file holds.
of_openings = {}


def allocations_of_opening(bench, content):
    """How many allocations a replay makes until the office is opened: a failure of a later one is reported as a stop."""
    if content not in of_openings:
        refuser = Refuser(bench)
        refuser.run(["replay", lay(bench, content)], **refuser.counting())
        least, above = 0, refuser.counted() + 1
        while above - least > 1:
            middle = (least + above) // 2
            done = refuser.run(["replay", lay(bench, content)], **refuser.settings(middle))
            is_of_opening = done.status == 1 and done.err in (NO_MEMORY, REFUSED)
            least, above = (middle, above) if is_of_opening else (least, middle)
        of_openings[content] = least
    return of_openings[content]


@pytest.mark.parametrize("row", rows_over_file())
def check_refuse_row_over_file(bench, row):
    """Refuses allocations of a replay of a row over a new office in a file: of those that open it, and of later ones."""
    office, model, lines = Office(bench, "office"), Replay(), []
    for line in re.findall(rb"[^\n]*\n|[^\n]+", (TESTS / row).read_bytes()):
        if list(model.answers(line)):
            lines.append(line)
    is_short = size_of(row) <= LONG_ROW
    of_opening, most = (most_of(bench, "opening"), most_of(bench, "file")) if is_short else (0, OF_LONG_ROW)
    with open(office.path, "rb") as file:
        content = file.read()
    opening = allocations_of_opening(bench, content)

    def numbers(count):
        return [*tried(opening, of_opening), *(opening + number for number in tried(count - opening, most))]

    counts = refuse_over_file(bench, row, content, replay_story(State(), lines), numbers)
    counts["allocations of openings in rows over a file"] += min(opening, of_opening)
    return counts


@pytest.mark.parametrize("row, part, parts", rows_in_memory())
def check_refuse_row_in_memory(bench, row, part, parts):
    """Refuses a part of the allocations of a replay of a row over an office in memory."""
    refuser, model, counts, noticed = Refuser(bench), Replay(), Counter(), 0
    given = (TESTS / row).read_bytes()
    most = MOST if row in WHOLE_ROWS else most_of(bench, "memory") if size_of(row) <= LONG_ROW else OF_LONG_ROW
    whole = Done(b"".join(model.answers(given)), model.message(), 1 if model.stop else 0)

    def run(settings):
        return refuser.run(["replay", "--memory"], given, **settings)

    # A pipe splits a long input into other pieces from run to run, and that makes some allocations more or fewer.
    bench.same(f"{row} in memory, nothing refused", run(refuser.counting()), whole)
    count = refuser.counted()
    for number in tried(count, most, part, parts):
        done = run(refuser.settings(number))
        what = f"{row} in memory, allocation {number} of {count} refused"
        bench.same(f"{what}: it was asked for", refuser.report, "")
        faults = [] if done == whole else faults_of_replay(whole.out, done)
        bench.judge(f"{what}: what it prints", faults)
        counts[f"replay --memory: ended with {end_of(done)}"] += 1
        counts["allocations refused in memory"] += 1
        noticed += done != whole
    bench.judge(f"{row} in memory: failed allocations are noticed", [] if noticed else ["each run continued"])
    return counts


def judge_server(bench, what, wanted, replies, done):
    """Counts whether a server in which an allocation failed replies and ends as it may. Returns the states that are allowed."""
    lines = [NO_MEMORY, REFUSED, *SERVER_LINES]
    if replies == wanted:
        good, places = done == Done(b"", b"", 0), [1]
    elif replies == [reply(503, MEMORY)]:
        good, places = done == Done(b"", b"", 0), [0]
    elif replies == [reply(500, STORE)]:
        good, places = done == Done(b"", b"rbac: closed\n", 1), [0, 1]
    elif replies == [b""]:
        good, places = done == Done(b"", b"", 0) or (done.status == 1 and done.err in lines), [0, 1]
    else:
        good, places = replies == [] and done.status == 1 and done.err in lines, [0]
    bench.judge(f"{what}: what it replies", [] if good else [f"{replies} and {done}"])
    return places


@pytest.mark.parametrize("part", range(PARTS))
def check_refuse_server(bench, part):
    """Serves one request with one allocation failing, for a part of the allocations that the server makes."""
    content, state = small_office(bench)
    story = replay_story(state, LINES[:1])
    requests, wanted = [request_of(line) for line in story.lines], [reply_of(answer) for answer in story.answers]
    refuser, counts = Refuser(bench), Counter()

    def run(settings):
        path = lay(bench, content)
        refuser.forget()
        found = replies_of(bench, path, requests, refuser.environment(settings))
        refuser.ask()
        return path, *found

    run(refuser.counting())
    count = refuser.counted()
    for number in tried(count, most_of(bench, "subcommand"), part, PARTS):
        path, replies, done = run(refuser.settings(number))
        what = f"serve, allocation {number} of {count} refused"
        bench.same(f"{what}: it was asked for", refuser.report, "")
        places = judge_server(bench, what, wanted, replies, done)
        statuses = " ".join(one[9:12].decode() or "nothing" for one in replies)
        counts[f"serve: replied {statuses}, ended with {done.err.decode().strip() or 'status 0'}"] += 1
        judge_office(bench, what, story, path, places)
        counts["allocations refused to a server"] += 1
    return counts
