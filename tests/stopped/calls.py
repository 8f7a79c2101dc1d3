"""Each call on the files of an office is stopped in turn: by an error, or by the end of the process.

Those of a checkpoint, which copies the log into the file at the end of a run, and those of an `init` are stopped once
more, to look at what is left beside the file.
"""

import errno
import os
import sqlite3
from collections import Counter
from contextlib import closing

import pytest

from program.bench import Done, beside
from program.cases import cases
from program.offices import SMALL, Office, change

from .shim import ENDED, Stopper
from .stories import REFUSED, init_story, judge_end, judge_office, lay, reading_story, story_named

# More calls than any of these runs makes.
MOST = 5_000

STORIES = ["init", "replay", "replay of version 1", "import", "migrate", "check", "export"]

# Those whose checkpoints fail: they write answers, so that a call after the last of them is recognized.
CHECKPOINTS = [("replay", "once"), ("replay", "ever"), ("import", "ever")]

# An `init` has written a page if the file has more bytes than these, or the log has as many as these: those of a log with one
# page of 512 bytes.
BEGUN, SHORTEST_LOG = 4_096, 568

# A third role, and its place in a set.
THIRD_MEMBER = [b'{"fn":"addRole","role":"guest"}\n', b'{"fn":"addSsdRoleMember","set":"pay","role":"guest"}\n']

# How a change is stopped: by which error, and whether each further one fails as well; or by the end of the process.
CHANGES = [
    (errno.EIO, "once"),
    (errno.EIO, "ever"),
    (errno.ENOSPC, "once"),
    (errno.ENOSPC, "ever"),
    ("exit", "once"),
    ("half", "once"),
]
RARER = [(errno.EIO, "ever"), (errno.ENOSPC, "once"), ("exit", "once")]

FULL = (errno.ENOSPC, "ever")

# Each way of stopping a change, and each other call; a disk that stays full with `--gate` and the rarer ways with `--long` alone.
WAYS = cases(
    [*(("changes", *one) for one in CHANGES if one not in (*RARER, FULL)), ("others", errno.EIO, "once")],
    [*(("changes", *one) for one in RARER), ("others", errno.EIO, "ever")],
    [("changes", *FULL)],
)


@pytest.mark.parametrize("name", STORIES)
@pytest.mark.parametrize("calls, like, how", WAYS)
def check_stop_each(bench, name, calls, like, how):
    """Runs a story with the first call stopped, then the second, and so on, until there are fewer calls.

    Without `--gate` every second call is stopped.
    """
    counts = Counter()
    content, story = story_named(bench, name, beside(bench, "records.csv"))
    stopper = Stopper(bench)
    for number in range(1, MOST, 1 if bench.is_gate or bench.is_long else 2):
        path = lay(bench, content)
        settings = stopper.settings(number, like, calls, how == "ever")
        done = stopper.run(story.words(path), story.given, **settings)
        if stopper.report is None:
            break
        what = f"{name}, call {number} ({stopper.call}) stopped by {like} {how}"
        ended = like in ("exit", "half")
        if ended:
            bench.same(f"{what}: the status", done.status, ENDED)
        else:
            judge_end(bench, what, story, done, stopper.answers if calls == "changes" and story.answers else None)
        place = judge_office(bench, what, story, path, story.allowed(done))
        counts[f"{calls}, {'ended' if ended else 'failed'}"] += 1
        counts[f"{calls}, status {done.status}"] += 1
        if place is not None and len(story.states) > 1 and place > story.answered(done):
            counts[f"{calls}, one more"] += 1
    bench.same(f"{name}: an undisturbed run", (done.status, number > 1, number < MOST), (0, True, True))
    return counts


@pytest.mark.parametrize("name, how", CHECKPOINTS)
def check_fail_checkpoint(bench, name, how):
    """Runs a story in which a call on the file itself fails after the last answer, in the checkpoint.

    All was answered by then: the run succeeds, the log stays beside the file, and the next run finds all of it.
    """
    content, story = story_named(bench, name, beside(bench, "records.csv"))
    stopper, failed = Stopper(bench), []
    for number in range(1, MOST):
        path = lay(bench, content)
        done = stopper.run(story.words(path), story.given, **stopper.settings(number, errno.EIO, ever=how == "ever"))
        if stopper.report is None:
            break
        if stopper.answers < len(story.answers) or not stopper.call.endswith(" office"):
            continue
        what = f"{name}, the checkpoint stopped at {stopper.call} {how}"
        bench.same(f"{what}: what it prints", done, Done(b"".join(story.answers), b"", 0))
        bench.same(f"{what}: which files are left", sorted(os.listdir(bench.folder)), ["office", "office-wal"])
        judge_office(bench, what, story, path, [len(story.states) - 1])
        failed.append(stopper.call.split()[0])
    bench.same(f"{name}: which calls failed", sorted(set(failed)), ["fdatasync", "ftruncate", "pwrite"])
    return {"checkpoints that failed": len(failed)}


@pytest.mark.parametrize("before, how", [(None, "once"), (b"", "ever")])
def check_refuse_making(bench, before, how):
    """An `init` whose call fails before a page was written leaves what was there: nothing, or an empty file.

    If one of the first syncs fails, an empty log stays beside it.
    """
    stopper, undone, begun = Stopper(bench), 0, 0
    for number in range(1, MOST):
        path = lay(bench, before)
        done = stopper.run(["init", path], **stopper.settings(number, errno.EIO, ever=how == "ever"))
        if stopper.report is None:
            break
        left = {name: content for name, content in bench.contents().items() if (name, content) != ("office-wal", b"")}
        if done.status == 0 or len(left.get("office", b"")) > BEGUN or len(left.get("office-wal", b"")) >= SHORTEST_LOG:
            begun += 1
            continue
        what = f"init over {before}, call {number} ({stopper.call}) stopped {how}"
        bench.same(f"{what}: what it prints", done, Done(b"", REFUSED, 1))
        bench.same(f"{what}: what is left", left, {} if before is None else {"office": before})
        undone += 1
    bench.same(f"init over {before}: some were undone, some had begun", (undone > 0, begun > 0), (True, True))
    return {"makings that were undone": undone}


def check_office_in_its_log(bench):
    """An office is opened whose pages are all in its log, beside a file of one byte, which alone would be a new database.

    The log is that of an `init` that is ended while it copies it into the file. SQLite itself would read the file alone.
    """
    stopper, story, opened = Stopper(bench), init_story(), 0
    for number in range(1, MOST):
        path = lay(bench, None)
        stopper.run(["init", path], **stopper.settings(number, "exit"))
        if stopper.report is None:
            break
        left = bench.contents()
        if stopper.call != "pwrite office" or len(left["office-wal"]) <= BEGUN:
            continue
        bench.write("office", left["office"][:1])
        what = f"an office in its log, when call {number} was the last"
        bench.same(f"{what}: check", bench.run(["check", path]), Done(b"good\n", b"", 0))
        judge_office(bench, what, story, path, [1])
        opened += 1
    bench.same("there were such offices", opened > 0, True)
    return {"offices in their logs": opened}


def small_log(bench):
    """An office with the smallest pages, of which one is in the log alone: the files, and the model's state.

    The set `pay` has three members, and the row of its cardinality is the only one in the page that SQLite changed.
    """
    office = Office(bench)
    office.replay([*SMALL, *THIRD_MEMBER])
    change(office.path, ["PRAGMA journal_mode = DELETE", "PRAGMA page_size = 512", "VACUUM"])
    with closing(sqlite3.connect(office.path, isolation_level=None)) as base:
        base.execute("PRAGMA journal_mode = WAL")
        base.execute("PRAGMA wal_autocheckpoint = 0")
        base.execute("UPDATE set_row SET n = 3 WHERE name = 'pay'")
        files = {name: content for name, content in bench.contents().items() if not name.endswith("-shm")}
    office.model.answer(b'{"fn":"setSsdSetCardinality","set":"pay","cardinality":3}')
    bench.same("the bytes of a log with one of the smallest pages", len(files["office-wal"]), SHORTEST_LOG)
    return files, office.model.state


@pytest.mark.parametrize("calls, how", [("changes", "once"), ("others", "once"), ("others", "ever")])
def check_keep_small_log(bench, calls, how):
    """An opening of which a call fails loses nothing of a log with one small page."""
    files, state = small_log(bench)
    stopper, story, refused = Stopper(bench), reading_story("check", state), 0
    for number in range(1, MOST):
        path = lay(bench, files["office"])
        bench.write("office-wal", files["office-wal"])
        done = stopper.run(story.words(path), **stopper.settings(number, errno.EIO, calls, how == "ever"))
        if stopper.report is None:
            break
        what = f"check beside a small log, call {number} ({stopper.call}) stopped {how}"
        judge_end(bench, what, story, done)
        judge_office(bench, what, story, path, [0])
        refused += done.status == 1
    bench.same("an undisturbed run", (done.status, refused > 0, number < MOST), (0, True, True))
    return {"openings beside a small log that failed": refused}


@pytest.mark.parametrize("name", STORIES)
@pytest.mark.parametrize("most", [1_000, 7])
def check_write_short(bench, name, most):
    """Runs a story in which no write accepts more than `most` bytes: it is done as usual."""
    content, story = story_named(bench, name, beside(bench, "records.csv"))
    stopper = Stopper(bench)
    path = lay(bench, content)
    done = stopper.run(story.words(path), story.given, STOP_UNDER=bench.folder, STOP_SHORT=most)
    what = f"{name} with writes of {most} bytes"
    bench.same(f"{what}: the status", (done.status, done.err), (0, b""))
    judge_end(bench, what, story, done)
    judge_office(bench, what, story, path, [len(story.states) - 1])
