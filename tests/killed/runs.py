"""Offices that go from run to run, each a replay of random lines that crashes: killed right after one of its answers, as it
opens or closes, or ended in place of a random write, sync or truncation, or amid a write (stop.c).

A third of the offices are of version 1 at first and are migrated half-way, by runs that are killed too.
"""

import random
import subprocess
import time
from collections import Counter

import pytest

from machine.assignments import read_assignments
from machine.drawing import Draws
from program.bench import PROGRAM, SECONDS, Done
from program.kills import is_left_with
from program.offices import Office, read_rows
from stopped.shim import ENDED, Stopper
from stopped.stories import migrate_story, place_of, replay_story

from .others import kill_after

# By how their runs end: how many offices there are, how many runs each has, and how many lines a run has at most. First
# without `--long`, then with it.
OFFICES = {"kill": (12, 45, 130), "write": (6, 20, 60)}
MORE_OFFICES = {"kill": (100, 50, 130), "write": (200, 50, 60)}

# Of OLD offices one is of version 1 at first. After half of its runs it is migrated to version 2, by MIGRATIONS runs that
# are killed and then by one that is not.
OLD = 3
MIGRATIONS = 5

# The most milliseconds from the last line of a replay to its kill, and from the start of a migration. One in OPEN_ENDED
# replays is given the end of its input before it is killed.
MILLISECONDS = 0.6
MIGRATING = 25
OPEN_ENDED = 12

# About how many writes, syncs and truncations a line makes at most.
CHANGES = 3


class Removed:
    """The assignments and grants that lines have removed so far, and not added again."""

    def __init__(self):
        self.assignments = frozenset()
        self.grants = frozenset()

    def follow(self, before, after):
        """Follows one line, which led from one state to the next."""
        self.assignments = (self.assignments | before.assignments) - after.assignments
        self.grants = (self.grants | before.grants) - after.grants

    def check_absent(self, bench, path):
        """Counts whether none of them is in the tables, or in the export of the program."""
        rows = read_rows(path)
        assigned = {(user, role) for kind, user, role in rows["pair_row"] if kind == 2}
        bench.same("assignments that are back", self.assignments & assigned, frozenset())
        bench.same("grants that are back", self.grants & set(rows["grant_row"]), frozenset())
        exported = set(read_assignments(bench.run(["export", path]).out))
        bench.same("assignments that are back in the export", self.assignments & exported, frozenset())


class ByKill:
    """A run that is killed at a random moment: right after one of its answers, or as it opens or closes."""

    status = -9

    def __init__(self, bench):
        self.bench = bench

    def end(self, path, story, draws):
        """Replays the lines, kills the replay, and returns what it had printed by then.

        A random number of lines is answered first. Then the replay gets the others at once, and is killed amid these.
        """
        behind = draws.randrange(len(story.lines) + 1)
        with subprocess.Popen(
            [PROGRAM, "replay", path], stdin=subprocess.PIPE, stdout=subprocess.PIPE, stderr=subprocess.PIPE
        ) as process:
            process.stdin.write(b"".join(story.lines[:behind]))
            process.stdin.flush()
            answers = [process.stdout.readline() for _ in range(behind)]
            process.stdin.write(b"".join(story.lines[behind:]))
            process.stdin.flush()
            if draws.randrange(OPEN_ENDED) == 0:
                process.stdin.close()
            time.sleep(draws.uniform(0, MILLISECONDS) / 1_000)
            process.kill()
            out, err = process.stdout.read(), process.stderr.read()
            status = process.wait(SECONDS)
        return Done(b"".join(answers) + out, err, status)


class AtWrite:
    """A run that crashes in place of a random write, sync or truncation, or amid a write."""

    status = ENDED

    def __init__(self, bench):
        self.stopper = Stopper(bench)

    def end(self, path, story, draws):
        """Replays the lines until the process crashes, and returns what it had printed by then."""
        number = draws.randrange(CHANGES * len(story.lines) + 1) + 1
        settings = self.stopper.settings(number, draws.choice(["exit", "half"]))
        return self.stopper.run(story.words(path), story.given, **settings)


WAYS = {"kill": ByKill, "write": AtWrite}


def random_story(draws, state, moments, lines):
    """Returns a replay of at least one random line over an office with this state."""
    draws.replay.state = state
    drawn = [draws.draw() for _ in range(moments.randrange(lines) + 1)]
    story = replay_story(state, [line + b"\n" for _, line, answer in drawn if answer])
    return story if story.lines else random_story(draws, state, moments, lines)


def one_run(bench, path, story, way, moments, removed):
    """One run: a replay that ends too early. Returns the state that is found, and the counts of the run."""
    done = way.end(path, story, moments)
    count = done.out.count(b"\n")
    bench.same("the answers", done.out, b"".join(story.answers[:count]))
    bench.same("the end", (done.err, done.status in (0, way.status)), (b"", True))
    place = place_of(bench, "after the end", story, path, range(count, min(count + 2, len(story.states))))
    if place is None:
        raise AssertionError(f"no state is found after {count} answers")
    for before, after in zip(story.states[:place], story.states[1 : place + 1]):
        removed.follow(before, after)
    is_left_with(bench, path, story.states[place])
    removed.check_absent(bench, path)
    ended = done.status == way.status
    found = {
        "runs": True,
        "runs that ended too early": ended,
        "runs that ended before all lines were answered": ended and count < len(story.lines),
        "runs that ended behind the first answer and before the last": ended and 0 < count < len(story.lines),
        "runs that left one line more than was answered": ended and place > count,
    }
    return story.states[place], Counter({name: int(value) for name, value in found.items()})


def migrate_amid_kills(bench, path, state, moments):
    """Kills the migration of an office to version 2 some times, and then lets it end: the state."""
    counts = Counter()
    for number in range(MIGRATIONS):
        if state.version == 1:
            story = migrate_story(state)
            done = kill_after(story.words(path), moments.uniform(0, MIGRATING) / 1_000)
            place = place_of(bench, f"migrate, kill {number}", story, path, story.allowed(done))
            if place is None:
                raise AssertionError("no state is found after a migrate that was killed")
            state = story.states[place]
            is_left_with(bench, path, state)
            counts["kills of migrate between two runs"] += done.status == -9
    if state.version == 1:
        bench.ends(["migrate", path])
    return state.but(version=2), counts


def offices():
    """The offices of both ways: a few, as many for the gate, and those that are tried with `--long` alone."""
    for way, (most, _, _) in MORE_OFFICES.items():
        for number in range(most):
            few = OFFICES[way][0]
            marks = [pytest.mark.long] if number >= few else [pytest.mark.gate] if number >= few // 2 else []
            yield pytest.param(way, number, marks=marks)


@pytest.mark.parametrize("way, number", offices())
def check_runs(bench, way, number):
    """An office goes from run to run, each of which ends in this way; an old one is of version 1 at first."""
    _, count, lines = (MORE_OFFICES if bench.is_long else OFFICES)[way]
    seed, is_old = 7_000 + number, number % OLD == 0
    office = Office(bench, "office")
    if is_old:
        office.become_version_1()
    state, counts = office.model.state, Counter()
    ending, draws, moments, removed = WAYS[way](bench), Draws(seed), random.Random(seed), Removed()
    for number in range(count):
        if is_old and number == count // 2:
            state, more = migrate_amid_kills(bench, office.path, state, moments)
            counts.update(more)
        story = random_story(draws, state, moments, lines)
        state, more = one_run(bench, office.path, story, ending, moments, removed)
        counts.update({f"{way}: {name}": value for name, value in more.items()})
    gone = len(removed.assignments) + len(removed.grants)
    counts["assignments and grants that were removed and stayed so to the end"] += gone
    return counts
