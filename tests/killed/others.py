"""`init`, `import` and `migrate` are killed at moments spread over their time: the tables are those before or after."""

import subprocess
import time
from collections import Counter
from math import sqrt

import pytest

from program.bench import PROGRAM, SECONDS, Done, beside
from program.offices import Office
from stopped.stories import import_story, init_story, judge_office, lay, migrate_story

# How often each of these runs is killed, and with `--long`; at moments that are spread over its time and a fifth more, the
# closer to each other the later they are.
KILLS, MORE_KILLS = 40, 1_000
SPREAD = 1.2

# The users, and the roles, of an office for an import and for a migration, with each pair of them.
NAMES = 40


def kill_after(words, seconds):
    """Runs the program, kills it after this time, and returns what it had printed by then."""
    with subprocess.Popen([PROGRAM, *words], stdout=subprocess.PIPE, stderr=subprocess.PIPE) as process:
        time.sleep(seconds)
        process.kill()
        out, err = process.communicate(timeout=SECONDS)
    return Done(out, err, process.returncode)


def large_office(bench):
    """An office with users and roles and no assignment, and the path of records that assign each role to each user."""
    office = Office(bench, "office")
    names = [b'{"fn":"addUser","user":"u%d"}\n{"fn":"addRole","role":"r%d"}\n' % (one, one) for one in range(NAMES)]
    office.replay(names)
    records = beside(bench, "records.csv")
    with open(records, "w", encoding="utf-8") as file:
        file.write("user,role\n")
        file.writelines(f"u{user},r{role}\n" for user in range(NAMES) for role in range(NAMES))
    return office, records


def story_of(bench, word):
    """The bytes of the office before the run of this subcommand, and its story."""
    if word == "init":
        return None, init_story()
    office, records = large_office(bench)
    if word == "migrate":
        bench.run(["import", office.path, records])
        office.model.state = import_story(office.model.state, records).states[1]
        office.become_version_1()
    with open(office.path, "rb") as file:
        content = file.read()
    state = office.model.state
    return content, migrate_story(state) if word == "migrate" else import_story(state, records)


def seconds_of(bench, content, story):
    """How long the run takes if it is not killed; the shortest of three."""
    found = []
    for _ in range(3):
        path = lay(bench, content)
        start = time.monotonic()
        bench.same(f"{story.word}: not killed", bench.run(story.words(path)).status, 0)
        found.append(time.monotonic() - start)
    return min(found)


@pytest.mark.parametrize("word", ["init", "import", "migrate"])
def check_kills(bench, word):
    """Kills a run at moments that are spread evenly, and compares the office with the states before and after."""
    kills = MORE_KILLS if bench.is_long else KILLS
    content, story = story_of(bench, word)
    seconds, counts = seconds_of(bench, content, story), Counter()
    for number in range(kills):
        path = lay(bench, content)
        done = kill_after(story.words(path), seconds * SPREAD * sqrt(number / kills))
        place = judge_office(bench, f"{word}, kill {number}: {done}", story, path, story.allowed(done))
        counts[f"kills of {word}"] += done.status == -9
        counts[f"kills of {word} that found the state after it"] += done.status == -9 and place == 1
    return counts
