"""Wrong fronts, which are built with a tag and have one fault each, and what finds them. With `--long` they are built and run.
One whose office in the process differs from the file finds that itself, and goes on.

Kills under load find those that send before they record, release out of order, or forget answers. A beginning that is too short does no
harm under kills: the tests of the package find it. A missing lock is found by a replay that outlives its front.
"""

import json
import os
import re
import threading

import pytest

from program.bench import PROGRAM as RBAC
from program.bench import SECONDS, Bench

from .program import Front, children, refused_start, until
from .recordkills import Rounds
from .running import PROGRAM, SERVER, TAGS, build, go
from .watching import Follower, all_rows, snapshot, with_digests

SOURCES = SERVER / "internal"
OK = '{"ok":true}'

# How many rounds of kills a wrong front gets.
ROUNDS = 60

# The faults, by their names in the sources.
FAULTS = dict(re.findall(r'^\t(\w+) = "(.+)"$', (SOURCES / "faults/faults.go").read_text(encoding="utf-8"), re.M))

# The one that a front finds itself.
DIFFERS = "AnswersOtherwise"

# What health says then, and how often the front is made to differ at most until it is asked in one of the pauses, which grow.
WHY, MOST = "the office in this process isn't that of its file, which is read again", 6

# The variable that names the fault of a front that can have one.
FAULT = "RBAC_NODE_FAULT"


def is_found_by_kills(folder):
    """Whether kills find something within some rounds."""
    folder.mkdir()
    inner = Bench(folder)
    rounds = Rounds(inner, 40)
    try:
        for _ in range(ROUNDS // 5):
            rounds.run(5)
            if inner.faults:
                return True
    except (RuntimeError, TimeoutError):
        return True  # It doesn't start any more.
    finally:
        if rounds.front.process and rounds.front.process.poll() is None:
            rounds.front.kill()
    return False


def is_found_by_late_replay(bench, name):
    """Whether a front looks at the office although the replay of the one before still has it. A right one waits for the lock."""
    program = bench.write(f"{name}-program", f'#!/bin/sh\nexec 9<&0\n{RBAC} "$@" <&9 9<&- &\nwait $!\n'.encode())
    os.chmod(program, 0o700)
    front = Front(bench, name=name)
    words = front.words()
    words[words.index("--program") + 1] = program
    front.words = lambda: words
    with front:
        bench.same("a command", front.ask("addUser", {"user": "ann"})[1], OK)
        # The shell ends with its front. The program doesn't, as long as its input is open.
        (replay,) = [process for shell in front.replays() for process in children(shell)]
        held = os.open(f"/proc/{replay}/fd/0", os.O_WRONLY)
        front.kill()
        status, _, said = refused_start(*words)
        os.close(held)
    bench.same("a second front doesn't start", status, 1)
    return "which another front has" not in said


def check_late_replay(bench):
    """A front waits as long as the replay of an earlier one has the office."""
    bench.same("it looks at the office", is_found_by_late_replay(bench, "late"), False)


def check_places(bench):
    """Each fault has a place in the sources, and a program that isn't built for it has none of them."""
    texts = [path.read_text(encoding="utf-8") for path in SOURCES.rglob("*.go") if path.parent.name != "faults"]
    for name in FAULTS:
        bench.same(f"{name} has a place", any(f"faults.Has(faults.{name})" in text for text in texts), True)
    with open(os.environ[PROGRAM], "rb") as file:
        bench.same("the program that is tried can have one", FAULT.encode() in file.read(), False)


@pytest.mark.long
@pytest.mark.timeout(1_800)
@pytest.mark.parametrize("name", [name for name in FAULTS if name != DIFFERS])
def check_wrong_front(bench, name, monkeypatch):
    """A front with a fault is found."""
    monkeypatch.setenv(FAULT, FAULTS[name])
    if name == "ShortestBeginning":
        said, status = go("go", "test", "-count=1", f"-tags={TAGS},faults", "-run=TestBefore", "./internal/record", RBAC_PROGRAM=RBAC)
        bench.same("its tests fail", (status, "TestBefore" in said), (1, True))
        return
    monkeypatch.setenv("NODE_TAGS", "faults")
    monkeypatch.setenv(PROGRAM, build(bench.folder))
    found = is_found_by_late_replay(bench, "unlocked") if name == "Unlocked" else is_found_by_kills(bench.folder / "rounds")
    bench.same("it is found", found, True)


def differ(front):
    """Has the office in the process differ from the file at least twice, until health says so. Returns the users that this adds."""
    users, is_said = [], False
    while len(users) < 2 or not is_said:
        if len(users) == MOST:
            raise RuntimeError("health never says why nothing is answered")
        users.append(f"odd{len(users)}")
        answer = front.ask("addUser", {"user": users[-1]})
        asked = front.ask("assignedRoles", {"user": users[-1]})[0]
        status, health = front.exchange("GET", "/healthz")
        if answer != (200, OK):
            raise RuntimeError(f"{users[-1]}: {answer}")
        is_said = is_said or asked == status == 503 and json.loads(health)["why"].startswith(WHY)
        until(lambda: front.exchange("GET", "/healthz")[0] == 200, "the front answers again")
    return users


@pytest.mark.gate
def check_other_answers(bench, monkeypatch):
    """A front whose office differs from the file reads the file again, in the same process. Meanwhile it answers nothing and says why, then
    it answers what the file has, and followers go on with a new copy."""
    monkeypatch.setenv("NODE_TAGS", "faults")
    monkeypatch.setenv(PROGRAM, build(bench.folder))
    stop = threading.Event()
    with Front(bench, environment={**os.environ, FAULT: FAULTS[DIFFERS]}) as front:
        replays = front.replays()
        follower = Follower(bench, front, 0, stop)
        follower.start()
        until(lambda: follower.at >= 0, "the follower has a copy")
        users = differ(front)
        bench.same("a replay of before", set(replays) & set(front.replays()), set())
        for user in users:
            bench.same(f"the roles of {user}", front.ask("assignedRoles", {"user": user}), (200, '{"ok":true,"value":[]}'))
        bench.same("a command", front.ask("addUser", {"user": "ann"}), (200, OK))
        count = re.search(r"^rbac_node_office_differed_total (\d+)$", front.exchange("GET", "/metrics")[1], re.M)
        bench.same("how often it differed", count and int(count[1]), len(users))
        follower.last = snapshot(front)[1]
        stop.set()
        follower.join(SECONDS)
        bench.same("the follower has ended", follower.is_alive(), False)
        bench.same("the end of the same process", front.end(), 0)
        bench.same("what it logs", front.said().count("the office in this process isn't that of the file"), len(users))
    bench.judge("the follower", follower.faults[:3])
    bench.same("it has got a new copy", follower.counts["snapshots"] > 1, True)
    bench.same("the rows of the follower", follower.rows() == with_digests(all_rows(front.office)), True)
