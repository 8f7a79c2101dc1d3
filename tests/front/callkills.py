"""Commands about a record are killed at each system call that changes something: cut, adopt, backup, verify. After that a start goes on
with the record, verify finds nothing, no entry is missing or there twice, nothing stays stopped, and no copy of the office is left."""

import os
import random
import re
import shutil
import subprocess
from collections import Counter

import pytest

from program.bench import PROGRAM as RBAC
from program.bench import SECONDS

from .program import Front, until
from .recorded import entries, files_with, left_in_memory, path_of, tool, verified
from .running import LONG, PROGRAM

OK = '{"ok":true}'

# The system calls in whose place a command is killed, and how many places of each command are tried without `--long`.
CALLS = "openat,write,pwrite64,fsync,fdatasync,ftruncate,link,linkat,rename,renameat,unlink,unlinkat,mkdir,mkdirat,flock,kill,fchmodat,clone,vfork"
PLACES = 8

WHO = ("--by", "root", "--reason", "ticket 9")


def places_of(words, trace):
    """The places of a command: a system call, and how often a thread has made it by then."""
    done = subprocess.run(
        ["strace", "-f", "-qq", "-o", trace, "-e", f"trace={CALLS}", *words], capture_output=True, text=True, timeout=SECONDS, check=False
    )
    if done.returncode != 0:
        raise RuntimeError(done.stderr)
    counts = Counter()
    with open(trace, encoding="utf-8", errors="replace") as file:
        for line in file:
            if found := re.match(r"(\d+) +(\w+)\(", line):
                counts[found[1], found[2]] += 1
    most = Counter()
    for (_, call), count in counts.items():
        most[call] = max(most[call], count)
    places = [(call, number) for call, count in sorted(most.items()) for number in range(1, count + 1)]
    if os.environ.get(LONG):
        return places
    # Each call is tried once, and then others.
    random.shuffle(places)
    chosen = {call: (call, number) for call, number in places}
    return [*chosen.values(), *[place for place in places if place not in chosen.values()]][: max(PLACES, len(chosen))]


def is_killed(words, call, number):
    """Kills a command at a place, and returns whether it came there."""
    inject = f"inject={call}:signal=KILL:when={number}"
    done = subprocess.run(
        ["strace", "-f", "-qq", "-o", "/dev/null", "-e", f"trace={call}", "-e", inject, *words],
        capture_output=True, timeout=2 * SECONDS, check=False,
    )  # fmt: skip
    return done.returncode != 0


def command(name, front, *more):
    """The words of a command about a record."""
    names = ["backup"] if name == "backup" else ["record", name]
    return [os.environ[PROGRAM], *names, "--program", RBAC, "--office", front.office, *more]


class Kept:
    """An office and its record as they were, which each kill begins with."""

    def __init__(self, bench, front):
        self.front, self.folder = front, bench.path("as it was")
        os.mkdir(self.folder)
        shutil.copy(front.office, f"{self.folder}/office")
        shutil.copytree(f"{front.office}.record", f"{self.folder}/office.record")

    def put(self):
        """Puts them back."""
        for name in (f"{self.front.office}-wal", f"{self.front.office}-shm"):
            if os.path.exists(name):
                os.remove(name)
        shutil.copy(f"{self.folder}/office", self.front.office)
        shutil.rmtree(f"{self.front.office}.record")
        shutil.copytree(f"{self.folder}/office.record", f"{self.front.office}.record")


def filled(bench):
    """A front that has ended, with a record."""
    front = Front(bench)
    with front:
        for user in "abcde":
            front.ask("addUser", {"user": user})
        bench.same("the end", front.end(), 0)
    return front


def goes_on(bench, what, front, before):
    """Counts whether a front starts over what a kill has left, has all entries once, and verify finds nothing."""
    with front:
        bench.same(f"{what}: a command", front.ask("addRole", {"role": "clerk"})[1], OK)
        bench.same(f"{what}: the end", front.end(), 0)
    verified(bench, what, front.office)
    bench.same(f"{what}: the next cut", tool("record", "cut", "--office", front.office)[0], 0)
    verified(bench, f"{what}, and the next cut", front.office)
    shown = [line.split("\t") for line in tool("record", "show", "--office", front.office)[1].splitlines()]
    bench.same(f"{what}: the numbers", [int(line[0]) for line in shown], list(range(1, len(shown) + 1)))
    bench.same(f"{what}: the entries", [line[4] for line in shown if '"fn":"addUser"' in line[4]], before)
    left = [name for name in os.listdir(f"{front.office}.record") if name.startswith(("scratch-", "record.db.making"))]
    bench.same(f"{what}: what is left", left, [])


@pytest.mark.slow
@pytest.mark.needs("strace")
@pytest.mark.parametrize("name", ["cut", "adopt"])
def check_killed(bench, name):
    """A cut, or an adoption, is killed at any place. The next start goes on, once the adoption was done again if it has to be."""
    front, more = filled(bench), WHO if name == "adopt" else ()
    before = [entry.request for entry in entries(front.office) if '"fn"' in entry.request]
    if name == "adopt":
        subprocess.run([RBAC, "replay", front.office], input=b'{"fn":"addRole","role":"behind"}\n', check=True, capture_output=True)
    kept, counts = Kept(bench, front), Counter()
    words = command(name, front, *more)
    for call, number in places_of(words, bench.path("trace")):
        kept.put()
        what = f"{name} killed at {call} {number}"
        counts["kills" if is_killed(words, call, number) else "ends"] += 1
        if name == "adopt":
            status, _, said = tool("record", "adopt", "--office", front.office, *WHO)
            bench.judge(f"{what}: adopt again", [] if status == 0 or "nothing to adopt" in said else [said])
        goes_on(bench, what, front, before)
    bench.same("some were killed", counts["kills"] > 0, True)
    return {f"record: {what} of {name} at system calls": count for what, count in counts.items()}


@pytest.mark.slow
@pytest.mark.needs("strace")
def check_killed_backup(bench):
    """A backup is killed at any place beside a front, which goes on. The next backup is good."""
    folder, counts = bench.path("backups"), Counter()
    os.mkdir(folder)
    front = Front(bench)
    with front:
        for user in "abcde":
            front.ask("addUser", {"user": user})
        words = command("backup", front, folder)
        for call, number in places_of(words, bench.path("trace")):
            what = f"backup killed at {call} {number}"
            counts["kills" if is_killed(words, call, number) else "ends"] += 1
            user = {"user": f"{call} {number}"}
            until(lambda user=user: front.ask("addUser", user)[0] in (200, 409), f"{what}: the front goes on")
            status, out, said = tool("backup", "--office", front.office, folder)
            bench.same(f"{what}: the next one", (status, said), (0, ""))
            verified(bench, what, f"{out.strip()}/office")
            left = [name for name in os.listdir(folder) if name.startswith(".")]
            bench.same(f"{what}: what is left", left, [])
        bench.same("the end", front.end(), 0)
    verified(bench, "the front's own record", front.office)
    bench.same("some were killed", counts["kills"] > 0, True)
    return {f"record: {what} of backup at system calls": count for what, count in counts.items()}


# The name of a session, which is found nowhere by chance.
SECRET = "session-that-nobody-may-see"


@pytest.mark.slow
@pytest.mark.needs("strace")
def check_killed_verify(bench):
    """A verify is killed at any place. It leaves no name of a session anywhere, and the next one removes the copies that it has left."""
    front, counts = Front(bench), Counter()
    with front:
        front.ask("addUser", {"user": "ann"})
        bench.same("a session", front.ask("createSession", {"user": "ann", "roles": [], "session": SECRET})[1], OK)
        bench.same("the end", front.end(), 0)
    words = [os.environ[PROGRAM], "record", "verify", "--program", RBAC, "--office", front.office]
    for call, number in places_of(words, bench.path("trace")):
        what = f"verify killed at {call} {number}"
        counts["kills" if is_killed(words, call, number) else "ends"] += 1
        left = [f"/dev/shm/{name}" for name in left_in_memory(front.office)]
        counts["kills that left a copy"] += bool(left)
        bench.same(f"{what}: files with a name of a session", [file for folder in left for file in files_with(folder, SECRET)], [])
        verified(bench, what, front.office)
        bench.same(f"{what}: what is left", left_in_memory(front.office), [])
    bench.same("some have left a copy", counts["kills that left a copy"] > 0, True)
    return {f"record: {what} of verify at system calls": count for what, count in counts.items()}
