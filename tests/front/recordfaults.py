"""Disks that fail under the record: one without room, and writes and syncs that fail or in whose place the front ends."""

import errno
import json
import os
import shutil
import signal
import subprocess
import time
from collections import Counter

import pytest
from program.bench import TESTS

from .program import Front, until
from .recorded import Model, entries, path_of, rows_of, verified
from .running import LONG

OK = '{"ok":true}'

# How many calls of SQLite each kind of disturbance goes through, and with `--long`.
CALLS, MORE_CALLS = 14, 120


# After how many seconds the front has tried again to write what it couldn't write.
RETRIED = 3

# How much room the front keeps on the disk of a record, in KiB.
RESERVE = 16 * 1024

# A command whose entry needs much more room than its answer.
LONG_IMPORT = "user,role\n" + "ann,clerk\n" * 5_000


class Mounted:
    """A file system of some size at the folder of a record, which processes see that are started by its words."""

    def __init__(self, folder, kib):
        """The size is what there is besides the reserve of the front."""
        size = f"{RESERVE + kib}k"
        os.mkdir(folder)
        self.folder = folder
        mount = f'mount -t tmpfs -o size={size},mode=700 tmpfs "$0" && echo mounted && exec sleep 100000'
        self.holder = subprocess.Popen(
            ["unshare", "--mount", "sh", "-c", mount, folder], stdout=subprocess.PIPE, stderr=subprocess.DEVNULL, text=True
        )
        if self.holder.stdout.readline() != "mounted\n":
            raise OSError(f"nothing can be mounted at {folder}")

    def words(self):
        """What comes before the words of a command that is to see the file system."""
        return ["nsenter", "-t", str(self.holder.pid), "-m", "--"]

    def resize(self, size):
        """Gives the file system another size."""
        subprocess.run([*self.words(), "mount", "-o", f"remount,size={size}", self.folder], check=True)

    def run(self, *words):
        """Runs a command that sees the file system, and returns its status."""
        return subprocess.run([*self.words(), *words], capture_output=True, check=False).returncode

    def fill(self):
        """Writes until there is no room left."""
        for size in ("64k", "1k"):
            self.run("dd", "if=/dev/zero", f"of={self.folder}/filler-{size}", f"bs={size}")

    def empty(self):
        """Deletes what `fill` has written."""
        self.run("rm", f"{self.folder}/filler-64k", f"{self.folder}/filler-1k")

    def __enter__(self):
        return self

    def __exit__(self, *_):
        self.holder.kill()
        self.holder.wait()


def is_failing(front):
    """Whether the metric says that the record can't be written."""
    return "rbac_node_record_failing 1" in front.exchange("GET", "/metrics")[1].splitlines()


@pytest.mark.needs("mounts")
def check_full_disk(bench):
    """Without room for the record commands get 503, and questions are answered. When there is room again, commands are done."""
    front = Front(bench)
    with Mounted(f"{front.office}.record", 600) as disk:
        front.prefix = disk.words()
        with front:
            connection, done = front.connection(), 0
            while (given := front.ask("addUser", {"user": f"u{done}"}, connection))[0] == 200 and done < 100_000:
                done += 1
            bench.same("a command without room", given, (503, '{"code":60,"error":"Unavailable"}'))
            for turn in range(20):
                bench.same("a question", front.ask("assignedRoles", {"user": "u0"}, connection)[0], 200)
                bench.same("a command", front.ask("addRole", {"role": f"r{turn}"}, connection)[0], 503)
            status, text = front.exchange("GET", "/healthz")
            bench.same("health", (status, json.loads(text)["ready"], "full" in json.loads(text)["record"]), (200, True, True))
            bench.same("a metric", is_failing(front), True)
            bench.same("lines of the log", front.said().count("commands are refused, since the record"), 1)
            disk.resize("60m")
            until(lambda: front.ask("addUser", {"user": "again"}, connection)[0] in (200, 409), "commands are done again")
            bench.same("a role", front.ask("addRole", {"role": "r0"}, connection)[1], OK)
            bench.same("health", front.exchange("GET", "/healthz"), (200, '{"ready":true,"open":true}\n'))
            bench.same("the log", front.said().count("the record can be written again"), 1)
            bench.same("the end", front.end(), 0)
        shutil.copytree(f"/proc/{disk.holder.pid}/root{front.office}.record", bench.path("kept"))
    os.rmdir(f"{front.office}.record")
    os.rename(bench.path("kept"), f"{front.office}.record")
    judge(bench, "a full disk", front)
    return {"commands until the disk of the record was full": done}


@pytest.mark.needs("mounts")
def check_disk_of_both(bench):
    """On a full disk that has the office too, questions are answered, also after the replay or the front was killed there."""
    front = Front(bench)
    front.office = bench.path("disk/office")
    with Mounted(bench.path("disk"), 8 * 1024) as disk:
        front.prefix = disk.words()
        with front:
            for function, arguments in [("addUser", {"user": "ann"}), ("addRole", {"role": "clerk"})]:
                bench.same(function, front.ask(function, arguments), (200, OK))
            disk.fill()
            done = 0
            while front.ask("addUser", {"user": f"u{done}"})[0] == 200 and done < 100_000:
                done += 1
            full(bench, "a full disk", front)
            bench.same("an end on a full disk", front.end(), 0)
            front.start()
            full(bench, "after that end", front)
            bench.same("the alarm after that end", (is_failing(front), "full" in front.exchange("GET", "/healthz")[1]), (True, True))
            bench.same("the replay after that end", "the replay has ended" in front.said(), False)
            for replay in front.replays():
                os.kill(replay, signal.SIGKILL)
            until(lambda: "the replay answers again" in front.said(), "there is another replay", lambda: front.said()[-1500:])
            full(bench, "after the replay was killed", front)
            for turn in (1, 2):
                front.kill()
                disk.fill()
                front.start()
                full(bench, f"after start {turn}", front)
                bench.same(f"health after start {turn}", "full" in front.exchange("GET", "/healthz")[1], True)
            disk.empty()
            until(lambda: front.ask("addRole", {"role": "late"})[0] in (200, 409), "commands are done again")
            bench.same("health", front.exchange("GET", "/healthz"), (200, '{"ready":true,"open":true}\n'))
            bench.same("the reserve", disk.run("test", "-s", path_of(front.office, "reserve")), 0)
            bench.same("the end", front.end(), 0)
        root = f"/proc/{disk.holder.pid}/root{front.office}"
        shutil.copy(root, bench.path("office"))
        shutil.copytree(f"{root}.record", bench.path("office.record"))
    front.office = bench.path("office")
    judge(bench, "a full disk of both", front)
    return {"commands until the disk of office and record was full": done}


def asked(front):
    """The status of the answer to a question."""
    return front.ask("assignedRoles", {"user": "ann"})[0]


def full(bench, what, front):
    """Counts whether questions are answered and commands refused."""
    bench.same(f"{what}: questions", [asked(front) for _ in range(20)], [200] * 20)
    bench.same(f"{what}: commands", {front.ask("addRole", {"role": f"r{turn}"})[0] for turn in range(5)}, {503})


# Of these disks the last one, at least, has room for all answers and not for the next command.
@pytest.mark.needs("mounts")
@pytest.mark.parametrize("size", [1024, 5 * 1024, 8 * 1024])
def check_alarm(bench, size):
    """A disk that has no room for a command: the alarm stays until a command was recorded, also if nothing is asked meanwhile."""
    front = Front(bench)
    with Mounted(f"{front.office}.record", size) as disk:
        front.prefix = disk.words()
        with front:

            def alarm():
                record = json.loads(front.exchange("GET", "/healthz")[1]).get("record", "")
                return is_failing(front), "full" in record

            bench.same("before", alarm(), (False, False))
            until(lambda: front.ask("importAssignments", LONG_IMPORT)[0] == 503, "the disk is full")
            bench.same("the alarm", alarm(), (True, True))
            time.sleep(RETRIED)
            bench.same("the alarm later", alarm(), (True, True))
            disk.resize("60m")
            bench.same("a command when there is room", front.ask("addUser", {"user": "ann"}), (200, OK))
            bench.same("no alarm", alarm(), (False, False))
            bench.same("the end", front.end(), 0)
    os.rmdir(f"{front.office}.record")


def judge(bench, what, front):
    """Judges the record and the office of a front that has ended."""
    verified(bench, what, front.office)
    model = Model()
    bench.judge(f"{what}: the model's answers", model.go_on(entries(front.office)))
    bench.same(f"{what}: the rows", rows_of(front.office, bench.path("copy")) == model.rows(), True)


def check_disturbed(bench):
    """Each write and sync of SQLite fails in turn, or the front ends in its place. Nothing acknowledged is missing after that."""
    library = bench.path("disturb.so")
    source = str(TESTS / "front/disturb.c")
    subprocess.run(["cc", "-O1", "-Wall", "-Wextra", "-Werror", "-shared", "-fPIC", "-o", library, source], check=True)
    counts = Counter()
    calls = MORE_CALLS if os.environ.get(LONG) else CALLS
    for like, times in [("exit", 1), (errno.ENOSPC, 1), (errno.EIO, 1), (errno.EIO, 7)]:
        front = Front(bench, "--record-base", "9", name=f"{like}-{times}")
        front.environment = {
            **os.environ, "LD_PRELOAD": library, "DISTURB_UNDER": f"{front.office}.record", "DISTURB_LIKE": str(like),
            "DISTURB_TIMES": str(times), "DISTURB_COUNT": bench.path("count"),
        }  # fmt: skip
        story = Story(bench, front)
        for number in range(1, calls + 1):
            story.disturb(number, like == "exit")
            counts[f"calls disturbed by {like}, {times} times"] += 1
        bench.write("count", b"0\n")
        with front:
            bench.same("the end", front.end(), 0)
        judge(bench, f"{like}, {times} times", front)
        kept = {entry.reason: entry.answer for entry in entries(front.office)}
        lost = [reason for reason, answer in story.acknowledged.items() if kept.get(reason) != answer]
        bench.judge(f"{like}, {times} times: acknowledged commands", lost)
        counts["acknowledged commands"] += len(story.acknowledged)
    return {f"record: {name}": count for name, count in counts.items()}


class Story:
    """Commands of one client, one after another, while a call is disturbed."""

    def __init__(self, bench, front):
        self.bench, self.front = bench, front
        self.acknowledged = {}
        self.turn = 0

    def ask(self):
        """Asks for a command, and returns its status, or None if there is no answer."""
        self.turn += 1
        reason = f"turn {self.turn}"
        try:
            status, answer = self.front.ask(["addUser", "deleteUser"][self.turn % 2], {"user": "ann"}, Office_Reason=reason)
        except OSError:
            return None
        if status != 503:
            self.acknowledged[reason] = answer
        return status

    def disturb(self, number, ends):
        """Disturbs the call of this number: during a start, and while commands are done."""
        self.bench.write("count", b"0\n")
        if self.turn % 3 == 0 or not os.path.exists(path_of(self.front.office)):
            self.front.start()
            self.bench.write("count", f"{number}\n".encode())
        else:
            self.bench.write("count", f"{number}\n".encode())
            process = self.front.start_without_waiting()
            self.front.process = process
            if not self.started():
                return
        for _ in range(number + 6):
            if self.ask() is None:
                break
        if ends:
            # The call is reached sooner or later.
            until(lambda: self.front.process.poll() is not None or self.ask() is None, "the front has ended")
            self.front.process.wait()
            return
        self.bench.write("count", b"0\n")
        until(lambda: self.ask() in (200, 409), "commands are done again")
        if self.turn % 2:
            self.front.kill()
        else:
            self.front.end()

    def started(self):
        """Whether a front, one of whose calls is disturbed, has started."""
        try:
            until(self.front.is_listening, "the front listens")
            return True
        except RuntimeError:
            return False
