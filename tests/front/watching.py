"""Snapshots and watches: a follower ends with the rows of the office, wherever it starts and however often it is cut off."""

import http.client
import json
import os
import random
import signal
import sqlite3
import subprocess
import threading
import time

import pytest

from machine.commands import COMMANDS
from machine.drawing import Draws
from program.bench import PROGRAM as RBAC
from program.bench import SECONDS

from .batches import batch
from .identities import bearer, reload, rules, secured
from .program import Front, children, until
from .sessions import digest_of


def request_of(line):
    """The function and the body by which an accepted line is asked over HTTP."""
    value = json.loads(line)
    return (value["fn"], value["csv"].encode()) if value["fn"] == "importAssignments" else (value["fn"], line)


def snapshot(front, **fields):
    """The status of the answer to a request for a snapshot, its number and its lines."""
    own = front.connection()
    own.request("GET", "/snapshot", headers={name.replace("_", "-"): value for name, value in fields.items()})
    reply = own.getresponse()
    found = reply.status, int(reply.headers["Office-Number"] or 0), reply.read()
    own.close()
    return found


class Watch:
    """A watch of the commands after a number."""

    def __init__(self, front, after, by_field=False, **fields):
        self.connection = front.connection()
        headers = {name.replace("_", "-"): value for name, value in fields.items()}
        if by_field:
            headers["Last-Event-ID"] = str(after)
        self.connection.request("GET", "/watch" if by_field else f"/watch?after={after}", headers=headers)
        self.reply = self.connection.getresponse()
        self.status = self.reply.status

    def events(self):
        """The events as they come: pairs of a number and a line, with no line if it is the newest number."""
        fields = {}
        while line := self.reply.readline():
            name, _, value = line.decode().rstrip("\n").partition(": ")
            if name:
                fields[name] = value
            elif fields.get("event") == "newest":
                self.revision = fields.get("revision")
                yield int(fields["data"]), None
                fields = {}
            else:
                yield int(fields["id"]), fields["data"].encode()
                fields = {}

    def close(self):
        self.reply.close()
        self.connection.close()


class Follower(threading.Thread):
    """Keeps an office of its own by snapshots and watches, and is cut off now and then."""

    def __init__(self, bench, front, number, stop, has_gaps=False):
        super().__init__(daemon=True)
        self.bench, self.front, self.number, self.stop, self.has_gaps = bench, front, number, stop, has_gaps
        self.draws = random.Random(os.urandom(8))
        self.lines, self.at, self.counts = [], -1, {"cut off": 0, "snapshots": 0}
        self.faults, self.last = [], None

    def run(self):
        while True:
            try:
                if self.at < 0:
                    status, self.at, text = snapshot(self.front)
                    if status != 200:
                        self.at = -1
                        continue
                    self.lines = text.splitlines()
                    self.counts["snapshots"] += 1
                if self.follow():
                    return
            except (OSError, http.client.HTTPException):
                time.sleep(0.01)

    def follow(self):
        """Watches for a while. Returns whether all is known."""
        watch = Watch(self.front, self.at, self.draws.randrange(2) == 1)
        if watch.status == 410:
            self.at = -1
        if watch.status != 200:
            watch.close()
            return False
        until_then = time.monotonic() + self.draws.uniform(0, 1.5)
        for number, line in watch.events():
            if line is None:
                if self.stop.is_set() and number == self.at == self.last:
                    watch.close()
                    return True
            elif number <= self.at if self.has_gaps else number != self.at + 1:
                self.faults.append(f"{number} after {self.at}")
            if line is not None:
                self.at = number
                self.lines.append(line)
            if time.monotonic() > until_then and not self.stop.is_set():
                break
        self.counts["cut off"] += 1
        watch.close()
        return False

    def rows(self):
        """The rows of the office that the lines make."""
        office = self.bench.path(f"followed{self.number}")
        subprocess.run([RBAC, "init", office], check=True, capture_output=True)
        done = subprocess.run([RBAC, "replay", office], input=b"\n".join(self.lines) + b"\n", capture_output=True, check=True)
        refused = [answer for answer in done.stdout.splitlines() if not answer.startswith(b'{"ok"')]
        if refused:
            self.faults.append(f"refused: {refused[:3]}")
        return all_rows(office)


def all_rows(office):
    """All rows of an office that no program has open."""
    file = sqlite3.connect(f"file:{office}?immutable=1", uri=True)
    found = {}
    for table in ("name_row", "pair_row", "grant_row", "set_row", "locked_row"):
        found[table] = sorted(file.execute(f"SELECT * FROM {table}").fetchall())
    file.close()
    return found


def with_digests(rows):
    """Rows in which sessions have digests for names."""
    pairs = [(kind, digest_of(a) if kind >= 7 else a, b) for kind, a, b in rows["pair_row"]]
    return {**rows, "pair_row": sorted(pairs)}


def check_followers(bench):
    """Four followers start anywhere, are cut off and go on, while the replay is killed; they end with the rows of the office."""
    stop, counts = threading.Event(), {}
    with Front(bench, "--no-record") as front:
        draws = Draws(random.randrange(1_000_000_000))
        followers = [Follower(bench, front, number, stop) for number in range(4)]
        kept, sent = front.connection(), 0
        for round_number in range(8):
            if round_number < len(followers):
                followers[round_number].start()
            for _ in range(150):
                _, line, answer = draws.draw()
                if answer.startswith(b'{"ok"') and json.loads(line)["fn"] in COMMANDS:
                    sent += front.ask(*(("batch", line) if draws.random.randrange(2) else request_of(line)), kept)[0] == 200
            if round_number == 4:
                for process in children(front.process.pid):
                    os.kill(process, signal.SIGKILL)
                until(lambda: front.exchange("GET", "/healthz")[0] == 200, "the front answers again")
        kept.close()
        last = snapshot(front)[1]
        for follower in followers:
            follower.last = last
        stop.set()
        for follower in followers:
            follower.join(SECONDS)
            bench.same(f"follower {follower.number} has ended", follower.is_alive(), False)
        status, _, text = snapshot(front)
        bench.same("the snapshot", status, 200)
        bench.same("the end", front.end(), 0)
    wanted = with_digests(all_rows(front.office))
    for follower in followers:
        bench.same(f"the rows of follower {follower.number}", follower.rows() == wanted, True)
        bench.judge(f"follower {follower.number}", follower.faults[:3])
        for name, count in follower.counts.items():
            counts[f"followers: {name}"] = counts.get(f"followers: {name}", 0) + count
    followers[0].lines, followers[0].number = text.splitlines(), "snapshot"
    bench.same("the rows of the last snapshot", followers[0].rows() == wanted, True)
    return {**counts, "followers: commands": sent}


@pytest.mark.slow
def check_watch(bench):
    """Numbers grow by one, the newest comes by itself, and a number that isn't known is refused."""
    with Front(bench, "--timeout", "1s") as front:
        _, first, text = snapshot(front)
        bench.same("an empty office", text, b"")
        lines = [{"fn": "addUser", "user": f"u{i}"} for i in range(3)] + [{"fn": "addUser", "user": "u0"}]
        lines.append({"fn": "createSession", "user": "u0", "roles": [], "session": "secret"})
        batch(front, lines)
        _, last, text = snapshot(front)
        bench.same("the numbers of four accepted commands", last - first, 4)
        bench.same("a session's name", (b"secret" in text, text.count(b"\n")), (False, 4))
        watch = Watch(front, first)
        events, found = watch.events(), []
        while len(found) < 4:
            number, line = next(events)
            found += [(number, line)] if line else []
        bench.same("the commands", [number for number, _ in found], list(range(first + 1, last + 1)))
        bench.same("the names of sessions", b"secret" in b"".join(line for _, line in found), False)
        start, newest = time.monotonic(), 0
        while time.monotonic() - start < 24:  # Longer than an answer may take.
            number, line = next(events)
            newest += line is None and number == last
        bench.same("the newest number comes again and again", newest > 5, True)
        own = front.connection()
        own.request("GET", "/snapshot")
        bench.same("the revision of the policy beside it", watch.revision, own.getresponse().headers["Policy-Revision"])
        own.close()
        front.ask("addUser", {"user": "late"})
        while not (event := next(events))[1]:
            pass
        bench.same("a later command", event, (last + 1, b'{"fn":"addUser","user":"late"}'))
        watch.close()
        for after, status in [
            ("0", 410),
            (str(last + 2), 410),
            ("x", 400),
            ("-1", 400),
            ("", 400),
            ("1&after=2", 400),
            ("1&x=1", 400),
        ]:
            bench.same(f"after {after}", front.exchange("GET", f"/watch?after={after}")[0], status)
        bench.same("nothing", front.exchange("GET", "/watch")[0], 400)
        bench.same("POST", front.exchange("POST", "/watch?after=1", "{}")[0], 405)
        watch = Watch(front, last + 1)
        bench.same("the end", front.end(), 0)
        bench.same("the watch has ended", [line for _, line in watch.events() if line], [])
        front.start()
        bench.same("a number of before", front.exchange("GET", f"/watch?after={last + 1}")[0], 410)


def check_rights(bench):
    """Snapshots and watches need their rights; a watch ends when its caller loses the right, or its token."""
    rights = {
        "token:admin": [("watch", "office"), ("snapshot", "office"), ("addUser", "office")],
        "token:desk": [("watch", "office"), ("lists", "office")],
    }
    with secured(bench, rights=rights) as front:
        admin, desk = bearer("another"), bearer("secret")
        status, number, _ = snapshot(front, **admin)
        bench.same("a snapshot", (status, snapshot(front, **desk)[0], snapshot(front)[0]), (200, 403, 401))
        for how in ("the right", "the token"):
            watch = Watch(front, number, **desk)
            bench.same(f"before {how} is lost", watch.status, 200)
            other, seen = Watch(front, number, **admin), []
            given = dict(rights)
            if how == "the right":
                given["token:desk"] = [("lists", "office")]
            else:
                lines = open(bench.path("tokens"), encoding="ascii").read().splitlines()
                bench.write("tokens", "".join(f"{line}\n" for line in lines if not line.endswith(" desk")).encode())
            bench.write("callers.jsonl", rules(given).encode())
            reload(front, "the callers are in force")
            bench.same(f"addUser after {how} is lost", front.ask("addUser", {"user": how}, **admin)[0], 200)
            number += 1
            for event in watch.events():
                if event[1] or event[0] >= number:
                    seen.append(event)
                    break
            watch.close()
            bench.same(f"what is seen after {how} is lost", seen, [])
            while not next(other.events())[1]:
                pass
            other.close()
            bench.same(
                f"a new watch after {how} is lost", Watch(front, number, **desk).status, 403 if how == "the right" else 401
            )
            bench.write("callers.jsonl", rules(rights).encode())
            reload(front, "the callers are in force")
