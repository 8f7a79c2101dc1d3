"""The front and its replay are killed under load, and while they start: nothing acknowledged is missing in office or record.

After each kill `record verify` finds nothing. After the next start each answer that a client got is in the record, the plain
model gives the answers of the record, and the office has the rows of the model. Only the office has the names of sessions.
"""

import http.client
import json
import os
import random
import signal
import threading
import time
from collections import Counter

import pytest

from .kills import ROLES
from .program import Front, until
from .recorded import LOST, Model, digest, entries, files_with, left_in_memory, rows_of, tool, verified

# How many kills there are, how many with --gate and with --long, how many clients, and how many kills there are until a part is closed and moved away.
KILLS, KILLS_OF_GATE, MORE_KILLS, CLIENTS, UNTIL_CUT = 15, 30, 1_000, 12, 12

# The longest time under load before a kill, and after a start, in seconds.
UNDER_LOAD, AFTER_START = 0.4, 0.25

# The names of all sessions begin with this.
SECRET = "secret."


class Client(threading.Thread):
    """A client that sends random commands, each with a reason of its own, until nobody answers."""

    def __init__(self, front, number, stop):
        super().__init__(daemon=True)
        self.front, self.number, self.stop = front, number, stop
        self.draws = random.Random(os.urandom(8))
        # What was acknowledged: by the reason, the request as it is recorded, and the answer.
        self.acknowledged = {}
        self.refused = self.unanswered = 0

    def draw(self):
        """A command: what is sent, and what is recorded for it."""
        user, session = f"u{self.draws.randrange(6)}", f"{SECRET}{self.draws.randrange(6)}"
        role = self.draws.choice(ROLES)
        function = self.draws.choice(FUNCTIONS)
        values = {"user": user, "role": role, "roles": [role] * self.draws.randrange(2), "session": session}
        values["csv"] = f"user,role\n{user},{role}\n"
        sent = {key: values[key] for key in KEYS[function]}
        kept = {**sent, "session": digest(session)} if "session" in sent else sent
        text = json.dumps({"fn": function, **kept}, separators=(",", ":"))
        return function, sent.get("csv") or json.dumps(sent), text

    def run(self):
        connection, turn = self.front.connection(), 0
        while not self.stop.is_set():
            turn += 1
            function, body, kept = self.draw()
            reason = f"{self.number}.{turn}.{self.draws.getrandbits(48)}"
            try:
                status, text = self.front.ask(function, body, connection, Office_Reason=reason)
            except (OSError, http.client.HTTPException):
                self.unanswered += 1
                connection.close()
                connection = self.front.connection()
                time.sleep(0.003)
                continue
            if status == 503:
                self.refused += 1
                time.sleep(0.003)
            else:
                self.acknowledged[reason] = (kept, text)
        connection.close()


KEYS = {
    "addUser": ["user"],
    "deleteUser": ["user"],
    "assignUser": ["user", "role"],
    "deassignUser": ["user", "role"],
    "lockUserAccount": ["user"],
    "unlockUserAccount": ["user"],
    "createSession": ["user", "roles", "session"],
    "deleteSession": ["user", "session"],
    "addActiveRole": ["user", "session", "role"],
    "dropActiveRole": ["user", "session", "role"],
    "importAssignments": ["csv"],
}
FUNCTIONS = [*KEYS, "addUser", "assignUser", "assignUser", "createSession", "createSession", "addActiveRole"]


def kill_front(front, draws):
    """Kills the front alone; its replay ends because its parent has."""
    front.kill()


def kill_both(front, draws):
    """Kills the front and the replay, in any order."""
    ends = [front.process.pid, *front.replays()]
    draws.shuffle(ends)
    for process in ends:
        strike(process, signal.SIGKILL)
    front.process.wait()


def kill_replay(front, draws):
    """Kills the replay, and the front a moment later, perhaps while it does the record again."""
    for process in front.replays():
        strike(process, signal.SIGKILL)
    time.sleep(draws.choice([0, 0.01, 0.05, 0.3]))
    front.kill()


def kill_paused(front, draws):
    """Pauses the replay, so that commands wait, and kills it and the front."""
    replays = front.replays()
    for process in replays:
        strike(process, signal.SIGSTOP)
    time.sleep(draws.uniform(0, 0.03))
    front.kill()
    for process in replays:
        strike(process, signal.SIGCONT)


def end_front(front, draws):
    """Ends the front in order."""
    front.end()


def strike(process, number):
    try:
        os.kill(process, number)
    except ProcessLookupError:
        pass


WAYS = [kill_front, kill_front, kill_both, kill_replay, kill_replay, kill_paused, end_front]


class Rounds:
    """Rounds of load, a kill and a start, over one office."""

    def __init__(self, bench, base):
        self.bench, self.draws, self.counts = bench, random.Random(os.urandom(8)), Counter()
        self.front = Front(bench, "--record-base", str(base))
        self.model, self.seen = Model(), {}

    def load(self):
        """Lets clients ask for a moment, kills, and returns what was acknowledged."""
        stop = threading.Event()
        clients = [Client(self.front, number, stop) for number in range(self.draws.choice([1, 3, CLIENTS]))]
        for client in clients:
            client.start()
        time.sleep(self.draws.uniform(0, UNDER_LOAD))
        way = self.draws.choice(WAYS)
        way(self.front, self.draws)
        self.counts[f"rounds of {way.__name__}"] += 1
        stop.set()
        for client in clients:
            client.join()
        acknowledged = {}
        for client in clients:
            acknowledged.update(client.acknowledged)
            self.counts["answers of 503"] += client.refused
            self.counts["requests without an answer"] += client.unanswered
        self.counts["acknowledged commands"] += len(acknowledged)
        return acknowledged

    def start(self):
        """Starts the front, and perhaps kills it meanwhile, again and again."""
        while self.draws.random() < 0.3:
            starting = self.front.start_without_waiting()
            time.sleep(self.draws.uniform(0, AFTER_START))
            starting.kill()
            starting.wait()
            self.counts["kills during a start"] += 1
        self.front.start()

    def look(self):
        """Sees the entries that are in the record after a kill, most of which have no answer. They keep their numbers."""
        self.seen = {entry.n: entry.reason for entry in entries(self.front.office, self.model.last)}

    def judge(self, number, acknowledged):
        """Judges the record and the office after a kill and a start. Nobody asks for anything meanwhile."""
        found = entries(self.front.office, self.model.last)
        self.counts["entries"] += len(found)
        self.counts["entries whose answer was found"] += sum(entry.found and entry.answer != LOST for entry in found)
        self.counts["entries that the office never got"] += sum(entry.answer == LOST for entry in found)
        self.bench.judge(f"round {number}: the model's answers", self.model.go_on(found)[:3])
        kept = {entry.reason: (entry.request, entry.answer) for entry in found}
        lost = [
            f"{reason} {what} and not {kept.get(reason)}" for reason, what in acknowledged.items() if kept.get(reason) != what
        ]
        self.bench.judge(f"round {number}: {len(acknowledged)} acknowledged commands are in the record", lost[:3])
        kept = {entry.n: entry.reason for entry in found}
        again = [f"entry {n} was that of {reason}, and is that of {kept.get(n)}" for n, reason in self.seen.items() if kept.get(n) != reason]
        self.bench.judge(f"round {number}: no number is used twice", again[:3])
        given = rows_of(self.front.office, self.bench.path("copy"))
        self.bench.same(f"round {number}: the rows are the model's", given == self.model.rows(), True)

    def cut(self):
        """Closes the part at hand, and moves it away. No front runs."""
        status, out, said = tool("record", "cut", "--office", self.front.office)
        self.bench.same("cut", (status, said), (0, ""))
        os.rename(out.strip(), self.bench.path(os.path.basename(out.strip())))
        self.counts["parts"] += 1

    def run(self, kills):
        """Does as many rounds as there are to be kills."""
        self.front.start()
        for role in ROLES:
            self.front.ask("addRole", {"role": role})
        for number in range(kills):
            acknowledged = self.load()
            verified(self.bench, f"after round {number}", self.front.office, is_whole=not self.counts["parts"])
            self.look()
            if number % UNTIL_CUT == UNTIL_CUT - 1:
                # A start finds the last answers before the part is closed.
                self.front.start()
                self.judge(number, acknowledged)
                self.bench.same("the end", self.front.end(), 0)
                self.cut()
                acknowledged = {}
                self.look()
            self.start()
            self.judge(number, acknowledged)
        self.bench.same("the end", self.front.end(), 0)
        verified(self.bench, "at the end", self.front.office, is_whole=not self.counts["parts"])
        tool_says = tool("record", "show", "--office", self.front.office)[1]
        self.bench.same("names that show prints", SECRET in tool_says, False)


@pytest.mark.slow
def check_kills(bench):
    """Kills in all ways, with base copies all the time."""
    rounds = Rounds(bench, 40)
    rounds.run(MORE_KILLS if bench.is_long else KILLS_OF_GATE if bench.is_gate else KILLS)
    shown = set(files_with(bench.folder, SECRET))
    bench.same("files with names of sessions", shown - {rounds.front.office, bench.path("copy/office")}, set())
    until(lambda: not left_in_memory(rounds.front.office), "no copy is left in memory")
    return {f"record: {name}": count for name, count in rounds.counts.items()}
