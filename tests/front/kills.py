"""The front and its replay are killed under load: no acknowledged command is missing, and no answer is wrong.

Each client works on users of its own, so it knows what the office can say about them: after an answer one state, and after a
request without an answer that before or that after the command. Each later answer has to fit one of them.
"""

import http.client
import os
import random
import signal
import subprocess
import threading
import time

import pytest

from program.bench import PROGRAM as RBAC

from .program import Front, children, until

# How many kills there are, how many with --gate and with --long, and how many clients.
KILLS, KILLS_OF_GATE, MORE_KILLS, CLIENTS = 18, 36, 500, 8

# The longest time between two kills, in seconds.
BETWEEN = 0.25

ROLES = ["clerk", "boss", "auditor"]
OK, EXISTS, NO_USER, ASSIGNED, NOT_ASSIGNED = '{"ok":true}', 3, 2, 10, 11


def step(state, function, role):
    """The state of a user after a command, and its answer. A state is the set of roles of a user, or None if there is none."""
    if function == "addUser":
        return (frozenset(), OK) if state is None else (state, refusal(EXISTS, "UserExists"))
    if state is None:
        return None, refusal(NO_USER, "NoUser")
    if function == "deleteUser":
        return None, OK
    if function == "assignUser":
        return (state | {role}, OK) if role not in state else (state, refusal(ASSIGNED, "AlreadyAssigned"))
    if function == "deassignUser":
        return (state - {role}, OK) if role in state else (state, refusal(NOT_ASSIGNED, "NotAssigned"))
    listed = ",".join(f'"{one}"' for one in sorted(state))
    return state, '{"ok":true,"value":[%s]}' % listed


def refusal(code, name):
    return '{"code":%d,"error":"%s"}' % (code, name)


class Client(threading.Thread):
    """A client, which asks for one thing after another until it is told to stop."""

    def __init__(self, front, number, stop):
        super().__init__(daemon=True)
        self.front, self.stop = front, stop
        self.draws = random.Random(os.urandom(8))
        # For each user: the states that are possible.
        self.users = {f"u{number}.{i}": {None} for i in range(4)}
        self.answered = self.unanswered = 0
        self.faults = []

    def run(self):
        connection = None
        while not self.stop.is_set():
            connection = connection or self.connected()
            if connection is None:
                continue
            user = self.draws.choice(list(self.users))
            function = self.draws.choice(
                ["addUser", "addUser", "assignUser", "assignUser", "deassignUser", "deleteUser", "assignedRoles"]
            )
            if not self.one(connection, function, user, self.draws.choice(ROLES)):
                connection.close()
                connection = None
        if connection:
            connection.close()

    def connected(self):
        """A connection to the front, or None if nobody listens: then nothing was asked."""
        connection = self.front.connection()
        try:
            connection.connect()
            return connection
        except OSError:
            time.sleep(0.002)
            return None

    def one(self, connection, function, user, role):
        """Asks for one thing, and returns whether the connection can be used again."""
        arguments = {"user": user, "role": role} if function in ("assignUser", "deassignUser") else {"user": user}
        try:
            status, text = self.front.ask(function, arguments, connection)
        except (OSError, http.client.HTTPException):
            status, text = None, ""
        outcomes = [(before, *step(before, function, role)) for before in self.users[user]]
        if status in (None, 503):
            self.unanswered += 1
            self.users[user] |= {after for _, after, _ in outcomes}
            time.sleep(0.002)
            return status is not None
        self.answered += 1
        fitting = {after for _, after, answer in outcomes if answer == text}
        if not fitting:
            self.faults.append(f"{function} {user} {role}: {status} {text}, after one of {self.users[user]}")
            self.stop.set()
        self.users[user] = fitting
        return True


def kill_at_random(front, draws, counts):
    """Kills the front, or its replay, and waits until the front answers again."""
    time.sleep(draws.uniform(0, BETWEEN))
    way = draws.choice(["front", "front", "replay", "replay", "stopped replay"])
    counts[f"kills of the {way}"] = counts.get(f"kills of the {way}", 0) + 1
    if way == "front":
        front.kill()
        front.start()
        return
    until(lambda: children(front.process.pid), "there is a replay")
    for replay in front.replays():
        try:
            if way == "stopped replay":
                os.kill(replay, signal.SIGSTOP)
                time.sleep(draws.uniform(0, 0.05))
            os.kill(replay, signal.SIGKILL)
        except ProcessLookupError:
            pass


@pytest.mark.slow
def check_kills(bench):
    """Clients ask while the front or its replay is killed again and again. In the end the office is as they know it."""
    counts, draws, stop = {}, random.Random(os.urandom(8)), threading.Event()
    front = Front(bench)
    with front:
        for role in ROLES:
            bench.same(f"addRole {role}", front.ask("addRole", {"role": role}), (200, OK))
        clients = [Client(front, number, stop) for number in range(CLIENTS)]
        for client in clients:
            client.start()
        for _ in range(MORE_KILLS if bench.is_long else KILLS_OF_GATE if bench.is_gate else KILLS):
            if stop.is_set():
                break
            kill_at_random(front, draws, counts)
        until(lambda: front.exchange("GET", "/healthz")[0] == 200, "the front answers again")
        stop.set()
        for client in clients:
            client.join()
        for client in clients:
            bench.judge("the answers of a client", client.faults)
            for user, states in client.users.items():
                given = front.ask("assignedRoles", {"user": user})[1]
                wanted = {step(state, "assignedRoles", "")[1] for state in states}
                bench.same(f"the roles of {user}", given in wanted, True)
        bench.same("the end", front.end(), 0)
    done = subprocess.run([RBAC, "check", front.office], capture_output=True, text=True, check=False)
    bench.same("rbac check", (done.stdout, done.stderr), ("good\n", ""))
    counts["answered"] = sum(client.answered for client in clients)
    counts["unanswered"] = sum(client.unanswered for client in clients)
    return {f"kills: {name}": count for name, count in counts.items()}
