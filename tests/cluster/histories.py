"""Clients of a cluster, and the history of their requests and answers."""

import http.client
import json
import random
import socket
import threading
import time
from dataclasses import dataclass
from email.utils import parsedate_to_datetime

from .networks import MACHINES

COMMAND, LINEARIZABLE, LOCAL = "command", "linearizable", "local"

# How long a client waits for an answer.
PATIENCE = 6

DEFINITE = {200, 400, 404, 409}

# The caller may not do it: it is never done.
REFUSED = {401, 403, 429}


@dataclass
class Asked:
    """A request and what came of it. The times are those of one clock, in seconds."""

    kind: str
    node: int
    line: dict
    start: float
    end: float = 0.0
    status: int = 0
    answer: bytes = b""
    revision: int = 0
    place: int = 0
    age: float = 0.0
    # When the node has written the answer, by its head, which says the whole second: all have the clock of this machine.
    written: float = 0.0
    caller: str = ""
    reason: str = ""

    @property
    def is_answered(self):
        """Whether the office has answered. If not, a command may be done or not."""
        return self.status in DEFINITE

    @property
    def may_be_done(self):
        """Whether a command may be in the log although the office has not answered."""
        return not self.is_answered and self.status not in REFUSED


class Client(threading.Thread):
    """Asks nodes, one request after another, until it is stopped. It shows a token, for nodes that have callers."""

    def __init__(self, cluster, number, seed, done, token=""):
        super().__init__(daemon=True)
        self.cluster, self.number, self.done = cluster, number, done
        self.fields = {"Authorization": f"Bearer {token}"} if token else {}
        self.caller = f"token:client{number}" if token else "open"
        self.random = random.Random(seed * 1000 + number)
        self.connections, self.history, self.faults, self.tags = {}, [], [], 0

    def run(self):
        self.prepare()
        while not self.done.is_set():
            if self.random.random() < 0.1:
                self.revoke()
            else:
                self.ask(*self.drawn())

    # Requests.

    def ask(self, kind, line, node=None):
        """Sends a request to a node, and records what came of it."""
        node = self.random.choice([self.number % MACHINES] * 3 + list(range(MACHINES))) if node is None else node
        self.tags += 1
        line, body = written(line, f"{self.number}-{self.tags}")
        asked = Asked(kind, node, line, time.monotonic(), caller=self.caller, reason=f"{self.number}-{self.tags}")
        try:
            connection = self.connection(node)
            local = {"Consistency": "local"} if kind == LOCAL else {}
            fields = {**self.fields, **local, "Office-Reason": asked.reason}
            connection.request("POST", f"/v1/{line['fn']}", body, fields)
            reply = connection.getresponse()
            asked.answer, asked.status = reply.read(), reply.status
            asked.revision = int(reply.headers.get("Office-Revision", 0))
            asked.place = int(reply.headers.get("Office-Place", 0))
            asked.age = float(reply.headers.get("Office-Age", 0))
            asked.written = parsedate_to_datetime(reply.headers["Date"]).timestamp() - time.time() + time.monotonic()
        except (OSError, http.client.HTTPException, ValueError, TypeError):
            asked.status = 0
            self.connections.pop(node).close()
        asked.end = time.monotonic()
        self.history.append(asked)
        if not asked.is_answered and asked.status not in REFUSED:
            self.done.wait(0.05)
        return asked

    def connection(self, node):
        if node not in self.connections:
            address = self.cluster.network.address(node, 8080)
            connection = self.connections[node] = http.client.HTTPConnection(address, timeout=PATIENCE)
            connection.connect()
            connection.sock.setsockopt(socket.IPPROTO_TCP, socket.TCP_NODELAY, 1)
        return self.connections[node]

    def insist(self, line, node=None):
        """Sends a command until the office has answered it. Returns the last answer, or None at the end of the test."""
        while not self.done.is_set():
            asked = self.ask(COMMAND, line, node)
            if asked.is_answered:
                return asked
        return None

    # What only this client changes.

    def prepare(self):
        me = self.number
        for line in (
            {"fn": "addUser", "user": f"own{me}"},
            {"fn": "addRole", "role": f"own{me}"},
            {"fn": "addPermObj", "object": "safe"},
            {"fn": "addPermission", "object": "safe", "operation": "open"},
            {"fn": "grantPermission", "object": "safe", "operation": "open", "role": f"own{me}"},
        ):
            self.insist(line)

    def revoke(self):
        """Assigns its own user, then deassigns it: whichever node is asked then, nothing may be allowed."""
        me = self.number
        question = {"fn": "checkAccess", "session": f"own{me}", "operation": "open", "object": "safe"}
        self.insist({"fn": "assignUser", "user": f"own{me}", "role": f"own{me}"})
        self.insist({"fn": "createSession", "user": f"own{me}", "roles": [f"own{me}"], "session": f"own{me}"})
        if self.insist({"fn": "deassignUser", "user": f"own{me}", "role": f"own{me}"}):
            for node in self.random.sample(range(MACHINES), MACHINES):
                asked = self.ask(LINEARIZABLE, question, node)
                if asked.answer == b'{"ok":true,"value":true}':
                    self.faults.append(f"node {node} allows what was revoked: {asked}")

    # What all change.

    def drawn(self):
        """Returns a random request on few names, so that many are accepted and many meet what others did."""
        pick = self.random.choice
        names = {
            "user": pick("abcdef"), "role": pick("rstuvw"), "object": pick("xyz"), "operation": pick(["open", "view"]),
            "session": pick(["s1", "s2", "s3", "s4"]), "asc": pick("rstuvw"), "desc": pick("rstuvw"), "set": pick("pq"),
        }  # fmt: skip
        several = self.random.sample("rstuvw", pick([2, 3]))
        function = pick(FUNCTIONS)
        line = {"fn": function, **{key: names[key] for key in FUNCTIONS_KEYS[function] if key in names}}
        if "roles" in FUNCTIONS_KEYS[function]:
            line["roles"] = several if "Set" in function else several[: pick([0, 1])]
        if "cardinality" in FUNCTIONS_KEYS[function]:
            line["cardinality"] = 2
        if "csv" in FUNCTIONS_KEYS[function]:
            line["csv"] = "user,role\n" + "".join(f"{pick('abcdef')},{role}\n" for role in several)
        kind = COMMAND if function in COMMANDS else pick([LINEARIZABLE] * 3 + [LOCAL])
        return kind, line


def written(line, tag):
    """Returns a line and its body. No other request has the same text of assignments, by a record of a user that doesn't exist."""
    if "csv" in line:
        line = {**line, "csv": f"{line['csv']}{tag},r\n"}
        return line, line["csv"]
    # The node leaves out what the office ignores.
    return line, json.dumps({**{key: value for key, value in line.items() if key != "fn"}, "tag": tag})


def keys_of(functions):
    from machine.commands import COMMANDS as commands
    from machine.questions import QUESTIONS as questions

    return {name: (commands.get(name) or questions[name])[1].split() for name in functions}


COMMANDS = (
    "addUser deleteUser addRole deleteRole addPermObj addPermission grantPermission revokePermission assignUser deassignUser "
    "createSession deleteSession addActiveRole dropActiveRole addInheritance deleteInheritance createSsdSet deleteSsdSet "
    "createDsdSet deleteDsdSet lockUserAccount unlockUserAccount importAssignments"
).split()

# Questions come as often as commands. Those by which access is decided come most often. Imports come often, since no two of
# them are the same: if an entry is in the log twice, the judge can tell.
QUESTIONS = (
    ["checkAccess"] * 12
    + ["assignedUsers", "authorizedUsers", "assignedRoles", "rolePermissions", "sessionRoles", "ssdRoleSets", "permissionRoles"] * 3
)
FUNCTIONS = COMMANDS + ["assignUser", "grantPermission"] * 2 + ["importAssignments"] * 8 + QUESTIONS
FUNCTIONS_KEYS = keys_of({*COMMANDS, *FUNCTIONS})
