"""How much room an office has left: in the metrics, in the log before and when a limit is met, and what a login is told then."""

import json
import re

from machine import state

from .batches import batch
from .program import Front, until
from .recorded import tool

# What an office may have of each kind, and how many sessions there are when the log says that they are nearly full.
LIMITS = {kind: most for kind, most in state.MOST.items() if kind not in ("record", "byte")}
SESSIONS = LIMITS["session"]
MANY = SESSIONS * 4 // 5
OK = '{"ok":true}'
# Commands that make something of each kind, and how many there are afterwards.
ONE_OF_EACH = [
    *({"fn": "addUser", "user": user} for user in ("ann", "bob", "eve")),
    *({"fn": "addRole", "role": role} for role in ("a", "b", "c", "d", "e")),
    *({"fn": "addPermObj", "object": one} for one in ("safe", "till")), {"fn": "addPermission", "object": "safe", "operation": "open"},
    {"fn": "grantPermission", "object": "safe", "operation": "open", "role": "a"}, {"fn": "addInheritance", "asc": "a", "desc": "b"},
    {"fn": "createSsdSet", "set": "s", "roles": ["c", "d", "e"], "cardinality": 2},
    {"fn": "createDsdSet", "set": "d", "roles": ["c", "d"], "cardinality": 2},
    *({"fn": "assignUser", "user": user, "role": "a"} for user in ("ann", "bob")), {"fn": "assignUser", "user": "ann", "role": "c"},
    {"fn": "createSession", "user": "ann", "session": "one", "roles": ["a", "c"]},
    {"fn": "createSession", "user": "bob", "session": "two", "roles": ["a"]},
]  # fmt: skip
USED = {
    "user": 3, "role": 5, "object": 2, "permission": 1, "grant": 1, "assignment": 3, "edge": 1, "ssdSet": 1, "dsdSet": 1, "member": 3,
    "session": 2, "activeRole": 2,
}  # fmt: skip
FULL = {"code": 32, "error": "TooMany", "kind": "session"}
NEARLY, NONE_LEFT = "the office is nearly full: ", "the office is full: "
NEVER = "sessions never end by themselves: "


def gauges(front):
    """The room that is left, and the limit, of each kind."""
    text = front.exchange("GET", "/metrics")[1]
    return [
        {kind: int(value) for kind, value in re.findall(rf'^{name}{{kind="(\w+)"}} (\d+)$', text, re.M)}
        for name in ("rbac_node_room", "rbac_node_limit")
    ]


def lines_of(front, beginning):
    """The lines of the log whose message begins so, as what they say: the level, the kind, and how many there are."""
    found = [json.loads(line) for line in front.said().splitlines() if line.startswith("{")]
    return [(one["level"], one["kind"], one["count"]) for one in found if one["msg"].startswith(beginning)]


def in_batches(front, lines):
    """Sends commands, as many at once as a batch may have, and returns the different answers."""
    return {answer for start in range(0, len(lines), 100) for answer in batch(front, lines[start : start + 100])[1]}


def sessions(numbers, function="createSession"):
    """Commands for sessions with these numbers."""
    more = {"roles": []} if function == "createSession" else {}
    return [{"fn": function, "user": "ann", "session": f"s{number}", **more} for number in numbers]


def login(front, path, body):
    """The answer to a request for a session, and what its head says to do."""
    connection = front.connection()
    connection.request("POST", path, json.dumps(body))
    reply = connection.getresponse()
    told = reply.status, json.loads(reply.read()), reply.getheader("Office-Why") or ""
    connection.close()
    return told


def check_sessions_fill(bench):
    """The log says once that sessions are nearly full, and once that they are full. A login that finds no room is answered as the program
    does, and the head of the answer says what ends sessions."""
    with Front(bench, "--no-record") as front:
        in_batches(front, [{"fn": "addUser", "user": "ann"}])
        bench.same("the first ones", in_batches(front, sessions(range(MANY - 1))), {OK})
        bench.same("the room and the limit", [one.get("session") for one in gauges(front)], [SESSIONS - MANY + 1, SESSIONS])
        bench.same("a login", login(front, "/v1/createSession", sessions([MANY - 1])[0]), (200, {"ok": True}, ""))
        until(lambda: lines_of(front, NEARLY), "the log says that sessions are nearly full", front.said)
        bench.same("the rest", in_batches(front, sessions(range(MANY, SESSIONS))), {OK})
        until(lambda: lines_of(front, NONE_LEFT), "the log says that there is no room", front.said)
        for path, body in (("/v1/createSession", sessions([SESSIONS])[0]), ("/sessions", {"user": "ann"})):
            status, said, why = login(front, path, body)
            bench.same(f"{path}: the answer", (status, said), (409, FULL))
            bench.same(f"{path}: what to do", [word in why for word in ("--session-idle", "--session-age", "logout")], [True] * 3)
        bench.same("a role that isn't there", login(front, "/sessions", {"user": "ann", "roles": ["pilot"]})[:2], (409, {"code": 4, "error": "NoRole"}))
        bench.same("the room that is left", gauges(front)[0].get("session"), 0)
        bench.same("the end", front.end(), 0)
        lines = lines_of(front, NEARLY), lines_of(front, NONE_LEFT)
        bench.same("the lines", lines, ([("warn", "session", MANY)], [("error", "session", SESSIONS)]))


def check_gauges(bench):
    """The metrics have the room and the limit of each kind, as /room counts them, after commands of each kind."""
    with Front(bench, "--no-record") as front:
        bench.same("an empty office", gauges(front), [LIMITS, LIMITS])
        bench.same("the office", in_batches(front, ONE_OF_EACH), {OK})
        room, limits = gauges(front)
        counted = json.loads(front.exchange("GET", "/room")[1])["value"]["room"]
        bench.same("the kinds", sorted(room), sorted(LIMITS))
        bench.same("used", {kind: limits[kind] - left for kind, left in room.items()}, {one["kind"]: one["count"] for one in counted})
        bench.same("used of each kind", {kind: limits[kind] - left for kind, left in room.items()}, USED)
        bench.same("the limits", limits, LIMITS)
        bench.same("the end", front.end(), 0)


def check_printed(bench):
    """The program prints the limits of each version, as a table and as JSON, and refuses a version that there isn't."""
    versions = range(1, len(state.LIMITS["user"]) + 1)
    for words, some in [([], versions), *((["--version", str(one)], [one]) for one in versions)]:
        status, out, said = tool("limits", *words, program=False)
        rows = [re.split(r"  +", line, maxsplit=len(some) + 1) for line in out.splitlines()]
        wanted = [["kind", *(f"version {one}" for one in some), "counted"]]
        wanted += [[kind, *(str(most[one - 1]) for one in some), state.COUNTED[kind]] for kind, most in state.LIMITS.items()]
        bench.same(f"limits {words}", (status, said, rows), (0, "", wanted))
        status, out, said = tool("limits", "--json", *words, program=False)
        wanted = [
            {"counted": state.COUNTED[kind], "kind": kind, "limits": {str(one): most[one - 1] for one in some}}
            for kind, most in state.LIMITS.items()
        ]
        bench.same(f"limits --json {words}", (status, said, json.loads(out)), (0, "", wanted))
    status, out, said = tool("limits", "--version", str(max(versions) + 1), program=False)
    bench.same("another version", (status, out, said.count("\n"), f"the versions are 1 to {max(versions)}" in said), (1, "", 1, True))


def check_said_at_start(bench):
    """The log says at a start that sessions never end, unless an option ends them."""
    for more, is_said in (((), True), (("--session-idle", "8h"), False), (("--session-age", "24h"), False)):
        with Front(bench, "--no-record", *more, name="-".join(["office", *more])) as front:
            bench.same(f"{more}: it is said", NEVER in front.said(), is_said)
            bench.same("the end", front.end(), 0)
