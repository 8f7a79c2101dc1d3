"""An office with as many users, roles and assignments as there may be. The seconds are reported, and not tested."""

import json
import statistics
import subprocess
import time
import urllib.request

from front.program import HOST, Front
from machine.state import MOST
from program.bench import PROGRAM as RBAC

from .browser import SETTLED, Browser
from .downloads import memory_of, ticket_for

USERS, ROLES, SETS, MEMBERS, SESSIONS = (MOST[kind] for kind in ("user", "role", "dsdSet", "member", "session"))
OBJECTS, SEED = 1_000, 7
# How many bytes of memory the front may have while it makes a report.
MOST_MEMORY = 500_000_000
OPERATIONS = ["read", "write", "print", "sign", "burn"]
GRANTS_OF_EACH, STEP = 4, 257
# The number of the first user with a session.
FIRST_OF_SESSIONS = next(number for number in range(USERS) if number * SEED % ROLES > ROLES // 4)

# A role without juniors that has many users, those from a number on, and many grants, the first ones.
CROWDED, FIRST_CROWDED, USERS_OF_CROWDED, GRANTS_OF_CROWDED = 1_000, 18_000, 1_300, 1_200


def role_of(number):
    """The role that a user is assigned to."""
    return CROWDED if 0 <= number - FIRST_CROWDED < USERS_OF_CROWDED else number * SEED % ROLES


def granted_to(permission, j):
    """The role to which a permission is granted: each permission is granted to four."""
    if j == 0 and permission < GRANTS_OF_CROWDED:
        return CROWDED
    return (permission // len(OPERATIONS) + permission % len(OPERATIONS) + j * STEP) % ROLES


def lines_of_report():
    """How many lines the report of permissions has: for each user one for each grant of the role and of those below it."""
    grants = [0] * ROLES
    for permission in range(OBJECTS * len(OPERATIONS)):
        for role in {granted_to(permission, j) for j in range(GRANTS_OF_EACH)}:
            grants[role] += 1
    for role in range(ROLES - 1, 0, -1):
        grants[(role - 1) // 4] += grants[role]
    return sum(grants[role_of(number)] for number in range(USERS))


def lines():
    """The commands that fill an office: a tree of roles in which each has four juniors, and 20 grants for each role."""
    for number in range(ROLES):
        yield {"fn": "addRole", "role": f"role {number:04}"}
    for number in range(1, ROLES):
        yield {"fn": "addInheritance", "asc": f"role {(number - 1) // 4:04}", "desc": f"role {number:04}"}
    for number in range(OBJECTS):
        yield {"fn": "addPermObj", "object": f"object {number:04}"}
        for i, operation in enumerate(OPERATIONS):
            permission = {"object": f"object {number:04}", "operation": operation}
            yield {"fn": "addPermission", **permission}
            for role in sorted({granted_to(number * len(OPERATIONS) + i, j) for j in range(GRANTS_OF_EACH)}):
                yield {"fn": "grantPermission", **permission, "role": f"role {role:04}"}
    for number in range(SETS):
        members = [f"role {(number + i * 31) % ROLES:04}" for i in range(MEMBERS)]
        yield {"fn": "createDsdSet", "set": f"set {number:02}", "roles": members, "cardinality": MEMBERS}
    for number in range(USERS):
        yield {"fn": "addUser", "user": f"user {number:05}"}
        yield {"fn": "assignUser", "user": f"user {number:05}", "role": f"role {role_of(number):04}"}
    leaves = [number for number in range(USERS) if role_of(number) > ROLES // 4]
    for number in leaves[:SESSIONS]:
        roles = [f"role {role_of(number):04}"]
        yield {"fn": "createSession", "user": f"user {number:05}", "roles": roles, "session": f"session {number}"}


# How long a page takes in the browser until it shows what it is to show, laid out and painted, in milliseconds; and what was asked for.
MEASURED = (
    """
const [hash, done] = arguments, settled = () => { %s };
performance.clearResourceTimings();
document.querySelector('main h1').setAttribute('data-old', '');
const from = performance.now();
location.hash = hash;
const look = () => {
    if (!settled()) return setTimeout(look, 1);
    requestAnimationFrame(() => setTimeout(() => {
        const asked = performance.getEntriesByType('resource');
        done([performance.now() - from, asked.length, asked.reduce((sum, one) => sum + one.transferSize, 0)]);
    }));
};
look();
"""
    % SETTLED
)
TIMES = 7
# Seconds between rounds: Chromium ignores a change of the address if there were 200 within ten seconds.
PAUSE = 0.3
TRIALS = 3


def full_front(bench):
    """A front, not yet started, over an office that is full."""
    front = Front(bench, "--timeout", "60s", name="full")
    subprocess.run([RBAC, "init", front.office], capture_output=True, check=True)
    text = "".join(json.dumps(line) + "\n" for line in lines()).encode()
    done = subprocess.run([RBAC, "replay", front.office], input=text, capture_output=True, check=True)
    bench.same("the office is full", {*done.stdout.split()}, {b'{"ok":true}'})
    return front


def measured(page, segments, query):
    """The medians of how long a page that shows nothing takes, and of how long a page takes and the number and bytes of its requests.

    Both are loaded in turn: the machine may do other work, more at one time than at another.
    """
    found = []
    for _ in range(TIMES):
        time.sleep(PAUSE)
        row = []
        for wanted in (page.hash_of(["nothing"]), page.hash_of(segments) + query):
            page.go("other")
            row += page.driver.execute_async_script(MEASURED, wanted)
        found.append((row[0], *row[3:]))
    return [statistics.median(column) for column in zip(*found)]


def check_limits(bench):
    """The pages of a full office are there, and say how long they took beside a page that shows nothing."""
    with full_front(bench) as front, Browser(bench, front) as page:
        page.open("nothing")
        for what, segments, query, wanted in [
            ("a page that shows nothing", ("nothing",), "", "There is no such page"),
            ("the overview", ("",), "", f"{USERS:,}"),
            ("the users", ("users",), "", "user 00099"),
            ("a search", ("users",), "?contains=9999", "user 19999"),
            ("one user", ("users", "user 00000"), "", "role 0000"),
            ("another user", ("users", "user 00003"), "", "role 0021"),
            ("the roles", ("roles",), "", f"{ROLES:,} roles"),
            ("one role", ("roles", "role 0000"), "", "role 0001"),
            ("a role with many users", ("roles", f"role {CROWDED:04}"), "", "Granted to this role itself: 1 to 100 of 1,2"),
            ("one object", ("objects", "object 0000"), "", "Operation read"),
            ("the sets", ("separation",), "", "There is no static set."),
            ("the record", ("record",), "", "The record adopts the office as it is, by tests."),
            ("the report of one user", ("reports", "permissions"), "?user=user+00003", "user 00003"),
            ("the report of one set", ("reports", "near"), "?set=set+07&left=30", "set 07"),
        ]:
            nothing, took, requests, size = measured(page, segments, query)
            print(
                f"{took:6.0f} ms, {took / nothing:4.1f} times, {requests:2.0f} requests, {size:7,.0f} bytes: {what}, of a full office"
            )
            bench.same(what, wanted in page.text(), True)
        page.go("roles", f"role {CROWDED:04}")
        users = [number for number in range(USERS) if role_of(number) == CROWDED]
        bench.same("its users", f"Assigned users: 1 to 25 of {len(users):,}" in page.text(), True)
        through = "through a senior role" in page.text()
        page.click("Last: Assigned users")
        page.until(lambda: f"user {users[-1]:05}" in page.text(), "the last of its users")
        bench.same("who has it through seniors", through, True)
        page.go("reports", "permissions")
        bench.same(
            "too many lines",
            f"This would be {lines_of_report():,} lines, and a report has at most 1,000,000. Choose a user" in page.text(),
            True,
        )
        bench.same("no file", (page.find("Download CSV"), page.find("Print")), (None, None))


def asked(front, path, text):
    """The value of an answer to a request, and how many seconds it took: the median of some."""
    found = []
    for _ in range(TRIALS):
        start = time.monotonic()
        status, body = front.exchange("POST", path, text)
        found.append(time.monotonic() - start)
    return (status, json.loads(body).get("value")), statistics.median(found)


def check_trials(bench):
    """What if and Explain over a full office: they are answered, and say how long that took."""
    revoked = [
        {
            "fn": "revokePermission",
            "object": f"object {n:04}",
            "operation": "read",
            "role": f"role {granted_to(n * len(OPERATIONS), 1):04}",
        }
        for n in range(100)
    ]
    decision = {"operation": "read", "object": "object 0000"}
    with full_front(bench) as front:
        for what, commands in [
            ("a user is locked", [{"fn": "lockUserAccount", "user": "user 00000"}]),
            ("100 users are deleted", [{"fn": "deleteUser", "user": f"user {number:05}"} for number in range(100)]),
            ("a role inherits from another", [{"fn": "addInheritance", "asc": "role 0005", "desc": "role 0006"}]),
            ("a role no longer inherits", [{"fn": "deleteInheritance", "asc": "role 0001", "desc": "role 0005"}]),
            ("100 permissions are revoked", revoked),
        ]:
            (status, value), took = asked(front, "/what-if", "\n".join(json.dumps(one) for one in commands))
            bench.same(f"what if {what}", status, 200)
            refused = [one for one in value["answers"] if not one.get("ok")]
            lost, gained = (value[key]["count"] for key in ("lost", "gained"))
            print(f"{took:6.2f} s, {lost:6,} permissions lost, {gained:6,} gained: what if {what}, of a full office")
            bench.same(
                what,
                (refused, lost > 0, gained > 0),
                ([], what != "a role inherits from another", what == "a role inherits from another"),
            )
        for what, query, is_allowed in [
            ("a user", {"user": "user 00000", **decision}, True),
            ("a session", {"session": f"session {FIRST_OF_SESSIONS}", **decision}, False),
        ]:
            (status, value), took = asked(front, "/explain", json.dumps(query))
            print(f"{took * 1000:6.1f} ms: explain {what}, of a full office")
            bench.same(f"explain {what}", (status, value["allowed"]), (200, is_allowed))


def check_reports(bench):
    """Long reports of a full office: refused above a million lines, and otherwise made within a bounded memory, which is reported."""
    with full_front(bench) as front:
        status, refused = ticket_for(front, "permissions")
        bench.same("too many lines", (status, refused["error"], refused["lines"]), (413, "BadRequest", lines_of_report()))
        before = memory_of(front.process.pid)
        for name, values in (("near", {}), ("sessions", {}), ("dump", {}), ("permissions", {"operation": "read"})):
            start = time.monotonic()
            told = ticket_for(front, name, values)[1]
            counted = time.monotonic() - start
            lines_made, size = 0, 0
            with urllib.request.urlopen(f"http://{HOST}:{front.port}/reports/{told['ticket']}", timeout=300) as reply:
                while piece := reply.read(1 << 16):
                    lines_made += piece.count(b"\n")
                    size += len(piece)
            took = time.monotonic() - start
            bench.same(f"the lines of {name}", lines_made - (name != "dump"), told["lines"])
            most = memory_of(front.process.pid)
            print(f"{name} {values}: {told['lines']:,} lines counted in {counted:.2f} s, {size:,} bytes in {took:.1f} s, "
                  f"{most / 1e6:.0f} MB of memory at most, {before / 1e6:.0f} MB before")  # fmt: skip
            bench.judge(f"the memory of {name}", [f"{most:,} bytes"] if most > MOST_MEMORY else [])
