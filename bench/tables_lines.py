#!/usr/bin/env python3
"""bench/tables_lines.py WHAT: prints the lines of the benchmark `tables`: a label and a command each.

`commits`   1,000 users are added and then assigned to a role, one command each
`import`    10,000 records, all pairs of 100 users and 100 roles
`joining`   two chains of 512 roles are made, and joined by one edge
`deleting`  three users with 1,000 assignments and 300 sessions of 32 roles each are deleted
`limits`    no commands, but the rows of an office at the limits of version 2, as statements of one
            transaction, with no separation of duty set; `limits-sets` has 64 static and 64 dynamic ones
"""

import sys
from pathlib import Path

sys.path.insert(0, str(Path(__file__).resolve().parent.parent / "tests"))
from machine.state import MOST  # noqa: E402

COMMITS = 1_000
SESSIONS, ACTIVE, ASSIGNED = 300, MOST["activeRole"], 1_000
USERS, ROLES, OBJECTS, PERMISSIONS, GRANTS, EDGES = (
    MOST[it] for it in ("user", "role", "object", "permission", "grant", "edge")
)
SETS, MEMBERS = MOST["ssdSet"], MOST["member"]


def say(*words):
    """Prints a line that is not timed."""
    print("-", *words)


def time(*words):
    """Prints a line whose time is printed under its command."""
    print(words[0], *words)


def user(number):
    """The name of a user."""
    return f"user{number:05}"


def role(number):
    """The name of a role."""
    return f"role{number:04}"


def commits():
    """One row in each transaction."""
    say("addRole", role(0))
    for number in range(COMMITS):
        time("addUser", user(number))
    for number in range(COMMITS):
        time("assignUser", user(number), role(0))


def imports():
    """All pairs of users and roles in one transaction."""
    for number in range(100):
        say("addUser", user(number))
        say("addRole", role(number))
    records = [f"{user(first)} {role(second)}" for first in range(100) for second in range(100)]
    time("importAssignments", *records)


def joining():
    """Two chains of roles, made from the bottom up, and the edge that joins them."""
    for number in range(ROLES):
        say("addRole", role(number))
    half = ROLES // 2
    for number in range(ROLES - 2, -1, -1):
        if number != half - 1:
            print("addInheritance/chains", "addInheritance", role(number), role(number + 1))
    print("addInheritance/joining", "addInheritance", role(half - 1), role(half))


def deleting():
    """Users with many rows are deleted."""
    for number in range(ASSIGNED):
        say("addRole", role(number))
    for number in range(3):
        say("addUser", user(number))
        say("importAssignments", *(f"{user(number)} {role(it)}" for it in range(ASSIGNED)))
    for session in range(SESSIONS):
        for number in range(3):
            active = [role((31 * session + it) % ASSIGNED) for it in range(ACTIVE)]
            say("createSession", user(number), f"session{number}{session:03}", *active)
    for number in range(3):
        time("deleteUser", user(number))


def put(table, *values):
    """Prints the statement that inserts a row."""
    print("+", table, *values)


def hierarchy():
    """The edges of a chain of all roles, with more that pass over one to four, and their closure."""
    edges = [(it, it + step) for step in range(1, 6) for it in range(ROLES - step)]
    edges = sorted(edges[:EDGES], key=lambda edge: (-edge[0], edge[1]))
    before = ROLES
    for first, second in edges:
        put("pair", 3, role(first), role(second))
        if first != before:
            for below in range(first + 1, ROLES):
                put("pair", 4, role(first), role(below))
        before = first


def separation(kind):
    """Sets whose cardinality is the number of their members, two of which no user has."""
    for number in range(SETS):
        name = f"set{number:02}"
        put("set", kind - 4, name, MEMBERS)
        for it in (0, 1, *(2 + (7 * number + 5 * it) % (ROLES - 2) for it in range(MEMBERS - 2))):
            put("pair", kind, name, role(it))


def limits(has_sets):
    """The rows of an office that has as much of everything as it may, except sessions."""
    print("= rows")
    for number in range(ROLES):
        put("name", 2, role(number))
    hierarchy()
    for number in range(USERS):
        put("name", 1, user(number))
        put("pair", 2, user(number), role(2 + 7 * number % (ROLES - 2)))
    for number in range(OBJECTS):
        put("name", 3, f"object{number:04}")
    for number in range(PERMISSIONS):
        put("pair", 1, f"object{number % OBJECTS:04}", f"operation{number // OBJECTS}")
    for number in range(GRANTS):
        it = number % PERMISSIONS
        granted = (number * 7 + number // PERMISSIONS) % ROLES
        put("grant", f"object{it % OBJECTS:04}", f"operation{it // OBJECTS}", role(granted))
    if has_sets:
        separation(5)
        separation(6)
    print(".")


def main():
    """Prints the lines that are asked for."""
    what = {"commits": commits, "import": imports, "joining": joining, "deleting": deleting}
    what |= {"limits": lambda: limits(False), "limits-sets": lambda: limits(True)}
    what[sys.argv[1]]()


if __name__ == "__main__":
    main()
