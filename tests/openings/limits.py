"""Offices at each limit, in each version: with one less than there may be a command adds one, and another one is refused; a file with one
more is refused. The rows of the table of limits say how many there may be.
"""

import json
from itertools import islice, product
from math import isqrt

import pytest

from machine.opening import COLUMNS
from machine.state import LIMITS
from program.offices import Office

USER, ROLE, OBJECT = 1, 2, 3
PERMISSION, ASSIGNMENT, EDGE, CLOSURE, STATIC_MEMBER, DYNAMIC_MEMBER, SESSION, ACTIVE = range(1, 9)
STATIC, DYNAMIC = 1, 2

# What each office has: a user with a session, two roles, and an object with two permissions.
ALWAYS = {
    "name_row": [(USER, "ann"), (ROLE, "r0"), (ROLE, "r1"), (OBJECT, "safe")],
    "pair_row": [(PERMISSION, "safe", "open"), (PERMISSION, "safe", "shut"), (SESSION, "s", "ann")],
    "grant_row": [],
    "set_row": [],
}
ROLES = ["r0", "r1"]


def named(kind, letter, count):
    """The rows of `count` names of a kind."""
    return [(kind, f"{letter}{number}") for number in range(count)]


def each(function, key, values, **more):
    """A command for each value at a key."""
    return [{"fn": function, key: value, **more} for value in values]


def crossed(count):
    """`count` pairs of names, and how many names are on each side."""
    side = range(isqrt(count) + 1)
    return [(f"a{one}", f"b{two}") for one, two in islice(product(side, side), count)], len(side)


def of_names(kind, number, there):
    """A function of a count: the rows of that many names of a kind, of which each office has `there`, and commands that add two more."""
    function = {"user": "addUser", "role": "addRole", "object": "addPermObj"}[kind]
    return lambda count: ({"name_row": named(number, "n", count - there)}, each(function, kind, ["one more", "too many"]))


def of_permissions(count):
    rows = [(PERMISSION, "safe", f"n{number}") for number in range(count - 2)]
    return {"pair_row": rows}, each("addPermission", "operation", ["one more", "too many"], object="safe")


def of_sessions(count):
    rows = [(SESSION, f"n{number}", "ann") for number in range(count - 1)]
    return {"pair_row": rows}, each("createSession", "session", ["one more", "too many"], user="ann", roles=[])


def of_assignments(count):
    pairs, side = crossed(count)
    rows = {"name_row": named(USER, "a", side) + named(ROLE, "b", side), "pair_row": [(ASSIGNMENT, *pair) for pair in pairs]}
    return rows, each("assignUser", "role", ROLES, user="ann")


def of_grants(count):
    pairs, side = crossed(count)
    rows = {
        "name_row": named(ROLE, "b", side),
        "pair_row": [(PERMISSION, "safe", f"a{number}") for number in range(side)],
        "grant_row": [("safe", *pair) for pair in pairs],
    }
    return rows, each("grantPermission", "role", ROLES, object="safe", operation="open")


def of_edges(count):
    pairs, side = crossed(count)
    rows = [(kind, *pair) for pair in pairs for kind in (EDGE, CLOSURE)]
    return {"name_row": named(ROLE, "a", side) + named(ROLE, "b", side), "pair_row": rows}, each(
        "addInheritance", "asc", ROLES, desc="b0"
    )


def of_sets(kind, member, function):
    """A function of a count: the rows of that many sets of a sort, each with the two roles, and commands that add two more."""

    def made(count):
        names = [f"x{number}" for number in range(count)]
        rows = {"set_row": [(kind, name, 2) for name in names], "pair_row": [(member, *pair) for pair in product(names, ROLES)]}
        return rows, each(function, "set", ["one more", "too many"], roles=ROLES, cardinality=2)

    return made


def of_members(count):
    """A static and a dynamic set."""
    roles = named(ROLE, "a", count)
    rows = [(member, "x", role) for _, role in roles for member in (STATIC_MEMBER, DYNAMIC_MEMBER)]
    commands = [
        command
        for role in ROLES
        for sort in ("Ssd", "Dsd")
        for command in each(f"add{sort}RoleMember", "role", [role], set="x")
    ]
    return {"name_row": roles, "pair_row": rows, "set_row": [(STATIC, "x", 2), (DYNAMIC, "x", 2)]}, commands


def of_activated(count):
    roles = named(ROLE, "a", count)
    rows = [(ASSIGNMENT, "ann", role) for role in [*ROLES, *(role for _, role in roles)]] + [
        (ACTIVE, "s", role) for _, role in roles
    ]
    return {"name_row": roles, "pair_row": rows}, each("addActiveRole", "role", ROLES, user="ann", session="s")


# For each kind a function of a count: the rows with which an office has that many, and commands that add two more.
MADE = {
    "user": of_names("user", USER, 1),
    "role": of_names("role", ROLE, 2),
    "object": of_names("object", OBJECT, 1),
    "permission": of_permissions,
    "grant": of_grants,
    "assignment": of_assignments,
    "edge": of_edges,
    "ssdSet": of_sets(STATIC, STATIC_MEMBER, "createSsdSet"),
    "dsdSet": of_sets(DYNAMIC, DYNAMIC_MEMBER, "createDsdSet"),
    "member": of_members,
    "session": of_sessions,
    "activeRole": of_activated,
}


def text_of(row):
    """A row in a statement."""
    return "({})".format(", ".join(f"'{one}'" if isinstance(one, str) else str(one) for one in row))


def office_with(bench, version, count, rows):
    """An office with these rows, and those that each one has."""
    office = Office(bench, f"{count} in version {version}")
    if version == 1:
        office.become_version_1()
    for table, always in ALWAYS.items():
        if some := always + rows.get(table, []):
            office.change([f"INSERT INTO {table} ({', '.join(COLUMNS[table])}) VALUES {', '.join(map(text_of, some))}"])
    return office.path


@pytest.mark.parametrize("kind", [kind for kind in LIMITS if kind not in ("record", "byte")])
def check_limits(bench, kind):
    """One less, as many as there may be, and one more, of a kind of which an office has some. tests/program/importing.py has those of an import."""
    refusal = b'{"code":32,"error":"TooMany","kind":"%s"}' % kind.encode()
    for version, most in enumerate(LIMITS[kind], 1):
        rows, commands = MADE[kind](most - 1)
        path = office_with(bench, version, most - 1, rows)
        half = len(commands) // 2
        answers = [b'{"ok":true}\n'] * half + [refusal + b"\n"] * half
        bench.ends(["replay", path], b"".join(answers), given="".join(json.dumps(one) + "\n" for one in commands).encode())
        bench.ends(["check", path], b"good\n", keeps=True)
        bench.refuses(["check", office_with(bench, version, most + 1, MADE[kind](most + 1)[0])], refusal)
