"""Offices over which bench/embedded.py asks about a user, from one without dynamic sets to one that is near the limits."""

from __future__ import annotations

import json
from functools import partial
from typing import Iterator

from .policy import Policy

Command = tuple[str, dict]
# The most dynamic sets, and the most members of one.
SETS, MEMBERS = 64, 32
# The most roles.
ROLES = 1024
# How many roles of the worst office are in a chain, which makes the closure large, and to how many the permission is granted.
CHAIN, GRANTED = 500, 480


def with_sets(count: int, members: int) -> Iterator[Command]:
    """Yields the commands of the usual office and of some dynamic sets, which no session violates: of each it has one role at most."""
    yield from Policy().commands()
    others = [f"x{number}" for number in range(members - 1)]
    for role in others:
        yield "addRole", {"role": role}
    for number in range(count):
        yield "createDsdSet", {"set": f"d{number}", "roles": sorted([f"r{99 - number % 50}", *others]), "cardinality": 2}


def worst() -> Iterator[Command]:
    """Yields the commands of an office in which a decision about ann takes long.

    The permission is granted to many roles. ann is authorized for all of them by the last of many roles that she is assigned, and each
    has two juniors that are members of all sets, and as many as the last set doesn't allow.
    """
    members = [f"m{number:02}" for number in range(MEMBERS)]
    chain = [f"c{number:03}" for number in range(CHAIN)]
    granted = [f"g{number:03}" for number in range(GRANTED)]
    yield "addUser", {"user": "ann"}
    yield "addPermObj", {"object": "safe"}
    yield "addPermission", {"object": "safe", "operation": "open"}
    for role in [*members, *chain, *granted, "z"]:
        yield "addRole", {"role": role}
    for above, below in zip(chain, chain[1:]):
        yield "addInheritance", {"asc": above, "desc": below}
    for role in granted:
        yield "addInheritance", {"asc": "z", "desc": role}
        for junior in members[:2]:
            yield "addInheritance", {"asc": role, "desc": junior}
        yield "grantPermission", {"object": "safe", "operation": "open", "role": role}
    for role in [*chain, "z"]:
        yield "assignUser", {"user": "ann", "role": role}
    for number in range(SETS):
        cardinality = MEMBERS if number < SETS - 1 else 2
        yield "createDsdSet", {"set": f"d{number:02}", "roles": members, "cardinality": cardinality}


def apart(assigned: int) -> Iterator[Command]:
    """Yields the commands of an office in which ann is assigned many roles, and the permission is granted to all others."""
    roles = [f"r{number:04}" for number in range(ROLES)]
    yield "addUser", {"user": "ann"}
    yield "addPermObj", {"object": "safe"}
    yield "addPermission", {"object": "safe", "operation": "open"}
    for role in roles:
        yield "addRole", {"role": role}
    for above, below in zip(roles[:assigned], roles[1:assigned]):
        yield "addInheritance", {"asc": above, "desc": below}
    for role in roles[:assigned]:
        yield "assignUser", {"user": "ann", "role": role}
    for role in roles[assigned:]:
        yield "grantPermission", {"object": "safe", "operation": "open", "role": role}


# The offices by what the table says of them, with the user, the operation and the object, and the decision.
OFFICES = {
    "1,000 users, 100 roles in a tree, no dynamic set": (Policy().commands, ["u0", "read", "o99"], 1),
    "the same, 10 dynamic sets of 5 roles": (lambda: with_sets(10, 5), ["u0", "read", "o99"], 1),
    "the same, 64 dynamic sets of 32 roles": (lambda: with_sets(64, 32), ["u0", "read", "o99"], 1),
    "the limits: 501 assigned roles, 480 granted that 64 dynamic sets of 32 roles forbid": (worst, ["ann", "open", "safe"], 0),
    "the limits: 1,023 assigned roles, the other one granted": (partial(apart, ROLES - 1), ["ann", "open", "safe"], 0),
    "the limits: 16 assigned roles, all others granted": (partial(apart, 16), ["ann", "open", "safe"], 0),
}


def lines_of(commands: Iterator[Command]) -> bytes:
    """Returns commands as lines."""
    return "".join(json.dumps({"fn": function, **keys}) + "\n" for function, keys in commands).encode()
