"""Commands on dynamic sets and inheritances that bench/embedded.py times: two that undo each other, and the office of both."""

from __future__ import annotations

import json
from itertools import count
from typing import Callable, Iterator

from .users import MEMBERS, SETS, Command, with_sets, worst

# The numbers of the hasher of the kit, by which the index finds the names of dynamic sets. They are in its sources.
START, FACTOR, WORD = 0x243F6A8885A308D3, 0x9E3779B97F4A7C15, 1 << 64
# How many of the last bits of a hash the colliding names have in common: a table for so few sets uses fewer.
COMMON_BITS = 12


def folded(a: int, b: int) -> int:
    """Returns the halves of a product of 128 bits, joined."""
    product = a * b
    return product % WORD ^ product >> 64


def hash_of(name: str) -> int:
    """Returns the hash of a name of five to eight bytes, as a table of the kit has it: the name, then a byte 255."""
    text = name.encode()
    state = folded(START ^ int.from_bytes(text[:4] + text[-4:], "little"), FACTOR ^ 2 * len(text))
    state = folded(state ^ 0xFFFFFF, FACTOR ^ 2)
    return (state ^ state >> 32) % (1 << 32)


def colliding(wanted: int) -> list[str]:
    """Returns names whose hashes end in the same bits."""
    names = (f"s{number:07}" for number in count())
    return [next(it for it in names if hash_of(it) % (1 << COMMON_BITS) == 0) for _ in range(wanted)]


def renamed(commands: Iterator[Command]) -> Iterator[Command]:
    """Yields the commands with colliding names of the dynamic sets."""
    names = dict(zip((f"d{number:02}" for number in range(SETS)), colliding(SETS)))
    for function, keys in commands:
        yield function, {**keys, "set": names[keys["set"]]} if "set" in keys else keys


def cardinality(name: str, *numbers: int) -> list[Command]:
    """Returns the commands that give a set these cardinalities."""
    return [("setDsdSetCardinality", {"set": name, "cardinality": it}) for it in numbers]


def edge(asc: str, desc: str) -> list[Command]:
    """Returns the commands that add an inheritance and delete it."""
    return [(function, {"asc": asc, "desc": desc}) for function in ("addInheritance", "deleteInheritance")]


MEMBER = [("deleteDsdRoleMember", {"set": "d63", "role": "m31"}), ("addDsdRoleMember", {"set": "d63", "role": "m31"})]
ROLES = [f"m{number:02}" for number in range(MEMBERS)]
CREATED = [("deleteDsdSet", {"set": "d63"}), ("createDsdSet", {"set": "d63", "roles": ROLES, "cardinality": 2})]

# The commands by what the table says of them, with their offices.
CHANGES: dict[str, tuple[Callable[[], Iterator[Command]], list[Command]]] = {
    "the worst office: a cardinality of 31, 32": (worst, cardinality("d00", 31, 32)),
    "the same, of 16, 2": (worst, cardinality("d63", 16, 2)),
    "the same: a member less, more": (worst, MEMBER),
    "the same: a set less, more": (worst, CREATED),
    "the same, names of sets that collide: a cardinality of 31, 32": (
        lambda: renamed(worst()),
        cardinality(colliding(1)[0], 31, 32),
    ),
    "the same: an inheritance more, less": (worst, edge("g000", "m05")),
    "10 sets of 5 roles: an inheritance more, less": (lambda: with_sets(10, 5), edge("r98", "r40")),
}


def line(command: Command) -> str:
    """Returns a command as a line."""
    function, keys = command
    return json.dumps({"fn": function, **keys})
