"""The plain model alone: static separation, and what is written of a small office."""

from itertools import combinations

import pytest

from machine.assignments import export
from machine.replaying import Replay
from machine.state import authorized_users, static_violation
from machine.texts import report, rows
from program.bench import TESTS

# The most roles of a set of which all subsets are tried.
MOST_ROLES = 8

# The answers about the small office, whose commands are the first lines of this row.
SMALL_OFFICE, LINES = TESTS / "rows/reviewed.jsonl", 16
REPORT = b"""\
    assigned  authorized     granted   permitted     juniors     seniors  role
           1           1           1           2           1           0  boss
           1           2           1           1           0           1  clerk
           0           0           0           0           0           0  temp
"""
EXPORT = b"user,role\nann,boss\nbob,clerk\n"
ROWS = {
    "meta_row": [("rbac", 2)],
    "name_row": [(1, "ann"), (1, "bob"), (2, "boss"), (2, "clerk"), (2, "temp"), (3, "safe")],
    "pair_row": [
        (1, "safe", "open"),
        (1, "safe", "view"),
        (2, "ann", "boss"),
        (2, "bob", "clerk"),
        (3, "boss", "clerk"),
        (4, "boss", "clerk"),
        (5, "pay", "clerk"),
        (5, "pay", "temp"),
        (6, "till", "boss"),
        (6, "till", "temp"),
        (7, "s1", "ann"),
        (8, "s1", "boss"),
    ],
    "grant_row": [("safe", "open", "clerk"), ("safe", "view", "boss")],
    "set_row": [(1, "pay", 2), (2, "till", 2)],
    "locked_row": [],
}


WITH_STATIC_SETS = [row for row in sorted((TESTS / "rows").rglob("*.jsonl")) if b"createSsdSet" in row.read_bytes()]


def small_office(version):
    """The state of the small office."""
    replay = Replay(version)
    for line in SMALL_OFFICE.read_bytes().splitlines()[:LINES]:
        if replay.answer(line) != b'{"ok":true}':
            raise ValueError(f"{line!r} is refused")
    return replay.state


@pytest.mark.parametrize("row", WITH_STATIC_SETS, ids=lambda row: row.stem)
def check_subset_form(bench, row):
    """Static separation counted is that by subsets, as the standard has it: no user is authorized for all roles of a subset that
    has as many roles as the cardinality. Small static sets are tried with each number of their roles, after the row."""
    replay = Replay(1 if row.parent.name == "version-1" else 2)
    bench.judge("the row is answered", [] if list(replay.answers(row.read_bytes())) else ["there are no answers"])
    small = {name: roles for name, (roles, _) in replay.state.static_sets.items() if len(roles) <= MOST_ROLES}
    for name, roles in small.items():
        authorized = [authorized_users(replay.state, role) for role in roles]
        for number in range(1, len(roles) + 1):
            state = replay.state.but(static_sets={name: (roles, number)})
            is_violated = any(set.intersection(*users) for users in combinations(authorized, number))
            bench.same(f"{number} roles of {name}", static_violation(state) == name, is_violated)


def check_small_office(bench):
    """The report, the export and the table rows of a small office are those that are written here."""
    state = small_office(2)
    bench.same("the report", report(state), REPORT)
    bench.same("the export", export(state), EXPORT)
    bench.same("the rows", rows(state), ROWS)


def check_version_1(bench):
    """The same office of version 1 has no table of locks."""
    old = {**ROWS, "meta_row": [("rbac", 1)]}
    del old["locked_row"]
    bench.same("the rows", rows(small_office(1)), old)
