"""An office of roles in this process, for Python 3.10 or later on Linux.

    office = Office()
    office.call("addUser", user="ann")
    ..
    if office.check("s1", "open", "safe"):

It is the library librbac, and no server is needed. docs/reference/api.md describes the functions, docs/howto/embed.md when to use this
and what is proved. An office may be used by several threads: each call waits for the one before it. os.fork waits until no thread
is in a call, and the child has an office of its own then.
"""

from __future__ import annotations

import json
import os
import struct
from itertools import groupby
from operator import itemgetter
from typing import Any, Iterable, Iterator, NamedTuple

from ._library import Library, after_fork_in_child, after_fork_in_parent, before_fork, set_on_refusal

__all__ = ["Office", "Reason", "Refused", "Row", "TABLES"]

# The tables of an office, by their numbers in rbac.h, with the names that a row of each has.
TABLES = {
    "users": ("user",),
    "roles": ("role",),
    "objects": ("object",),
    "permissions": ("object", "operation"),
    "assignments": ("user", "role"),
    "inheritances": ("ascendant", "descendant"),
    "closurePairs": ("senior", "junior"),
    "staticMembers": ("set", "role"),
    "dynamicMembers": ("set", "role"),
    "sessions": ("session", "user"),
    "activatedRoles": ("session", "role"),
    "grants": ("object", "operation", "role"),
    "staticCardinalities": ("set",),
    "dynamicCardinalities": ("set",),
    "locks": ("user",),
}
_NUMBERS = {name: number for number, name in enumerate(TABLES)}
# The reasons of a decision, by their numbers in rbac.h.
_REASONS = {1: "allowed", 2: "locked", 3: "notGranted", 4: "notAuthorized", 5: "separated", 6: "notActive"}
# The refusals of a question without a line, and of a load, by their codes.
_NAMES = {
    1: "BadName",
    2: "NoUser",
    4: "NoRole",
    6: "NoObject",
    16: "Cycle",
    26: "NoSession",
    28: "NotOwner",
    29: "NotAuthorized",
    32: "TooMany",
    33: "NoOperation",
    37: "UserLocked",
    52: "Damaged",
}


class Refused(Exception):
    """The office refused a request, and nothing was done. `code` and `name` are those of docs/reference/api.md."""

    def __init__(self, code: int, name: str, details: dict[str, Any] | None = None) -> None:
        super().__init__(code, name, details or {})
        self.code, self.name, self.details = code, name, details or {}


class Row(NamedTuple):
    """A row of a table. `number` is the cardinality of a separation of duty set, and otherwise 0."""

    table: str
    names: tuple[str, ...]
    number: int = 0


class Reason(NamedTuple):
    """Why a user may do an operation on an object in some session, or why a session may, or why not.

    About a user, the first of these that applies: "locked", "notGranted" (the permission is granted to no role), "notAuthorized"
    (the user is authorized for no such role), "separated" (each such role violates a dynamic set alone; `names` has a role and a
    set), or "allowed" (`names` has an assigned role, and the role that is granted the permission, which is this one or a junior of
    it). About a session: "notGranted", "notActive" (the session has no such role), or "allowed" (`names` has a role that was
    activated, and the role that is granted the permission).
    """

    why: str
    names: tuple[str, ...] = ()


def _refuse(code: int) -> None:
    """Raises the refusal of this code."""
    raise Refused(code, _NAMES.get(code, "Unknown"))


set_on_refusal(_refuse)
os.register_at_fork(before=before_fork, after_in_parent=after_fork_in_parent, after_in_child=after_fork_in_child)


class Office(Library):
    """An office in memory. It is empty, or has the rows that `Office.load` is given.

    `answer`, `check`, `check_user`, `assignment_conflicts`, `activation_conflicts` and `close` are in C. A method raises `Refused` if the office refuses, `MemoryError` if an allocation
    failed, and `ValueError` if the office is closed.
    """

    @classmethod
    def load(cls, rows: Iterable[Row], revision: int = 0) -> Office:
        """The office that has exactly these rows, in any order, as `rows` returned them.

        The revision counts on from the one that is given.
        """
        office = cls()
        for table, names, number in rows:
            first, second, third = (*names, "", "", "")[:3]
            office._accept(office._add_row(_NUMBERS[table], first, second, third, number))
        office._accept(office._load(revision))
        return office

    @staticmethod
    def _accept(code: int) -> None:
        """Raises the refusal of this code, unless it is 0."""
        if code:
            _refuse(code)

    def call(self, function: str, /, **arguments: Any) -> Any:
        """Calls any function: `call("createSsdSet", set="pay", roles=["auditor", "clerk"], cardinality=2)`.

        Returns None for a command, the counts for importAssignments, and the value for a question.
        """
        line = json.dumps({**arguments, "fn": function}, ensure_ascii=False)
        answer = json.loads(self.answer(line.encode()))
        if answer.get("ok") is True:
            return answer.get("value")
        raise Refused(answer.pop("code"), answer.pop("error"), answer)

    def explain_user(self, user: str, operation: str, object: str, /) -> Reason:
        """Why `check_user` decides as it does: "allowed" exactly if it returns True."""
        number, *names = self._explain_user(user, operation, object)
        return Reason(_REASONS[number], tuple(name for name in names if name))

    def explain_session(self, session: str, operation: str, object: str, /) -> Reason:
        """Why `check` decides as it does: "allowed" exactly if it returns True."""
        number, *names = self._explain_session(session, operation, object)
        return Reason(_REASONS[number], tuple(name for name in names if name))

    def inheritance_conflicts(self, asc: str, desc: str, /, *, of_sessions: bool = False) -> list[tuple[str, str]]:
        """The static sets that would be violated if asc became an immediate ascendant of desc, in byte order, each with the
        first user who would be authorized for too many of its roles; or the dynamic sets, each with the first session.

        If addInheritance is refused for separation of duty, it names the first.
        """
        return self._inheritance_conflicts(of_sessions, asc, desc)

    def creation_conflicts(self, user: str, roles: Iterable[str], /) -> list[tuple[str, list[str]]]:
        """The dynamic sets that a new session of the user with these roles would violate, in byte order, each with those of
        its roles that the session would have.

        If createSession is refused with DynamicSeparation, it names the first.
        """
        names = [role.encode() for role in roles]
        lengths = struct.pack(f"{len(names)}N", *map(len, names))
        pairs = self._creation_conflicts(user, b"".join(names), lengths)
        return [(name, [role for _, role in members]) for name, members in groupby(pairs, itemgetter(0))]

    @property
    def revision(self) -> int:
        """How many commands the office has accepted. A decision holds as long as this stays the same."""
        return self._revision()

    def rows(self) -> Iterator[Row]:
        """The rows of all tables, which `Office.load` takes. Raises RuntimeError if a command is done meanwhile."""
        revision = self.revision
        for number, (table, parts) in enumerate(TABLES.items()):
            index = 0
            while rows := self._rows(number, index):
                yield from (Row(table, row[: len(parts)], row[3]) for row in rows)
                index += len(rows)
        if self.revision != revision:
            raise RuntimeError("the office changed while its rows were read")

    def rows_with(self, table: str, first: str, /) -> list[Row]:
        """The rows of the table with this first name, in byte order. Raises RuntimeError if a command is done meanwhile."""
        revision, number, parts = self.revision, _NUMBERS[table], TABLES[table]
        index, end = self._range(number, first)
        found: list[Row] = []
        while index < end and (rows := self._rows(number, index)[: end - index]):
            found.extend(Row(table, row[: len(parts)], row[3]) for row in rows)
            index += len(rows)
        if self.revision != revision:
            raise RuntimeError("the office changed while its rows were read")
        return found

    def __enter__(self) -> Office:
        return self

    def __exit__(self, *_: Any) -> None:
        self.close()
