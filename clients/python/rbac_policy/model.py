"""What an office has, as sets of names, and the commands that make it."""

import hashlib
import json
from collections.abc import Iterable, Iterator
from dataclasses import dataclass, field, replace
from typing import Any

from .limits import limits_of

# A command to the office: its function at `fn`, and its arguments.
Command = dict[str, Any]

# How many there may be of each kind, in an office of version 2.
LIMITS = limits_of(2)

# The words for the kinds of which a policy has some.
KINDS = {
    "user": "users",
    "role": "roles",
    "object": "objects",
    "permission": "permissions",
    "grant": "grants",
    "assignment": "assignments",
    "edge": "inheritances",
    "ssdSet": "static sets",
    "dsdSet": "dynamic sets",
    "member": "members of a set",
}

# The functions for each sort of separation of duty set.
SET_FUNCTIONS = {
    "static": ("createSsdSet", "addSsdRoleMember", "deleteSsdRoleMember", "setSsdSetCardinality", "deleteSsdSet"),
    "dynamic": ("createDsdSet", "addDsdRoleMember", "deleteDsdRoleMember", "setDsdSetCardinality", "deleteDsdSet"),
}


class Stop(Exception):
    """Why a command line can't be done any further. Its text is for the user. Nothing was changed unless it says so."""


@dataclass(frozen=True)
class DutySet:
    """A separation of duty set: nobody may have `cardinality` or more of the roles."""

    roles: frozenset[str]
    cardinality: int


@dataclass
class State:
    """What is in an office.

    `users` has whether each user is locked. permissions are pairs (object, operation), grants (object, operation, role), edges
    (ascendant, descendant) and assignments (user, role). `sessions` has the user and the activated roles of each session, by its
    name, or by its digest in what a front has answered. A policy without users says nothing about users and assignments.
    """

    users: dict[str, bool] = field(default_factory=dict)
    roles: set[str] = field(default_factory=set)
    objects: set[str] = field(default_factory=set)
    permissions: set[tuple[str, str]] = field(default_factory=set)
    grants: set[tuple[str, str, str]] = field(default_factory=set)
    edges: set[tuple[str, str]] = field(default_factory=set)
    assignments: set[tuple[str, str]] = field(default_factory=set)
    static: dict[str, DutySet] = field(default_factory=dict)
    dynamic: dict[str, DutySet] = field(default_factory=dict)
    sessions: dict[str, tuple[str, frozenset[str]]] = field(default_factory=dict)
    has_users: bool = True

    def sets(self, sort: str) -> dict[str, DutySet]:
        """The static or the dynamic sets."""
        return self.static if sort == "static" else self.dynamic

    def but(self, **changes: Any) -> "State":
        """The state with these parts in place of its own."""
        return replace(self, **changes)

    def commands(self) -> Iterator[Command]:
        """The commands that make the office without its sessions, in a fixed order."""
        for role in sorted(self.roles):
            yield {"fn": "addRole", "role": role}
        for asc, desc in sorted(self.edges):
            yield {"fn": "addInheritance", "asc": asc, "desc": desc}
        for ob in sorted(self.objects):
            yield {"fn": "addPermObj", "object": ob}
        for ob, op in sorted(self.permissions):
            yield {"fn": "addPermission", "object": ob, "operation": op}
        for ob, op, role in sorted(self.grants):
            yield {"fn": "grantPermission", "object": ob, "operation": op, "role": role}
        for sort, (create, *_) in SET_FUNCTIONS.items():
            for name, duty in sorted(self.sets(sort).items()):
                yield {"fn": create, "set": name, "roles": sorted(duty.roles), "cardinality": duty.cardinality}
        for user, is_locked in sorted(self.users.items()):
            yield {"fn": "addUser", "user": user}
            if is_locked:
                yield {"fn": "lockUserAccount", "user": user}
        for user, role in sorted(self.assignments):
            yield {"fn": "assignUser", "user": user, "role": role}

    def session_commands(self) -> Iterator[Command]:
        """The commands that make the sessions."""
        for session, (user, roles) in sorted(self.sessions.items()):
            yield {"fn": "createSession", "user": user, "roles": sorted(roles), "session": session}

    def digest(self) -> str:
        """The SHA-256 of what the office has besides its sessions."""
        return hashlib.sha256(b"".join(map(line_of, self.commands()))).hexdigest()

    def counts(self) -> dict[str, int]:
        """How many there are of each kind of which an office has a limited number."""
        parts = (self.users, self.roles, self.objects, self.permissions, self.grants, self.assignments, self.edges)
        return dict(zip(KINDS, map(len, (*parts, self.static, self.dynamic))))


def line_of(command: Command) -> bytes:
    """A command as a line of JSON, with LF."""
    return json.dumps(command, ensure_ascii=False, separators=(",", ":")).encode() + b"\n"


def sentence(command: Command) -> str:
    """A command in words, without the name of a session. A name is in double quotes if a reader could miss where it ends."""
    values = {key: shown(value) for key, value in command.items() if isinstance(value, str)}
    if "roles" in command:
        values["roles"] = ", ".join(map(shown, command["roles"])) or "no role"
    return _SENTENCES[command["fn"]].format(**{"cardinality": command.get("cardinality"), **values})


def shown(name: str) -> str:
    """A name as a reader can take it from a text."""
    plain = name.isprintable() and name == name.strip() and not set(name) & set("\"'\\,:;() ") and name
    return name if plain else json.dumps(name, ensure_ascii=not name.isprintable())


def listed(names: Iterable[str], most: int = 5) -> str:
    """Some names in one text, of which at most `most` are named."""
    found = sorted(names)
    more = f" and {len(found) - most} more" if len(found) > most else ""
    return ", ".join(map(shown, found[:most])) + more


_SENTENCES = {
    "addUser": "add the user {user}",
    "deleteUser": "delete the user {user}",
    "addRole": "add the role {role}",
    "deleteRole": "delete the role {role}",
    "addPermObj": "add the object {object}",
    "deletePermObj": "delete the object {object}",
    "addPermission": "add the operation {operation} on {object}",
    "deletePermission": "delete the operation {operation} on {object}",
    "grantPermission": "grant {operation} on {object} to the role {role}",
    "revokePermission": "revoke {operation} on {object} from the role {role}",
    "assignUser": "assign the user {user} to the role {role}",
    "deassignUser": "deassign the user {user} from the role {role}",
    "addInheritance": "let the role {asc} inherit from {desc}",
    "deleteInheritance": "let the role {asc} no longer inherit from {desc}",
    "lockUserAccount": "lock the user {user}",
    "unlockUserAccount": "unlock the user {user}",
    "deleteSession": "end a session of the user {user}",
} | {
    function: text.replace("SORT", sort)
    for sort, functions in SET_FUNCTIONS.items()
    for function, text in zip(
        functions,
        (
            "create the SORT set {set} of {roles} with cardinality {cardinality}",
            "add the role {role} to the SORT set {set}",
            "remove the role {role} from the SORT set {set}",
            "set the cardinality of the SORT set {set} to {cardinality}",
            "delete the SORT set {set}",
        ),
    )
}
