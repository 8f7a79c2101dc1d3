"""What the methods of the clients return."""

import hashlib
from dataclasses import dataclass
from typing import Any, Dict, Iterable, List, NamedTuple


class Permission(NamedTuple):
    """A permission: the name of an object and that of an operation."""

    object: str
    operation: str


class RefusedRecord(NamedTuple):
    """A record of an import that was refused, counted from 1, and the code of the refusal."""

    record: int
    code: int


@dataclass(frozen=True)
class ImportReport:
    """What an import did. If its answer was lost and the client repeated it, what it had done before counts as `already`."""

    already: int
    assigned: int
    refused: List[RefusedRecord]


class LeftOut(NamedTuple):
    """A role that wasn't activated in a session, and the refusal of docs/reference/api.md that says why. `details` has its further key."""

    role: str
    code: int
    error: str
    details: Dict[str, Any]


class OpenedSession(NamedTuple):
    """A session that the front has opened: its name, the roles that are activated, and those that were left out."""

    name: str
    roles: List[str]
    left: List[LeftOut]


def session_digest(name: str) -> str:
    """What the front shows to others instead of the name of a session."""
    return hashlib.sha3_256(name.encode()).hexdigest()[:32]


def names(given: Iterable[str]) -> List[str]:
    """A list of names. One text isn't one, though its letters could be."""
    if isinstance(given, str):
        raise ValueError(f"{given!r} is a name and not a list of names")
    return list(given)
