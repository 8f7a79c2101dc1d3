"""The state of an office: the sets and relations of the standard, and what follows from them.

A state is a value: what changes it returns another one. Names are texts, whose order by code points is
that of their bytes in UTF-8. A set of pairs or triples is ordered by the first part first.
"""

import csv
from collections import Counter
from dataclasses import dataclass, field, replace
from pathlib import Path

# The rows of the table of limits, which tests/pages/limits.py compares with the definition itself.
TABLE = Path(__file__).resolve().parents[2] / "server/internal/limits/limits.csv"
ROWS = list(csv.reader(TABLE.read_text(encoding="utf-8").splitlines()))[1:]

# How many of each kind there may be, in version 1 and in version 2, and what is counted.
LIMITS = {kind: tuple(map(int, limits)) for kind, _, *limits in ROWS}
COUNTED = {kind: counted for kind, counted, *_ in ROWS}

# How many of each kind there may be in the offices that the program makes, which are of version 2.
MOST = {kind: limits[1] for kind, limits in LIMITS.items()}

# The names of the refusals.
ERRORS = {
    1: "BadName",
    2: "NoUser",
    3: "UserExists",
    4: "NoRole",
    5: "RoleExists",
    6: "NoObject",
    7: "ObjectExists",
    8: "NoPermission",
    9: "PermissionExists",
    10: "AlreadyAssigned",
    11: "NotAssigned",
    12: "AlreadyGranted",
    13: "NotGranted",
    14: "EdgeExists",
    15: "NoEdge",
    16: "Cycle",
    17: "RoleInUse",
    18: "ObjectInUse",
    19: "SetExists",
    20: "NoSet",
    21: "MemberExists",
    22: "NoMember",
    23: "BadCardinality",
    24: "StaticSeparation",
    25: "DynamicSeparation",
    26: "NoSession",
    27: "SessionExists",
    28: "NotOwner",
    29: "NotAuthorized",
    30: "AlreadyActive",
    31: "NotActive",
    32: "TooMany",
    33: "NoOperation",
    34: "BadRequest",
    35: "UnknownFunction",
    36: "BadCsv",
    37: "UserLocked",
    41: "Store",
    50: "NotAnOffice",
    51: "Version",
    52: "Damaged",
}


class Refused(Exception):
    """A refusal: its code, and the set, kind, record or version that it names."""

    def __init__(self, code, **details):
        super().__init__(code, details)
        self.code = code
        self.details = details


def refuse_if(condition, code, **details):
    """Refuses by this code if the condition holds."""
    if condition:
        raise Refused(code, **details)


@dataclass(frozen=True)
class State:
    """What an office holds.

    permissions are pairs (object, operation), grants (object, operation, role), assignments (user, role)
    and edges, the immediate inheritances, (ascendant, descendant). Separation of duty sets are kept as
    name -> (roles, cardinality), and sessions as name -> (user, activated roles).
    """

    version: int = 2
    users: frozenset = frozenset()
    locked: frozenset = frozenset()
    roles: frozenset = frozenset()
    objects: frozenset = frozenset()
    permissions: frozenset = frozenset()
    grants: frozenset = frozenset()
    assignments: frozenset = frozenset()
    edges: frozenset = frozenset()
    static_sets: dict = field(default_factory=dict)
    dynamic_sets: dict = field(default_factory=dict)
    sessions: dict = field(default_factory=dict)

    def but(self, **changes):
        """The state with these parts in place of its own."""
        return replace(self, **changes)

    def limit(self, kind):
        """How many of a kind there may be."""
        return LIMITS[kind][self.version - 1]


def reach(pairs, start):
    """The start, and all that pairs lead to from there."""
    found = new = {start}
    while new:
        new = {second for first, second in pairs if first in new} - found
        found = found | new
    return found


def below(state, role):
    """The role itself and its juniors: all q with role >= q."""
    return reach(state.edges, role)


def above(state, role):
    """The role itself and its seniors: all q with q >= role."""
    return reach({(desc, asc) for asc, desc in state.edges}, role)


def assigned_users(state, role):
    """The users who are assigned the role."""
    return {user for user, assigned in state.assignments if assigned == role}


def assigned_roles(state, user):
    """The roles that the user is assigned."""
    return {role for assigned, role in state.assignments if assigned == user}


def authorized_users(state, role):
    """The users who are assigned the role or a senior of it."""
    seniors = above(state, role)
    return {user for user, assigned in state.assignments if assigned in seniors}


def authorized_roles(state, user):
    """The roles that the user is assigned, and their juniors."""
    return {junior for role in assigned_roles(state, user) for junior in below(state, role)}


def granted_permissions(state, roles):
    """The permissions that are granted to one of these roles directly."""
    return {(ob, op) for ob, op, role in state.grants if role in roles}


def authorized_permissions(state, role):
    """The permissions that are granted to the role or to a junior of it."""
    return granted_permissions(state, below(state, role))


def session_roles(state, session):
    """The roles that were activated in the session, and their juniors."""
    _, active = state.sessions[session]
    return {junior for role in active for junior in below(state, role)}


def static_violation(state):
    """The first static set in byte order of which someone is authorized for too many roles, or None."""
    for name, (roles, cardinality) in sorted(state.static_sets.items()):
        counts = Counter()
        for role in roles:
            counts.update(authorized_users(state, role))
        if any(count >= cardinality for count in counts.values()):
            return name
    return None


def dynamic_violation(state):
    """The first dynamic set in byte order of which a session has too many roles, or None."""
    for name, (roles, cardinality) in sorted(state.dynamic_sets.items()):
        for session in state.sessions:
            if len(session_roles(state, session) & roles) >= cardinality:
                return name
    return None


def may_go_on(state, user, active):
    """Whether a session of the user with these activated roles may exist."""
    if user not in state.users or user in state.locked:
        return False
    return not active or active <= authorized_roles(state, user)


def end_sessions(state):
    """Returns the state without the sessions that may no longer exist."""
    sessions = {
        session: (user, active)
        for session, (user, active) in state.sessions.items()
        if may_go_on(state, user, active)
    }
    return state.but(sessions=sessions)
