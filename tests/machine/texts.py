"""Texts: answers, the role report, and the rows of the tables."""

from . import state as facts
from .state import ERRORS

DONE = b'{"ok":true}'


def json_text(value):
    """A value as JSON without spaces, with keys and sets in byte order."""
    if isinstance(value, bool):
        return "true" if value else "false"
    if isinstance(value, int):
        return str(value)
    if isinstance(value, str):
        return '"' + value.replace("\\", "\\\\").replace('"', '\\"') + '"'
    if isinstance(value, dict):
        members = (f"{json_text(key)}:{json_text(value[key])}" for key in sorted(value))
        return "{" + ",".join(members) + "}"
    items = sorted(value) if isinstance(value, (set, frozenset)) else value
    return "[" + ",".join(map(json_text, items)) + "]"


def answer_with(value):
    """The answer with a value."""
    return json_text({"ok": True, "value": value}).encode()


def refused(refusal):
    """The answer with a refusal."""
    return json_text({"code": refusal.code, "error": ERRORS[refusal.code], **refusal.details}).encode()


def report(state):
    """The role report: a heading, and a line for each role in byte order."""
    words = ["assigned", "authorized", "granted", "permitted", "juniors", "seniors"]
    lines = ["".join(f"{word:>12}" for word in words) + "  role"]
    for role in sorted(state.roles):
        counts = [
            len(facts.assigned_users(state, role)),
            len(facts.authorized_users(state, role)),
            len(facts.granted_permissions(state, {role})),
            len(facts.authorized_permissions(state, role)),
            len(facts.below(state, role)) - 1,
            len(facts.above(state, role)) - 1,
        ]
        lines.append("".join(f"{count:>12}" for count in counts) + f"  {role}")
    return "".join(line + "\n" for line in lines).encode()


def rows(state):
    """The rows of each table of the office, in order."""
    closure = {
        (role, junior) for role in state.roles for junior in facts.below(state, role) if junior != role
    }
    sets = [(1, state.static_sets), (2, state.dynamic_sets)]
    names = [state.users, state.roles, state.objects]
    pairs = [
        state.permissions,
        state.assignments,
        state.edges,
        closure,
        {(name, role) for name, (roles, _) in state.static_sets.items() for role in roles},
        {(name, role) for name, (roles, _) in state.dynamic_sets.items() for role in roles},
        {(session, user) for session, (user, _) in state.sessions.items()},
        {(session, role) for session, (_, active) in state.sessions.items() for role in active},
    ]
    tables = {
        "meta_row": [("rbac", state.version)],
        "name_row": [(kind, name) for kind, part in enumerate(names, 1) for name in sorted(part)],
        "pair_row": [(kind, *pair) for kind, part in enumerate(pairs, 1) for pair in sorted(part)],
        "grant_row": sorted(state.grants),
        "set_row": [(kind, name, part[name][1]) for kind, part in sets for name in sorted(part)],
    }
    if state.version == 2:
        tables["locked_row"] = [(user,) for user in sorted(state.locked)]
    return tables
