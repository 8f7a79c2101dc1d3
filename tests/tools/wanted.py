"""What the reports have to contain for a state, according to the plain model."""

import hashlib
import json

from machine.state import LIMITS, assigned_roles, authorized_users, below
from machine.texts import json_text, rows

# How a difference names the rows of each table and kind. The pairs of the closure are in no dump.
SENTENCES = {
    ("name_row", 1): "user {}",
    ("name_row", 2): "role {}",
    ("name_row", 3): "object {}",
    ("pair_row", 1): "permission: {1} on {0}",
    ("pair_row", 2): "assignment: the user {} to the role {}",
    ("pair_row", 3): "inheritance: {} is an immediate ascendant of {}",
    ("pair_row", 5): "member of the static set {}: the role {}",
    ("pair_row", 6): "member of the dynamic set {}: the role {}",
    ("set_row", 1): "static set {} of cardinality {}",
    ("set_row", 2): "dynamic set {} of cardinality {}",
}


def shown(session, has_names):
    """How a report shows a session: by its name, or by the first 32 hexadecimal digits of the SHA3-256 of its name."""
    return session if has_names else hashlib.sha3_256(session.encode()).hexdigest()[:32]


def having(state, roles):
    """Returns pairs of one of these roles and of a role that it includes: itself, or a junior."""
    return {(role, given) for role in roles for given in below(state, role)}


def given_permissions(state, roles):
    """Returns rows of a role, a permission that it confers, and the role to which that is granted."""
    pairs = having(state, roles)
    return {(role, ob, op, given) for role, given in pairs for ob, op, to in state.grants if to == given}


def violated(state, role):
    """The first dynamic set, in byte order, that a session with this role alone would violate; empty if there is none."""
    roles = below(state, role)
    names = [name for name, (members, most) in state.dynamic_sets.items() if len(roles & members) >= most]
    return min(names, default="")


def permissions(state):
    """The rows of the permissions."""
    found = [
        (user, "yes" if user in state.locked else "no", ob, op, assigned, granted, violated(state, granted))
        for user in state.users
        for assigned, ob, op, granted in given_permissions(state, assigned_roles(state, user))
    ]
    return sorted(found, key=lambda row: (row[0], *row[2:]))


def sessions(state, has_names=False):
    """The rows of the sessions."""
    found = []
    for name, (user, active) in state.sessions.items():
        session = shown(name, has_names)
        if not active:
            found.append((session, user, "", "", "", ""))
        for role in active:
            given = given_permissions(state, [role])
            found += [(session, user, *row) for row in given or [(role, "", "", "")]]
    return sorted(found)


def held(state, members, roles):
    """Returns pairs of a member of a set that one of these roles includes, and of that role."""
    return {(given, role) for role, given in having(state, roles) if given in members}


def near(state, has_names=False):
    """Returns the rows that report how near users and sessions are to sets."""
    users = [("user", user, assigned_roles(state, user)) for user in state.users]
    actives = [("session", shown(name, has_names), active) for name, (_, active) in state.sessions.items()]
    found = []
    for kind, sets, holders in [("static", state.static_sets, users), ("dynamic", state.dynamic_sets, users + actives)]:
        for name, (members, cardinality) in sets.items():
            for sort, holder, roles in holders:
                pairs = held(state, members, roles)
                count = len({member for member, _ in pairs})
                row = (cardinality - count, kind, name, cardinality, sort, holder, count)
                found += [(*row, member, role) for member, role in pairs]
    order = sorted(found, key=lambda row: (row[0], *row[1:3], *row[4:6], *row[7:]))
    return [tuple(map(str, row)) for row in order]


def room(state):
    """Returns the rows that report how much room there is."""
    sets = [roles for sets in (state.static_sets, state.dynamic_sets) for roles, _ in sets.values()]
    counts = {
        "user": len(state.users),
        "role": len(state.roles),
        "object": len(state.objects),
        "permission": len(state.permissions),
        "grant": len(state.grants),
        "assignment": len(state.assignments),
        "edge": len(state.edges),
        "ssdSet": len(state.static_sets),
        "dsdSet": len(state.dynamic_sets),
        "member": max(map(len, sets), default=0),
        "session": len(state.sessions),
        "activeRole": max((len(active) for _, active in state.sessions.values()), default=0),
    }
    most = {kind: LIMITS[kind][state.version - 1] for kind in counts}
    found = [(state.version, kind, count, most[kind], most[kind] - count) for kind, count in counts.items()]
    return [tuple(map(str, row)) for row in found]


def quoted(value):
    """A name in double quotes, in which no letter can't be seen; a number unchanged."""
    return "".join(one if one.isprintable() else json.dumps(one).strip('"') for one in json_text(value))


def sentences(state, has_names=False):
    """All that a difference can name of a state. A name is in double quotes, and a digest is not."""
    found = {f"lock of the user {quoted(user)}" for user in state.locked}
    for name, (user, active) in state.sessions.items():
        session = quoted(name) if has_names else shown(name, False)
        found.add(f"session {session} of the user {quoted(user)}")
        found |= {f"activated role of the session {session}: {quoted(role)}" for role in active}
    for ob, op, role in map(lambda grant: map(quoted, grant), state.grants):
        found.add(f"grant: {op} on {ob} to the role {role}")
    for table in ("name_row", "pair_row", "set_row"):
        for kind, *parts in rows(state)[table]:
            if (table, kind) in SENTENCES:
                found.add(SENTENCES[table, kind].format(*map(quoted, parts)))
    return found


def labels(state):
    """The lines of the labels of a picture: of each role and each set."""
    found = []
    for role in state.roles:
        assigned = sum(role == one for _, one in state.assignments)
        found.append((role, f"users: {assigned} assigned, {len(authorized_users(state, role))} authorized"))
    for kind, sets in (("static", state.static_sets), ("dynamic", state.dynamic_sets)):
        found += [(f"{kind} set {name}", f"cardinality {cardinality}") for name, (_, cardinality) in sets.items()]
    return sorted(found)
