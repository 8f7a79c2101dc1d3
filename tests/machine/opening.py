"""Which state the tables of a database hold, or why they hold none.

Tables are given as a database has them: under each name the columns and the rows, whatever the values are. A text is a `str`,
in which bytes that aren't UTF-8 are halves of surrogate pairs.
"""

from collections import Counter

from .names import is_name
from .state import (
    LIMITS,
    State,
    authorized_roles,
    below,
    dynamic_violation,
    refuse_if,
    static_violation,
)

# The columns of each table. A version 1 office has no table of locks, or one that is ignored.
COLUMNS = {
    "meta_row": ["tag", "version"],
    "name_row": ["kind", "a"],
    "pair_row": ["kind", "a", "b"],
    "grant_row": ["ob", "op", "role"],
    "set_row": ["kind", "name", "n"],
    "locked_row": ["a"],
}
LOCKS = "locked_row"

# The columns that have whole numbers; all others have texts.
NUMBERS = ("version", "kind", "n")

# How many kinds of rows a table has, and the greatest cardinality that is read at all.
KINDS = {"name_row": 3, "pair_row": 8, "set_row": 2}
GREATEST = 4_294_967_295

# The kinds of names, pairs and sets.
USER, ROLE, OBJECT = 1, 2, 3
PERMISSION, ASSIGNMENT, EDGE, CLOSURE, STATIC_MEMBER, DYNAMIC_MEMBER, SESSION, ACTIVE = range(1, 9)
STATIC, DYNAMIC = 1, 2


def refuse_damaged(check, condition):
    """Refuses by a check if the condition holds."""
    refuse_if(condition, 52, check=check)


def need_tables(tables, names):
    """Refuses if one of these tables or of their columns is missing."""
    for name in names:
        refuse_if(name not in tables or not set(COLUMNS[name]) <= set(tables[name][0]), 50)


def found_rows(tables, name):
    """The rows of a table, as tuples of the columns that count."""
    columns, rows = tables[name]
    places = [columns.index(column) for column in COLUMNS[name]]
    return [tuple(row[place] for place in places) for row in rows]


def judge_version(tables):
    """The versions in the rows with the tag, whole numbers or not, once none of them is unknown."""
    need_tables(tables, [name for name in COLUMNS if name != LOCKS])
    versions = [version for tag, version in found_rows(tables, "meta_row") if tag == "rbac"]
    refuse_if(not versions, 50)
    unknown = [version for version in versions if type(version) is int and version not in (1, 2)]
    refuse_if(bool(unknown), 51, version=min(unknown, default=0))
    return versions


def is_version_2(versions):
    """Whether one of them is the whole number 2."""
    return any(type(version) is int and version == 2 for version in versions)


def is_typed(table, row):
    """Whether each value is of its column's type, of a known kind, and a cardinality that can be read."""
    for column, value in zip(COLUMNS[table], row):
        if type(value) is not (int if column in NUMBERS else str):
            return False
        if column == "kind" and not 1 <= value <= KINDS[table]:
            return False
        if column == "n" and not 0 <= value <= GREATEST:
            return False
    return True


def is_name_of_bytes(text):
    """Whether a text is a name; one that is no UTF-8 is none."""
    try:
        return is_name(text)
    except UnicodeEncodeError:
        return False


def judge_rows(found):
    """Check 1 but for keys, then check 2, then check 1 for keys."""
    typed = all(is_typed(table, row) for table, rows in found.items() for row in rows)
    refuse_damaged(1, not typed or len(found["meta_row"]) > 1)
    texts = [one for table in found if table != "meta_row" for row in found[table] for one in row if type(one) is str]
    refuse_damaged(2, not all(map(is_name_of_bytes, texts)))
    for table, rows in found.items():
        keys = [row[:2] for row in rows] if table == "set_row" else rows
        refuse_damaged(1, len(set(keys)) < len(keys))


def by_kind(rows, kinds):
    """What the rows of each kind have."""
    parts = {kind: [] for kind in range(1, kinds + 1)}
    for kind, *rest in rows:
        parts[kind].append(tuple(rest) if len(rest) > 1 else rest[0])
    return parts


def judge_limits(version, names, pairs, grants, sets):
    """Refuses if there are too many of a kind, and names the first such kind."""
    members = [Counter(name for name, _ in pairs[kind]) for kind in (STATIC_MEMBER, DYNAMIC_MEMBER)]
    counts = {
        "user": len(names[USER]),
        "role": len(names[ROLE]),
        "object": len(names[OBJECT]),
        "permission": len(pairs[PERMISSION]),
        "grant": len(grants),
        "assignment": len(pairs[ASSIGNMENT]),
        "edge": len(pairs[EDGE]),
        "ssdSet": len(sets[STATIC]),
        "dsdSet": len(sets[DYNAMIC]),
        "member": max([0, *members[0].values(), *members[1].values()]),
        "session": len(pairs[SESSION]),
        "activeRole": max([0, *Counter(session for session, _ in pairs[ACTIVE]).values()]),
    }
    for kind, count in counts.items():
        refuse_if(count > LIMITS[kind][version - 1], 32, kind=kind)


def judge_uses(names, pairs, grants, sets, locked):
    """Check 3: what a row uses exists."""
    users, roles, objects = (set(names[kind]) for kind in (USER, ROLE, OBJECT))
    permissions, sessions = set(pairs[PERMISSION]), {session for session, _ in pairs[SESSION]}
    static, dynamic = ({name for name, _ in sets[kind]} for kind in (STATIC, DYNAMIC))
    used = [
        ({ob for ob, _ in permissions}, objects),
        ({(ob, op) for ob, op, _ in grants}, permissions),
        ({role for _, _, role in grants}, roles),
        ({user for user, _ in pairs[ASSIGNMENT]}, users),
        ({role for _, role in pairs[ASSIGNMENT]}, roles),
        ({role for kind in (EDGE, CLOSURE) for pair in pairs[kind] for role in pair}, roles),
        ({name for name, _ in pairs[STATIC_MEMBER]}, static),
        ({name for name, _ in pairs[DYNAMIC_MEMBER]}, dynamic),
        ({role for kind in (STATIC_MEMBER, DYNAMIC_MEMBER, ACTIVE) for _, role in pairs[kind]}, roles),
        ({user for _, user in pairs[SESSION]}, users),
        ({session for session, _ in pairs[ACTIVE]}, sessions),
        (set(locked), users),
    ]
    refuse_damaged(3, any(not some <= there for some, there in used))


def state_of(version, names, pairs, grants, sets, locked):
    """The state that the rows make, good or not; of two users of a session one is left."""
    members = {kind: {name: set() for name, _ in sets[kind]} for kind in (STATIC, DYNAMIC)}
    for kind, part in ((STATIC_MEMBER, STATIC), (DYNAMIC_MEMBER, DYNAMIC)):
        for name, role in pairs[kind]:
            members[part][name].add(role)
    active = {session: set() for session, _ in pairs[SESSION]}
    for session, role in pairs[ACTIVE]:
        active[session].add(role)
    return State(
        version=version,
        users=frozenset(names[USER]),
        locked=frozenset(locked),
        roles=frozenset(names[ROLE]),
        objects=frozenset(names[OBJECT]),
        permissions=frozenset(pairs[PERMISSION]),
        grants=frozenset(grants),
        assignments=frozenset(pairs[ASSIGNMENT]),
        edges=frozenset(pairs[EDGE]),
        static_sets={name: (frozenset(members[STATIC][name]), n) for name, n in sets[STATIC]},
        dynamic_sets={name: (frozenset(members[DYNAMIC][name]), n) for name, n in sets[DYNAMIC]},
        sessions={session: (user, frozenset(active[session])) for session, user in pairs[SESSION]},
    )


def judge_state(state, closure, session_rows):
    """Checks 4 to 11."""
    refuse_damaged(4, len(state.sessions) < session_rows)
    refuse_damaged(5, any(asc in below(state, desc) for asc, desc in state.edges))
    ascendants = {asc for asc, _ in state.edges}
    refuse_damaged(6, closure != {(asc, desc) for asc in ascendants for desc in below(state, asc) - {asc}})
    sets = [*state.static_sets.values(), *state.dynamic_sets.values()]
    refuse_damaged(7, any(not 2 <= n <= len(roles) for roles, n in sets))
    refuse_damaged(8, any(not roles <= authorized_roles(state, user) for user, roles in state.sessions.values()))
    refuse_damaged(9, static_violation(state) is not None)
    refuse_damaged(10, dynamic_violation(state) is not None)
    refuse_damaged(11, any(user in state.locked for user, _ in state.sessions.values()))


def open_state(tables):
    """The state in these tables; refuses if they hold none."""
    versions = judge_version(tables)
    if is_version_2(versions):
        need_tables(tables, [LOCKS])
    found = {name: found_rows(tables, name) for name in COLUMNS if name != LOCKS or is_version_2(versions)}
    judge_rows(found)
    names, pairs, sets = (by_kind(found[table], count) for table, count in KINDS.items())
    grants, locked = found["grant_row"], [user for (user,) in found.get(LOCKS, [])]
    judge_limits(versions[0], names, pairs, grants, sets)
    judge_uses(names, pairs, grants, sets, locked)
    state = state_of(versions[0], names, pairs, grants, sets, locked)
    judge_state(state, set(pairs[CLOSURE]), len(pairs[SESSION]))
    return state


def migrated_state(tables):
    """The state in these tables in version 2; refuses if they hold none of version 1."""
    refuse_if(is_version_2(judge_version(tables)), 51, version=2)
    state = open_state(tables)
    refuse_if(LOCKS in tables, 41)
    return state.but(version=2)
