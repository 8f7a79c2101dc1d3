"""One change of an office for each thing that an opening checks, in the order in which it is judged.

Each change has names of its own, so that any two can be made of one office. The tables are loose ones.
"""

from dataclasses import dataclass
from itertools import count, islice, product

from machine.opening import COLUMNS, LOCKS
from machine.state import LIMITS

OLD_TABLES = [table for table in COLUMNS if table != LOCKS]

# Values that are of no column's type: each a value in place of a number, and one in place of a text.
OTHER_TYPES = [(None, None), ("1", 7), (1.0, 7.5), (b"\x01", b"q")]

NO_NAMES = ["", "n" * 65, "\u00e9" * 33, "a\tb", "\x00", "\x1f", "\x7f", "\udcff", "\udced\udca0\udc80"]


@dataclass(frozen=True)
class Fault:
    """A change, its place in the order, and the refusal that it leads to.

    `rows` are those that are added, by their tables. If `drops` is a table it is dropped, or the column of it that `lacks`
    names. `tag` replaces the tag of the version's row. `versions` are those in which this fault exists.
    """

    name: str
    place: int
    refusal: dict
    rows: dict
    drops: str = ""
    lacks: str = ""
    tag: str = "rbac"
    versions: tuple = (1, 2)


# The places in the order of an opening. The kinds of limits have places between LIMIT and USED, in their order.
NO_TABLE, UNKNOWN, NO_LOCKS, TYPED, NAMED, KEYS, LIMIT = range(7)
USED = LIMIT + len(LIMITS)
TWO_USERS, CYCLE, CLOSED, CARDINALITY, AUTHORIZED, STATIC, DYNAMIC, LOCKED = range(USED + 1, USED + 9)


def damaged(check):
    """The refusal by a check."""
    return {"code": 52, "error": "Damaged", "check": check}


def no_office():
    """Tables or columns that do not exist, and no row with the tag."""
    refusal = {"code": 50, "error": "NotAnOffice"}
    for table in OLD_TABLES:
        yield Fault(f"no table {table}", NO_TABLE, refusal, {}, drops=table)
        for column in COLUMNS[table]:
            yield Fault(f"no column {table}.{column}", NO_TABLE, refusal, {}, drops=table, lacks=column)
    for tag in ("RBAC", "x", b"rbac", None, ""):
        yield Fault(f"the tag {tag!r}", NO_TABLE, refusal, {}, tag=tag)
    yield Fault("no table of locks", NO_LOCKS, refusal, {}, drops=LOCKS, versions=(2,))
    yield Fault("no column of locks", NO_LOCKS, refusal, {}, drops=LOCKS, lacks="a", versions=(2,))


def unknown_versions():
    """Further rows with the tag, one of which has an unknown version."""
    for versions in ([7], [3, 9], [0], [-1], [-(2**63), 2**63 - 1]):
        refusal = {"code": 51, "error": "Version", "version": min(versions)}
        rows = {"meta_row": [("rbac", version) for version in versions]}
        yield Fault(f"the versions {versions}", UNKNOWN, refusal, rows)


def rows_of_kinds(name):
    """A row of each kind of each table, whose parts are names that begin with this one, each of them once."""
    parts = (f"{name} {number}" for number in count())
    for table, kinds in (("name_row", 3), ("pair_row", 8), ("set_row", 2)):
        for kind in range(1, kinds + 1):
            texts = len(COLUMNS[table]) - 1 - (table == "set_row")
            yield table, (kind, *islice(parts, texts), *([2] if table == "set_row" else []))
    yield "grant_row", tuple(islice(parts, 3))
    yield LOCKS, tuple(islice(parts, 1))


def versions_of(table):
    """The versions in which a table is read."""
    return (2,) if table == LOCKS else (1, 2)


def untyped():
    """Values of other types, kinds that are not known, cardinalities that are none, further rows of the version."""
    for table, row in rows_of_kinds("typed"):
        for at, value in enumerate(row):
            for other in OTHER_TYPES:
                spoilt = other[0] if isinstance(value, int) else other[1]
                rows = {table: [(*row[:at], spoilt, *row[at + 1 :])]}
                name = f"{spoilt!r} in {table}.{COLUMNS[table][at]} of {row[0]!r}"
                yield Fault(name, TYPED, damaged(1), rows, versions=versions_of(table))
    for table, kinds in (("name_row", 3), ("pair_row", 8), ("set_row", 2)):
        for kind in (0, -1, kinds + 1, kinds + 256, 2**32 + 1, 2**63 - 1):
            row = (kind, *("unknown kind" for _ in COLUMNS[table][1:]))
            rows = {table: [(*row[:2], 2) if table == "set_row" else row]}
            yield Fault(f"the kind {kind} in {table}", TYPED, damaged(1), rows)
    for number in (-1, 2**32, 2**32 + 2, 2**63 - 1, -(2**63)):
        yield Fault(f"the cardinality {number}", TYPED, damaged(1), {"set_row": [(1, "no cardinality", number)]})
    for row in (("x", 1), ("x", 5), (None, None), ("rbac", "one"), ("rbac", 7.0)):
        yield Fault(f"a second row {row} of the version", TYPED, damaged(1), {"meta_row": [row]})


def unnamed():
    """Invalid names, at each place."""
    for table, row in rows_of_kinds("named"):
        for at, value in enumerate(row):
            for other in NO_NAMES if isinstance(value, str) else []:
                name = f"{other!r} in {table}.{COLUMNS[table][at]} of {row[0]!r}"
                rows = {table: [(*row[:at], other, *row[at + 1 :])]}
                yield Fault(name, NAMED, damaged(2), rows, versions=versions_of(table))


def twice():
    """Rows with the same key."""
    for table, row in rows_of_kinds("twice"):
        yield Fault(f"{row} twice", KEYS, damaged(1), {table: [row, row]}, versions=versions_of(table))
        if table == "set_row":
            other = (*row[:2], 3)
            yield Fault(f"{row} and {other}", KEYS, damaged(1), {table: [row, other]})


def crowds(most):
    """For each kind with a limit: its rows, one too many."""
    more = most + 1
    ones = [f"one {number}" for number in range(150)]
    both = list(islice(product(ones, ones), more))
    names = [f"name {number}" for number in range(more)]
    return {
        "user": ("name_row", [(1, name) for name in names]),
        "role": ("name_row", [(2, name) for name in names]),
        "object": ("name_row", [(3, name) for name in names]),
        "permission": ("pair_row", [(1, *pair) for pair in both]),
        "grant": ("grant_row", [(*pair, "nobody") for pair in both]),
        "assignment": ("pair_row", [(2, *pair) for pair in both]),
        "edge": ("pair_row", [(3, *pair) for pair in both]),
        "ssdSet": ("set_row", [(1, name, 2) for name in names]),
        "dsdSet": ("set_row", [(2, name, 2) for name in names]),
        "member": ("pair_row", [(6, "many members", name) for name in names]),
        "session": ("pair_row", [(7, name, "nobody") for name in names]),
        "activeRole": ("pair_row", [(8, "many roles", name) for name in names]),
    }


def too_many():
    """One row more than is allowed of each kind, in each version."""
    for place, (kind, limits) in enumerate(LIMITS.items(), LIMIT):
        for version, most in enumerate(limits, 1):
            if kind in ("record", "byte"):
                continue
            table, rows = crowds(most)[kind]
            refusal = {"code": 32, "error": "TooMany", "kind": kind}
            yield Fault(f"{most + 1} of {kind}", place, refusal, {table: rows}, versions=(version,))
            if kind == "member":
                rows = [(5, *pair) for _, *pair in rows]
                yield Fault(f"{most + 1} of {kind}, static", place, refusal, {table: rows}, versions=(version,))


def unused():
    """Rows that use what does not exist, each in one of their parts."""
    there = {"name_row": [(1, "known user"), (2, "known role"), (3, "known object")]}
    there["pair_row"] = [(1, "known object", "known"), (7, "known session", "known user")]
    members = [(5, "known set", "known role"), (6, "known set", "known role")]
    members += [(kind, "known set", "another role") for kind in (5, 6)]
    cases = [
        ("pair_row", (1, "no object", "open")),
        ("grant_row", ("known object", "no operation", "known role")),
        ("grant_row", ("no object", "known", "known role")),
        ("grant_row", ("known object", "known", "no role")),
        ("pair_row", (2, "no user", "known role")),
        ("pair_row", (2, "known user", "no role")),
        ("pair_row", (2, "known role", "known user")),
        ("pair_row", (3, "no role", "known role")),
        ("pair_row", (3, "known role", "no role")),
        ("pair_row", (4, "no role", "known role")),
        ("pair_row", (4, "known role", "no role")),
        ("pair_row", (5, "no set", "known role")),
        ("pair_row", (5, "known set", "no role")),
        ("pair_row", (6, "no set", "known role")),
        ("pair_row", (6, "known set", "no role")),
        ("pair_row", (7, "a session", "no user")),
        ("pair_row", (8, "no session", "known role")),
        ("pair_row", (8, "known session", "no role")),
        (LOCKS, ("no user",)),
    ]
    for table, row in cases:
        rows = {**there, "name_row": [*there["name_row"], (2, "another role")]}
        rows["pair_row"] = [*there["pair_row"], *members]
        rows["set_row"] = [(1, "known set", 2), (2, "known set", 2)]
        rows[table] = [*rows.get(table, []), row]
        yield Fault(f"{row} in {table}", USED, damaged(3), rows, versions=versions_of(table))


def roles(*names):
    """The rows of roles."""
    return [(2, name) for name in names]


def of_sessions():
    """Sessions of two users, with roles that are not authorized, and of locked users."""
    rows = {"name_row": [(1, "two a"), (1, "two b")], "pair_row": [(7, "both", "two a"), (7, "both", "two b")]}
    yield Fault("a session of two users", TWO_USERS, damaged(4), rows)
    rows = {"name_row": [(1, "bare"), *roles("not had")], "pair_row": [(7, "bare", "bare"), (8, "bare", "not had")]}
    yield Fault("a role that is not assigned", AUTHORIZED, damaged(8), rows)
    pairs = [(7, "low", "low"), (2, "low", "below"), (3, "above", "below"), (4, "above", "below"), (8, "low", "above")]
    rows = {"name_row": [(1, "low"), *roles("above", "below")], "pair_row": pairs}
    yield Fault("a role above the one that is assigned", AUTHORIZED, damaged(8), rows)
    rows = {"name_row": [(1, "shut")], "pair_row": [(7, "shut", "shut")], LOCKS: [("shut",)]}
    yield Fault("a session of a locked user", LOCKED, damaged(11), rows, versions=(2,))


def of_the_order():
    """Edges that lead back, and pairs that are not those of the edges."""
    rows = {"name_row": roles("self"), "pair_row": [(3, "self", "self")]}
    yield Fault("an edge from a role to itself", CYCLE, damaged(5), rows)
    names = [f"round {number}" for number in range(5)]
    for length in (2, 3, 5):
        edges = [(names[one], names[(one + 1) % length]) for one in range(length)]
        closed = [(4, one, two) for one, two in product(names[:length], repeat=2)]
        for what, pairs in (("no pairs", []), ("all pairs", closed)):
            rows = {"name_row": roles(*names[:length]), "pair_row": [*((3, *edge) for edge in edges), *pairs]}
            yield Fault(f"a cycle of {length} edges with {what}", CYCLE, damaged(5), rows)
    cases = {
        "no pair of an edge": [(3, "high", "middle")],
        "no pair of two edges": [(kind, *pair) for kind in (3, 4) for pair in (("high", "middle"), ("middle", "deep"))],
        "a pair without an edge": [(4, "high", "middle")],
        "a pair the other way": [(3, "high", "middle"), (4, "high", "middle"), (4, "middle", "high")],
        "a pair of a role and itself": [(4, "high", "high")],
    }
    for what, pairs in cases.items():
        yield Fault(what, CLOSED, damaged(6), {"name_row": roles("high", "middle", "deep"), "pair_row": pairs})


def of_sets():
    """Cardinalities that no set may have, and sets that are violated, directly and by inheritance."""
    for kind, member in ((1, 5), (2, 6)):
        for number, some in ((3, ["m a", "m b"]), (1, ["m a", "m b"]), (0, []), (2, []), (2**32 - 1, ["m a"])):
            rows = {"name_row": roles("m a", "m b"), "pair_row": [(member, "odd", name) for name in some]}
            rows["set_row"] = [(kind, "odd", number)]
            yield Fault(f"{number} of {len(some)} members, kind {kind}", CARDINALITY, damaged(7), rows)
    had = [(5, "own pay", "pay a"), (5, "own pay", "pay b"), (2, "payer", "pay a")]
    for what, more in {
        "directly": [(2, "payer", "pay b")],
        "by inheritance": [(2, "payer", "pay c"), (3, "pay c", "pay b"), (4, "pay c", "pay b")],
    }.items():
        rows = {"name_row": [(1, "payer"), *roles("pay a", "pay b", "pay c")], "pair_row": had + more}
        rows["set_row"] = [(1, "own pay", 2)]
        yield Fault(f"a static set that is violated {what}", STATIC, damaged(9), rows)
    till = [(6, "own till", "till a"), (6, "own till", "till b"), (2, "teller", "till a")]
    till += [(7, "at till", "teller"), (8, "at till", "till a")]
    for what, more in {
        "directly": [(2, "teller", "till b"), (8, "at till", "till b")],
        "by inheritance": [(3, "till a", "till b"), (4, "till a", "till b")],
    }.items():
        rows = {"name_row": [(1, "teller"), *roles("till a", "till b")], "pair_row": till + more}
        rows["set_row"] = [(2, "own till", 2)]
        yield Fault(f"a dynamic set that is violated {what}", DYNAMIC, damaged(10), rows)


MAKERS = [no_office, unknown_versions, untyped, unnamed, twice, too_many, unused, of_sessions, of_the_order, of_sets]


def all_faults(version):
    """Each fault of an office of this version, in the order in which they are judged."""
    found = [fault for maker in MAKERS for fault in maker() if version in fault.versions]
    return sorted(found, key=lambda fault: fault.place)
