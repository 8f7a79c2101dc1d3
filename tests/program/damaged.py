"""Offices whose rows were changed: the check that fails is named, and the file stays as it is."""

from machine.state import LIMITS

from .no_offices import refused_by_all
from .offices import changed, damaged, small_office, compare_with_state, version_refused


def loose(table):
    """Returns the statements that rebuild a table without its checks: a database that violates one isn't opened at all."""
    return [f"CREATE TABLE loose AS SELECT * FROM {table}", f"DROP TABLE {table}", f"ALTER TABLE loose RENAME TO {table}"]


# What is changed of the small office, by the check that fails then. An office of either version fails it.
DAMAGES = {
    "a kind of names that is not known": (1, [*loose("name_row"), "INSERT INTO name_row VALUES (9, 'q')"]),
    "a kind of pairs that is not known": (1, [*loose("pair_row"), "INSERT INTO pair_row VALUES (0, 'ann', 'boss')"]),
    "a kind of sets that is not known": (1, [*loose("set_row"), "INSERT INTO set_row VALUES (3, 'pay', 2)"]),
    "a cardinality that is too great": (1, ["UPDATE set_row SET n = 4294967296 WHERE kind = 1"]),
    "a second row of the version": (1, ["INSERT INTO meta_row VALUES ('x', 1)"]),
    "an empty name": (2, ["INSERT INTO name_row VALUES (1, '')"]),
    "a name that is too long": (2, [f"INSERT INTO name_row VALUES (1, '{'n' * 65}')"]),
    "a name with a control character": (2, ["INSERT INTO name_row VALUES (3, 'a' || char(9))"]),
    "an assignment of a role that is not there": (3, ["INSERT INTO pair_row VALUES (2, 'ann', 'cook')"]),
    "a grant of a permission that is not there": (3, ["INSERT INTO grant_row VALUES ('safe', 'burn', 'boss')"]),
    "a member of a set that is not there": (3, ["INSERT INTO pair_row VALUES (5, 'new', 'boss')"]),
    "a session of two users": (
        4,
        [
            "INSERT INTO pair_row VALUES (7, 's1', 'bob')",
            "DELETE FROM pair_row WHERE kind = 8",
        ],
    ),
    "an edge from a role to itself": (5, ["INSERT INTO pair_row VALUES (3, 'temp', 'temp')"]),
    "a cycle of edges": (5, ["INSERT INTO pair_row VALUES (3, 'clerk', 'boss')"]),
    "a closure pair too few": (6, ["DELETE FROM pair_row WHERE kind = 4"]),
    "a closure pair too many": (6, ["INSERT INTO pair_row VALUES (4, 'boss', 'temp')"]),
    "a cardinality over the number of members": (7, ["UPDATE set_row SET n = 3 WHERE kind = 1"]),
    "a cardinality under two": (7, [*loose("set_row"), "UPDATE set_row SET n = 1 WHERE kind = 2"]),
    "an activated role that is not authorized": (8, ["DELETE FROM pair_row WHERE kind = 2 AND a = 'ann'"]),
    "a static separation set that is violated": (9, ["INSERT INTO pair_row VALUES (2, 'bob', 'temp')"]),
    "a dynamic separation set that is violated": (
        10,
        [
            "INSERT INTO set_row VALUES (2, 'up', 2)",
            "INSERT INTO pair_row VALUES (6, 'up', 'boss'), (6, 'up', 'clerk')",
        ],
    ),
    "two users of a session, and a static set that is violated": (
        4,
        [
            "INSERT INTO pair_row VALUES (7, 's1', 'bob'), (2, 'bob', 'temp')",
            "DELETE FROM pair_row WHERE kind = 8",
        ],
    ),
    "a cycle and no closure": (
        5,
        [
            "INSERT INTO pair_row VALUES (3, 'clerk', 'boss')",
            "DELETE FROM pair_row WHERE kind = 4",
        ],
    ),
}

# What is changed of the table of the locks, which exists in version 2 alone.
LOCKS = {
    "a locked user with a session": (11, ["INSERT INTO locked_row VALUES ('ann')"]),
    "a locked user that is not there": (3, ["INSERT INTO locked_row VALUES ('zed')"]),
    "a locked user that is no name": (2, ["INSERT INTO locked_row VALUES ('')"]),
}

TOO_MANY_ROLES = b'{"code":32,"error":"TooMany","kind":"role"}'


def roles(count):
    """The statement that adds this many roles."""
    return ["INSERT INTO name_row VALUES " + ", ".join(f"(2, 'r{number}')" for number in range(count))]


def check_damaged(bench):
    """Each damage of an office is named by each subcommand; `migrate` sees the version before."""
    office = small_office(bench)
    for name, (check, statements) in {**DAMAGES, **LOCKS}.items():
        with changed(office, statements) as path:
            refused_by_all(bench, path, damaged(check), name, migrate=version_refused(2))


def check_damaged_version_1(bench):
    """Each damage of an office of version 1 is named by each subcommand, `migrate` among them."""
    office = small_office(bench)
    office.become_version_1()
    for name, (check, statements) in DAMAGES.items():
        with changed(office, statements) as path:
            refused_by_all(bench, path, damaged(check), f"{name}, version 1")


def check_too_many(bench):
    """A limit that is exceeded is reported before what is damaged; names and versions are judged before that."""
    office = small_office(bench)
    missing, no_name = DAMAGES["an assignment of a role that is not there"], DAMAGES["an empty name"]
    own, (most_1, most_2) = len(office.model.state.roles), LIMITS["role"]
    with changed(office, roles(most_2 + 1 - own)) as path:
        refused_by_all(bench, path, TOO_MANY_ROLES, "a role too many", migrate=version_refused(2))
    office.become_version_1()
    more = roles(most_1 + 1 - own)
    with changed(office, more) as path:
        refused_by_all(bench, path, TOO_MANY_ROLES, "a role too many in version 1")
    with changed(office, [*more, *missing[1]]) as path:
        refused_by_all(bench, path, TOO_MANY_ROLES, "a role too many and one that is not there")
    with changed(office, [*more, *no_name[1]]) as path:
        refused_by_all(bench, path, damaged(2), "a role too many and no name")
    with changed(office, ["UPDATE meta_row SET version = 7", *no_name[1]]) as path:
        refused_by_all(bench, path, version_refused(7), "version 7 and no name")


def check_most_roles(bench):
    """As many roles as there may be in version 1 are opened, and there may be more once it is migrated."""
    office = small_office(bench)
    office.become_version_1()
    state = office.model.state
    more = LIMITS["role"][0] - len(state.roles)
    office.change(roles(more))
    state = state.but(roles=state.roles | {f"r{number}" for number in range(more)})
    compare_with_state(bench, office.path, state)
    line = b'{"fn":"addRole","role":"more"}\n'
    bench.ends(["replay", office.path], TOO_MANY_ROLES + b"\n", given=line)
    bench.ends(["migrate", office.path])
    bench.ends(["replay", office.path], b'{"ok":true}\n', given=line)
    compare_with_state(bench, office.path, state.but(version=2, roles=state.roles | {"more"}))


def check_what_it_hides(bench):
    """A file with damage that only SQLite sees, a lost page, is no office either; the file stays."""
    office = small_office(bench)
    content = open(office.path, "rb").read()
    path = bench.write("cut", content[: len(content) // 2])
    done = bench.run(["check", path])
    bench.same("the status of half an office", (done.out, done.status), (b"", 1))
    bench.same("half an office stays", open(path, "rb").read(), content[: len(content) // 2])
