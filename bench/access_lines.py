#!/usr/bin/env python3
"""bench/access_lines.py FOLDER: writes the policies of the benchmark `access` into a folder.

`small.lines`   a policy of 1,000 users, 100 roles in a tree and 1,000 grants, and 20,000 questions, as
                commands and questions for `access.rt.bench` and `access.rs`
`policy.csv`    the same policy for Casbin
`rows.csv`      the same policy as rows of tables: assignments, edges, grants, closure pairs, activations
`questions.csv` the same questions
`limits-*.lines` offices at the limits of version 2, and the questions that cost most there
"""

import random
import sys
from pathlib import Path

sys.path.insert(0, str(Path(__file__).resolve().parent.parent / "tests"))
from machine.state import MOST  # noqa: E402

USERS, ROLES, OBJECTS, OPERATIONS, QUESTIONS = 1_000, 100, 200, 5, 20_000


def below(role):
    """The roles that a role inherits from, itself among them: role k > 0 has the child (k - 1) // 3."""
    found = [role]
    while found[-1] > 0:
        found.append((found[-1] - 1) // 3)
    return found


def small_policy():
    """The grants, and the questions with their answers, about half of which are yes."""
    grants = [(f"op{it % OPERATIONS}", f"o{it // OPERATIONS}", 7 * it % ROLES) for it in range(1_000)]
    allowed = []
    for role in range(ROLES):
        roles = set(below(role))
        allowed.append(sorted({grant[:2] for grant in grants if grant[2] in roles}))
    draw = random.Random(7)
    questions = []
    for number in range(QUESTIONS):
        user = draw.randrange(USERS)
        has = allowed[user % ROLES]
        if number % 2 == 0:
            operation, thing = has[draw.randrange(len(has))]
        else:
            operation = f"op{draw.randrange(OPERATIONS)}"
            thing = f"o{draw.randrange(OBJECTS)}"
        questions.append((user, operation, thing, int((operation, thing) in has)))
    return grants, questions


def write(path, lines):
    """Writes lines."""
    with open(path, "w", encoding="utf-8") as file:
        file.writelines(f"{line}\n" for line in lines)


def small_lines(grants, questions):
    """The commands that make the policy, and the questions."""
    yield from (f"- addUser u{user}" for user in range(USERS))
    yield from (f"- addRole r{role}" for role in range(ROLES))
    yield from (f"- addPermObj o{thing}" for thing in range(OBJECTS))
    yield from (f"- addPermission {thing} {operation}" for operation, thing, _ in grants)
    yield from (f"- grantPermission {thing} {operation} r{role}" for operation, thing, role in grants)
    yield from (f"- addInheritance r{role} r{(role - 1) // 3}" for role in range(1, ROLES))
    for user in range(USERS):
        yield f"- assignUser u{user} r{user % ROLES}"
        yield f"- createSession u{user} s{user} r{user % ROLES}"
    yield from (f"? s{user} {operation} {thing} {want}" for user, operation, thing, want in questions)
    yield "! decisions 5"


def policy_rows(grants):
    """The policy as Casbin reads it."""
    yield from (f"p, r{role}, {thing}, {operation}" for operation, thing, role in grants)
    yield from (f"g, u{user}, r{user % ROLES}" for user in range(USERS))
    yield from (f"g, r{role}, r{(role - 1) // 3}" for role in range(1, ROLES))


def table_rows(grants):
    """The policy as rows: the table first."""
    yield from (f"assigned,u{user},r{user % ROLES}" for user in range(USERS))
    yield from (f"edge,r{role},r{(role - 1) // 3}" for role in range(1, ROLES))
    yield from (f"granted,{thing},{operation},r{role}" for operation, thing, role in grants)
    yield from (f"closure,r{role},r{it}" for role in range(ROLES) for it in below(role))
    yield from (f"active,s{user},r{user % ROLES}" for user in range(USERS))


def named(permission):
    """The object and the operation of the permission with this number."""
    return f"object{permission % MOST['object']:04} operation{permission // MOST['object']}"


def limit_lines(roles, edges, asked, sessions):
    """An office of these roles and inheritances, with as many objects, permissions, grants and sessions as there may
    be. The first permissions are granted to the lists of roles of `asked`, and in the sessions the lists of
    roles of `sessions` are activated in turn. The other grants are spread."""
    yield from (f"- addRole {role}" for role in roles)
    yield from (f"- addInheritance {asc} {desc}" for asc, desc in edges)
    yield from (f"- addPermObj object{number:04}" for number in range(MOST["object"]))
    permissions = [named(it) for it in range(MOST["permission"])]
    yield from (f"- addPermission {permission}" for permission in permissions)
    for permission, granted in zip(permissions, asked):
        yield from (f"- grantPermission {permission} {role}" for role in granted)
    others = permissions[len(asked) :]
    for number in range(MOST["grant"] - sum(map(len, asked))):
        role = roles[(7 * number + number // len(others)) % len(roles)]
        yield f"- grantPermission {others[number % len(others)]} {role}"
    assigned = highest(sessions[0], edges)
    for number in range(MOST["session"] // 2):
        yield f"- addUser user{number:04}"
        yield from (f"- assignUser user{number:04} {role}" for role in assigned)
    for number in range(MOST["session"]):
        active = " ".join(sessions[number % len(sessions)])
        yield f"- createSession user{number // 2:04} session{number:04} {active}"


def highest(active, edges):
    """Those of some roles that have no ascendant among them."""
    under = {desc for asc, desc in edges if asc in active}
    return [role for role in active if role not in under]


def question(session, permission, wanted, label, rounds):
    """A question of a session for the permission with this number, asked a number of times."""
    thing, operation = named(permission).split()
    yield f"? session{session:04} {operation} {thing} {wanted}"
    yield f"! {label} {rounds}"


def chain(roles):
    """The inheritances of a chain, each from a role to the next one, the last one first."""
    return list(reversed(list(zip(roles, roles[1:]))))


def one_chain():
    """A chain of all roles. One permission is granted to all but the lowest 32, which the sessions have."""
    roles = [f"role{number:04}" for number in range(MOST["role"])]
    yield from limit_lines(roles, chain(roles), [roles[:-32]], [roles[-32:]])
    yield from question(500, 0, 0, "refused-after-all", 20)
    yield from question(500, 1, 0, "refused-of-few", 1_000)


def two_chains(first, second):
    """Two chains. The sessions have the 32 highest roles of one, or the highest two, and one permission is granted
    to all of the other."""
    yield from limit_lines(sorted(first + second), chain(first) + chain(second), [second], [first[:32], first[:2]])


def chains_apart():
    """Two chains, the names of the one all before those of the other."""
    yield from two_chains([f"a{number:04}" for number in range(512)], [f"b{number:04}" for number in range(512)])
    yield from question(500, 0, 0, "two-chains-apart", 100)


def chains_by_turns():
    """Two chains, whose names alternate in byte order."""
    roles = [f"role{number:04}" for number in range(MOST["role"])]
    yield from two_chains(roles[0::2], roles[1::2])
    yield from question(500, 0, 0, "two-chains-by-turns", 100)
    yield from question(501, 0, 0, "few-roles-many-grants", 100)


def side_by_side():
    """32 roles side by side, each senior to one that is senior to 500 others; the last one is senior to the last of all
    names too. One permission is granted to 490 roles whose names are between these 500, and another to those and to
    the last one, so that only the last role of a session has it, by its last junior."""
    tops, middle, last = [f"a{number:04}" for number in range(32)], "b", "z"
    names = [f"role{number:04}" for number in range(990)]
    between = names[1:980:2]
    under = sorted(set(names) - set(between))
    edges = [(middle, role) for role in under] + [(top, middle) for top in tops] + [(tops[-1], last)]
    yield from limit_lines(sorted([*tops, middle, *names, last]), edges, [between, [*between, last]], [tops])
    yield from question(500, 0, 0, "side-by-side-refused", 100)
    yield from question(500, 1, 1, "allowed-at-the-last", 100)


LIMITS = {"chain": one_chain, "apart": chains_apart, "turns": chains_by_turns, "wide": side_by_side}


def main():
    """Writes the files."""
    folder = sys.argv[1]
    grants, questions = small_policy()
    write(f"{folder}/small.lines", small_lines(grants, questions))
    write(f"{folder}/policy.csv", policy_rows(grants))
    write(f"{folder}/rows.csv", table_rows(grants))
    rows = (f"{user},{operation},{thing},{want}" for user, operation, thing, want in questions)
    write(f"{folder}/questions.csv", rows)
    for name, lines in LIMITS.items():
        write(f"{folder}/limits-{name}.lines", lines())


if __name__ == "__main__":
    main()
