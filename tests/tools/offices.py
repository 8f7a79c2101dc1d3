"""Random offices, made by the program: each report is that of the model, and what the program itself answers."""

import json
import os
import random
from collections import Counter

import pytest

from machine.drawing import WEIGHTS, Draws
from machine.replaying import Replay
from machine.state import authorized_roles
from machine.texts import json_text, rows
from program.cases import shares
from program.offices import Office, read_rows, same_rows

from . import wanted
from .running import records, report, run_script

# The number of offices, and the number of jobs that share them.
OFFICES, EACH = 200, 25

# How many random lines make an office, those that do not change it included.
LINES = (100, 300)

# The commands by which an office grows, and how many times as often as in other random lines they are chosen.
GROWING = dict.fromkeys(["addUser", "addRole", "addPermObj", "assignUser", "addInheritance", "createSession"], 4)
GROWING |= {"addPermission": 2, "grantPermission": 2, "createSsdSet": 2, "createDsdSet": 2}

# One in how many offices is compared in full, the others by the dump alone; and how many further lines make a difference.
ONE_IN, FURTHER = 4, 40

# What has to be met in some of the offices.
MET = [
    "lines of permissions",
    "lines of near",
    "lines of sessions",
    "dynamic sets that a user could violate",
    "lines of permissions that no session can have",
    "locked users",
]

# Names that mean something in one of the forms that the tools write or read.
ODD_NAMES = [
    '"', "\\", "'", '\\"', "|", ",", ";", " ", "-", "--", "#", "%s%d", "$x", "{role}", "{roles}", "=1+1", "&amp;", "&lt;",
    "<b>", "<", "]", "\\n", "\\N", "\\G", "rbac", "NULL", "\u00e9", "\u0085", "\u2028", "\ufeff", "\U0001f600", "n" * 64,
]


class Building(Draws):
    """Random lines of commands, mostly of those by which an office grows."""

    weights = {function: weight * GROWING.get(function, 1) for function, weight in WEIGHTS.items()}

    def draw_function(self):
        return self.random.choices(list(self.weights), list(self.weights.values()))[0]


def accepted(draws, count):
    """Returns those of `count` random lines that change the state."""
    kept = []
    for _ in range(count):
        before = draws.state
        _, line, _ = draws.draw()
        if draws.state is not before:
            kept.append(line + b"\n")
    return kept


def line_of(function, **arguments):
    """A request line."""
    return json_text({"fn": function, **arguments}).encode() + b"\n"


def odd_lines():
    """Lines that make an office in which each odd name is that of a user, a role, an object, and so on."""
    names = ODD_NAMES
    adding = [("addUser", "user"), ("addRole", "role"), ("addPermObj", "object")]
    lines = [line_of(function, **{key: name}) for function, key in adding for name in names]
    for first, second, third in zip(names, names[1:], names[2:]):
        lines += [
            line_of("addPermission", object=first, operation=second),
            line_of("grantPermission", object=first, operation=second, role=third),
            line_of("addInheritance", asc=first, desc=third),
            line_of("createSsdSet", set=first, roles=[second, third], cardinality=2),
            line_of("createDsdSet", set=second, roles=[first, third, second], cardinality=3),
            line_of("assignUser", user=first, role=third),
            line_of("createSession", user=first, roles=[third], session=second),
        ]
    return [
        *lines,
        # By this the user is authorized for a role in two ways.
        line_of("assignUser", user=names[0], role=names[0]),
        line_of("createSession", user=names[0], roles=[], session="none"),
        line_of("lockUserAccount", user=names[5]),
    ]


def answers(bench, path, lines):
    """What the program answers to lines, each as JSON."""
    done = bench.run(["replay", path], b"".join(lines))
    bench.same("the end of a replay", (done.err, done.status), (b"", 0))
    return [json.loads(line) for line in done.out.splitlines()]


def compare_reports(bench, what, path, state):
    """Each report of an office, as rows, is that of the model for its state, with digests of sessions and with their names.

    Returns the rows with names, by the names of the reports.
    """
    found, headings = {}, {}
    for name in ("permissions", "room"):
        found[name], _ = records(report(bench, name, path))
        bench.same(f"{name} of {what}", found[name], getattr(wanted, name)(state))
    for has_names in (False, True):
        for name in ("near", "sessions"):
            found[name], headings[name, has_names] = records(report(bench, name, path, has_names))
            bench.same(f"{name} of {what}", found[name], getattr(wanted, name)(state, has_names))
    shown = [headings["sessions", has_names][0] for has_names in (False, True)]
    bench.same(f"how the sessions of {what} are shown", shown, ["digest", "session"])
    return found


def ask_permissions(bench, what, path, state, found):
    """What users and sessions may do as reported is what the program answers: by review functions and by checkAccess."""
    reported = {("user", user): set() for user in sorted(state.users)}
    reported |= {("session", name): set() for name in sorted(state.sessions)}
    for user, _, ob, op, *_ in found["permissions"]:
        reported["user", user].add((ob, op))
    for name, _, _, ob, op, _ in found["sessions"]:
        reported["session", name] |= {(ob, op)} if ob else set()
    given = answers(bench, path, [line_of(f"{key}Permissions", **{key: name}) for key, name in reported])
    for ((key, name), pairs), answer in zip(reported.items(), given, strict=True):
        bench.same(f"what the {key} {name} may do in {what}", sorted(pairs), [tuple(pair) for pair in answer["value"]])
    asked = [(name, ob, op) for name in sorted(state.sessions) for ob, op in sorted(state.permissions)]
    given = answers(bench, path, [line_of("checkAccess", session=name, object=ob, operation=op) for name, ob, op in asked])
    allowed = [(ob, op) in reported["session", name] for name, ob, op in asked]
    bench.same(f"accesses in {what}", allowed, [answer["value"] for answer in given])


def answer_of(locked, violated):
    """What the program answers to a user who wants a permission by a role, if a line of the report has these values."""
    if locked == "yes":
        return {"code": 37, "error": "UserLocked"}
    return {"code": 25, "error": "DynamicSeparation", "set": violated} if violated else {"ok": True, "value": True}


def try_permissions(bench, what, path, found):
    """A session with the role that has the permission can be created and has it, unless the line says why there is none.

    This is tried in a copy of the office.
    """
    tried = sorted({(user, locked, ob, op, role, violated) for user, locked, ob, op, _, role, violated in found["permissions"]})
    lines = []
    for user, _, ob, op, role, _ in tried:
        lines.append(line_of("createSession", user=user, roles=[role], session="probe"))
        lines.append(line_of("checkAccess", session="probe", operation=op, object=ob))
        lines.append(line_of("deleteSession", user=user, session="probe"))
    given = answers(bench, path, lines)
    for (user, locked, ob, op, role, violated), made, access in zip(tried, given[::3], given[1::3], strict=True):
        came = access if made == {"ok": True} else made
        bench.same(f"a session of {user} in {what} as {role}, for {op} on {ob}", came, answer_of(locked, violated))


def try_sets(bench, what, path, state, found):
    """A dynamic set that a user could violate, as reported, is violated by a session with the members that are listed.

    A user who could violate none gets a session with all roles. Both are tried in a copy of the office.
    """
    could = {}
    for left, kind, name, _, holder, user, _, member, _ in found["near"]:
        if (kind, holder) == ("dynamic", "user") and int(left) <= 0:
            could.setdefault((user, name), set()).add(member)
    violating = {user for user, _ in could}
    tried = [(user, roles) for (user, _), roles in sorted(could.items()) if user not in state.locked]
    tried += [(user, authorized_roles(state, user)) for user in sorted(state.users - state.locked - violating)]
    lines = []
    for user, roles in tried:
        lines.append(line_of("createSession", user=user, roles=sorted(roles), session="probe"))
        lines.append(line_of("deleteSession", user=user, session="probe"))
    for (user, roles), answer in zip(tried, answers(bench, path, lines)[::2], strict=True):
        is_violating = answer.get("code") == 25 and (user, answer["set"]) in could
        what_came = is_violating if user in violating else answer == {"ok": True}
        bench.same(f"a session of {user} in {what} with {sorted(roles)}", what_came, True)


def dump_of(bench, path):
    """The dump of an office, with the names of its sessions."""
    return report(bench, "dump", path, has_names=True)


def replay_dump(bench, what, path, state):
    """The dump makes the same office in a new file: each line is accepted, and all rows are those of the model."""
    text = dump_of(bench, path)
    new = bench.path("new")
    bench.ends(["init", new], makes=["new"])
    done = bench.run(["replay", new], text.encode())
    count = text.count("\n")
    bench.same(f"the answers to the dump of {what}", (done.out, done.err), (b'{"ok":true}\n' * count, b""))
    same_rows(bench, f"the rows of the dump of {what}", read_rows(new), rows(state.but(version=2)))
    return text, new


def replay_digests(bench, what, path, state, text):
    """The dump without names has the lines of the other, with digests. It makes the office without its sessions."""
    given = [json.loads(line) for line in lines_in(report(bench, "dump", path))]
    named = [json.loads(without_names(line)) for line in lines_in(text)]
    # The lines of the sessions are in the order of what is shown.
    bench.same(f"the dump of {what} without names", sorted(given, key=json_text), sorted(named, key=json_text))
    shown = [request["digest"] for request in given if "digest" in request]
    bench.same(f"the order of the sessions in the dump of {what}", shown, sorted(shown))
    less = bench.path("less")
    bench.ends(["init", less], makes=["less"])
    answered = answers(bench, less, [json_text(request).encode() + b"\n" for request in given])
    refused = [request["fn"] for request, answer in zip(given, answered, strict=True) if answer != {"ok": True}]
    bench.same(f"what the dump of {what} without names does not make", refused, ["createSession"] * len(state.sessions))
    wanted_rows = rows(state.but(version=2, sessions={}))
    same_rows(bench, f"the rows of the dump of {what} without names", read_rows(less), wanted_rows)


def compare_difference(bench, what, before, after):
    """The difference of two dumps, each with its state, is that of the states, with the names of sessions and without.

    Without names it is the same if a dump has digests.
    """
    for has_names in (False, True):
        differ(bench, f"{what}, with names: {has_names}", before, after, has_names)
    digests = "".join(without_names(line) for line in lines_in(before[0]))
    differ(bench, f"{what}, of digests and names", (digests, before[1]), after, False)


def lines_in(text):
    """The lines of a dump. A name may have a character that splits lines for Python alone."""
    return text.split("\n")[:-1]


def without_names(line):
    """A line of a dump as it is without the names of sessions."""
    request = json.loads(line)
    if request["fn"] == "createSession":
        request["digest"] = wanted.shown(request.pop("session"), False)
    return json_text(request) + "\n"


def differ(bench, what, before, after, has_names):
    """The difference of two dumps, each with its state, is that of the states."""
    paths = [bench.write(name, text.encode()) for name, (text, _) in (("first", before), ("second", after))]
    first, second = (wanted.sentences(state, has_names) for _, state in (before, after))
    done = run_script("difference.py", *["--with-sessions"] * has_names, *paths)
    *lines, count = done.out.decode().split("\n")[:-1]
    differences = [f"- {one}" for one in first - second] + [f"+ {one}" for one in second - first]
    bench.same(f"the difference of {what}", sorted(lines), sorted(differences))
    bench.same(
        f"the end of the difference of {what}",
        (count, done.err, done.status),
        (f"{len(first - second)} only in the first, {len(second - first)} only in the second", b"", 1 if differences else 0),
    )


def counts_of(state, found):
    """Returns the counts of an office that is compared in full."""
    violating = {(row[2], row[5]) for row in found["near"] if row[1] == "dynamic" and row[4] == "user" and int(row[0]) <= 0}
    return {
        "offices in full": 1,
        "lines of permissions": len(found["permissions"]),
        "lines of near": len(found["near"]),
        "lines of sessions": len(found["sessions"]),
        "dynamic sets that a user could violate": len(violating),
        "lines of permissions that no session can have": sum(bool(row[6]) for row in found["permissions"]),
        "locked users": len(state.locked),
    }


def try_office(bench, seed):
    """One random office, of which the dump is compared, or all. Returns its counts."""
    what, draws, office = f"office {seed}", Building(seed), Office(bench)
    office.replay(accepted(draws, random.Random(seed).randrange(*LINES)))
    state, path = office.model.state, office.path
    text, new = replay_dump(bench, what, path, state)
    same_rows(bench, f"the rows of {what} and of its dump", read_rows(new), read_rows(path))
    counts = Counter({"random offices": 1, "rows of random offices": sum(map(len, rows(state).values()))})
    if seed % ONE_IN == 0:
        found = compare_reports(bench, what, path, state)
        ask_permissions(bench, what, path, state, found)
        bench.same(f"the dump of the dump of {what}", dump_of(bench, new), text)
        try_sets(bench, what, new, state, found)
        try_permissions(bench, what, new, found)
        replay_digests(bench, what, path, state, text)
        office.replay(accepted(draws, FURTHER))
        compare_difference(bench, what, (text, state), (dump_of(bench, path), office.model.state))
        counts.update(counts_of(state, found))
    for name in bench.contents():
        os.remove(bench.path(name))
    return counts


@pytest.mark.parametrize("first", shares(0, EACH, OFFICES, OFFICES))
def check_offices(bench, first):
    """Random offices, from this seed on."""
    counts = Counter()
    for seed in range(first, first + EACH):
        counts.update(try_office(bench, seed))
    return counts


def check_odd_names(bench):
    """An office with names that mean something in CSV, JSON, SQL, Graphviz, a shell or a spreadsheet."""
    office, lines = Office(bench), odd_lines()
    bench.same("the answers to odd names", answers(bench, office.path, lines), [{"ok": True}] * len(lines))
    for line in lines:
        office.model.answer(line)
    state, path = office.model.state, office.path
    found = compare_reports(bench, "odd names", path, state)
    ask_permissions(bench, "odd names", path, state, found)
    text, new = replay_dump(bench, "odd names", path, state)
    try_sets(bench, "odd names", new, state, found)
    try_permissions(bench, "odd names", new, found)
    replay_digests(bench, "odd names", path, state, text)
    compare_difference(bench, "odd names", ("", Replay().state), (text, state))


def check_version_1(bench):
    """An office of version 1 has its own limits, and is rebuilt in version 2 by its dump."""
    office = Office(bench)
    office.replay([line for line in accepted(Building(1), 200) if b"lockUser" not in line])
    office.become_version_1()
    state, path = office.model.state, office.path
    compare_reports(bench, "version 1", path, state)
    replay_dump(bench, "version 1", path, state)
    # A table of locks that stays beside an office of version 1 is no part of it.
    office.change(["CREATE TABLE locked_row (a TEXT NOT NULL, PRIMARY KEY (a)) STRICT"])
    office.change([f"INSERT INTO locked_row VALUES ('{sorted(state.users)[0]}')"])
    bench.same("the dump without these locks", "lockUserAccount" in dump_of(bench, path), False)
