"""People from CSV: files as spreadsheets write them, each mistake with its line, and what becomes of those who have left."""

import json
import random
import re
import shlex
import subprocess
from pathlib import Path

import pytest

from machine.state import MOST
from program.bench import SECONDS
from program.offices import read_rows

from . import drawing
from .commands import BIN, BUFFERED, PYTHON, ends, people, policy
from .pairs import make_office
from .plans import good_office

# How many users and assignments an office may have, and the kind of the rows of assignments.
USERS, ASSIGNMENTS, ASSIGNMENT = MOST["user"], MOST["assignment"], 2

# Files that say the same.
SAME = {
    "commas": b"user,roles,locked\nann,auditor,\nbob,employee;teller,yes\n",
    "CR LF, a byte order mark and semicolons": b'\xef\xbb\xbfuser;roles;locked\r\nann;auditor;\r\nbob;"employee;teller";yes\r\n',
    "another order, more columns and spaces": b"Mail,Locked,Roles, User \nx,no,auditor,ann\ny, TRUE , employee ; teller ,bob\n\n",
    "quotes": b'"user","roles","locked"\n"ann","auditor","0"\n"bob","employee;teller","1"\n',
}

COMMANDS = [
    "  deassign the user ann from the role teller",
    "  assign the user ann to the role auditor",
    "  add the user bob",
    "  lock the user bob",
    "  assign the user bob to the role employee",
    "  assign the user bob to the role teller",
]


@pytest.mark.parametrize("what", SAME)
def check_forms(bench, what):
    """Each form of a file is read alike, and done; afterwards nothing differs."""
    good_office(bench)
    bench.write("people.csv", SAME[what])
    done = people(bench, "plan", "people.csv", "--file", "office")
    bench.same("the plan", (done.status, done.out.decode().splitlines()[1:], done.err), (1, COMMANDS, b""))
    ends(bench, "apply", people(bench, "apply", "people.csv", "--file", "office", "--yes"), 0, "Done: 6 changes. Refused: 0.\n")
    pulled = policy(bench, "pull", "--users", "--file", "office").out.decode().partition("[users]\n")[2]
    bench.same("the users", pulled, 'ann = ["auditor"]\nbob = { roles = ["employee", "teller"], locked = true }\n')
    ends(bench, "again", people(bench, "apply", "people.csv", "--file", "office", "--yes"), 0, "No difference.\n")


def check_columns(bench):
    """Without the column roles no role changes, without the column locked no lock, and an empty cell leaves a lock."""
    good_office(bench)
    bench.write("people.csv", b"user\nann\nbob\n")
    ends(bench, "users alone", people(bench, "apply", "people.csv", "--file", "office", "--yes"), 0, "Done: 1 changes.")
    bench.write("people.csv", b"user,locked\nann,yes\nbob,\n")
    ends(bench, "a lock", people(bench, "apply", "people.csv", "--file", "office", "--yes"), 0, "Done: 1 changes.")
    bench.write("people.csv", b"user,locked\nann,\nbob,no\n")
    ends(bench, "an empty cell", people(bench, "apply", "people.csv", "--file", "office", "--yes"), 0, "No difference.")
    pulled = policy(bench, "pull", "--users", "--file", "office").out.decode().partition("[users]\n")[2]
    bench.same("the users", pulled, 'ann = { roles = ["teller"], locked = true }\nbob = []\n')


def check_mistakes(bench):
    """All mistakes of a file are printed with their lines, and nothing is done."""
    good_office(bench)
    bench.write(
        "people.csv",
        b"user,roles,locked\nann,teller,maybe\n,teller,\nbob\n" + b"n" * 65 + b",teller,\ncat,teller,\ncat,,no\nok,,\n",
    )
    done = people(bench, "apply", "people.csv", "--file", "office", "--yes")
    wanted = [
        "people.csv:2: locked is maybe: it has to be yes or no, or empty to leave it as it is",
        "people.csv:3: user: a name has 1 to 64 bytes, and this one has 0",
        "people.csv:4: the line has 1 fields, and the first line has 3",
        "people.csv:5: user: a name has 1 to 64 bytes, and this one has 65",
        "people.csv:7: cat is in the file 2 times, first in line 6",
        "rbac-people: the file has mistakes: nothing was done",
    ]
    bench.same("what is printed", (done.status, done.out, done.err.decode().splitlines()), (2, b"", wanted))
    for text, said in (
        (b"name,roles\nann,teller\n", "people.csv:1: the first line has no column user"),
        (b"", "people.csv:1: the first line has no column user"),
        (b"user,roles,roles\n", "people.csv:1: there are two columns roles"),
        (b"user,role\nann,teller\n", "people.csv:1: the column role would be ignored; is roles meant?"),
        (b"user,roles,Lock\nann,teller,yes\n", "people.csv:1: the column lock would be ignored; is locked meant?"),
        (b'user,roles\n"ann,teller\n', "people.csv:2: unexpected end of data"),
        (b"user\nm\xe4x\n", "people.csv: it is not UTF-8"),
    ):
        bench.write("people.csv", text)
        ends(bench, said, people(bench, "plan", "people.csv", "--file", "office"), 2, err=said)


def check_leavers(bench):
    """Who is missing in the file is kept, locked or deleted; many only if their number is confirmed."""
    good_office(bench)
    lines = [f"user {number}" for number in range(100)]
    bench.write("people.csv", "\n".join(["user", "ann", *lines]).encode())
    ends(bench, "all", people(bench, "apply", "people.csv", "--file", "office", "--yes"), 0)
    bench.write("people.csv", "\n".join(["user", "ann", *lines[5:]]).encode())
    done = people(bench, "plan", "people.csv", "--file", "office")
    ends(bench, "kept", done, 0, ["No difference.", "Users who are not in the file, and stay: 5"])
    done = people(bench, "apply", "people.csv", "--file", "office", "--yes", "--leavers", "lock")
    ends(bench, "five of 101 are locked", done, 0, "Done: 5 changes. Refused: 0.\n")
    bench.write("people.csv", "\n".join(["user", "ann", *lines[11:]]).encode())
    words = ["apply", "people.csv", "--file", "office", "--yes", "--leavers", "lock"]
    ends(
        bench, "six more of 101", people(bench, *words), 2, err='6 of 101 users would be locked ("user 10", "user 5", "user 6"'
    )
    ends(bench, "another number", people(bench, *words, "--confirm", "5"), 2, err="nothing was done. Use --confirm 6")
    ends(bench, "confirmed", people(bench, *words, "--confirm", "6"), 0, "Done: 6 changes. Refused: 0.\n")
    words[-1] = "delete"
    ends(bench, "deleted", people(bench, *words, "--confirm", "11"), 0, "Done: 11 changes. Refused: 0.\n")
    pulled = policy(bench, "pull", "--users", "--file", "office").out.decode()
    bench.same("the users that are left", pulled.count('"user '), 89)


def check_no_roles(bench):
    """A column roles without a role in it takes their roles from many only if their number is confirmed, with that of the leavers."""
    good_office(bench)
    names = [f"user {number}" for number in range(40)]
    bench.write("people.csv", "\n".join(["user,roles", *(f"{name},employee" for name in names)]).encode())
    ends(bench, "all", people(bench, "apply", "people.csv", "--file", "office", "--yes"), 0)
    before = policy(bench, "pull", "--users", "--file", "office").out
    bench.write("people.csv", "\n".join(["user,roles", *(f"{name}," for name in names[1:])]).encode())
    words = ["apply", "people.csv", "--file", "office", "--yes"]
    ends(bench, "none", people(bench, *words), 2, err='39 of 41 users would lose all roles ("user 1", "user 2"')
    done = people(bench, *words, "--leavers", "delete")
    ends(bench, "two ways", done, 2, err='41 of 41 users would be deleted or lose all roles (ann, "user 0", "user 1"')
    bench.same("the office", policy(bench, "pull", "--users", "--file", "office").out, before)
    two = ["user,roles", "user 1,", *(f"{name},auditor" for name in names[2:]), "new,"]
    bench.write("people.csv", "\n".join(two).encode())
    ends(bench, "one of 41, and others for other roles", people(bench, *words), 0, "Done: 78 changes. Refused: 0.\n")
    bench.write("people.csv", "\n".join(["user,roles", *(f"{name}," for name in names[2:6])]).encode())
    ends(bench, "confirmed", people(bench, *words, "--confirm", "4"), 0, "Done: 4 changes. Refused: 0.\n")


def check_sessions(bench):
    """A plan names the sessions that end by their digests alone, and after apply these have ended and no others have."""
    good_office(bench)
    names = {"ann": ["a1", "a2"], "bob": ["b1"], "cat": ["c1"], "dan": ["d1"]}
    bench.write("people.csv", b"user,roles\nann,teller;employee\nbob,teller\ncat,teller\ndan,teller\n")
    ends(bench, "all", people(bench, "apply", "people.csv", "--file", "office", "--yes"), 0)
    lines = [create(user, name, "employee" if name == "a2" else "teller") for user, some in names.items() for name in some]
    bench.run(["replay", "office"], b"".join(lines))
    # ann keeps the session that doesn't need the role that she loses, and bob, who isn't in the file, is locked.
    bench.write("people.csv", b"user,roles,locked\nann,employee,\ncat,teller,yes\ndan,teller;auditor,\n")
    words = ["people.csv", "--file", "office", "--leavers", "lock"]
    wanted = [
        f"  {digest} of {user}"
        for user, digest in sorted([("ann", digest("a1")), ("bob", digest("b1")), ("cat", digest("c1"))])
    ]
    for done in (people(bench, "plan", *words), people(bench, "apply", *words, "--confirm", "1", "--yes")):
        shown = done.out.decode().partition("Sessions that end:\n")[2].splitlines()
        bench.same("the sessions that end", [line for line in shown if line.startswith("  ")], wanted)
        bench.same("dan's session is named", digest("d1") in done.out.decode(), False)
        bench.same("a name is shown", any(name in done.out.decode().split() for some in names.values() for name in some), False)
    bench.same("the sessions that are left", left_sessions(bench, "office"), {"a2", "d1"})
    bench.write("people.csv", b"user,roles\nann,employee;nobody\n")
    done = people(bench, "plan", "people.csv", "--file", "office")
    ends(
        bench,
        "only a refusal",
        done,
        1,
        "Changes: none\n",
        "people.csv:2: refused: assign the user ann to the role nobody: 4 NoRole",
    )
    bench.same("no session ends", "Sessions that end" in done.out.decode(), False)


def full_office(bench):
    """An office with as many assignments as it may have, of people with three or four roles each, and the lines of a file that says so."""
    roles = ["employee", *(f"dept {number:02}" for number in range(16)), "badge", "lead"]
    lines, rows, count = [{"fn": "addRole", "role": role} for role in roles], [], 0
    # Some have four roles, and the others three.
    people_of, leads = 6_070, ASSIGNMENTS - 3 * 6_070
    for number in range(1, people_of + 1):
        own = ["employee", f"dept {number % 16:02}", "badge", *["lead"] * (number > people_of - leads)]
        count += len(own)
        lines += [
            {"fn": "addUser", "user": f"u{number:06}"},
            *({"fn": "assignUser", "user": f"u{number:06}", "role": role} for role in own),
        ]
        rows.append((f"u{number:06}", own))
    bench.same("the assignments", count, ASSIGNMENTS)
    bench.ends(["init", "full"], makes=["full"])
    answers = bench.run(["replay", "full"], "".join(json.dumps(line) + "\n" for line in lines).encode()).out
    bench.same("answers other than ok", set(answers.split()) - {b'{"ok":true}'}, set())
    return rows


def roles_of(bench, *users):
    """The roles of some users of the full office."""
    pairs = [(user, role) for kind, user, role in read_rows(bench.path("full"))["pair_row"] if kind == ASSIGNMENT]
    return len(pairs), {user: sorted(role for other, role in pairs if other == user) for user in users}


def check_at_the_limit(bench):
    """At the limit of assignments nobody loses a role to make room for somebody else: who exchanges roles does so, who would have more than
    before stays as before, and so does who is new. What becomes free by those who lose a role is given to the next in the file.
    """
    rows = full_office(bench)
    people_of = {user: roles for user, roles in rows} | {
        "u000005": ["employee", "badge", "dept 15"], "u000006": ["employee", "badge", "dept 15", "lead"],
        "u000007": ["employee", "badge", "dept 07", "lead"],
    }  # fmt: skip
    first = [("u006071", ["employee"]), ("u006072", ["employee", "badge"])]
    bench.write("two.csv", csv_of([*first, *people_of.items()]))
    words = ["two.csv", "--file", "full"]
    said = f"two.csv: an office has room for {ASSIGNMENTS:,} assignments: 4 people of the file have none (lines 2, 3, 9, 10), and stay as they are\n"
    for name, done in (("plan", people(bench, "plan", *words)), ("apply", people(bench, "apply", *words, "--yes"))):
        bench.same(f"{name}: what can't be done", (done.status, said_by(done)), (1, said))
    bench.same("what is done", done.out.decode().splitlines()[-1], "Done: 2 changes. Refused: 9.")
    before = {user: sorted(roles) for user, roles in rows}
    wanted = {
        "u000005": ["badge", "dept 15", "employee"],
        "u000006": before["u000006"],
        "u000007": before["u000007"],
        "u006071": [],
        "u006072": [],
    }
    bench.same("the roles", roles_of(bench, *wanted), (ASSIGNMENTS, wanted))
    people_of |= {"u000009": ["employee", "badge"], "u000010": ["badge"]}
    bench.write("two.csv", csv_of([*first, *people_of.items()]))
    done = people(bench, "apply", *words, "--yes")
    wanted |= {
        "u000006": ["badge", "dept 06", "employee"],
        "u000009": ["badge", "employee"],
        "u000010": ["badge"],
        "u006071": ["employee"],
        "u006072": ["badge", "employee"],
    }
    bench.same("with room for three", roles_of(bench, *wanted), (ASSIGNMENTS, wanted))
    bench.same("what is left", (done.status, "2 people of the file have none (lines 9, 10)" in done.err.decode()), (1, True))


def said_by(done):
    """What a command has printed on standard error, but for how far it was."""
    return "".join(
        line for line in done.err.decode().splitlines(True) if not re.match(r"(changes|answers of the program): ", line)
    )


def csv_of(rows):
    """A file with these users and their roles."""
    return "\n".join(["user,roles", *(f"{user},{';'.join(roles)}" for user, roles in rows)]).encode()


def check_too_many(bench):
    """A list that fits in no office is refused in one line, and nothing is done; one that fits but for a few isn't."""
    good_office(bench)
    before = Path(bench.path("office")).read_bytes()
    many, fewer = USERS * 3 // 2, ASSIGNMENTS * 2 // 5
    one = [(f"user {number}", ["employee"]) for number in range(many)]
    for what, rows, said in (
        ("users", one, f"{many:,} people with {many:,} assignments are in the file"),
        (
            "assignments",
            [(user, ["employee", "teller", "auditor"]) for user, _ in one[:fewer]],
            f"{fewer:,} people with {3 * fewer:,} assignments are in the file",
        ),
    ):
        bench.write("people.csv", csv_of(rows))
        for name in ("plan", "apply"):
            done = people(bench, name, "people.csv", "--file", "office", *["--yes"] * (name == "apply"))
            line = f"rbac-people: people.csv: {said}, and an office has room for {USERS:,} users and {ASSIGNMENTS:,} assignments: nothing was done\n"
            bench.same(f"{what}: {name}", (done.status, done.out.decode(), said_by(done)), (2, "", line))
    bench.same("the office", Path(bench.path("office")).read_bytes() == before, True)


def check_together(bench):
    """What one person loses and gets is done together: if a part is refused, the others of the line stay away too, and the person keeps the
    roles of before. A separation of duty set is no hindrance to an exchange. Locks, and what only takes something away, are done anyway.
    """
    good_office(bench)
    bench.write("people.csv", b"user,roles\nann,teller\nbob,teller\ncat,teller\ndan,teller;employee\neve,teller\n")
    ends(bench, "all", people(bench, "apply", "people.csv", "--file", "office", "--yes"), 0)
    bench.run(["replay", "office"], create("bob", "b1", "teller") + create("ann", "a1", "teller"))
    lines = [
        "user,roles,locked",
        "ann,auditor,",
        "bob,auditor;nobody,",
        "cat,auditor;teller,yes",
        "dan,teller,",
        "eve,nobody,",
        "new,teller;nobody,",
    ]
    bench.write("people.csv", "\n".join(lines).encode())
    refusals = [
        "people.csv:3: refused: assign the user bob to the role nobody: 4 NoRole (2 more of this line not done)",
        "people.csv:4: refused: assign the user cat to the role auditor: 24 StaticSeparation set audit",
        "people.csv:6: refused: assign the user eve to the role nobody: 4 NoRole (1 more of this line not done)",
        "people.csv:7: refused: assign the user new to the role nobody: 4 NoRole (2 more of this line not done)",
    ]
    plan = people(bench, "plan", "people.csv", "--file", "office")
    bench.same("the plan", sorted(plan.err.decode().splitlines()), refusals)
    shown = plan.out.decode().partition("Sessions that end:\n")[2].splitlines()
    bench.same("the sessions that end", shown, [f"  {digest('a1')} of ann"])
    done = people(bench, "apply", "people.csv", "--file", "office", "--yes")
    ends(bench, "apply", done, 1, "Done: 4 changes. Refused: 9.\n", refusals)
    pulled = policy(bench, "pull", "--users", "--file", "office").out.decode().partition("[users]\n")[2].splitlines()
    wanted = [
        'ann = ["auditor"]',
        'bob = ["teller"]',
        'cat = { roles = ["teller"], locked = true }',
        'dan = ["teller"]',
        'eve = ["teller"]',
    ]
    bench.same("the users", pulled, wanted)
    bench.same("the sessions that are left", left_sessions(bench, "office"), {"b1"})


def check_many_refusals(bench):
    """Forty refusals are printed, and how many there are besides; all of them with --all."""
    good_office(bench)
    bench.write("people.csv", csv_of([(f"p{number}", ["nobody"]) for number in range(100)]))
    for words, count in (([], 41), (["--all"], 100)):
        lines = said_by(people(bench, "plan", "people.csv", "--file", "office", *words)).splitlines()
        bench.same(f"{words}: the lines", (len(lines), lines[0].startswith("people.csv:2: refused: ")), (count, True))
        bench.same(f"{words}: the last one", lines[-1] == "and 60 more lines are refused (--all shows them)", not words)


def check_closed_output(bench):
    """If standard output is closed, nothing is done."""
    bench.write("people.csv", b"user,roles\nann,\nbob,\n")
    make_office(bench, "office", drawing.State())
    line = shlex.join(map(str, [PYTHON, "-B", BIN / "rbac-people", "apply", "people.csv", "--file", "office", "--yes"]))
    done = subprocess.run(
        ["sh", "-c", f"{line} >&-"], cwd=bench.folder, env=BUFFERED, capture_output=True, timeout=SECONDS, check=False
    )
    said = b"rbac-people: standard output is closed: nothing was done\n"
    bench.same("what is said", (done.returncode, done.stderr), (2, said))
    bench.same("the users", {name for kind, name in read_rows(bench.path("office"))["name_row"] if kind == 1}, set())


@pytest.mark.seeds()
def check_random_sessions(bench, seed):
    """For random offices and people the sessions that a plan names are those that apply ends."""
    named = 0
    for number in range(8):
        drawn = random.Random(f"{seed} {number}")
        state = drawing.draw_state(drawn, 250)
        opened = [("createSession", user, frozenset([role]), f"{user} {role}") for user, role in sorted(state.assignments)]
        state = drawing.tried(state, *opened)
        office = f"office {number}"
        make_office(bench, office, state)
        users, roles = sorted(state.users), sorted(state.roles)
        some = drawn.sample(users, len(users) // 2)
        lines = [f"{user},{';'.join(drawn.sample(roles, min(len(roles), 2)))},{drawn.choice(['', 'yes'])}" for user in some]
        bench.write("people.csv", "\n".join(["user,roles,locked", *lines]).encode())
        words = ["people.csv", "--file", office, "--leavers", drawn.choice(["keep", "lock", "delete"])]
        shown = people(bench, "plan", *words).out.decode()
        before = left_sessions(bench, office)
        done = people(bench, "apply", *words, "--yes")
        if count := re.search(rb"Use --confirm (\d+)", done.err):
            people(bench, "apply", *words, "--yes", "--confirm", count[1].decode())
        ended = {digest(name) for name in before - left_sessions(bench, office)}
        said = set(re.findall(r"^  ([0-9a-f]{32}) of ", shown, re.M))
        bench.same(f"the sessions that end ({number})", said, ended)
        named += len(said)
    bench.same("some sessions end", named > 0, True)


def create(user, name, role):
    """The line that makes a session."""
    return json.dumps({"fn": "createSession", "user": user, "roles": [role], "session": name}).encode() + b"\n"


def digest(name):
    """The digest of a session's name."""
    from rbac_client import session_digest

    return session_digest(name)


def left_sessions(bench, office):
    """The names of the sessions of an office in a file."""
    return {name for kind, name, _ in read_rows(bench.path(office))["pair_row"] if kind == 7}
