"""Each mistake in a policy is found, all at once, with its line and the path of its key, and what is allowed there."""

import subprocess

import pytest

from machine.state import MOST
from program.bench import SECONDS
from program.web import free_port

from .commands import BIN, BUFFERED, PYTHON, ends, policy

GOOD = """
[objects]
vault = ["open", "audit"]

[roles.employee]

[roles.teller]
inherits = ["employee"]
grants = { vault = ["open"] }

[roles.auditor.grants]
vault = ["audit"]

[static.audit]
roles = ["auditor", "teller"]
cardinality = 2

[users]
ann = ["teller"]

[[tests]]
user = "ann"
may = { vault = ["open"] }
may_not = { vault = ["audit"] }
"""

# A text of the good policy, what is there instead, and the beginning of the only line that is printed then.
MISTAKES = {
    "an unknown key": (
        "inherits =",
        "inherit =",
        "p.toml:8: roles.teller.inherit: unknown key; allowed here: inherits, grants",
    ),
    "an unknown section": (
        "[static.audit]",
        "[statics.audit]",
        "p.toml:14: statics: unknown key; allowed here: objects, roles, ",
    ),
    "a cycle": (
        "[roles.employee]",
        '[roles.employee]\ninherits = ["teller"]',
        "p.toml:9: roles.teller.inherits[0]: a role would inherit from itself: teller > employee > teller",
    ),
    "an unknown junior": (
        '["employee"]',
        '["employe"]',
        "p.toml:8: roles.teller.inherits[0]: there is no role employe; is employee",
    ),
    "an unknown operation": (
        '{ vault = ["open"] }\n\n',
        '{ vault = ["opne"] }\n\n',
        "p.toml:9: roles.teller.grants.vault[0]: the object vault has no operation opne; is open meant?",
    ),
    "an unknown object": (
        '\nvault = ["audit"]',
        '\nvalt = ["audit"]',
        "p.toml:12: roles.auditor.grants.valt[0]: there is no object valt; is vault meant?",
    ),
    "a role twice": (
        "[roles.auditor.grants]",
        "[roles.teller]\n[roles.auditor.grants]",
        "p.toml: Cannot declare ('roles', 'teller')",
    ),
    "a name twice in a list": (
        '["open", "audit"]',
        '["open", "open", "audit"]',
        "p.toml:3: objects.vault[1]: open is in this list",
    ),
    "a name that is too long": (
        "[roles.employee]",
        f"[roles.employee]\n[roles.{'e' * 65}]",
        f"p.toml:6: roles.{'e' * 65}: a name has",
    ),
    "a name with a control character": (
        "[roles.employee]",
        '[roles.employee]\n[roles."a\\tb"]',
        'p.toml:6: roles."a\\tb": a name has no',
    ),
    "a text in place of a list": (
        '["employee"]',
        '"employee"',
        "p.toml:8: roles.teller.inherits: this has to be a list of names",
    ),
    "a set of one role": (
        '["auditor", "teller"]',
        '["auditor"]',
        "p.toml:16: static.audit.cardinality: a set needs at least 2 roles",
    ),
    "a cardinality that is too large": (
        "cardinality = 2",
        "cardinality = 3",
        "p.toml:16: static.audit.cardinality: it has to be from 2",
    ),
    "a set without a cardinality": ("cardinality = 2\n", "", "p.toml:14: static.audit: the key cardinality is missing"),
    "an unknown role in a set": (
        '["auditor", "teller"]',
        '["auditor", "tellers"]',
        "p.toml:15: static.audit.roles: there is no role",
    ),
    "a set that the users violate": (
        '["teller"]\n\n[[tests]]',
        '["teller", "auditor"]\n\n[[tests]]',
        "p.toml:19: users.ann[1]: ann would have too many roles of a set: the static set audit has auditor, teller, of which nobody",
    ),
    "a test of nobody": (
        'user = "ann"\n',
        "",
        "p.toml:21: tests[0]: a test has either a user of the policy, at user, or a list",
    ),
    "a wrong type in a test": ("may = {", "may = 3 #", "p.toml:23: tests[0].may: this has to be a table of objects"),
    "no TOML": ("[roles.teller]", "[roles.teller", "p.toml: Expected ']' at the end of a table declaration (at line 7"),
}


@pytest.mark.parametrize("what", MISTAKES)
def check_mistake(bench, what):
    """validate prints it, and nothing else; plan and apply do nothing."""
    bench.write("good.toml", GOOD.encode())
    ends(bench, "the good policy", policy(bench, "validate", "good.toml"), 0, "valid: 3 roles, 2 permissions, 1 users\n")
    before, after, wanted = MISTAKES[what]
    text = GOOD.replace(before, after, 1)
    bench.same("the text occurs", text != GOOD, True)
    bench.write("p.toml", text.encode())
    done = policy(bench, "validate", "p.toml")
    said = done.err.decode().splitlines()
    bench.same("the status and the number of lines", (done.status, len(said), done.out), (1, 1, b""))
    bench.same("the line", said[0][: len(wanted)] if said else "", wanted)
    bench.ends(["init", "office"], makes=["office"])
    for words in (["plan"], ["apply", "--yes"]):
        done = policy(bench, words[0], "p.toml", "--file", "office", *words[1:])
        ends(bench, words[0], done, 2, err=[wanted, "rbac-policy: the policy has mistakes: nothing was done\n"])


def check_all_at_once(bench):
    """Mistakes of several kinds in two files are all printed, in their order."""
    bench.write("a.toml", b'[objects]\nsafe = ["open"]\n[roles.clerk]\ngrants = { safe = ["shut"] }\nage = 3\n')
    bench.write(
        "b.toml", b'[roles.clerk]\n[roles.boss]\ninherits = ["boss", "clark"]\n[static.one]\nroles = []\ncardinality = 2\n'
    )
    bench.write("c.toml", b"objects = " + b"9" * 5_000)
    done = policy(bench, "validate", "c.toml")
    ends(bench, "a number that is too long", done, 1, err="c.toml: Exceeds the limit")
    done = policy(bench, "validate", "a.toml", "b.toml")
    wanted = [
        "a.toml:4: roles.clerk.grants.safe[0]: the object safe has no operation shut",
        "a.toml:5: roles.clerk.age: unknown key; allowed here: inherits, grants",
        "b.toml:1: roles.clerk: a.toml has it too",
        "b.toml:3: roles.boss.inherits[0]: a role would inherit from itself: boss > boss",
        "b.toml:3: roles.boss.inherits[1]: there is no role clark; is clerk meant?",
        "b.toml:6: static.one.cardinality: a set needs at least 2 roles, and this one has 0",
    ]
    bench.same("what is printed", (done.status, done.err.decode().splitlines()), (1, wanted))


def check_limits(bench):
    """More than a limit allows is one mistake for each kind, with the limit, whatever uses what is beyond it."""
    most, last, members, of_sets = MOST["role"], MOST["object"], MOST["member"], MOST["dsdSet"]
    roles = "".join(f"[roles.r{number}]\n" for number in range(most)) + f'[roles.r{most}]\ngrants = {{ o{last} = ["open"] }}\n'
    objects = "".join(f"o{number} = []\n" for number in range(last)) + f'o{last} = ["open"]\n'
    sets = "".join(f'[dynamic.s{number}]\nroles = ["r1", "r2"]\ncardinality = 2\n' for number in range(of_sets + 1))
    some = ", ".join(f'"r{number}"' for number in range(members + 1))
    bench.write("p.toml", f"[objects]\n{objects}{roles}{sets}[static.all]\nroles = [{some}]\ncardinality = 2\n".encode())
    with open(bench.path("p.toml"), "a", encoding="ascii") as file:
        file.write(f'[users]\nann = ["r{most}", "nobody"]\n')
    done = policy(bench, "validate", "p.toml")
    # The lines: a head and the objects, the roles and a line with grants, three for each set, and those after them.
    of_roles = last + 3
    dynamic = of_roles + most + 2
    static = dynamic + 3 * (of_sets + 1) + 1
    wanted = {
        f"p.toml:{of_roles}: roles: an office has at most {most:,} roles, and these are {most + 1:,}",
        f"p.toml:1: objects: an office has at most {last:,} objects, and these are {last + 1:,}",
        f"p.toml:{dynamic}: dynamic: an office has at most {of_sets} dynamic sets, and these are {of_sets + 1}",
        f"p.toml:{static + 3}: users.ann[1]: there is no role nobody",
        f"p.toml:{static}: static.all.roles: a set has at most {members} roles, and this one has {members + 1}",
    }
    said = {line for line in done.err.decode().splitlines() if not line.startswith("answers of the program: ")}
    bench.same("what is printed", (done.status, said), (1, wanted))


def check_tests(bench):
    """Tests pass, fail, and find names that nobody has, with their lines."""
    bench.write("p.toml", GOOD.encode())
    more = """
[[tests]]
user = "ann"
may_not = { vault = ["open"] }
[[tests]]
roles = ["auditor", "teller"]
refused_by = "audit"
[[tests]]
roles = ["teller"]
refused_by = "audit"
[[tests]]
roles = ["auditor", "teller"]
may = { vault = ["open"] }
[[tests]]
roles = ["teller"]
session = ["employee"]
may = { vault = ["open"] }
[[tests]]
roles = ["teller"]
may = { safe = ["open"], vault = ["opem"] }
[[tests]]
user = "anne"
"""
    bench.write("tests.toml", more.encode())
    ends(bench, "the policy's own tests", policy(bench, "test", "p.toml"), 0, "1 tests, all passed\n")
    done = policy(bench, "test", "p.toml", "tests.toml")
    wanted = [
        "tests.toml:2: tests[0]: ann may open on vault",
        "tests.toml:8: tests[2]: nothing is refused by the set audit",
        "tests.toml:11: tests[3]: the roles or the session are refused: 24 StaticSeparation audit",
        "tests.toml:14: tests[4]: a user with these roles may not open on vault",
        "tests.toml:18: tests[5]: there is no object safe",
        "tests.toml:18: tests[5]: the object vault has no operation opem; is open meant?",
        "tests.toml:21: tests[6]: there is no user anne; is ann meant?",
    ]
    bench.same("what is printed", (done.status, done.err.decode().splitlines()), (1, wanted))
    bench.same("the count", done.out, b"8 tests, 7 faults\n")


def check_full_output(bench):
    """If the output can't be written, one line says so and the status is 1, and `apply` changes nothing whose plan it can't show."""
    bench.write("p.toml", GOOD.encode())
    bench.write("people.csv", b"user\neve\n")
    bench.ends(["init", "office"], makes=["office"])
    ends(bench, "apply", policy(bench, "apply", "p.toml", "--file", "office", "--yes"), 0)
    bench.write("more.toml", GOOD.replace("[users]", "[roles.guest]\n\n[users]").encode())
    for name, *words in (
        ("rbac-policy", "--help"),
        ("rbac-policy", "validate", "p.toml"),
        ("rbac-policy", "pull", "--file", "office"),
        ("rbac-policy", "apply", "more.toml", "--file", "office", "--yes"),
        ("rbac-people", "apply", "people.csv", "--file", "office", "--yes"),
    ):
        with open("/dev/full", "wb") as full:
            line = [PYTHON, "-B", BIN / name, *words]
            done = subprocess.run(
                line, cwd=bench.folder, env=BUFFERED, stdout=full, stderr=subprocess.PIPE, timeout=SECONDS, check=False
            )
        said = (done.returncode, done.stderr.decode())
        bench.same(f"{name} {words[0]}", said, (1, f"{name}: [Errno 28] No space left on device\n"))
    ends(bench, "what is in the office", policy(bench, "plan", "p.toml", "--file", "office"), 0, "No difference.")


def check_token_in_the_clear(bench):
    """A token is not sent without TLS to another machine. To this one it is, where nobody listens here."""
    bench.write("p.toml", GOOD.encode())
    bench.write("token", b"secret\n")
    port = free_port()
    for host, err in (
        ("office.example", "a token is sent over TLS alone"),
        ("192.0.2.1", "a token is sent over TLS alone"),
        ("[2001:db8::1]", "a token is sent over TLS alone"),
        ("localhost.example", "a token is sent over TLS alone"),
        ("localhost", "the front does not answer"),
        ("127.0.0.1", "the front does not answer"),
        ("[::1]", "the front does not answer"),
    ):
        done = policy(bench, "plan", "p.toml", "--front", f"http://{host}:{port}", "--token-file", "token")
        ends(bench, host, done, 2, err=err)
    words = ("plan", "p.toml", "--front", f"http://0.0.0.0:{port}", "--token-file", "token")
    ends(
        bench,
        "an address of no machine",
        policy(bench, *words),
        2,
        err="or --token-over-http if the network encrypts by itself",
    )
    ends(bench, "over http, as asked for", policy(bench, *words, "--token-over-http"), 2, err="the front does not answer")
