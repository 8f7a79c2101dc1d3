"""Policies of other systems: what the office decides is what the source decides, or is in the list, and is never more."""

import json
import random
import re
import subprocess

import pytest

from .commands import BIN, PYTHON, ends, people, policy

MODEL = """[request_definition]
r = sub, obj, act
[policy_definition]
p = sub, obj, act, eft
[role_definition]
g = _, _
[policy_effect]
e = EFFECT
[matchers]
m = g(r.sub, p.sub) && r.obj == p.obj && r.act == p.act
"""
EFFECTS = {
    "allow": "some(where (p.eft == allow))",
    "allow and deny": "some(where (p.eft == allow)) && !some(where (p.eft == deny))",
    "priority": "priority(p.eft) || deny",
}

# A program that answers each line with a model, rules, and a request by what Casbin decides.
CASBIN = """package main

import (
	"bufio"
	"fmt"
	"os"
	"strings"

	"github.com/casbin/casbin"
)

func main() {
	enforcer, err := casbin.NewEnforcer(os.Args[1], os.Args[2])
	if err != nil {
		panic(err)
	}
	lines := bufio.NewScanner(os.Stdin)
	for lines.Scan() {
		words := strings.Split(lines.Text(), "\\t")
		allowed, err := enforcer.Enforce(words[0], words[1], words[2])
		if err != nil {
			panic(err)
		}
		fmt.Println(allowed)
	}
}
"""


def decisions(bench, folder, users, permissions):
    """What an office decides that has what was imported: the triples of user, object and operation that it allows."""
    office = f"{folder}-office"
    bench.ends(["init", office], makes=[office])
    ends(bench, "apply", policy(bench, "apply", f"{folder}/policy.toml", "--file", office, "--yes"), 0)
    ends(bench, "people", people(bench, "apply", f"{folder}/people.csv", "--file", office, "--yes"), 0)
    lines = b"".join(json.dumps({"fn": "userPermissions", "user": user}).encode() + b"\n" for user in users)
    allowed = set()
    for user, answer in zip(users, bench.run(["replay", office], lines).out.splitlines()):
        allowed |= {(user, ob, op) for ob, op in json.loads(answer).get("value", [])}
    return allowed & {(user, *one) for user in users for one in permissions}


@pytest.fixture(scope="module")
def casbin(built):
    """The program that asks Casbin."""

    def make(folder):
        (folder / "main.go").write_text(CASBIN, encoding="ascii")
        settings = {"GO111MODULE": "off", "GOPATH": "/usr/share/gocode", "GOFLAGS": "", "GOCACHE": str(folder / "cache")}
        import os

        subprocess.run(["go", "build", "-o", "asking", "main.go"], cwd=folder, env={**os.environ, **settings}, check=True)

    return built("casbin", make) / "asking"


@pytest.mark.needs("go", "casbin-go")
@pytest.mark.parametrize("effect", EFFECTS)
@pytest.mark.seeds()
def check_casbin(bench, casbin, effect, seed):
    """For random rules every decision for a user is that of Casbin, or Casbin allows and the list says what is left out."""
    more = 0
    for number in range(12):
        drawn = random.Random(f"{seed} {number}")
        users, roles = [f"u{n}" for n in range(5)], [f"r{n}" for n in range(5)]
        permissions = [(f"o{n}", op) for n in range(3) for op in ("read", "write")]
        lines = [
            f"p, {drawn.choice(users + 3 * roles)}, {ob}, {op}, {drawn.choice(['allow'] * 5 + ['deny'])}"
            for ob, op in drawn.choices(permissions, k=14)
        ]
        lines += [f"g, {drawn.choice(users)}, {drawn.choice(roles)}" for _ in range(6)]
        lines += [f"g, {a}, {b}" for a, b in (sorted(drawn.sample(roles, 2)) for _ in range(4))]
        model = bench.write("model.conf", MODEL.replace("EFFECT", EFFECTS[effect]).encode())
        rules = bench.write("rules.csv", "\n".join(dict.fromkeys(lines)).encode())
        folder = f"out{number}"
        ends(bench, "import", policy(bench, "from", "casbin", "model.conf", "rules.csv", "--out", folder), 0)
        asked = "".join(f"{user}\t{ob}\t{op}\n" for user in users for ob, op in permissions)
        said = subprocess.run([casbin, model, rules], input=asked, capture_output=True, text=True, check=True).stdout.split()
        triples = [(user, ob, op) for user in users for ob, op in permissions]
        wanted = {one for one, answer in zip(triples, said, strict=True) if answer == "true"}
        given = decisions(bench, folder, users, permissions)
        bench.same(f"what the office allows and Casbin denies ({number})", given - wanted, set())
        left = (bench.folder / folder / "left.txt").read_text(encoding="utf-8")
        unsaid = {one for one in wanted - given if f"{one[2]} on {one[1]} for the role" not in left}
        bench.same(f"what Casbin allows, the office denies and nothing says ({number})", unsaid, set())
        more += len(wanted - given)
    if effect == "allow":
        bench.same("all decisions are the same", more, 0)


def check_casbin_refused(bench):
    """Models that allow what no rule allows, and those that no office can have, are refused, and nothing is made."""
    bench.write("rules.csv", b"p, ann, vault, open\n")
    for effect, matcher, said in (
        (
            "!some(where (p.eft == deny))",
            "g(r.sub, p.sub) && r.obj == p.obj && r.act == p.act",
            "what no rule allows has to be denied",
        ),
        (EFFECTS["allow"], "g(r.sub, p.sub) && keyMatch(r.obj, p.obj) && r.act == p.act", "only the matcher"),
    ):
        text = MODEL.replace("EFFECT", effect).replace("g(r.sub, p.sub) && r.obj == p.obj && r.act == p.act", matcher)
        bench.write("model.conf", text.encode())
        ends(bench, said, policy(bench, "from", "casbin", "model.conf", "rules.csv", "--out", "out"), 2, err=said)
        bench.same("nothing is made", (bench.folder / "out").exists(), False)
    root = MODEL.replace("EFFECT", EFFECTS["allow"]).replace("r.act == p.act", 'r.act == p.act || r.sub == "root"')
    bench.write("model.conf", root.encode())
    ends(bench, "a superuser", policy(bench, "from", "casbin", "model.conf", "rules.csv", "--out", "out"), 0)
    left = (bench.folder / "out/left.txt").read_text(encoding="utf-8")
    bench.same("what is left", left, 'the alternative r.sub=="root" of the matcher: an office compares names alone\n')


REALM = {
    "roles": {
        "realm": [{"name": "staff"}, {"name": "boss", "composites": {"realm": ["staff"], "client": {"shop": ["sell"]}}}],
        "client": {"shop": [{"name": "sell"}, {"name": "buy"}]},
    },
    "groups": [
        {
            "name": "all",
            "realmRoles": ["staff"],
            "subGroups": [{"name": "buyers", "clientRoles": {"shop": ["buy"]}, "subGroups": []}],
        }
    ],
    "users": [
        {"username": "ann", "enabled": True, "realmRoles": ["boss"]},
        {"username": "bob", "enabled": False, "groups": ["/all/buyers"]},
        {"username": "cat", "enabled": True, "clientRoles": {"shop": ["sell"]}, "realmRoles": ["gone"]},
        {"username": "service-account-x", "enabled": True, "serviceAccountClientId": "x", "realmRoles": ["boss"]},
    ],
    "clients": [{"clientId": "shop", "authorizationSettings": {"policies": []}}],
}


def check_keycloak(bench):
    """Composites and groups are inherited, locked users are locked, and what a realm has besides is in the list."""
    bench.write("realm.json", json.dumps(REALM).encode())
    ends(
        bench,
        "import",
        policy(bench, "from", "keycloak", "realm.json", "--out", "out"),
        0,
        "out: 6 roles, 0 grants, 3 users; 3 lines",
    )
    bench.ends(["init", "office"], makes=["office"])
    ends(bench, "apply", policy(bench, "apply", "out/policy.toml", "--file", "office", "--yes"), 0)
    ends(bench, "people", people(bench, "apply", "out/people.csv", "--file", "office", "--yes"), 0)
    lines = b"".join(b'{"fn":"authorizedRoles","user":"%s"}\n' % user for user in (b"ann", b"bob", b"cat"))
    given = [json.loads(answer)["value"] for answer in bench.run(["replay", "office"], lines).out.splitlines()]
    bench.same(
        "the roles",
        given,
        [["boss", "shop:sell", "staff"], ["group /all", "group /all/buyers", "shop:buy", "staff"], ["shop:sell"]],
    )
    bench.same(
        "the people", (bench.folder / "out/people.csv").read_text(encoding="utf-8").splitlines()[2], "bob,group /all/buyers,yes"
    )
    wanted = """the user service-account-x: it is the service account of a client
the permissions of the client shop: grant them to roles by hand
that cat has the role gone: the file has no such role
"""
    bench.same("what is left", (bench.folder / "out/left.txt").read_text(encoding="utf-8"), wanted)
    bench.write("realm.json", b"[]")
    ends(bench, "no realm", policy(bench, "from", "keycloak", "realm.json", "--out", "more"), 2, err="this is no realm")


LDIF = """version: 1

# people
dn: uid=ann,ou=people,dc=example
objectClass: person
uid: ann
gidNumber: 10

dn: UID=bob, ou=people, dc=example
objectClass: person
uid: bob
pwdAccountLockedTime: 000001010000Z

dn: uid=eva,ou=people,dc=example
uid:: ZXZh
objectClass: person

dn: cn=clerks,ou=groups,dc=example
objectClass: groupOfNames
cn: clerks
member: uid=bob,ou=people,dc=ex
 ample
member: cn=bosses,ou=groups,dc=example
member: uid=gone,ou=people,dc=example

dn: cn=bosses,ou=groups,dc=example
objectClass: groupOfNames
cn: bosses
member: uid=eva,ou=people,dc=example

dn: cn=unix,ou=groups,dc=example
objectClass: posixGroup
cn: unix
gidNumber: 10
memberUid: eva
"""


def check_ldif(bench):
    """Members of groups within groups, of primary groups, and with odd spelling are members; who is locked is locked."""
    bench.write("all.ldif", LDIF.encode())
    ends(
        bench,
        "import",
        policy(bench, "from", "ldif", "all.ldif", "--out", "out"),
        0,
        "out: 3 roles, 0 grants, 3 users; 2 lines",
    )
    wanted = "user,roles,locked\nann,unix,no\nbob,clerks,yes\neva,bosses;unix,no\n"
    bench.same("the people", (bench.folder / "out/people.csv").read_text(encoding="utf-8"), wanted)
    text = (bench.folder / "out/policy.toml").read_text(encoding="utf-8")
    bench.same("the policy", text, '[roles.bosses]\ninherits = ["clerks"]\n\n[roles.clerks]\n\n[roles.unix]\n')
    left = (bench.folder / "out/left.txt").read_text(encoding="utf-8")
    bench.same("the member that is gone is in the list", '"uid=gone,ou=people,dc=example" of clerks' in left, True)


def check_ldif_of_names_that_are_no_text(bench):
    """An entry whose name is not UTF-8 is refused in one line."""
    path = bench.write("all.ldif", b"dn:: dWlkPf8=\nuid: ann\n")
    done = policy(bench, "from", "ldif", path, "--out", "out")
    ends(bench, "a name", done, 2, err=f"rbac-policy: {path}: the name of an entry is no text: dWlkPf8=\n")


def check_ldif_of_ended_accounts(bench):
    """An account that has ended, or hasn't begun, is locked, however its time is written. The list has all ends, and the beginnings to come."""
    times = {
        "a": "pwdEndTime: 2026010112Z", "b": "pwdEndTime: 20260101120000.5Z", "c": "pwdEndTime: 202601011200+0100",
        "d": "pwdStartTime: 29990101000000Z", "e": "pwdStartTime: 2026010112Z", "f": "pwdEndTime: 2999010112Z", "g": "pwdEndTime: soon",
        "h": "shadowExpire: 20000", "i": "shadowExpire: 0", "j": "shadowExpire: 99999", "k": "shadowExpire: -1",
        "l": "krbPrincipalExpiration: 20200101000000Z", "m": "krbPrincipalExpiration: 29990101000000Z",
        "n": "sambaKickoffTime: 1577836800", "o": "sambaKickoffTime: 0", "p": "sambaKickoffTime: 9223372036854775807",
        "q": "loginExpirationTime: 20200101000000Z", "r": "ds-pwp-account-expiration-time: 20200101000000Z", "s": "shadowExpire: never",
    }  # fmt: skip
    text = "".join(f"dn: uid={user},dc=example\nuid: {user}\nentryUUID: {user}\n{time}\n\n" for user, time in times.items())
    bench.write("all.ldif", text.encode())
    ends(bench, "import", policy(bench, "from", "ldif", "all.ldif", "--out", "out"), 0)
    rows = (bench.folder / "out/people.csv").read_text(encoding="utf-8").splitlines()[1:]
    bench.same("who is locked", "".join(row[0] for row in rows if row.endswith(",yes")), "abcdghilnqrs")
    left = (bench.folder / "out/left.txt").read_text(encoding="utf-8")
    named = dict(re.findall(r"^that the account of (\w) .*: an office knows no time(; the user is locked)?$", left, re.M))
    bench.same("whose time the list has", "".join(sorted(named)), "abcdfghijlmnpqrs")
    bench.same("who is locked by the list", "".join(user for user in sorted(named) if named[user]), "abcdghilnqrs")


def check_ldif_of_disabled_accounts(bench):
    """Who may not log in is locked, whichever attribute says so. Of a lock that may be for a time the list says so."""
    states = {
        "a": "nsAccountLock: TRUE", "b": "nsAccountLock: false", "c": "inetUserStatus: inactive", "d": "inetUserStatus: Active",
        "e": "inetUserStatus: deleted", "f": "sambaAcctFlags: [UD         ]", "g": "sambaAcctFlags: [UX         ]",
        "h": "sambaAcctFlags: [UL         ]", "i": "sambaAcctFlags: 512", "j": "loginDisabled: TRUE", "k": "loginDisabled: FALSE",
        "l": "ds-pwp-account-disabled: true", "m": "pwdAccountLockedTime: 20200101000000Z", "n": "pwdAccountLockedTime: 000001010000Z",
    }  # fmt: skip
    text = "".join(f"dn: uid={user},dc=example\nuid: {user}\nentryUUID: {user}\n{state}\n\n" for user, state in states.items())
    bench.write("all.ldif", text.encode())
    ends(bench, "import", policy(bench, "from", "ldif", "all.ldif", "--out", "out"), 0)
    rows = (bench.folder / "out/people.csv").read_text(encoding="utf-8").splitlines()[1:]
    bench.same("who is locked", "".join(row[0] for row in rows if row.endswith(",yes")), "acefhijlmn")
    left = (bench.folder / "out/left.txt").read_text(encoding="utf-8")
    bench.same("who may be free again", "".join(re.findall(r"^whether (\w) is still locked: ", left, re.M)), "him")


def check_malformed_ldif(bench):
    """What is truncated or there twice is refused in one line. Locks that can't be read lock, and other values are left out."""
    ann = b"dn: uid=ann,dc=example\nuid: ann\n"
    for number, (text, said) in enumerate(
        (
            (ann + b"nsAccountLock: TR", "its last line doesn't end, so the file may be truncated"),
            (ann + b"\n" + ann.replace(b"ann", b"ANN"), 'the entry "uid=ANN,dc=example" is in it twice'),
            (ann.decode().encode("utf-16"), "it is not UTF-8"),
        )
    ):
        path = bench.write(f"{number}.ldif", text)
        done = policy(bench, "from", "ldif", path, "--out", "out")
        ends(bench, said, done, 2, err=f"rbac-policy: {path}: {said}\n")
    for number, (text, row) in enumerate(
        (
            (b"\xef\xbb\xbf" + ann, "ann,,no"),
            (b"dn:\nuid: ann\n", "ann,,no"),
            (ann + b"uid:: Ym9i!\n", "ann,,no"),
            (ann + b"nsAccountLock:: /w==\n", "ann,,yes"),
            (ann + b"pwdEndTime:< file:///end\n", "ann,,yes"),
        )
    ):
        path = bench.write(f"read {number}.ldif", text)
        ends(bench, row, policy(bench, "from", "ldif", path, "--out", f"out {number}"), 0)
        rows = (bench.folder / f"out {number}/people.csv").read_text(encoding="utf-8").splitlines()[1:]
        bench.same(f"the people of {text}", rows, [row])


def check_malformed_realms(bench):
    """What is no realm of Keycloak is refused in one line, and so is a folder that can't be written, of which nothing is left."""
    for text in (b'{"clients": 5}', b'{"clients": [5]}', b'{"users": [5]}', b"[" * 100_000):
        bench.write("realm.json", text)
        done = policy(bench, "from", "keycloak", "realm.json", "--out", "out")
        ends(bench, text[:20], done, 2, err="rbac-policy: realm.json: this is no realm that Keycloak has exported\n")
    users = [{"username": f"user {number}", "enabled": True} for number in range(100)]
    path, out = bench.write("realm.json", json.dumps({"users": users}).encode()), bench.path("full")
    limit = (
        f"import os, resource, sys; resource.setrlimit(resource.RLIMIT_FSIZE, (500, 500)); os.execv({PYTHON!r}, sys.argv[1:])"
    )
    command = [PYTHON, "-c", limit, PYTHON, "-B", str(BIN / "rbac-policy"), "from", "keycloak", path, "--out", out]
    done = subprocess.run(command, capture_output=True, text=True, check=False)
    bench.same("a file that is too large", (done.returncode, done.stderr), (2, f"rbac-policy: {out}: File too large\n"))
    bench.same("the folder", (bench.folder / "full").exists(), False)


def check_ldif_of_one_name(bench):
    """Two groups or two users of one name are refused, and the message names both."""
    group, user = (
        "dn: cn=clerks,ou={0}\nobjectClass: groupOfNames\ncn: Clerks\nmember: {1}\n\n",
        "dn: uid=ann,ou={0}\nuid: ann\n\n",
    )
    for sort, entries, names in (
        (
            "groups",
            group.format("a", "uid=ann,ou=a") + group.format("b", "uid=ann,ou=a"),
            ('"cn=clerks,ou=a"', '"cn=clerks,ou=b"', "Clerks"),
        ),
        ("users", user.format("a") + user.format("b"), ('"uid=ann,ou=a"', '"uid=ann,ou=b"', "ann")),
    ):
        path = bench.write("all.ldif", entries.encode())
        done = policy(bench, "from", "ldif", path, "--out", "out")
        wanted = f"{path}: the {sort} {names[0]} and {names[1]} have one name, {names[2]}: rename or remove one in the file"
        ends(bench, sort, done, 2, err=wanted)
