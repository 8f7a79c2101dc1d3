"""Directories of slapd: its own answers say who is in which group and who may log in, and the office says the same, or the list why not."""

import base64
import json
import random
import re
import subprocess
import time
from collections import defaultdict
from contextlib import contextmanager
from urllib.parse import quote

import pytest

from .commands import ends, people, policy

# Random directories, each below a suffix of its own, how many of them with --gate, and how many one server has: with above 25 databases
# slapd 2.5 answers searches with an internal error.
DIRECTORIES, MORE_DIRECTORIES, OF_SERVER = 3, 40, 10
USERS, PASSWORD = 7, "pw"

# Signs that mean something in a distinguished name, in LDIF or in a policy, and some that have two cases or none.
ODD = ["a", "B", "é", "É", "7", " ", ",", "+", '"', "\\", "#", "=", "<", ";", ".", "'", "(", "*", "ß", "語"]

SETTINGS = """modulepath /usr/lib/ldap
moduleload back_mdb
moduleload dynlist
moduleload ppolicy
include /etc/ldap/schema/core.schema
include /etc/ldap/schema/cosine.schema
include /etc/ldap/schema/nis.schema
include /etc/ldap/schema/inetorgperson.schema
include /etc/ldap/schema/dyngroup.schema
"""
OF_SUFFIX = """database mdb
suffix SUFFIX
directory "FOLDER"
rootdn cn=admin,SUFFIX
rootpw PASSWORD
maxsize 16777216
dbnosync
overlay dynlist
dynlist-attrset groupOfURLs memberURL member+memberOf@groupOfNames*
overlay ppolicy
ppolicy_default cn=policy,SUFFIX
"""

# What the entry of a user may have beside: who is locked for ever, for a time that is over, or before or after a date.
LOCKS = [{}] * 6 + [
    {"pwdAccountLockedTime": ["000001010000Z"]},
    {"pwdAccountLockedTime": ["20200101000000Z"]},
    *({key: [f"{year}0101000000Z"]} for key in ("pwdStartTime", "pwdEndTime") for year in (2020, 2090)),
]

# How an administrator exports a directory. The last two lack what slapd keeps about an entry, such as its locks.
EXPORTS = {
    "slapcat": [],
    "ldapsearch with all attributes": ["-LLL", "(objectClass=*)", "*", "+"],
    "ldapsearch": ["-LLL"],
    "ldapsearch with its comments": [],
}


class Directory:
    """A random directory: the entries of its users and groups, each with its attributes, and a description that is its own."""

    def __init__(self, drawn, number):
        self.random, self.suffix, self.taken, self.entries = drawn, f"dc=d{number}", set(), []
        self.names, self.uids, self.numbers = {}, defaultdict(set), defaultdict(set)
        self.add("dc", f"d{number}", "", ["domain"])
        for branch in ("people", "staff", "groups"):
            self.add("ou", branch, self.suffix, ["organizationalUnit"])
        lockout = {"pwdAttribute": ["userPassword"], "pwdLockout": ["TRUE"], "pwdLockoutDuration": ["60"]}
        self.add("cn", "policy", self.suffix, ["device", "pwdPolicy"], **lockout)
        users = [self.add_user(n) for n in range(USERS)]
        self.users = set(self.names.values())
        groups = [self.add_group(n, "groupOfNames" if n < 4 else "groupOfUniqueNames") for n in range(6)]
        for entry in groups:
            some = drawn.sample(users, drawn.randrange(4)) + drawn.sample(groups, drawn.randrange(3))
            self.add_members(entry, some or users[:1])
        for n in range(2):
            self.add_posix(n)
        if drawn.random() < 0.5:
            url = [f"ldap:///ou=people,{self.suffix}??one?(objectClass=person)"]
            self.add("cn", "found", f"ou=groups,{self.suffix}", ["groupOfURLs"], memberURL=url)
        if drawn.random() < 0.5:
            self.add("cn", "post", f"ou=groups,{self.suffix}", ["organizationalRole"], roleOccupant=groups[0]["dn"])

    def add(self, key, name, above, classes, more="", **attributes):
        """Adds an entry, named by a key, with more in the first part of its distinguished name."""
        dn = f"{key}={escaped(name, self.random)}{more}" + (f",{above}" if above else "")
        self.entries.append({"dn": [dn], "objectClass": classes, key: [name], **attributes})
        return self.entries[-1]

    def name(self, kind):
        """A name that no other entry has, whatever the case and the spaces, at times with odd signs or too long for an office."""
        odd = "".join(self.random.choices(ODD, k=self.random.choice([0, 0, 3, 6, 6, 40])))
        name = f"{kind}{odd}".rstrip()
        self.names[f"entry {kind}"] = name
        return name

    def add_user(self, n):
        drawn, kind = self.random, f"u{n}"
        uid, number = self.name(kind), str(drawn.randrange(100, 104))
        entry = self.add(
            *("uid", uid, f"ou={drawn.choice(['people', 'staff'])},{self.suffix}", ["inetOrgPerson", "posixAccount"]),
            more=drawn.choice(["", "", f"+cn=n{n}"]),
            **{"cn": [f"n{n}"], "sn": ["s"], "homeDirectory": ["/"], "userPassword": [PASSWORD], "uidNumber": [str(n)]},
            **{"gidNumber": [number], "title": ["long " * 30], "description": [f"entry {kind}"], **drawn.choice(LOCKS)},
        )
        entry["uid"] = drawn.choice([[uid], [uid], [f"other {n // 2}", uid]])
        for one in entry["uid"]:
            self.uids[one].add(uid)
        self.numbers[number].add(uid)
        return entry

    def add_group(self, n, kind):
        name = self.name(f"g{n}")
        return self.add("cn", name, f"ou=groups,{self.suffix}", [kind], description=[f"entry g{n}"])

    def add_members(self, entry, some):
        """Members of a group, each spelled in its own way, and at times one that isn't there."""
        key = "member" if entry["objectClass"] == ["groupOfNames"] else "uniqueMember"
        dns = [one["dn"][0] for one in some] + self.random.choice([[], [], [f"uid=gone,{self.suffix}"]])
        entry[key] = [respelled(dn, self.random) for dn in dns]

    def add_posix(self, n):
        # The type of memberUid is ASCII.
        uids = [*filter(str.isascii, self.random.sample(sorted(self.uids), 4)), *self.random.choice([[], ["nobody"]])]
        more = {"gidNumber": [str(100 + n)], "description": [f"entry p{n}"], **({"memberUid": uids} if uids else {})}
        self.add("cn", self.name(f"p{n}"), f"ou=groups,{self.suffix}", ["posixGroup"], **more)

    def ldif(self):
        """The entries as slapadd reads them."""
        return "\n".join(
            "".join(
                f"{key}:: {base64.b64encode(value.encode()).decode()}\n" for key, values in entry.items() for value in values
            )
            for entry in self.entries
        ).encode()


def escaped(value, drawn):
    """A value within a distinguished name, in one of the spellings that mean it."""
    signs = []
    for place, sign in enumerate(value):
        needs = sign in ',+"\\<;' or sign in " #" and place in (0, len(value) - 1)
        hexed = "".join(f"\\{byte:02{drawn.choice('xX')}}" for byte in sign.encode())
        signs.append(drawn.choice([f"\\{sign}", hexed]) if needs else hexed if drawn.random() < 0.05 else sign)
    return "".join(signs)


def respelled(dn, drawn):
    """The same distinguished name, at times in other letters and with more spaces."""
    first, *above = re.split(r",(?=ou=|dc=)", dn)
    return dn if drawn.random() < 0.5 else ", ".join([first.replace("uid=", "UID = "), *map(str.upper, above)])


@contextmanager
def server(bench, directories):
    """A server of these directories: what asks it something by a program, and returns its status and what it prints."""
    text = SETTINGS
    for one in directories:
        (bench.folder / one.suffix).mkdir()
        text += OF_SUFFIX.replace("SUFFIX", one.suffix).replace("FOLDER", bench.path(one.suffix)).replace("PASSWORD", PASSWORD)
    settings, address = bench.write("slapd.conf", text.encode()), "ldapi://" + quote(bench.path("socket"), safe="")
    for one in directories:
        add = ["slapadd", "-q", "-f", settings, "-b", one.suffix]
        subprocess.run(add, input=one.ldif(), capture_output=True, check=True)
    child = subprocess.Popen(["slapd", "-d", "0", "-f", settings, "-h", address], stderr=subprocess.DEVNULL)

    def ask(program, *words, given=b""):
        done = subprocess.run([program, "-x", "-H", address, *words], input=given, capture_output=True, check=False)
        return done.returncode, done.stdout

    try:
        while ask("ldapwhoami")[0] and child.poll() is None:
            time.sleep(0.02)
        yield ask
    finally:
        child.kill()
        child.wait()


def export(bench, ask, how, suffix):
    """An export of a directory, as an administrator makes it."""
    if how == "slapcat":
        words = ["slapcat", "-f", bench.path("slapd.conf"), "-b", suffix]
        return subprocess.run(words, capture_output=True, check=True).stdout
    status, out = ask("ldapsearch", "-D", f"cn=admin,{suffix}", "-w", PASSWORD, "-b", suffix, *EXPORTS[how])
    bench.same(f"the status of {how}", status, 0)
    return out


def searched(ask, suffix, pattern, values):
    """For each of some values the entries that a search finds: what they have, by their distinguished names as slapd writes them."""
    hexed = ["".join(f"\\{byte:02x}" for byte in value.encode()) for value in values]
    words = ["-b", suffix, "-o", "ldif-wrap=no", "-f", "-", pattern, "description", "memberOf"]
    _, out = ask("ldapsearch", *words, given="".join(f"{one}\n" for one in hexed).encode())
    blocks = out.decode().split("\n# filter: ")[1:]
    return [dict(map(read, re.findall(r"^dn:.*(?:\n.+)*", block, re.M))) for block, _ in zip(blocks, values, strict=True)]


def read(text):
    """The distinguished name of an entry, and its values by their keys."""
    values = defaultdict(list)
    for key, colon, value in re.findall(r"^(\w+):(:?) (.*)$", text, re.M):
        values[key].append(base64.b64decode(value).decode() if colon else value)
    return values["dn"][0], values


class Answers:
    """What slapd says of a directory: who is directly in which group, users and groups alike; who may log in."""

    def __init__(self, bench, ask, directory):
        self.ask, self.directory = ask, directory
        (entries,) = searched(ask, directory.suffix, "(description=%s*)", ["entry "])
        named = {dn: directory.names[values["description"][0]] for dn, values in entries.items()}
        self.direct = set()
        for key in ("member", "uniqueMember"):
            for dn, some in zip(named, searched(ask, directory.suffix, f"({key}=%s)", list(named))):
                self.direct |= {(named[dn], named[group]) for group in some if group in named}
            if key == "member":
                groups = {
                    group: self.name_at(group) for group in {group for one in entries.values() for group in one["memberOf"]}
                }
                nested = {
                    (named[dn], groups[group]) for dn, one in entries.items() for group in one["memberOf"] if groups[group]
                }
                same(bench, "slapd's own nested groups of names", but_itself(nested), but_itself(closed(self.direct)))
        for key, of in (("memberUid", directory.uids), ("gidNumber", directory.numbers)):
            found = searched(ask, directory.suffix, f"(&(objectClass=posixGroup)({key}=%s))", list(of))
            self.direct |= {(user, named[group]) for users, some in zip(of.values(), found) for group in some for user in users}
        users = {dn: name for dn, name in named.items() if name in directory.users}
        self.logins = {name for dn, name in users.items() if ask("ldapwhoami", "-D", dn, "-w", PASSWORD)[0] == 0}
        self.groups = set(named.values()) - directory.users

    def name_at(self, dn):
        """The name of the entry at a distinguished name: slapd writes that of a group in memberOf in small letters."""
        _, out = self.ask("ldapsearch", "-LLL", "-o", "ldif-wrap=no", "-s", "base", "-b", dn, "description")
        _, values = read(out.decode())
        return self.directory.names.get("".join(values["description"]))


def same(bench, what, given, wanted):
    """Counts whether two sets are the same, and shows in what they differ."""
    bench.same(f"{what}: more and less", (given - wanted, wanted - given), (set(), set()))


def but_itself(pairs):
    """Pairs but those of a group with itself: slapd says of a group in a cycle that it is its own member, or not."""
    return {(one, group) for one, group in pairs if one != group}


def closed(pairs):
    """Who is a member in the end: members of a group that is a member are members."""
    pairs = set(pairs)
    while more := {(one, group) for one, middle in pairs for other, group in pairs if other == middle} - pairs:
        pairs |= more
    return pairs


def decided(bench, folder, users):
    """What an office decides that has what was imported: the roles that each user is authorized for, and who may begin a session."""
    office = f"{folder} office"
    bench.ends(["init", office], makes=[office])
    ends(bench, "apply", policy(bench, "apply", f"{folder}/policy.toml", "--file", office, "--yes"), 0)
    ends(bench, "people", people(bench, "apply", f"{folder}/people.csv", "--file", office, "--yes"), 0)
    asked = [{"fn": "authorizedRoles", "user": user} for user in users]
    asked += [{"fn": "createSession", "user": user, "roles": [], "session": f"s{n}"} for n, user in enumerate(users)]
    lines = bench.run(["replay", office], "".join(json.dumps(one) + "\n" for one in asked).encode()).out.splitlines()
    values = [json.loads(line) for line in lines]
    roles = {(user, role) for user, answer in zip(users, values) for role in answer.get("value", [])}
    return roles, {user for user, answer in zip(users, values[len(users) :]) if answer.get("ok")}


@pytest.mark.needs("slapd", "ldapsearch")
@pytest.mark.seeds()
def check_slapd(bench, seed):
    """For random directories and each export, roles and locks are what slapd answers, but for what the list names."""
    count = MORE_DIRECTORIES if bench.is_gate or bench.is_long else DIRECTORIES
    directories = [Directory(random.Random(f"{seed} {number}"), number) for number in range(count)]
    for first in range(0, count, OF_SERVER):
        with server(bench, directories[first : first + OF_SERVER]) as ask:
            for number in range(first, min(first + OF_SERVER, count)):
                try_directory(bench, ask, number, directories[number])


def try_directory(bench, ask, number, directory):
    """Two of the exports of a directory, and what slapd answers."""
    answers = Answers(bench, ask, directory)
    for how in ("slapcat", list(EXPORTS)[1 + number % 3]):
        bench.write("export.ldif", export(bench, ask, how, directory.suffix))
        folder = f"{number} {how}"
        ends(bench, folder, policy(bench, "from", "ldif", "export.ldif", "--out", folder), 0)
        compare(bench, folder, directory, answers, EXPORTS[how][-1:] == ["+"] or how == "slapcat")


def compare(bench, folder, directory, answers, has_locks):
    """The office decides what slapd does, without what the lines of the list name."""
    left = (bench.folder / folder / "left.txt").read_text(encoding="utf-8")
    by_text = {text_of(name): name for name in {*directory.users, *answers.groups}}

    def named(pattern):
        return {tuple(map(by_text.get, some)) for some in re.findall(pattern, left, re.M)}

    roles, logins = decided(bench, folder, sorted(directory.users))
    gone = {name for name, _ in named("^the (?:role|user) (.+)(): a name has")}
    unfit = {name for name, _ in named("^the assignments with (.+)(): a file of people can't have this name")}
    cut = named("^that (.+) inherits from (.+): it closes a cycle")
    all_members, is_lost = closed(answers.direct), gone | unfit & directory.users
    kept = {
        pair
        for pair in answers.direct - cut
        if is_lost.isdisjoint(pair) and not (pair[0] in directory.users and pair[1] in unfit)
    }
    bench.same(f"{folder}: what the office allows and slapd doesn't say", roles - all_members, set())
    bench.same(f"{folder}: what the office lacks and the list doesn't say", of_users(closed(kept), directory) - roles, set())
    same(bench, f"{folder}: what closes a cycle", cut, {(one, group) for one, group in cut if (group, one) in all_members})
    lines = [line for line in left.splitlines() if line.startswith("the member ")]
    bench.same(
        f"{folder}: members that are called missing", [one for one in lines if not re.search("= ?gone,|nobody", one)], []
    )
    for kind in ("found", "post"):
        is_there = any(entry.get("cn") == [kind] for entry in directory.entries)
        bench.same(f"{folder}: the list has the group {kind}", f'the group "cn={kind},' in left, is_there)
    bench.same(f"{folder}: the list says that locks may be missing", "\nlocks of users: " in f"\n{left}", not has_locks)
    if has_locks:
        unsure = {name for name, _ in named("^whether (.+)() is still locked")}
        same(bench, f"{folder}: who may log in", logins | unsure - is_lost, answers.logins - is_lost)


def of_users(pairs, directory):
    return {pair for pair in pairs if pair[0] in directory.users}


def text_of(name):
    """A name as the list shows it."""
    from rbac_policy.model import shown

    return shown(name)
