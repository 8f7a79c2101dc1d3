"""Heads of a record that another machine signs: `rbac-node record sign` refuses a record that doesn't continue the last one, and verify
refuses a wrong signature. Who can write the machine of the front has all files of the record here, and neither the key nor the heads."""

import json
import os
import re
import shutil
import sqlite3
import subprocess
from contextlib import closing

import pytest

from pages import markdown
from pages.shell import Shell
from program.bench import TESTS

from .identities import CERTIFICATES, openssl, secured
from .page import type_all
from .program import Front, over_tls
from .recorded import chain_again, change, entries, path_of, tool, verified
from .running import PROGRAM

# The unit of another machine.
SIGN = TESTS.parent / "deploy/sign"

OK = '{"ok":true}'

# The statuses of sign: a record that doesn't continue the last head, and one without the entries in between.
NOT_CONTINUED, MISSING = 3, 2

# Who may sign.
AUDITOR = "auditor@example"

pytestmark = pytest.mark.needs("ssh-keygen")


class Machine:
    """Another machine: a key, and the heads that it has signed."""

    def __init__(self, bench, name="machine"):
        self.bench, self.folder = bench, bench.folder / name
        self.folder.mkdir()
        self.heads, self.key = str(self.folder / "heads"), str(self.folder / "key")
        subprocess.run(["ssh-keygen", "-q", "-t", "ed25519", "-N", "", "-C", AUDITOR, "-f", self.key], check=True)
        with open(f"{self.key}.pub", encoding="ascii") as file:
            public = " ".join(file.read().split()[:2])
        self.signers = bench.write(f"{name}.signers", f"{AUDITOR} {public}\n".encode())

    def sign(self, front, *more):
        """The status and the outputs of signing the head of a front."""
        words = ["--url", f"http://127.0.0.1:{front.port}", "--key", self.key, "--heads", self.heads, *more]
        return tool("record", "sign", *words, program=False)

    def signs(self, what, front, *more):
        """Counts whether the head of a front is signed."""
        last = entries(front.office)[-1]
        self.bench.same(what, self.sign(front, *more), (0, f"{last.n}:{last.chain}\n", ""))
        self.bench.same(f"{what}: the file", self.lines()[-1]["entry"], last.n)

    def refuses(self, what, front, status, says, *more):
        """Counts whether nothing is signed, and one line says why."""
        before = self.text()
        given, out, said = self.sign(front, *more)
        faults = [] if (given, out, said.count("\n")) == (status, "", 1) and says in said else [f"{given} {out}{said}"]
        self.bench.judge(f"{what}: {says}", faults)
        self.bench.same(f"{what}: the file", self.text(), before)

    def text(self):
        """The text of the file of heads."""
        if not os.path.exists(self.heads):
            return None
        with open(self.heads, encoding="ascii") as file:
            return file.read()

    def lines(self):
        """The signed heads."""
        return [json.loads(line) for line in self.text().splitlines()]

    def with_heads(self):
        """The words with which verify reads the signed heads."""
        return ["--heads", self.heads, "--signers", self.signers]


def adds(front, *users):
    for user in users:
        status, said = front.ask("addUser", {"user": user}, Office_Reason="<ticket & co> ü".encode())
        assert status == 200, said


def check_signed(bench):
    """Each signed head continues the one before it, over any number of answers of the front, kills, and parts that were closed."""
    machine, front = Machine(bench), Front(bench)
    with front:
        machine.refuses("no file", front, 1, "give --begin")
        machine.signs("the first head", front, "--begin")
        machine.refuses("a first head again", front, 1, "leave out --begin", "--begin")
        machine.signs("the same head again, by the name of this machine", front, "--url", f"http://localhost:{front.port}")
        connection = front.connection()
        for number in range(2_300):
            front.ask("addRole", {"role": str(number)}, connection)
        machine.signs("after more entries than one answer has", front)
        adds(front, "ann")
        front.kill()
    with front:
        machine.signs("after a kill", front)
        front.end()
    status, out, said = tool("record", "cut", "--office", front.office)
    bench.same("cut", (status, said), (0, ""))
    with front:
        adds(front, "bob")
        machine.signs("over two parts", front)
        with open(machine.heads, "a", encoding="ascii") as file:
            file.write('{"entry":7,"chain":"')
        adds(front, "eve")
        machine.signs("after a line that a crash has cut off", front)
        adds(front, "zoe")
        front.end()
    verified(bench, "with signed heads", front.office, *machine.with_heads())
    last = entries(front.office)[-1].n
    out = tool("record", "verify", "--office", front.office, *machine.with_heads())[1]
    unknown = f"entries {last} to {last} come after the newest known head: it doesn't protect them\n"
    bench.same("verify says what no head protects", unknown in out, True)
    with front:
        machine.signs("the last head", front)
        machine.sign(front)
        bench.same("signed heads", len(machine.lines()), 8)
        adds(front, "last")
        front.end()
    status, out, said = tool("record", "cut", "--office", front.office)
    bench.same("cut", (status, said), (0, ""))
    os.rename(out.strip(), bench.path("away.db"))
    with front:
        machine.refuses("a part that was moved away before its end was signed", front, MISSING, "were moved away before")
    os.rename(bench.path("away.db"), out.strip())
    with front:
        machine.signs("the part is back", front)


# What whoever can write the files of the front does to the record: what comes after the entry that isn't changed has links that hold.
FORGED = {
    "a caller": ["UPDATE entry SET caller = 'token:eve' WHERE n = 4"],
    "an entry moved": ["UPDATE entry SET n = -4 WHERE n = 4", "UPDATE entry SET n = 4 WHERE n = 5", "UPDATE entry SET n = 5 WHERE n = -4"],
    "a time of the last signed entry": ["UPDATE entry SET at = '2026-01-01T00:00:00.000Z' WHERE n = 6"],
}


def check_not_continued(bench):
    """A record that was computed anew, cut off, or begun anew is never signed, and verify refuses it by the heads that were."""
    machine, front = Machine(bench), Front(bench)
    with front:
        adds(front, *"abcde")
        machine.signs("the first head", front, "--begin")
        adds(front, *"fg")
        front.end()
    kept = bench.path("kept")
    shutil.copytree(f"{front.office}.record", kept)
    for what, statements in FORGED.items():
        shutil.rmtree(f"{front.office}.record")
        shutil.copytree(kept, f"{front.office}.record")
        change(front.office, *statements)
        chain_again(front.office)
        verified(bench, f"{what}, without heads", front.office)
        status, _, said = tool("record", "verify", "--office", front.office, *machine.with_heads())
        bench.same(f"{what}, with them", (status, "was computed anew" in said), (1, True))
        with front:
            machine.refuses(what, front, NOT_CONTINUED, "entry 8 has another link than what leads from entry 6 to it")
            front.end()
    shutil.rmtree(f"{front.office}.record")
    shutil.copytree(kept, f"{front.office}.record")
    with Front(bench, name="other") as other:
        adds(other, *"abc")
        machine.refuses("a record that ends before it", other, NOT_CONTINUED, "the record ends at entry 4, and entry 6 was signed")
        adds(other, *"de")
        machine.refuses("another record of this length", other, NOT_CONTINUED, "entry 6 has another link than what leads from entry 6")
    with front:
        machine.signs("the record as it was", front)


def check_gap(bench):
    """A front whose record lacks an entry doesn't get a signature, whatever its head says."""
    machine, front = Machine(bench), Front(bench)
    with front:
        adds(front, *"abc")
        machine.signs("the first head", front, "--begin")
        adds(front, *"def")
        with closing(sqlite3.connect(path_of(front.office), timeout=20)) as opened:
            opened.execute("DELETE FROM entry WHERE n = 6")
            opened.commit()
        machine.refuses("an entry left out", front, NOT_CONTINUED, "entry 6 is not there")


def check_signatures(bench):
    """Verify refuses heads with a wrong signature: of another key, time, head, or purpose, or none."""
    machine, thief = Machine(bench), Machine(bench, "thief")
    with Front(bench) as front:
        adds(front, "ann")
        machine.signs("a head", front, "--begin")
        adds(front, "bob")
        machine.signs("another head", front)
        thief.signs("a head by another key", front, "--begin")
        front.end()
    first, second = machine.lines()
    (foreign,) = thief.lines()
    bench.write("text", f"{second['entry']}:{second['chain']} {second['at']}\n".encode())
    subprocess.run(["ssh-keygen", "-q", "-Y", "sign", "-n", "file", "-f", machine.key, bench.path("text")], check=True, capture_output=True)
    with open(bench.path("text.sig"), encoding="ascii") as file:
        for_something_else = file.read()
    by_hand = ["ssh-keygen", "-Y", "verify", "-f", machine.signers, "-I", AUDITOR, "-n", "rbac-record", "-s", bench.path("signature")]
    bench.write("signature", second["signature"].encode())
    with open(bench.path("text"), "rb") as text:
        bench.same("the signature by hand", subprocess.run(by_hand, stdin=text, capture_output=True, check=False).returncode, 0)
    for what, lines in {
        "another key": [first, foreign],
        "another time": [first, {**second, "at": "2026-01-01T00:00:00Z"}],
        "the signature of another head": [{**second, "signature": first["signature"]}],
        "another number": [{**first, "entry": 3}],
        "a signature for something else": [{**second, "signature": for_something_else}],
        "no signature": [first, {**second, "signature": ""}],
        "no head": [],
        "the key of somebody whose time is over": None,
    }.items():
        signers = machine.signers
        if lines is None:
            with open(signers, encoding="ascii") as file:
                name, key = file.read().split(" ", 1)
            signers = bench.write("over", f'{name} valid-before="20260101" {key}'.encode())
            lines = [second]
        heads = bench.write("heads", "".join(json.dumps(line) + "\n" for line in lines).encode())
        status, out, said = tool("record", "verify", "--office", front.office, "--heads", heads, "--signers", signers)
        refusal = "it has no head\n" if not lines else "no head with a good signature"
        bench.same(f"{what} is refused", (status, out, refusal in said, said.count("\n")), (1, "", True, 1))
    heads = bench.write("heads", "".join(json.dumps(line) + "\n" for line in (first, second)).encode())
    verified(bench, "the right ones", front.office, "--heads", heads, "--signers", machine.signers)
    bench.same("signers without heads", tool("record", "verify", "--office", front.office, "--signers", machine.signers)[0], 1)


def pair_of(bench, name, password=""):
    """A key of minisign, and the line of its public key."""
    key, public = bench.path(f"{name}.key"), bench.path(f"{name}.pub")
    words = ["minisign", "-G", "-s", key, "-p", public, *([] if password else ["-W"])]
    subprocess.run(words, input=f"{password}\n" * 2, text=True, check=True, capture_output=True)
    with open(public, encoding="ascii") as file:
        return key, file.read().splitlines()[-1]


@pytest.mark.needs("minisign")
def check_minisign(bench):
    """A key of minisign signs heads, too. Verify accepts both kinds in one file, and refuses another key, text or purpose."""
    machine, front = Machine(bench), Front(bench)
    by_ssh = machine.key
    key, public = pair_of(bench, "auditor")
    thief, other = pair_of(bench, "thief")
    with open(machine.signers, encoding="ascii") as file:
        both = file.read() + f"untrusted comment: a key of minisign\n{public}\n"
    with front:
        adds(front, "ann")
        machine.key = key
        machine.signs("the first head", front, "--begin")
        adds(front, "bob")
        machine.key = by_ssh
        machine.signs("a head by ssh-keygen", front)
        adds(front, "eve")
        machine.key = key
        machine.signs("another head", front)
        machine.key = pair_of(bench, "locked", password="secret")[0]
        machine.refuses("a key with a password", front, 1, "a key with a password can't be used here")
        machine.key = bench.path("auditor.pub")
        machine.refuses("a public key", front, 1, "minisign: exit status")
        front.end()
    first, by_keygen, last = machine.lines()
    bench.write("text", f"{last['entry']}:{last['chain']} {last['at']}\n".encode())

    def by_hand(key, comment="rbac-record"):
        words = ["minisign", "-S", "-s", key, "-m", bench.path("text"), "-x", bench.path("signature"), "-t", comment]
        subprocess.run(words, check=True, capture_output=True)
        with open(bench.path("signature"), encoding="ascii") as file:
            return {**last, "signature": file.read()}

    bench.write("signature", last["signature"].encode())
    words = ["minisign", "-V", "-Q", "-P", public, "-m", bench.path("text"), "-x", bench.path("signature")]
    done = subprocess.run(words, capture_output=True, text=True, check=False)
    bench.same("the signature by hand", (done.returncode, done.stdout), (0, "rbac-record\n"))

    def verify(lines, signers):
        heads = bench.write("heads", "".join(json.dumps(line) + "\n" for line in lines).encode())
        return tool("record", "verify", "--office", front.office, "--heads", heads, "--signers", bench.write("signers", signers.encode()))

    for what, lines, signers in [
        ("both kinds", [first, by_keygen, last], both),
        ("the public key alone", [first, last], public + "\n"),
        ("one of two public keys", [first, last], f"{other}\n{public}\n"),
        ("a signature by hand", [first, by_hand(key)], public),
    ]:
        status, out, said = verify(lines, signers)
        bench.same(what, (status, said, "the office has the rows that the record gives" in out), (0, "", True))
    for what, lines, signers in [
        ("another key", [first, by_hand(thief)], both),
        ("a signature for something else", [by_hand(key, "rbac-else")], both),
        ("another time", [first, {**last, "at": "2026-01-01T00:00:00Z"}], both),
        ("the signature of another head", [{**last, "signature": first["signature"]}], both),
        ("a signer without a key of minisign", [first], both.split("untrusted")[0]),
        ("a head by ssh-keygen, and only a key of minisign", [first, by_keygen], public),
        ("a changed comment", [{**last, "signature": last["signature"].replace("rbac-record", "rbac-recorder")}], both),
    ]:
        status, out, said = verify(lines, signers)
        bench.same(f"{what} is refused", (status, out, "no head with a good signature" in said, said.count("\n")), (1, "", True, 1))


@pytest.mark.needs("systemd-analyze")
def check_unit(bench):
    """The unit of another machine signs by its words, and systemd finds no fault in it and in its timer."""
    machine, name = Machine(bench), "office"
    unit = (SIGN / "rbac-sign@.service").read_text(encoding="utf-8")
    (line,) = re.findall(r"^ExecStart=(.*)$", unit.replace("%i", name), re.M)
    for suffix in ("service", "timer"):
        text = (SIGN / f"rbac-sign@.{suffix}").read_text(encoding="utf-8")
        bench.write(f"rbac-sign@{name}.{suffix}", text.replace("/usr/bin/rbac-node", os.environ[PROGRAM]).encode())
        done = subprocess.run(
            ["systemd-analyze", "verify", bench.path(f"rbac-sign@{name}.{suffix}")], capture_output=True, text=True, check=False
        )
        bench.same(f"what verify prints about the {suffix}", (done.returncode, done.stdout + done.stderr), (0, ""))
    with Front(bench) as front:
        machine.signs("the first head by hand", front, "--begin")
        adds(front, "ann")
        here = {
            "/usr/bin/rbac-node": [os.environ[PROGRAM]], "${URL}": [f"http://127.0.0.1:{front.port}"], "$OPTIONS": [],
            f"/etc/rbac-sign/{name}.key": [machine.key], f"/var/lib/rbac-sign/{name}/heads": [machine.heads],
        }  # fmt: skip
        words = [word for part in line.split() for word in here.get(part, [part])]
        done = subprocess.run(words, capture_output=True, text=True, check=False)
        last = entries(front.office)[-1]
        bench.same("what the unit does", (done.returncode, done.stdout, done.stderr), (0, f"{last.n}:{last.chain}\n", ""))
        front.end()
    verified(bench, "by its heads", front.office, *machine.with_heads())


@pytest.mark.needs("openssl")
def check_over_tls(bench):
    """The other machine trusts one authority, and shows a token. Without the right to read the record it gets no head."""
    openssl(bench, CERTIFICATES)
    machine = Machine(bench)
    rights = {"token:desk": [("addUser", "office"), ("record", "office")], "token:admin": [("addUser", "office")]}
    with secured(bench, "--tls-cert", bench.path("server.crt"), "--tls-key", bench.path("server.key"), rights=rights) as front:
        front.connection = lambda: over_tls(bench, front.port)
        bench.same("a command", front.ask("addUser", {"user": "ann"}, Authorization="Bearer secret")[1], OK)
        words = ["--key", machine.key, "--heads", machine.heads, "--begin", "--url", f"https://127.0.0.1:{front.port}"]
        good = ["--ca", bench.path("ca.crt"), "--token", bench.write("good", b"secret\n")]
        for what, more, says in [
            ("another authority", ["--ca", bench.path("other.crt"), *good[2:]], "certificate"),
            ("no authority", good[2:], "certificate"),
            ("no token", good[:2], "401"),
            ("a caller who may not", [*good[:2], "--token", bench.write("bad", b"another\n")], "403"),
        ]:
            status, out, said = tool("record", "sign", *words, *more, program=False)
            bench.judge(what, [] if (status, out, said.count("\n")) == (1, "", 1) and says in said else [f"{status} {out}{said}"])
        plain = ["--url", "http://rbac.example", "--key", machine.key, "--heads", machine.heads]
        status, out, said = tool("record", "sign", *plain, program=False)
        bench.same("without TLS", (status, out, "it has to begin with https://" in said), (1, "", True))
        last = entries(front.office)[-1]
        bench.same("what is right", tool("record", "sign", *words, *good, program=False), (0, f"{last.n}:{last.chain}\n", ""))


def check_links(bench):
    """The front answers the entries after one as their links are computed, and refuses anything else."""
    with Front(bench) as front:
        adds(front, *"abc")
        status, text = front.exchange("GET", "/record/links?after=2")
        last = entries(front.office)[-1]
        value = json.loads(text)["value"]
        bench.same("the head", (status, value["head"], value["first"]), (200, f"{last.n}:{last.chain}", 1))
        wanted = [[str(field) for field in entry[:7]] for entry in entries(front.office, 2)]
        bench.same("the entries", value["entries"], wanted)
        for query in ("", "?after=", "?after=-1", "?after=x", "?after=1&after=2", "?before=1"):
            bench.same(f"the query {query}", front.exchange("GET", f"/record/links{query}")[0], 400)
        bench.same("after the end", json.loads(front.exchange("GET", "/record/links?after=99")[1])["value"]["entries"], [])


@pytest.mark.needs("curl", "minisign")
def check_page(bench):
    """The commands of docs/howto/heads.md print what the page shows, and its tables have the options and the statuses."""
    page = markdown.page("howto/heads.md")
    with Shell(bench) as reader:
        (bench.folder / "bin/rbac-node").symlink_to(os.environ[PROGRAM])
        type_all(bench, reader, page)
    said = tool("record", "sign", "--help", program=False)[1]
    bench.same("the options", set(re.findall(r"`(--[\w-]+)`", page.split("## 2.")[0])), set(re.findall(r"^  (--[\w-]+)", said, re.M)))
    bench.same("the languages", set(re.findall(r"^```(\w+)$", page, re.M)), {"console", "sh"})
    bench.same("long lines", [line for line in page.splitlines() if len(line) > 130 and not line.startswith("|")], [])
