"""What an auditor holds against a record: one file of all signed heads serves the whole record, each part, and a record that was
restored; files that a program would read otherwise than verify does are refused; verify leaves the files as they are."""

import json
import os
import re
import shutil
import sqlite3
import subprocess
from contextlib import closing
from pathlib import Path

import pytest

from program.bench import PROGRAM as RBAC

from .backups import BOTH
from .program import Front, until
from .recorded import MISSING, chain_again, change, entries, path_of, refuted, tool, verified
from .recordfaults import Mounted
from .restores import WHO, backed_up, restore
from .running import PROGRAM
from .signed import NOT_CONTINUED, Machine, adds
from .verifying import broken, refuses

FORGED = "UPDATE entry SET caller = 'token:forged' WHERE n = {}"


def cut(bench, front):
    """Closes the part at hand, and returns the path of its file."""
    status, out, said = tool("record", "cut", "--office", front.office)
    bench.same("cut", (status, said), (0, ""))
    return out.strip()


def in_parts(bench, machine, count):
    """A front that has ended, with heads that were signed in each of some earlier parts and in the one at hand, and their paths."""
    front, parts = Front(bench), []
    for number in range(count + 1):
        with front:
            for user in ("a", "b"):
                adds(front, f"{user}{number}")
                machine.signs(f"part {number}, {user}", front, *([] if number + (user == "b") else ["--begin"]))
            adds(front, f"c{number}")
            front.end()
        if number < count:
            parts.append(cut(bench, front))
    return front, parts


@pytest.mark.needs("ssh-keygen")
def check_heads_of_parts(bench):
    """One file of all signed heads is good for the record, for each of its parts, and for a record from which a part was moved away."""
    machine = Machine(bench)
    front, parts = in_parts(bench, machine, 2)
    heads = machine.with_heads()
    verified(bench, "the whole record", front.office, *heads)
    for part in parts:
        status, out, said = tool("record", "verify", "--part", part, *heads)
        bench.same(f"the part {os.path.basename(part)}", (status, said, "the chain holds" in out), (0, "", True))
    os.rename(parts[0], bench.path("away.db"))
    verified(bench, "with the first part moved away", front.office, *heads, is_whole=False)
    bench.same("the part that was moved away", tool("record", "verify", "--part", bench.path("away.db"), *heads)[0], 0)
    os.rename(bench.path("away.db"), parts[0])

    last = machine.lines()[-1]
    newest = bench.write("newest", f"{last['entry']}:{last['chain']}\n".encode())
    status, out, said = tool("record", "verify", "--part", parts[0], "--heads", newest)
    bench.same("a part of which no head is known", (status, said), MISSING)
    bench.same("a part of which no head is known: it is said", "no known head is of an entry that is here" in out, True)

    first = entries(front.office, 0, os.path.basename(parts[1]))[0].n
    change(front.office, FORGED.format(first + 1), file=os.path.basename(parts[1]))
    chain_of_part(parts[1])
    status, out, said = tool("record", "verify", "--part", parts[1], *heads)
    bench.same("a forged part", (status, "was computed anew" in said), (1, True))


def chain_of_part(path, before=None):
    """Computes all links of an earlier part anew, after a link."""
    office, name = path.split(".record/")
    if before is None:
        with closing(sqlite3.connect(path)) as opened:
            before = opened.execute("SELECT before FROM part ORDER BY first").fetchone()[0]
    chain_again(office, before, name)


@pytest.mark.needs("ssh-keygen")
def check_head_before_a_part(bench):
    """A head of the entry before a part is compared with what the part says of that entry."""
    machine = Machine(bench)
    front, parts = in_parts(bench, machine, 2)
    before = entries(front.office, 0, os.path.basename(parts[0]))[-1]
    known = f"{before.n}:{before.chain}"
    bench.same("the right one", tool("record", "verify", "--part", parts[1], "--head", known)[0], 0)
    with closing(sqlite3.connect(parts[1])) as opened:
        opened.execute("UPDATE part SET before = ?", ("0" * 64,))
        opened.commit()
    chain_of_part(parts[1])
    status, _, said = tool("record", "verify", "--part", parts[1], "--head", known)
    bench.same("another one", (status, "was computed anew" in said), (1, True))
    bench.same("without the head", tool("record", "verify", "--part", parts[1])[0], 0)


@pytest.mark.needs("ssh-keygen")
def check_heads_after_a_restore(bench):
    """After a restore all heads that were ever signed go on to serve: those of what the restore gave up are told from the others, and the
    signing machine goes on only if it is said that a backup was restored, and the record says so, too."""
    machine, front = Machine(bench), Front(bench)
    with front:
        adds(front, *"ab")
        machine.signs("before the backup", front, "--begin")
        adds(front, "c")
        front.end()
    backup = backed_up(bench, front)
    kept = entries(front.office)[-1].n
    with front:
        adds(front, *"de")
        machine.signs("after the backup", front)
        adds(front, "f")
        machine.signs("and again", front)
        machine.signs("a restore that wasn't", front, "--restored")
        front.end()
    bench.same("it says nothing of one", "after" in machine.lines()[-1], False)
    heads = machine.with_heads()
    status, out, said = restore(front, backup, "--replace", *heads)
    bench.same("the restore", (status, f"the record is the one whose entry {kept - 1} is known" in out, said), (0, True, ""))
    status, out, said = tool("record", "verify", "--office", front.office, *heads)
    bench.same("with heads of what was given up", (status, said), MISSING)
    bench.same("they are named", f"as they are known, are not here: the restore at entry {kept + 1} gave them up" in out, True)
    with front:
        machine.refuses("without a word", front, NOT_CONTINUED, "go on with --restored")
        machine.signs("with it", front, "--restored")
        adds(front, *"ghijk")
        machine.signs("as before", front)
        front.end()
    line = machine.lines()[-2]
    bench.same("from where it went on", line["after"], f"{kept - 1}:{entries(front.office)[kept - 2].chain}")
    verified(bench, "with all heads", front.office, *heads)
    out = tool("record", "verify", "--office", front.office, *heads)[1]
    bench.same("what was given up is counted", "heads that a restore gave up, as a later head says: 3\n" in out, True)

    forged = [{**one, "after": None} if "after" in one else one for one in machine.lines()]
    wrong = bench.write("wrong", "".join(json.dumps(one) + "\n" for one in forged).encode())
    status, _, said = tool("record", "verify", "--office", front.office, "--heads", wrong, "--signers", machine.signers)
    bench.same("where it went on is signed", (status, "no head with a good signature" in said), (1, True))

    shutil.copytree(f"{front.office}.record", bench.path("honest"))
    change(front.office, FORGED.format(kept - 1))
    chain_again(front.office)
    refuted(bench, "an entry before the restore", front.office, "was computed anew", *heads)


@pytest.mark.needs("ssh-keygen")
def check_forged_after_a_restore(bench):
    """What was forged or cut off after a restore, and after a head that was signed since, isn't taken for what the restore gave up."""
    machine, front = Machine(bench), Front(bench)
    with front:
        adds(front, *"ab")
        machine.signs("before the backup", front, "--begin")
        front.end()
    backup = backed_up(bench, front)
    with front:
        adds(front, "c")
        machine.signs("after the backup", front)
        front.end()
    bench.same("the restore", restore(front, backup, "--replace")[0], 0)
    with front:
        machine.signs("after the restore", front, "--restored")
        protected = machine.lines()[-1]["entry"]
        for _ in range(2):
            front.ask("addUser", {"user": "a"})
        machine.signs("the newest head", front)
        front.end()
    heads = machine.with_heads()
    known = bench.write("known", "".join(f"{one['entry']}:{one['chain']}\n" for one in machine.lines() if "after" in one).encode())
    verified(bench, "the honest one", front.office, *heads)
    verified(bench, "by a head from after the restore", front.office, "--heads", known)
    shutil.copytree(f"{front.office}.record", bench.path("honest"))
    change(front.office, FORGED.format(protected + 1))
    chain_again(front.office)
    refuted(bench, "a forged entry", front.office, f"entry {protected + 2} has another link than the one that is known", *heads)
    shutil.rmtree(f"{front.office}.record")
    shutil.copytree(bench.path("honest"), f"{front.office}.record")
    change(front.office, f"DELETE FROM entry WHERE n > {protected + 1}")
    for copied in Path(f"{front.office}.record").glob("base-*"):
        copied.unlink()
    refuted(bench, "a record that was cut off", front.office, f"to {protected + 2} are missing", *heads)


def excused_by_a_restore(bench, backup):
    """A backup with another record than the honest one: both begin with the same backup, and this one says that it was restored."""
    front = Front(bench, name="excused")
    bench.same("a restore for another record", restore(front, backup)[0], 0)
    with front:
        adds(front, *"xyz")
        front.end()
    return backed_up(bench, front)


@pytest.mark.needs("ssh-keygen")
def check_restored_by_heads(bench):
    """A restore compares the backup with heads from elsewhere before it changes anything."""
    machine, front = Machine(bench), Front(bench)
    with front:
        adds(front, "a")
        machine.signs("a first head", front, "--begin")
        front.end()
    excused = excused_by_a_restore(bench, backed_up(bench, front))
    with front:
        adds(front, *"bc")
        machine.signs("a head", front)
        adds(front, *"de")
        front.end()
    backup = backed_up(bench, front, BOTH["rbac-node"])
    forged = shutil.copytree(backup, bench.path("backups/forged"))
    change(f"{forged}/office", FORGED.format(3))
    chain_again(f"{forged}/office")
    heads = machine.with_heads()
    before = Path(front.office).read_bytes()
    status, out, said = restore(front, forged, "--replace", *heads)
    bench.judge("a forged backup", [] if (status, out) == (1, "") and "was computed anew" in said else [said])
    status, out, said = restore(front, excused, "--replace", *heads)
    bench.judge("a backup that excuses itself by a restore", [] if (status, out) == (1, "") and "another link than the one" in said else [out + said])
    other = Machine(bench, "other")
    with Front(bench, name="elsewhere") as elsewhere:
        adds(elsewhere, *"abcdefghi")
        other.signs("a head of another record", elsewhere, "--begin")
    status, out, said = restore(front, backup, "--replace", *other.with_heads())
    bench.same("heads of another record", (status, out, "no known head is of an entry of the backup" in said), (1, "", True))
    bench.same("the office after that", Path(front.office).read_bytes() == before, True)
    status, out, said = restore(front, backup, "--replace", *heads)
    bench.same("the honest one", (status, said), (0, ""))


@pytest.mark.needs("ssh-keygen")
def check_unjudged_signatures(bench):
    """Signed heads count for nothing unless it is said who may have signed them."""
    machine, front = Machine(bench), Front(bench)
    with front:
        adds(front, "a")
        machine.signs("a head", front, "--begin")
        front.end()
    refuted(bench, "without the signers", front.office, "name those who may have signed it with --signers", "--heads", machine.heads)


def hot(path):
    """Puts a journal beside a file that has an honest record: SQLite plays it back, and then the file has a forged one."""
    copied = f"{path}.copy"
    shutil.copy(path, copied)
    with closing(sqlite3.connect(copied, isolation_level=None)) as opened:
        opened.execute("PRAGMA journal_mode = DELETE")
        opened.execute("PRAGMA synchronous = OFF")  # The journal is whole before the commit then.
        ((n, honest),) = opened.execute("SELECT n, caller FROM entry WHERE n = (SELECT min(n) + 1 FROM entry)").fetchall()
        opened.execute(FORGED.format(n))
        opened.execute("BEGIN IMMEDIATE")
        opened.execute("UPDATE entry SET caller = ? WHERE n = ?", (honest, n))
        shutil.copy(f"{copied}-journal", f"{path}-journal")
        opened.execute("COMMIT")
    os.replace(copied, path)


def callers_in(path):
    """The callers that SQLite finds in a copy of a file with its journal."""
    for name in (path, f"{path}-journal"):
        shutil.copy(name, name.replace(".record/", ".read/"))
    with closing(sqlite3.connect(path.replace(".record/", ".read/"))) as opened:
        return {caller for (caller,) in opened.execute("SELECT caller FROM entry")}


def check_journals(bench):
    """A record, a part or an office with a journal beside it is refused by verify and by a start: others would read something else."""
    front = Front(bench)
    with front:
        adds(front, *"ab")
        front.end()
    part = cut(bench, front)
    with front:
        adds(front, *"cd")
        front.end()
    verified(bench, "before", front.office)
    shutil.copytree(f"{front.office}.record", bench.path("kept"))
    for what, path in {"the file at hand": path_of(front.office), "a part": part}.items():
        shutil.rmtree(f"{front.office}.record")
        shutil.copytree(bench.path("kept"), f"{front.office}.record")
        hot(path)
        os.makedirs(f"{front.office}.read", exist_ok=True)
        bench.same(f"{what}: what SQLite reads", "token:forged" in callers_in(path), True)
        refuted(bench, what, front.office, f"there is a file {os.path.basename(path)}-journal beside it")
        refuses(bench, what, front, "-journal beside it")
    bench.same("a part alone", tool("record", "verify", "--part", part)[0], 1)
    hidden = bench.path("elsewhere.db")
    os.rename(path_of(front.office), hidden)
    os.rename(f"{part}-journal", f"{hidden}-journal")
    os.remove(part)
    shutil.copy(f"{bench.path('kept')}/{os.path.basename(part)}", part)
    os.symlink(hidden, path_of(front.office))
    refuted(bench, "what a link leads to", front.office, "there is a file elsewhere.db-journal beside it")
    refuses(bench, "what a link leads to", front, "-journal beside it")
    bench.same("what a link leads to: the journal", os.path.exists(f"{hidden}-journal"), True)
    shutil.rmtree(f"{front.office}.record")
    shutil.copytree(bench.path("kept"), f"{front.office}.record")
    verified(bench, "without the journals", front.office)
    bench.write("office-journal", b"")
    refuted(bench, "a journal of the office", front.office, "there is a file office-journal beside it")
    os.remove(bench.path("office-journal"))
    with closing(sqlite3.connect(front.office)) as opened:
        opened.execute("CREATE TRIGGER more AFTER INSERT ON name_row BEGIN DELETE FROM locked_row; END")
    refuted(bench, "an office that the program refuses", front.office, '"error":"NotAnOffice"')


def check_copies(bench):
    """A copy of the office that the record doesn't give is found while the front runs, though its name fits its rows."""
    front = Front(bench, "--record-verify", "300ms")
    with front:
        adds(front, *"ab")
        front.end()
    (base,) = Path(f"{front.office}.record").glob("base-3-*")
    other = Front(bench, name="other")
    shutil.copy(front.office, other.office)
    shutil.copytree(f"{front.office}.record", f"{other.office}.record")
    with other:
        adds(other, "mallory")
        other.end()
    (forged,) = Path(f"{other.office}.record").glob("base-4-*")
    shutil.copy(other.office, front.office)
    shutil.copy(forged, base.with_name(forged.name.replace("base-4-", "base-3-")))
    base.unlink()
    with front:
        until(lambda: broken(front), "the copy is found")
        says = [line for line in front.said(front.logged).splitlines() if "can't be verified" in line]
        bench.judge("the log", [] if says and "the base copy" in says[0] and "not what the record gives at entry 3" in says[0] else says)
        front.end()


def check_adoptions(bench):
    """Verify finds out by itself what an adoption changed, and refuses an entry that says something else."""
    front = Front(bench)
    with front:
        adds(front, *"ab")
        front.end()
    subprocess.run([RBAC, "replay", front.office], input=b'{"fn":"addUser","user":"mallory"}\n', check=True, capture_output=True)
    status, _, said = tool("record", "adopt", "--office", front.office, "--by", "ann", "--reason", "ticket 7")
    bench.same("adopt", (status, said), (0, ""))
    out = tool("record", "verify", "--office", front.office)[1]
    bench.same("the honest entry", 'adopted by "ann", with 1 rows added and 0 removed' in out, True)
    last = entries(front.office)[-1]
    lies = re.sub(r'"added":1,"removed":0,"rows":\[.*\]\}', '"added":0,"removed":0,"rows":[]}', last.request)
    bench.same("there is a lie", lies != last.request, True)
    with closing(sqlite3.connect(path_of(front.office))) as opened:
        opened.execute("UPDATE entry SET request = ? WHERE n = ?", (lies, last.n))
        opened.commit()
    chain_again(front.office)
    refuted(bench, "a lie about the changes", front.office, f"entry {last.n} says of the office that was adopted")


def check_left_files(bench):
    """Verify, show and access leave no file beside the evidence, and don't change it."""
    front = Front(bench)
    with front:
        adds(front, *"ab")
        front.end()
    cut(bench, front)
    with front:
        adds(front, "c")
        front.end()
    folder = bench.folder
    before = {path: path.read_bytes() for path in folder.rglob("*") if path.is_file()}
    for words in (["verify"], ["show"], ["access", "--user", "a", "--entry", "2"], ["head"]):
        status, _, said = tool("record", *words, "--office", front.office)
        bench.same(f"{words[0]}: the status", (status, [line for line in said.splitlines() if "rbac-node:" in line]), (0, []))
        after = {path: path.read_bytes() for path in folder.rglob("*") if path.is_file()}
        bench.same(f"{words[0]}: files", sorted(map(str, after)), sorted(map(str, before)))
        bench.same(f"{words[0]}: their bytes", after == before, True)


@pytest.mark.needs("mounts")
def check_first_start(bench):
    """A first start on a disk with too little room leaves no office, or one that opens once there is room."""
    starts = 0
    for room in range(200, 420, 20):
        front = Front(bench, "--no-record", name=f"disk-{room}/office")
        with Mounted(bench.path(f"disk-{room}"), 1024) as disk:
            disk.resize(f"{room}k")
            front.prefix = disk.words()
            process = front.start_without_waiting()
            until(lambda: process.poll() is not None or '"msg":"listening"' in front.said(front.logged), f"{room} KiB: it starts or ends")
            starts += process.poll() is None
            process.kill()
            process.wait()
            disk.resize("64m")
            with front:
                bench.same(f"{room} KiB, then room: a command", front.ask("addUser", {"user": "ann"})[0], 200)
    return {"first starts on small disks": 11, "of which had enough room": starts}
