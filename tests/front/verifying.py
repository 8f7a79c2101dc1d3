"""What the front finds by itself in a record that somebody has changed, and an office without its record. The changes are made by root
with the files in hand."""

import json
import os
import shutil

from .program import Front, refused_start, until
from .recorded import chain_again, change, entries, path_of, refuted, tool, verified

OK = '{"ok":true}'
WHO = ("--by", "root", "--reason", "ticket 9")

# A caller in place of another, in an entry of this number.
FORGED = "UPDATE entry SET caller = 'token:eve' WHERE n = {}"


def filled(bench, *more):
    """A front that has ended, with a record of six entries. Its start has verified the first one."""
    front = Front(bench, *more)
    with front:
        for user in "abcde":
            front.ask("addUser", {"user": user})
        bench.same("the end", front.end(), 0)
    return front


def refuses(bench, what, front, says):
    """Counts whether the front refuses to start, in one line."""
    status, out, said = refused_start(*front.words())
    faults = [] if (status, out, said.count("\n")) == (1, "", 1) and says in said else [f"{status} {out}{said}"]
    bench.judge(f"{what}: {says}", faults)


def check_start(bench):
    """A start verifies the chain from the last verified place on, and says what to do after a break. The place is no evidence."""
    front = filled(bench)
    place = path_of(front.office, "verified")
    with open(place, encoding="ascii") as file:
        bench.same("the place", file.read().split(":")[0], "1")
    shutil.copytree(f"{front.office}.record", bench.path("kept"))
    for what, statement, says in [
        ("an entry edited", FORGED.format(4), "the chain breaks at entry 4: somebody has changed the record"),
        ("the last entry edited", FORGED.format(6), "the chain breaks at entry 6: somebody has changed the record"),
        ("an entry left out", "DELETE FROM entry WHERE n = 3", "the chain breaks at entry 3: somebody has changed the record"),
        ("the first entry edited", FORGED.format(1), "the chain breaks at entry 1: somebody has changed the record"),
    ]:
        shutil.rmtree(f"{front.office}.record")
        shutil.copytree(bench.path("kept"), f"{front.office}.record")
        change(front.office, statement)
        if "first" in what:
            os.remove(place)
        refuses(bench, what, front, says)
        refuses(bench, f"{what}: what to do", front, "move the folder away and let `rbac-node record adopt` begin another record")
        status, _, said = tool("record", "adopt", "--office", front.office, *WHO)
        bench.same(f"{what}: adopt", (status, says in said, said.count("\n")), (1, True, 1))
    shutil.rmtree(f"{front.office}.record")
    shutil.copytree(bench.path("kept"), f"{front.office}.record")
    with open(place, "w", encoding="ascii") as file:
        file.write(f"5:{'0' * 64}\n")
    with front:
        bench.same("a place that can't be", front.ask("addUser", {"user": "f"})[1], OK)
        front.end()
    with open(place, encoding="ascii") as file:
        bench.same("the new place", file.read().split(":")[0], "6")
    verified(bench, "afterwards", front.office)


def broken(front):
    """Whether the metric says that the chain is broken."""
    return "rbac_node_record_broken 1" in front.exchange("GET", "/metrics")[1].splitlines()


def check_timer(bench):
    """A front verifies the whole chain again and again: also before the last verified place, earlier parts, and what was computed anew."""
    front = filled(bench, "--record-verify", "300ms")
    status, part, said = tool("record", "cut", "--office", front.office)
    bench.same("cut", (status, said), (0, ""))
    part = os.path.basename(part.strip())
    for what, file, forge in [
        ("an entry of an earlier part", part, lambda: None),
        ("an entry that was verified", "record.db", lambda: None),
        ("a chain that was computed anew", "record.db", lambda: chain_again(front.office, entries(front.office, 0, part)[-1].chain)),
    ]:
        with front:
            for user in ("x", "y"):
                front.ask("addUser", {"user": f"{what} {user}"})
            until(lambda: '"msg":"the chain of the record was verified"' in front.said(front.logged), f"{what}: verified", lambda: front.said(front.logged)[-1500:])
            bench.same(f"{what}: before", broken(front), False)
            shutil.copy(path_of(front.office, file), bench.path("kept"))
            before = entries(front.office, 0, file)[1]
            change(front.office, FORGED.format(before.n), file=file)
            forge()
            until(lambda: broken(front), f"{what}: it is found")
            bench.same(f"{what}: commands go on", front.ask("addUser", {"user": f"{what} z"})[1], OK)
            says = [json.loads(line)["why"] for line in front.said(front.logged).splitlines() if "can't be verified" in line]
            bench.judge(f"{what}: the log", [] if says and "the chain breaks at entry" in says[0] and "restore" in says[0] else says)
            if not what.startswith("a chain"):
                change(front.office, f"UPDATE entry SET caller = '{before.caller}' WHERE n = {before.n}", file=file)
                until(lambda: not broken(front), f"{what}: it is mended")
            bench.same(f"{what}: the end", front.end(), 0)


def check_restored_alone(bench):
    """An office that has commands doesn't start without its record, until somebody says who adopts it and why."""
    front = filled(bench)
    os.rename(f"{front.office}.record", bench.path("away"))
    refuses(bench, "without its record", front, "the office has commands, and no record")
    bench.same("nothing was made", os.path.exists(f"{front.office}.record"), False)
    status, out, said = tool("record", "adopt", "--office", front.office, *WHO)
    bench.same("adopt", (status, out, said), (0, "the record begins over the office as it is, at entry 1\n", ""))
    with front:
        bench.same("a command", front.ask("addUser", {"user": "f"})[1], OK)
        front.end()
    out = tool("record", "verify", "--office", front.office)[1]
    says = 'entry 1 begins over an office that had commands and no record: adopted by "root", for "ticket 9"\n'
    bench.judge("verify says so", [] if out.startswith(says) else [out])
    verified(bench, "afterwards", front.office)
    (first, _) = entries(front.office)
    change(front.office, f"UPDATE entry SET request = '{first.request.replace('root', 'eve')}' WHERE n = 1")
    refuted(bench, "another who", front.office, "the chain breaks at entry 1")
    empty = Front(bench, name="empty")
    with empty:
        empty.end()
    shutil.rmtree(f"{empty.office}.record")
    bench.same("nothing to adopt", tool("record", "adopt", "--office", empty.office, *WHO)[0], 1)
    with empty:
        bench.same("an office without a command", empty.ask("addUser", {"user": "ann"})[1], OK)
