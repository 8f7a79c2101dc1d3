"""Restoring a backup: what a client knows from before never counts as something of after it."""

import json
import os
import shutil
import subprocess
from itertools import islice

import pytest
from program.bench import PROGRAM, TESTS

from .batches import batch, line
from .program import Front
from .recorded import tool
from .revisions import OUTDATED, asked
from .watching import Watch, snapshot

# The files that stay where they are although the office is restored, and those that come with the backup.
LEFT_BEHIND = ["nothing", "the numbers of now", "the numbers of then"]


def numbers_of(front):
    return f"{front.office}.numbers"


def restore(front, backup, then, left):
    """Puts a backup in place of an office, as docs/howto/operate.md says: what was there before is moved away."""
    shutil.copy(numbers_of(front), f"{front.office}.now")
    for name in ("", ".record", ".numbers"):
        if os.path.exists(front.office + name):
            os.rename(front.office + name, f"{front.office}.before{name}")
    shutil.copy(f"{backup}/office", front.office)
    if os.path.exists(f"{backup}/office.record"):
        shutil.copytree(f"{backup}/office.record", f"{front.office}.record")
    if left != "nothing":
        shutil.copy(f"{front.office}.now" if left == "the numbers of now" else then, numbers_of(front))


@pytest.mark.parametrize("left", LEFT_BEHIND)
@pytest.mark.parametrize("options", [(), ("--no-record",)], ids=["recorded", "unrecorded"])
def check_restored(bench, options, left):
    """After a restore no number of before is one of the new ones: a watch ends with 410, and a condition with 412."""
    with Front(bench, *options) as front:
        batch(front, [line("addUser", user="ann"), line("addRole", role="clerk")])
        then, backup = shutil.copy(numbers_of(front), bench.path("then")), backup_of(bench, front, options)
        known = [snapshot(front)[1]]
        for user in "abcd":
            _, _, revision = asked(front, "addUser", {"user": user})
            known.append(revision)
        front.end()
        restore(front, backup, then, left)
        front.start()
        bench.same("what was done behind the backup is gone", front.ask("assignedRoles", {"user": "a"})[0], 409)
        first = snapshot(front)[1]
        # As many commands as before: with numbers that begin again the follower would be at a number that there is.
        for user in "efghij":
            _, _, revision = asked(front, "addUser", {"user": user})
        for number in known:
            watch = Watch(front, number)
            bench.same(f"a follower after {number}, now {revision}", watch.status, 410)
            watch.close()
            given = asked(front, "addUser", {"user": "k"}, If_Policy_Revision=number)[:2]
            bench.same(f"a condition of {number}, now {revision}", given, (412, OUTDATED))
        watch = Watch(front, first)
        wanted = [line("addUser", user=user) for user in "efghij"]
        given = [json.loads(text) for _, text in islice(watch.events(), len(wanted)) if text]
        bench.same("a follower of now", given, wanted)
        watch.close()
        bench.same("the end", front.end(), 0)


def backup_of(bench, front, options):
    """A backup of an office that a front has."""
    os.mkdir(bench.path("backups"))
    if not options:
        status, out, said = tool("backup", "--office", front.office, bench.path("backups"))
    else:
        words = [TESTS.parent / "deploy/backup", front.office, bench.path("backups")]
        done = subprocess.run(words, env={**os.environ, "RBAC_PROGRAM": PROGRAM}, capture_output=True, text=True, check=False)
        status, out, said = done.returncode, done.stdout, done.stderr
    bench.same("a backup", (status, said), (0, ""))
    return out.strip()
