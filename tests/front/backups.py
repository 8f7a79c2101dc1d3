"""Backups of an office and its record: what an earlier one has isn't copied again, and several at once wait for one another."""

import os
import shutil
import subprocess

from program.bench import PROGRAM as RBAC
from program.bench import SECONDS, TESTS

from .program import Front
from .recorded import change, path_of, tool, verified
from .running import PROGRAM

# The two programs that make backups, by how they are run.
BOTH = {
    "rbac-node": lambda front, folder: tool("backup", "--office", front.office, folder),
    "deploy/backup": lambda front, folder: by_script(front, folder),
}


def by_script(front, folder):
    """The status and the outputs of deploy/backup."""
    words = [TESTS.parent / "deploy/backup", front.office, folder]
    done = subprocess.run(words, env={**os.environ, "RBAC_PROGRAM": RBAC}, capture_output=True, text=True, check=False)
    return done.returncode, done.stdout, done.stderr


def with_parts(bench, count):
    """A front that has ended, with a record of some earlier parts, and their names."""
    front, names = Front(bench), []
    for number in range(count):
        with front:
            for user in range(20):
                front.ask("addUser", {"user": f"{number} {user}"})
            front.end()
        status, out, said = tool("record", "cut", "--office", front.office)
        bench.same("cut", (status, said), (0, ""))
        names.append(os.path.basename(out.strip()))
    return front, names


def check_parts_once(bench):
    """A part of the record that an earlier backup has is another name of that file, unless somebody has changed it there."""
    front, names = with_parts(bench, 2)
    folder = bench.path("backups")
    os.mkdir(folder)
    pairs = []
    with front:
        for turn in range(2):
            for what, make in BOTH.items():
                status, out, said = make(front, folder)
                bench.same(f"{what}, {turn}", (status, said), (0, ""))
                pairs.append(out.strip())
        front.end()
    for name in names:
        files = {os.stat(f"{pair}/office.record/{name}").st_ino for pair in pairs}
        bench.same(f"{name}: files of four backups", len(files), 1)
        bench.same(f"{name}: another file than that in use", os.stat(path_of(front.office, name)).st_ino in files, False)
    own = {os.stat(f"{pair}/office.record/record.db").st_ino for pair in pairs}
    bench.same("files at hand", len(own), len(pairs))
    for pair in pairs:
        copied = shutil.copytree(pair, bench.path(f"copy of {os.path.basename(pair)}"))
        verified(bench, f"the backup {pair}", f"{copied}/office")
    change(f"{pairs[0]}/office", "UPDATE entry SET caller = 'token:eve' WHERE n = 2", file=names[0])
    for what, make in BOTH.items():
        status, out, said = make(front, folder)
        bench.same(f"{what}, after a change", (status, said), (0, ""))
        pairs.append(out.strip())
        verified(bench, f"{what}, after a change", f"{out.strip()}/office")
    last = {os.stat(f"{pair}/office.record/{names[0]}").st_ino for pair in pairs}
    bench.same("the part that was changed, and the new copy of the right one", len(last), 2)


def check_at_once(bench):
    """Three backups at once into one folder work one after the other, also beside a front."""
    front, _ = with_parts(bench, 1)
    folder = bench.path("backups")
    os.mkdir(folder)
    words = [os.environ[PROGRAM], "backup", "--office", front.office, "--program", RBAC, folder]
    with front:
        running = [subprocess.Popen(words, stdout=subprocess.PIPE, stderr=subprocess.PIPE, text=True) for _ in range(3)]
        said = [one.communicate(timeout=SECONDS) for one in running]
        bench.same("how they end", [(one.returncode, err) for one, (_, err) in zip(running, said)], [(0, "")] * 3)
        bench.same("the front goes on", front.ask("addUser", {"user": "ann"})[0], 200)
        front.end()
    pairs = [out.strip() for out, _ in said]
    bench.same("the folders", sorted(pairs), sorted(f"{folder}/{name}" for name in os.listdir(folder)))
    for pair in pairs:
        verified(bench, "a backup", f"{pair}/office")
