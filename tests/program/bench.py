"""Runs the program, and compares what it prints, how it ends and which files it leaves."""

import os
import stat
import subprocess
import sys
from dataclasses import dataclass
from pathlib import Path

from needs import reason_of

TESTS = Path(__file__).resolve().parent.parent
PROGRAM = os.path.abspath(os.environ.get("RBAC_PROGRAM", TESTS / "../release/rbac"))
# How long a check waits at most for what comes soon, on a machine that is busy with much else.
SECONDS = 300

# Checks use files in memory if possible, except those of modules with ON_DISK: a sync takes long on a disk.
IN_MEMORY = "/dev/shm"


@dataclass(frozen=True)
class Done:
    """What a run printed on its two outputs, and its status."""

    out: bytes
    err: bytes
    status: int


def shown(text):
    """The beginning of something, as a failure names it."""
    words = repr(text)
    return words if len(words) <= 300 else f"{words[:300]}.. ({len(words)} signs)"


def sort_of(path):
    """Returns the bytes of a file, or a word for what else is at a path."""
    mode = path.lstat().st_mode
    if stat.S_ISREG(mode):
        return path.read_bytes()
    return f"link to {os.readlink(path)}" if stat.S_ISLNK(mode) else stat.filemode(mode)[0]


def folder_of(function):
    """The folder in which the files of a check are made; None is the usual one of the system."""
    is_on_disk = getattr(sys.modules[function.__module__], "ON_DISK", False)
    return None if is_on_disk or not os.access(IN_MEMORY, os.W_OK) else IN_MEMORY


def beside(bench, name):
    """The path of a file beside the folder of a bench, in which the program has no business."""
    return str(bench.folder.parent / name)


class Bench:
    """A folder to work in, the count of what was as it should be, the failures, and what was left out."""

    def __init__(self, folder):
        self.folder = folder
        self.passed = 0
        self.faults = []
        self.left_out = []

    def path(self, name):
        """The path of a file in the folder, as a text."""
        return str(self.folder / name)

    def contents(self):
        """The contents of the folder, by their names."""
        return {path.name: sort_of(path) for path in self.folder.iterdir()}

    def write(self, name, content):
        """Writes a file, and returns its path."""
        (self.folder / name).write_bytes(content)
        return self.path(name)

    def judge(self, what, faults):
        """Counts a check: it passed if there are no failures."""
        if faults:
            self.faults.append(f"{what}: " + "; ".join(faults))
        else:
            self.passed += 1

    def leave_out(self, need, what):
        """Says that a part of the check is left out, for want of something."""
        self.left_out.append(reason_of([need], what))

    def same(self, what, given, wanted):
        """Counts whether what is given is what is wanted."""
        self.judge(what, [] if given == wanted else [f"{shown(given)} and not {shown(wanted)}"])

    def run(self, words, given=b"", redirected=""):
        """Runs the program with these arguments and this input. A shell redirects its streams if `redirected` is not empty."""
        command = [PROGRAM, *words]
        if redirected:
            command = ["sh", "-c", f'exec "$@" {redirected}', "sh", *command]
        done = subprocess.run(
            command, input=given, cwd=self.folder, capture_output=True, timeout=SECONDS, check=False
        )
        return Done(done.stdout, done.stderr, done.returncode)

    def ends(self, words, out=b"", err=b"", status=0, given=b"", redirected="", makes=(), keeps=False, what=""):
        """Runs the program, and counts whether all is as it should be.

        That is both outputs and the status to the byte, and the folder: it has what it had before and
        what the run makes, and with `keeps` each file has the bytes that it had.
        """
        before = self.contents()
        done = self.run(words, given, redirected)
        after = self.contents()
        faults = [
            f"{name} {shown(got)} and not {shown(wanted)}"
            for name, got, wanted in [
                ("standard output is", done.out, out),
                ("standard error is", done.err, err),
                ("the status is", done.status, status),
                ("the folder has", sorted(after), sorted({*before, *makes})),
            ]
            if got != wanted
        ]
        if keeps:
            faults += [f"{name} has changed" for name in before if after.get(name) != before[name]]
        self.judge(what or " ".join(["rbac", *map(os.path.basename, words), redirected]).strip(), faults)

    def refuses(self, words, line, **more):
        """Counts whether the program ends with status 1, prints this line on standard error, and keeps all files."""
        self.ends(words, err=b"rbac: " + line + b"\n", status=1, keeps=True, **more)
