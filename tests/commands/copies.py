"""bin/rbac and bin/release, in copies of the repository that have the program that is checked as that of their sources.

Arguments, streams and status are passed on; a program, a manifest or a source that was changed is noticed. bin/rbac does so
without proving anything, since the copies find no command rt.
"""

import os
import re
import resource
import shutil
import subprocess
import sys
from functools import partial
from pathlib import Path

import pytest

from program.bench import PROGRAM, SECONDS, TESTS

TOP = TESTS.parent
FIRST, ANSWERS = TOP / "examples/first.jsonl", TOP / "examples/first.answers"
LONG_LINE = TESTS / "rows/line-too-long.jsonl"
NULL = Path(os.devnull)

# The most milliseconds of a processor that bin/rbac may add to a run, and how many runs of each are compared by their least.
MOST_ADDED, RUNS = 50, 15


class Copy:
    """A copy of bin/ and of the sources, whose release/ has the program with a manifest for these sources."""

    def __init__(self, bench):
        self.bench, self.folder, self.commands = bench, bench.folder / "copy", bench.folder / "commands"
        self.commands.mkdir()
        for name in ("/usr/local/bin", "/usr/bin", "/bin"):
            for command in Path(name).iterdir():
                if command.name != "rt" and not (self.commands / command.name).is_symlink():
                    (self.commands / command.name).symlink_to(command)
        self.environment = {**os.environ, "PATH": str(self.commands), "XDG_CACHE_HOME": bench.path("cache")}
        self.environment.pop("RBAC_PROGRAM", None)
        (self.folder / "crates").mkdir(parents=True)
        shutil.copy(TOP / "crates.txt", self.folder)
        shutil.copytree(TOP / "bin", self.folder / "bin", symlinks=True)
        for crate in (TOP / "crates").iterdir():
            for part in ("src", "specs", "proofs"):
                if (crate / part).is_dir():
                    shutil.copytree(crate / part, self.folder / "crates" / crate.name / part)
        self.record(PROGRAM)

    def run(self, *words, given=NULL, **more):
        """Runs a command of bin/ of the copy."""
        with open(given, "rb") as lines:
            command = [self.folder / "bin" / words[0], *words[1:]]
            return subprocess.run(
                command, stdin=lines, capture_output=True, env=self.environment, timeout=SECONDS, check=False, cwd="/", **more
            )

    def digest(self):
        return self.run("release", "--digest").stdout.decode().strip()

    def record(self, program):
        """Makes release/ of a program, as that of these sources."""
        done = self.run("release", "--record", program, self.digest(), self.folder / "release")
        if done.returncode:
            raise ValueError(done.stderr)

    def append(self, path, text):
        """Adds a text to the end of a file, which may be new."""
        with open(self.folder / path, "a", encoding="utf-8") as file:
            file.write(text)

    def change(self, path, old, new):
        """Replaces the one match of an expression in a file."""
        text, count = re.subn(old, new, (self.folder / path).read_text(encoding="utf-8"), flags=re.M)
        if count != 1:
            raise ValueError(f"{path} has {count} times {old}")
        (self.folder / path).write_text(text, encoding="utf-8")

    def flip(self):
        """Changes one byte of the program of release/."""
        content = bytearray((self.folder / "release/rbac").read_bytes())
        content[len(content) // 2] ^= 0xFF
        (self.folder / "release/rbac").write_bytes(content)

    def pretend(self, command, text):
        """Replaces a command of the system by one that prints this text."""
        path = self.commands / command
        path.unlink(missing_ok=True)
        path.write_text(f'#!/bin/sh\necho "{text}"\n', encoding="ascii")
        path.chmod(0o755)

    def passes_on(self, lines, answers, status, *words):
        """Counts whether bin/rbac prints these answers to the lines, with this status."""
        done = self.run("rbac", *words, given=lines)
        self.bench.same(f"bin/rbac {words}", (done.stdout, done.returncode), (answers.read_bytes(), status))

    def checks(self, status, what):
        """Counts whether bin/release --check prints one line, with this status."""
        done = self.run("release", "--check")
        self.bench.same(f"{what}: {done.stdout}", (done.returncode, done.stdout.count(b"\n")), (status, 1))

    def refuses(self, what, text):
        """Counts whether bin/rbac prints one line on standard error that matches a text, and nothing else."""
        done = self.run("rbac", "replay", "--memory", given=FIRST)
        said = done.stderr.decode()
        is_line = bool(re.fullmatch(rf"rbac: .*{text}.*\n", said))
        self.bench.same(f"{what}: {said}", (done.returncode, done.stdout, is_line), (1, b"", True))


@pytest.fixture
def copy(bench):
    return Copy(bench)


def milliseconds(run):
    """The processor time of a run; the time that passes would depend on what else runs."""
    before = resource.getrusage(resource.RUSAGE_CHILDREN)
    run()
    after = resource.getrusage(resource.RUSAGE_CHILDREN)
    return (after.ru_utime + after.ru_stime - before.ru_utime - before.ru_stime) * 1_000


def adds_little(bench, copy, when):
    """Counts whether bin/rbac adds little to a run."""
    ours = min(milliseconds(partial(copy.run, "rbac", "replay", "--memory")) for _ in range(RUNS))
    alone = min(milliseconds(partial(bench.run, ["replay", "--memory"])) for _ in range(RUNS))
    bench.judge(f"what bin/rbac adds {when}", [] if ours - alone <= MOST_ADDED else [f"{ours - alone:.0f} ms"])


def check_passing_on(bench, copy):
    """Arguments, streams and status are passed on, whether or not something can be kept beside the sources."""
    copy.passes_on(FIRST, ANSWERS, 0, "replay", "--memory")
    copy.passes_on(LONG_LINE, LONG_LINE.with_suffix(".answers"), 1, "replay", "--memory")
    copy.passes_on(NULL, NULL, 2, "replay --memory")
    copy.passes_on(NULL, NULL, 2, "replay", "--memory", "")
    copy.checks(0, "the program of these sources")
    adds_little(bench, copy, "with what it kept")
    # As if the user may not write beside the sources, and then with what was found before.
    shutil.rmtree(copy.folder / "out", ignore_errors=True)
    (copy.folder / "out").touch()
    copy.passes_on(FIRST, ANSWERS, 0, "replay", "--memory")
    adds_little(bench, copy, "if it may not write beside the sources")
    copy.passes_on(FIRST, ANSWERS, 0, "replay", "--memory")
    (copy.folder / "out").unlink()
    copy.passes_on(FIRST, ANSWERS, 0, "replay", "--memory")
    copy.append("crates/rbac/src/main.rt", "// A comment.\n")
    copy.refuses("one more comment, after a run", "the sources were changed")
    copy.checks(1, "one more comment")


def check_definition(bench, copy):
    """A comment in a definition is noticed."""
    copy.change("crates/rbac_sets/specs/Name.antt", r"\A", "-- A comment.\n")
    copy.refuses("a comment in a definition", "the sources were changed")
    copy.checks(1, "a comment in a definition")


@pytest.mark.parametrize(
    "what, change, status",
    [
        ("one more file", lambda copy: copy.append("crates/role_csv/proofs/Another.antt", ""), 1),
        (
            "a file of another name",
            lambda copy: (copy.folder / "crates/role_csv/src/reading.rt").rename(copy.folder / "crates/role_csv/src/other.rt"),
            1,
        ),
        (
            "a crate that uses another library",
            lambda copy: copy.change("crates.txt", "^rbac_sets: short_text thiserror$", "rbac_sets: short_text thiserror itoa"),
            1,
        ),
        ("a file of which only the time differs", lambda copy: (copy.folder / "crates/rbac/src/main.rt").touch(), 0),
    ],
)
def check_sources(bench, copy, what, change, status):
    """bin/release --check sees what has changed in the sources."""
    change(copy)
    copy.checks(status, what)


def check_changed_program(bench, copy):
    """A program with another byte, a manifest that was changed by hand, and no program."""
    copy.flip()
    copy.refuses("one byte of the program changed", "release/rbac was changed")
    copy.checks(2, "one byte of the program changed")
    copy.record(PROGRAM)
    digest = copy.digest()
    other = digest.translate(str.maketrans("0123456789abcdef", "123456789abcdef0"))
    copy.change("release/manifest", "^sources .*", f"sources {other}")
    copy.refuses("a digest changed by hand", "manifest was changed by hand")
    copy.checks(2, "a digest changed by hand")
    copy.record(PROGRAM)
    copy.append("crates/rbac/src/main.rt", "// A comment.\n")
    copy.change("release/manifest", "^sources .*", f"sources {copy.digest()}")
    copy.checks(2, "a digest set by hand to that of other sources")
    copy.record(PROGRAM)
    (copy.folder / "release/rbac").unlink()
    copy.refuses("no program", "release has no program")
    copy.checks(2, "no program")


def check_digest(bench, copy):
    """The digest covers each crate that the program uses, as bin/kit.py finds them by crates.txt."""
    script = 'import kit; program = kit.crates()["rbac"]; print(*(it.name for it in [*program.below(), program]))'
    settings = {**copy.environment, "PYTHONPATH": str(TOP / "bin")}
    said = subprocess.run([sys.executable, "-c", script], env=settings, capture_output=True, text=True, check=True).stdout
    digests = [copy.digest()]
    for crate in said.split():
        copy.append(f"crates/{crate}/src/lib.rt", "// A comment.\n")
        digests.append(copy.digest())
        bench.same(f"whether a comment in {crate} changes the digest", digests[-1] != digests[-2], True)


def check_forged_manifest(bench, copy):
    """A whole manifest can be forged. Only the build of these sources shows that the program is not theirs."""
    built = shutil.copy(PROGRAM, bench.folder / "built")
    copy.flip()
    copy.record(shutil.copy(copy.folder / "release/rbac", bench.folder / "forged"))
    copy.checks(0, "a forged manifest, without the build beside it")
    bench.same("the status with the build", copy.run("release", "--check", built).returncode, 2)
    copy.pretend("rt", "another kit")
    said = copy.run("release", "--check", built).stdout.decode()
    bench.same("whether the kits are named", "by another kit: it is of unknown," in said, True)
    (copy.commands / "rt").unlink()
    copy.record(PROGRAM)
    bench.same("the status of the build itself", copy.run("release", "--check", built).returncode, 0)


def check_machine(bench, copy):
    """Another processor and an older or another C library are refused."""
    copy.pretend("uname", "Linux aarch64")
    copy.refuses("another processor", "needs Linux on x86-64")
    copy.pretend("uname", "Linux x86_64")
    copy.pretend("getconf", "glibc 2.33")
    copy.refuses("an older C library", "needs .* glibc 2.34")
    copy.pretend("getconf", "")
    copy.refuses("another C library", "another C library")
    copy.pretend("getconf", "glibc 2.34")
    copy.passes_on(FIRST, ANSWERS, 0, "replay", "--memory")
