"""The program for arm64, if it is there: a few rows in memory, and an office in a file that both programs read."""

import os
import subprocess
import urllib.request
from pathlib import Path

import pytest

from front.program import until
from needs import PROGRAM_FOR_ARM64
from program.bench import PROGRAM
from program.web import free_port

from . import QEMU

TOP = Path(__file__).resolve().parent.parent.parent
FOR_ARM64 = PROGRAM_FOR_ARM64
AT = os.path.dirname(FOR_ARM64)
ROWS = ["examples/first", "examples/bank"]


def ran(words, given=b"", settings=None):
    """Runs a program, and returns its outputs and its status."""
    done = subprocess.run(words, input=given, env={**os.environ, **(settings or {})}, capture_output=True, check=False, timeout=300)
    return done.stdout, done.stderr, done.returncode


def rows(bench):
    """Each example is answered as its file says."""
    for name in ROWS:
        lines, answers = (TOP / f"{name}.jsonl").read_bytes(), (TOP / f"{name}.answers").read_bytes()
        bench.same(name, ran([*QEMU, FOR_ARM64, "replay", "--memory"], lines), (answers, b"", 0))


def file(bench):
    """What one program stored the other one reads and changes, and both say the same of it."""
    here, there, office = [PROGRAM], [*QEMU, FOR_ARM64], bench.path("office")
    lines = (TOP / "examples/bank.jsonl").read_bytes().splitlines(keepends=True)
    wanted = (TOP / "examples/bank.answers").read_bytes()
    half = len(lines) // 2
    bench.same("init", ran([*there, "init", office]), (b"", b"", 0))
    first, second = ran([*there, "replay", office], b"".join(lines[:half])), ran(
        [*here, "replay", office], b"".join(lines[half:])
    )
    bench.same("answers", (first[0] + second[0], first[1:], second[1:]), (wanted, (b"", 0), (b"", 0)))
    for words in (["check", office], ["report", office], ["export", office], ["check", office + "-none"], ["init", office]):
        bench.same(" ".join(words), ran([*there, *words]), ran([*here, *words]))


def packages(bench):
    """The Debian packages are for arm64, and have the program that was built, and a front that answers with that program's twin."""
    settings = {**os.environ, "RELEASE": AT, "OUT": bench.path("packages")}
    done = subprocess.run(
        [TOP / "bin/package", "--anyway", "--arm64"], env=settings, capture_output=True, text=True, check=True
    )
    made = done.stdout.split()
    bench.same("the packages", [os.path.basename(path).split("_")[0] for path in made], ["rbac", "rbac-node"])
    for path in made:
        fields = subprocess.run(["dpkg-deb", "-f", path, "Architecture"], cwd=TOP, capture_output=True, check=True)
        bench.same("the processor", fields.stdout, b"arm64\n")
        subprocess.run(["dpkg-deb", "-x", path, bench.path("unpacked")], cwd=TOP, check=True)
    packed = Path(bench.path("unpacked"), "usr/bin/rbac").read_bytes()
    bench.judge("the program", [] if packed == Path(FOR_ARM64).read_bytes() else ["it differs"])
    front(bench, bench.path("unpacked/usr/bin/rbac-node"))


def front(bench, program):
    """The front serves an office by the emulator, over the program for this processor, and its record is verified on both."""
    emulated = [QEMU[0], "-E", f"LD_LIBRARY_PATH={AT}/sqlite", *QEMU[1:], program]
    said = subprocess.run([*emulated, "--version"], capture_output=True, text=True, check=True).stdout
    bench.same("its version", (TOP / "VERSION").read_text(encoding="ascii").strip() in said, True)
    office, port = bench.path("served"), free_port()
    words = ["serve", "--office", office, "--program", PROGRAM, "--listen", f"127.0.0.1:{port}"]

    def ask(path, body=None):
        try:
            with urllib.request.urlopen(f"http://127.0.0.1:{port}{path}", body, timeout=60) as reply:
                return reply.read()
        except OSError:
            return b""

    with subprocess.Popen([*emulated, *words], stderr=subprocess.DEVNULL) as process:
        try:
            until(lambda: ask("/healthz"), "the front answers")
            bench.same("a command", ask("/v1/addUser", b'{"user":"ann"}'), b'{"ok":true}')
            bench.same("a question", ask("/v1/assignedRoles", b'{"user":"ann"}'), b'{"ok":true,"value":[]}')
        finally:
            process.terminate()
    bench.same("its end", process.returncode, 0)
    status = subprocess.run(
        [*emulated, "record", "verify", "--office", office, "--program", PROGRAM], capture_output=True, check=False
    ).returncode
    bench.same("its record", status, 0)


def image(bench):
    """The files of the image for arm64 are enough for both programs: its loader and its libraries are used, and nothing beside them."""
    root = bench.path("image")
    words = [TOP / "bin/image", "--anyway", "--arm64", "--root", root]
    bench.same("bin/image", ran(words, settings={"RELEASE": AT}), (b"", b"", 0))
    inside = [QEMU[0], "-L", root]
    lines, answers = ((TOP / f"examples/first.{name}").read_bytes() for name in ("jsonl", "answers"))
    bench.same("its program", ran([*inside, f"{root}/usr/bin/rbac", "replay", "--memory"], lines), (answers, b"", 0))
    out, err, status = ran([*inside, f"{root}/usr/bin/rbac-node", "--version"])
    version = (TOP / "VERSION").read_text(encoding="ascii").strip()
    bench.same("its front", (version in out.decode(), err, status), (True, b"", 0))
    listed = Path(root, "usr/share/rbac/libraries").read_text(encoding="utf-8")
    bench.same("what is listed", [name for name in ("libc6", "libsqlite3-0", "serde_json") if f"\t{name}\t" not in listed], [])


@pytest.mark.needs("program for arm64", "qemu-aarch64-static", "go", "libraries of the server")
def check_program(bench):
    """Rows in memory, an office in a file, and the packages."""
    rows(bench)
    file(bench)
    if os.path.isfile(f"{os.path.dirname(FOR_ARM64)}/manifest"):
        packages(bench)
        image(bench)
