"""The command line, its help and its version; standard streams that are closed or full."""

import os
import subprocess

import pytest

from program.bench import PROGRAM, TESTS, Done

REFUSED = [
    [], [""], ["fly"], ["replay"], ["--memory"], ["--memory", "replay"], ["replay", "--memor"], ["replay", "--memory", "--memory"],
    ["replay", "--memory", "extra"], ["replay", "extra", "--memory"], ["Replay", "--memory"], ["replay --memory"],
]  # fmt: skip
COMMANDS = ["init", "replay", "serve", "import", "export", "report", "check", "migrate"]
FIRST = (TESTS / "rows/first-run.jsonl").read_bytes()
ANSWERS = (TESTS / "rows/first-run.answers").read_bytes()


@pytest.mark.parametrize("words", REFUSED, ids=" ".join)
def check_refused(bench, words):
    """The arguments are refused by status 2, and only the reason is printed."""
    done = bench.run(words, FIRST)
    bench.same("status, output, and whether there is a reason", (done.status, done.out, bool(done.err)), (2, b"", True))


def check_version(bench):
    """The version is that of the file VERSION."""
    version = (TESTS.parent / "VERSION").read_text(encoding="ascii").strip()
    bench.same("--version", bench.run(["--version"]), Done(f"rbac {version}\n".encode(), b"", 0))


@pytest.mark.parametrize("command", COMMANDS)
def check_help(bench, command):
    """The help lists the command with its purpose, and the help of the command begins with that."""
    listed = [line.split(None, 1) for line in bench.run(["--help"]).out.decode().splitlines() if line.startswith("  ")]
    purposes = [words[1] for words in listed if words[0] == command]
    done = bench.run([command, "--help"])
    bench.same("the purpose", done.out.decode().splitlines()[:1], purposes)
    bench.same("its end", (done.err, done.status), (b"", 0))


@pytest.mark.parametrize(
    "redirected, given, out, err, status",
    [
        (">/dev/full", FIRST, b"", b"rbac: stop Write after 0\n", 1),
        (">&-", FIRST, b"", b"rbac: stop Write after 0\n", 1),
        # If there is nothing to read, there is nothing to write either.
        (">&-", b"", b"", b"", 0),
        ("<&-", b"", b"", b"rbac: stop Read after 0\n", 1),
        ("</", b"", b"", b"rbac: stop Read after 0\n", 1),
        ("2>&-", FIRST, ANSWERS, b"", 0),
        ("2>/dev/full", (TESTS / "rows/line-too-long.jsonl").read_bytes(), None, b"", 1),
    ],
)
def check_streams(bench, redirected, given, out, err, status):
    """Streams that are closed or full, or lead to a folder."""
    done = bench.run(["replay", "--memory"], given, redirected)
    bench.same("the run", done, Done(done.out if out is None else out, err, status))


def check_pipe_without_reader(bench):
    """The reader of the pipe ends before the program starts."""
    reader, writer = os.pipe()
    os.close(reader)
    with os.fdopen(writer, "wb") as out:
        done = subprocess.run([PROGRAM, "replay", "--memory"], input=FIRST, stdout=out, stderr=subprocess.PIPE, check=False)
    bench.same("its end", (done.stderr, done.returncode), (b"rbac: stop Write after 0\n", 1))
