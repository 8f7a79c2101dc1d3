"""What bench/embedded.py compares the library with. Each function returns the nanoseconds of a decision and of a command, and how
many questions were granted, or a text that says why it is left out."""

from __future__ import annotations

import os
import shutil
import socket
import subprocess
import sys
import time
from pathlib import Path
from typing import Sequence, Union

from .policy import QUESTION, QUESTIONS, Policy

BENCH = Path(__file__).resolve().parent.parent
PROGRAM = os.path.abspath(os.environ.get("RBAC_PROGRAM", BENCH / "../release/rbac"))
CASBIN = Path("/usr/share/gocode/src/github.com/casbin/casbin")
POSTGRES = ["-I/usr/include/postgresql", "-lpq"]
# How often a replay answers all questions, and how many commands it does.
TIMES, CHANGES = 40, 20_000

Measured = Union[tuple[float, float, int], str]


def run(command: Sequence[object], given: bytes = b"") -> bytes:
    """Runs a command, and returns its output; ends the script if it fails."""
    done = subprocess.run([str(it) for it in command], input=given, capture_output=True, check=False)
    if done.returncode:
        sys.exit(f"{command[0]} ended with status {done.returncode}: {done.stderr.decode()[-2000:]}")
    return done.stdout


def numbers(text: bytes) -> Measured:
    """Returns the three numbers that a program here prints."""
    decision, command, granted = text.split()
    return float(decision), float(command), int(granted)


def compile_c(name: str, folder: Path, *words: str) -> Path:
    """Compiles a program of this folder."""
    made = folder / f"{name}_bench"
    run(["cc", "-std=c99", "-O2", BENCH / f"embedded/{name}.c", "-o", made, *words])
    return made


def is_compiled(folder: Path, header: str, *words: str) -> bool:
    """Returns whether the compiler finds a header."""
    command = ["cc", "-fsyntax-only", *[it for it in words if it.startswith("-I")], "-x", "c", "-"]
    return subprocess.run(command, input=f"#include <{header}>\n".encode(), capture_output=True, check=False).returncode == 0


def casbin_program(folder: Path) -> Path:
    """Builds the program over Casbin. Debian has its version 2 in the folder of version 1."""
    path = folder / "casbin/src/github.com/casbin/casbin"
    path.mkdir(parents=True)
    (path / "v2").symlink_to(CASBIN)
    settings = {**os.environ, "GO111MODULE": "off", "GOPATH": f"{folder}/casbin:/usr/share/gocode"}
    subprocess.run(["go", "build", "-o", folder / "casbin_bench", BENCH / "embedded/casbin.go"], env=settings, check=True)
    return folder / "casbin_bench"


def casbin(way: str, folder: Path, policy: Policy) -> Measured:
    """Asks Casbin in Go."""
    if not shutil.which("go") or not CASBIN.is_dir():
        return "no golang-github-casbin-casbin-dev"
    made = folder / "casbin_bench"
    return numbers(run([made if made.exists() else casbin_program(folder), way], policy.casbin()))


def sqlite(folder: Path, policy: Policy) -> Measured:
    """Asks SQLite in memory, from C."""
    if not is_compiled(folder, "sqlite3.h"):
        return "no libsqlite3-dev"
    question = QUESTION.replace("$1", "?1").replace("$2", "?2").replace("$3", "?3")
    script = policy.sql(" STRICT, WITHOUT ROWID")
    return numbers(run([compile_c("sqlite", folder, "-lsqlite3"), question], script.encode()))


def free_port() -> int:
    """Returns a port of 127.0.0.1 on which nothing listens."""
    with socket.socket() as made:
        made.bind(("127.0.0.1", 0))
        return made.getsockname()[1]


def postgres(folder: Path, policy: Policy) -> Measured:
    """Asks a PostgreSQL server of its own over 127.0.0.1, from C. Its settings are those that it is installed with."""
    sys.path.insert(0, str(BENCH))
    from access_postgres import Server, find_programs  # pylint: disable=import-outside-toplevel

    programs = find_programs()
    if not programs or not is_compiled(folder, "libpq-fe.h", *POSTGRES):
        return "no postgresql or libpq-dev"
    client, port, server = compile_c("postgres", folder, *POSTGRES), free_port(), Server(programs)
    try:
        server.start(f"-c listen_addresses=127.0.0.1 -p {port}")
        server.run("psql", "-q", "-h", server.folder, "-p", str(port), "-d", "postgres", source=policy.sql())
        return numbers(run([client, f"host=127.0.0.1 port={port} user=postgres dbname=postgres", QUESTION]))
    finally:
        server.stop()


def served(folder: Path, policy: Policy) -> Measured:
    """Asks `rbac serve` over an office in a file, from C."""
    office, port = folder / "office", free_port()
    office.unlink(missing_ok=True)
    run([PROGRAM, "init", office])
    run([PROGRAM, "replay", office], policy.lines())
    client, words = compile_c("served", folder), ["serve", office, "--port", port, "--limit", 1_000_000]
    with subprocess.Popen([PROGRAM, *map(str, words)], stdout=subprocess.PIPE) as server:
        try:
            assert server.stdout and server.stdout.readline().startswith(b"listening on ")
            return numbers(run([client, port]))
        finally:
            server.terminate()


def timed(folder: Path, text: bytes) -> tuple[float, bytes]:
    """Returns how many nanoseconds `rbac replay --memory` takes for lines, and its answers. Both are in files."""
    given, made = folder / "lines", folder / "answers"
    given.write_bytes(text)
    with open(given, "rb") as lines, open(made, "wb") as answers:
        start = time.perf_counter_ns()
        subprocess.run([PROGRAM, "replay", "--memory"], stdin=lines, stdout=answers, check=True)
        took = time.perf_counter_ns() - start
    return took, made.read_bytes()


def replay(folder: Path, policy: Policy) -> Measured:
    """Lets `rbac replay --memory` answer lines. The time of the lines that make the office is subtracted."""
    lines, questions = policy.lines(), policy.questions()
    changes = b'{"fn":"addUser","user":"extra"}\n{"fn":"deleteUser","user":"extra"}\n' * (CHANGES // 2)
    alone, _ = timed(folder, lines)
    asked, answers = timed(folder, lines + questions * TIMES)
    changed, _ = timed(folder, lines + changes)
    granted = answers.count(b'{"ok":true,"value":true}\n') // TIMES
    return (asked - alone) / QUESTIONS / TIMES, (changed - alone) / CHANGES, granted
