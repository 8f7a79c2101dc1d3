"""Each allocation fails in turn; what sanitizers and valgrind find; sessions that ended leave nothing."""

import subprocess

import pytest

from .answers import random_script
from .building import built, compile_c, run_language

SANITIZED = ["-g", "-fsanitize=address,undefined"]

# How many sessions come and go, first and then, and how many kilobytes more the process may use then. If each left a row, they
# would be more than 10,000.
SESSIONS = (20_000, 200_000)
GROWTH = 2_048


def check_failing(bench):
    """Each allocation of each call fails in turn, and no block is left in the end."""
    program = compile_c("failing.c", "failing", *SANITIZED, parts=["rbac.c"])
    done = subprocess.run([program], capture_output=True, text=True, check=False, timeout=300)
    bench.judge("each allocation fails", [done.stdout + done.stderr] if done.returncode else [])
    return {"tries with an allocation that fails": int(done.stdout.split()[0])} if not done.returncode else {}


def check_sanitized(bench):
    """The address sanitizer sees the heap's functions, and the program that calls the library."""
    program = compile_c("lines.c", "lines_sanitized", *SANITIZED, parts=["rbac.c", "heap.c"])
    for seed in (1, 2):
        script = random_script(seed)
        given, said, status = run_language([program], b"\n".join(script.lines) + b"\n")
        bench.same(f"sanitized, seed {seed}", (given, said, status), (script.wanted, b"", 0))


def check_unwritten(bench):
    """Questions write nothing to the office or to its handle: both may only be read while they are asked."""
    program = compile_c("unwritten.c", "unwritten", parts=["rbac.c"])
    done = subprocess.run([program], capture_output=True, text=True, check=False, timeout=60)
    bench.judge("questions", [f"status {done.returncode}: {done.stdout}{done.stderr}"] if done.returncode else [])
    return {"questions over memory that may only be read": int(done.stdout)} if not done.returncode else {}


def check_threads(bench):
    """Threads share an office under a read-write lock, and the thread sanitizer finds nothing."""
    program = compile_c("threads.c", "threads", "-g", "-fsanitize=thread", parts=["rbac.c", "heap.c"])
    done = subprocess.run([program], capture_output=True, text=True, check=False, timeout=300)
    bench.same("threads", (done.stdout, done.stderr, done.returncode), ("", "", 0))


def check_ended_sessions(bench):
    """An office in memory keeps nothing of a session that ended."""
    program = compile_c("sessions.c", "sessions")
    done = subprocess.run([program, *map(str, SESSIONS)], capture_output=True, text=True, check=False, timeout=600)
    bench.same("sessions", (done.stderr, done.returncode), ("", 0))
    kilobytes = [int(it) for it in done.stdout.split()]
    bench.same("the counts", len(kilobytes), len(SESSIONS))
    bench.same(f"the growth of {kilobytes} kB", kilobytes[-1] - kilobytes[0] <= GROWTH, True)
    return {"sessions that come and go": SESSIONS[-1]}


@pytest.mark.needs("valgrind")
def check_valgrind(bench):
    """Valgrind sees the proved code too."""
    script = random_script(3)
    command = ["valgrind", "-q", "--error-exitcode=9", "--leak-check=full", built() / "lines_c"]
    given, said, status = run_language(command, b"\n".join(script.lines) + b"\n")
    bench.same("valgrind", (given, said, status), (script.wanted, b"", 0))
