"""What the checks share: where the files are, runs of commands, and the state of a process."""

import os
import subprocess
import time
from pathlib import Path

from program.bench import PROGRAM, SECONDS, TESTS, Done

DEPLOY = TESTS.parent / "deploy"

def run(words, **more):
    """Runs a command with the program that is tested."""
    more.setdefault("env", {**os.environ, "RBAC_PROGRAM": PROGRAM})
    more.setdefault("timeout", SECONDS)
    words = [str(word) for word in words]
    done = subprocess.run(words, stdin=subprocess.DEVNULL, capture_output=True, check=False, **more)
    return Done(done.stdout, done.stderr, done.returncode)


def is_paused(pid):
    """Whether a process is paused by a signal."""
    return Path(f"/proc/{pid}/stat").read_text(encoding="utf-8").rpartition(")")[2].split()[0] == "T"


def wait_until(holds, *given, seconds=SECONDS):
    """Waits until something holds, and returns whether it did in time."""
    deadline = time.monotonic() + seconds
    while time.monotonic() < deadline:
        if holds(*given):
            return True
        time.sleep(0.005)
    return False
