"""Runs the commands as their users do."""

import io
import os
import subprocess
import sys
from contextlib import chdir
from importlib import import_module
from unittest.mock import patch

from program.bench import SECONDS, TESTS, Done

BIN = TESTS.parent / "bin"
# The Python that runs the commands, as their first line has it.
PYTHON = "/usr/bin/python3" if os.access("/usr/bin/python3", os.X_OK) else sys.executable

# What such a command has for its environment: this variable would hide what isn't written in time.
BUFFERED = {name: value for name, value in os.environ.items() if name != "PYTHONUNBUFFERED"}


def command(name, *words, folder=None, given=b"", seconds=SECONDS):
    """What `rbac-policy` or `rbac-people` prints for a command line, and its status."""
    done = subprocess.run(
        [PYTHON, "-B", BIN / name, *words], input=given, cwd=folder, capture_output=True, timeout=seconds, check=False
    )
    return Done(done.stdout, done.stderr, done.returncode)


def command_here(name, *words, folder, given=b""):
    """The same without a process of its own, whose start takes longer than most commands do."""
    streams = {
        stream: io.TextIOWrapper(io.BytesIO(content))
        for stream, content in (("stdin", given), ("stdout", b""), ("stderr", b""))
    }
    start = import_module(f"rbac_policy.{name.removeprefix('rbac-')}_command").start
    with chdir(folder), patch.multiple(sys, argv=[name, *map(str, words)], **streams):
        try:
            start()
        except SystemExit as ended:
            status = ended.code
    out, err = (streams[stream].detach().getvalue() for stream in ("stdout", "stderr"))
    return Done(out, err, status)


def policy(bench, *words, given=b""):
    """Runs `rbac-policy` in the folder of a bench."""
    return command_here("rbac-policy", *words, folder=bench.folder, given=given)


def people(bench, *words, given=b""):
    """Runs `rbac-people` in the folder of a bench."""
    return command_here("rbac-people", *words, folder=bench.folder, given=given)


def ends(bench, what, done, status, out=None, err=None):
    """Counts whether a command ended with a status, and whether some texts are in what it has printed."""
    faults = [] if done.status == status else [f"the status is {done.status} and not {status}"]
    for name, text, wanted in (("standard output", done.out.decode(), out), ("standard error", done.err.decode(), err)):
        for one in [wanted] if isinstance(wanted, str) else wanted or []:
            if one not in text:
                faults.append(f"{name} lacks {one!r}")
    if faults:
        faults.append(f"it printed {done.out.decode()[:1500]!r} and {done.err.decode()[:1500]!r}")
    bench.judge(what, faults)
