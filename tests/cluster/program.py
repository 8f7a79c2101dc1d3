"""The unit of rbac-node, as systemd-analyze sees it."""

import subprocess

import pytest

from program.bench import TESTS

from .running import build


def analyze(*words):
    """Returns what systemd-analyze prints, and its status."""
    done = subprocess.run(["systemd-analyze", *words], capture_output=True, text=True, check=False)
    return done.stdout + done.stderr, done.returncode


@pytest.mark.needs("systemd-analyze")
def check_unit(bench):
    """systemd-analyze finds no fault in the unit, and calls its exposure low."""
    unit = (TESTS.parent / "deploy/rbac-node.service").read_text(encoding="utf-8")
    path = bench.write("rbac-node.service", unit.replace("/usr/local/bin/rbac-node", build(bench.shared)).encode())
    bench.same("what verify prints", analyze("verify", path), ("", 0))
    said, status = analyze("security", "--offline=true", "--no-pager", "--threshold=20", path)
    bench.judge("its exposure is low", [] if status == 0 else [said[-300:]])
