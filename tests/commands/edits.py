"""Each must-fail edit of tests/edits can be applied to the sources as they are, and names a function that is there."""

import re
import shutil
import subprocess
import sys

import pytest
from program.bench import TESTS

# An edit of a crate that uses no other one, so that nothing needs to be proved before it.
SHOWN = "number-of-user-locked"
EDIT, CONTRACT = ("  - Refusal::UserLocked => 37,", "  + Refusal::UserLocked => 38,"), "      ensures { result ≡ code_of self.now }"


def check_edits(bench):
    """bin/edits reads and applies each file of tests/edits. Nothing is proved, so this needs no kit."""
    done = subprocess.run([TESTS.parent / "bin/edits", "--read"], capture_output=True, text=True, check=False)
    counted = re.fullmatch(r"(\d+) passed, 0 failed", (done.stdout.splitlines() or [""])[-1])
    bench.judge("each edit can be applied", [] if counted and done.returncode == 0 else [done.stdout[-3000:] + done.stderr])
    files = sorted((TESTS / "edits").rglob("*.edit"))
    bench.same("how many were read", counted and int(counted[1]), len(files))
    bench.passed += len(files)


def shown(*words, **settings):
    """The lines that bin/prove prints, what it prints on standard error, and its status."""
    done = subprocess.run([TESTS.parent / "bin/prove", *words], capture_output=True, text=True, check=False, **settings)
    return done.stdout.splitlines(), done.stderr, done.returncode


def check_shown_without_the_kit(bench):
    """Without the kit bin/prove --edit shows the edit and the contract, and says what is missing."""
    for name, path in (("bash", shutil.which("bash")), ("dirname", shutil.which("dirname")), ("python3", sys.executable)):
        (bench.folder / name).symlink_to(path)
    (kit,) = re.findall(r"^kit (.*)$", (TESTS.parent / "release/manifest").read_text(encoding="utf-8"), re.M)
    lines, said, status = shown("--edit", SHOWN, env={"PATH": f"{bench.folder}"})
    bench.same("its status", status, 2)
    bench.judge("the edit and the contract", [one for one in (*EDIT, CONTRACT) if one not in lines])
    bench.same("what is missing", said, f"edits: it is not tried, since `rt` of the Rattle kit is missing. Needed: {kit}\n")


def check_unknown(bench):
    """An edit that isn't there, a name of several edits and other arguments are refused."""
    for words, wanted in (
        (["--edit", "no-such-edit"], "edits: tests/edits has no edit of that name: no-such-edit\n"),
        (["--edits"], "prove: bin/prove accepts nothing, or --edit NAME\n"),
        (["--edit"], "prove: bin/prove accepts nothing, or --edit NAME\n"),
    ):
        lines, said, status = shown(*words)
        bench.same(" ".join(words), (lines, said, status), ([], wanted, 2))


@pytest.mark.gate
@pytest.mark.needs("rt")
def check_shown(bench):
    """With the kit bin/prove --edit tries the edit, and shows the goal that stays open, in a few lines."""
    lines, _, status = shown("--edit", SHOWN)
    bench.same("its status", status, 0)
    bench.judge("the edit and the contract", [one for one in (*EDIT, CONTRACT) if one not in lines])
    bench.judge("the goal", [one for one in ("  38 ≡ code_of c.args.self.now",) if one not in lines])
    bench.same("it is short", len(lines) <= 12, True)
