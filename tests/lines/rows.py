"""Each row of the folder rows: the program and the plain model answer its lines as the files beside it say."""

from pathlib import Path

import pytest

from machine.replaying import Replay
from program.bench import TESTS, Done

ROWS = sorted((TESTS / "rows").rglob("*.jsonl"), key=str)
# The program makes no office of version 1 in memory.
OF_PROGRAM = [row for row in ROWS if row.parent.name != "version-1"]


def name_of(row):
    return str(row.relative_to(TESTS / "rows").with_suffix(""))


def content(row, suffix, otherwise=b""):
    """The bytes of a file beside a row, or others if it is missing."""
    path: Path = row.with_suffix(suffix)
    return path.read_bytes() if path.exists() else otherwise


@pytest.mark.parametrize("row", OF_PROGRAM, ids=name_of)
def check_program(bench, row):
    done = bench.run(["replay", "--memory"], row.read_bytes())
    wanted = Done(content(row, ".answers"), content(row, ".stderr"), int(content(row, ".status", b"0")))
    bench.same(name_of(row), done, wanted)


@pytest.mark.parametrize("row", ROWS, ids=name_of)
def check_model(bench, row):
    replay = Replay(1 if row.parent.name == "version-1" else 2)
    bench.same("the answers", b"".join(replay.answers(row.read_bytes())), content(row, ".answers"))
    bench.same("the message", replay.message(), content(row, ".stderr"))
