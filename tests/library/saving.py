"""Rows that are saved: they are those of the model, and an office that is loaded from them in any order saves the same rows."""

import random
import sys

import pytest

from machine import limits
from machine.drawing import draw_script
from machine.replaying import Replay
from machine.texts import rows as model_rows

from .building import built

SEEDS, LINES = 6, 600
# The scripts that end at a limit. The others take the model long.
LIMITS = ("roles", "objects", "edges", "sessions", "activated roles", "static sets", "dynamic sets")


def rows_of(state):
    """Returns the rows of a state of the model as the module returns them: a table's name, the names and the number."""
    from rbac_office import TABLES, Row

    tables, found = list(TABLES), []
    parts = model_rows(state)
    for kind, name in parts["name_row"]:
        found.append(Row(tables[kind - 1], (name,)))
    for kind, first, second in parts["pair_row"]:
        found.append(Row(tables[kind + 2], (first, second)))
    found += [Row("grants", tuple(it)) for it in parts["grant_row"]]
    for kind, name, number in parts["set_row"]:
        found.append(Row(tables[kind + 11], (name,), number))
    return found + [Row("locks", tuple(it)) for it in parts["locked_row"]]


def saves(bench, what, lines, draws):
    """Answers lines by the library and by the model, saves the office, and loads it twice, each time in another order."""
    from rbac_office import Office

    replay = Replay()
    with Office() as office:
        wrong = [line for line in lines if office.answer(line) != replay.answer(line)]
        saved, accepted = list(office.rows()), office.revision
    bench.same(f"{what}: lines that are answered otherwise", wrong, [])
    bench.same(f"{what}: the rows", saved, rows_of(replay.state))
    for revision in (accepted, accepted + 1):
        mixed = draws.sample(saved, len(saved))
        with Office.load(mixed, revision) as loaded:
            bench.judge(f"{what}: the rows after a load", [] if list(loaded.rows()) == saved else ["they differ"])
            bench.same(f"{what}: the revision", loaded.revision, revision)


@pytest.mark.needs("python-headers")
def check_saved_rows(bench):
    """Random offices, and offices that are at a limit."""
    sys.path.insert(0, str(built() / "python"))
    draws = random.Random(9)
    for seed in range(SEEDS):
        lines = [line for _, line, answer in draw_script(1000 + seed, LINES) if answer]
        saves(bench, f"seed {seed}", lines, draws)
    for name in LIMITS:
        saves(bench, name, [line for _, line, answer in limits.expand(limits.SCRIPTS[name]) if answer], draws)
    return {"offices that were saved and loaded": SEEDS + len(LIMITS)}
