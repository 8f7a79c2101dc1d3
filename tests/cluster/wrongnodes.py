"""Nodes with a fault: the checks of the record and of conditions have to notice each."""

import traceback
from functools import partial

import pytest

from program.bench import Bench

from . import records, stated

# The seed with which the record is checked.
SEED = 1

# How often a wrong node is tried at most: on a busy machine it may show its fault at a later try only.
TRIES = 3

# By its fault: the check that has to fail, and what it has to say.
WRONG = {
    "JudgesBeforeLog": (stated.check_conditions, "and the policy had"),
    "ForgetsCaller": (partial(records.check_records, seed=SEED), "different entries of one number"),
    # The nodes notice this one themselves: their snapshots have different revisions of the policy.
    "NumbersByItself": (stated.check_conditions, '"error":"Diverged"'),
}


def faults_of(check, folder, node):
    """What a check finds wrong with a node."""
    inner = Bench(folder)
    inner.shared, inner.is_long, inner.is_gate = folder, False, False
    try:
        check(inner, node=node)
    except Exception:
        inner.faults.append(traceback.format_exc())
    return inner.faults


@pytest.mark.gate
@pytest.mark.parametrize("wrong", WRONG)
def check_wrong(bench, faulty, wrong):
    """The wrong node is caught."""
    check, says = WRONG[wrong]
    found, number = [], 0
    while not found and number < TRIES:
        folder = bench.folder / f"cluster{number}"
        folder.mkdir()
        found, number = [fault for fault in faults_of(check, folder, faulty(wrong)) if says in fault], number + 1
    print(f"{len(found)} faults, such as {found[0][-300:] if found else None}", flush=True)
    bench.judge("this is caught", [] if found else [f"nothing says {says!r}"])
