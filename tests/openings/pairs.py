"""Each fault of an office alone, and each two of them together: the one that is judged first is reported."""

import os
from itertools import combinations

import pytest

from machine import opening
from machine.replaying import Replay
from machine.texts import json_text, rows
from program.offices import SMALL

from .faults import all_faults
from .files import expect_refused, judged, loose, read, write

# How many checks share the faults. How many of those that are judged at one place go into pairs, and with `--long`.
PARTS = 4
OF_A_PLACE, MORE_OF_A_PLACE = 1, 6

# Faults of more rows go into pairs with `--long` only.
MOST_ROWS = 2_100


def small_state(version):
    """The state of the small office."""
    model = Replay(version)
    for line in SMALL:
        model.answer(line.rstrip(b"\n"))
    return model.state


def faulty_tables(state, faults):
    """The rows of an office with these faults, and the statements that drop what they lack."""
    tables = {table: list(some) for table, some in rows(state).items()}
    for fault in faults:
        for table, some in fault.rows.items():
            tables.setdefault(table, []).extend(some)
    for fault in faults:
        if fault.tag != "rbac":
            retagged = [(fault.tag if tag == "rbac" else tag, version) for tag, version in tables["meta_row"]]
            tables["meta_row"] = retagged
    gone = {fault.drops for fault in faults if fault.drops and not fault.lacks}
    after = [f"DROP TABLE {table}" for table in sorted(gone)]
    for fault in faults:
        if fault.lacks and fault.drops not in gone:
            after.append(f"ALTER TABLE {fault.drops} RENAME COLUMN {fault.lacks} TO other")
    return tables, after


def try_faults(bench, state, faults, words):
    """One office with these faults, in the order in which they are judged: model and program report the first."""
    tables, after = faulty_tables(state, faults)
    statements = [loose(table, opening.COLUMNS[table]) for table in tables]
    path = bench.path("office")
    write(path, statements, tables, after)
    what = f"version {state.version}, " + " and ".join(fault.name for fault in faults)
    wanted = json_text(faults[0].refusal).encode()
    bench.same(f"the model of {what}", judged(opening.open_state, read(path))[1], wanted)
    expect_refused(bench, what, path, wanted, words)
    os.remove(path)


# A part of the faults in version 1 always, and half of those in version 2; the others with --gate.
ALONE = [(1, 0), *((2, part) for part in range(PARTS // 2))]
ALONE += [pytest.param(1, part, marks=pytest.mark.gate) for part in range(1, PARTS)]
ALONE += [pytest.param(2, part, marks=pytest.mark.gate) for part in range(PARTS // 2, PARTS)]


@pytest.mark.parametrize("version, part", ALONE)
def check_alone(bench, version, part):
    """Each fault alone, for a part of them."""
    state, faults = small_state(version), all_faults(version)[part::PARTS]
    for fault in faults:
        try_faults(bench, state, [fault], ["check", "replay"])
    return {"single faults": len(faults)}


def count_rows(fault):
    """How many rows a fault adds."""
    return sum(len(some) for some in fault.rows.values())


def some_of_each_place(faults, most):
    """At most this many of the faults that are judged at one place, spread evenly."""
    places = {}
    for fault in faults:
        places.setdefault(fault.place, []).append(fault)
    found = []
    for some in places.values():
        count = min(most, len(some))
        found += [some[number * len(some) // count] for number in range(count)]
    return found


@pytest.mark.parametrize("part", range(PARTS))
@pytest.mark.parametrize("version", [pytest.param(1, marks=pytest.mark.gate), 2])
def check_pairs(bench, version, part):
    """Each two faults that are judged at two places, for a part of these pairs."""
    state, faults = small_state(version), all_faults(version)
    if bench.is_long:
        faults = some_of_each_place(faults, MORE_OF_A_PLACE)
    else:
        faults = some_of_each_place([fault for fault in faults if count_rows(fault) <= MOST_ROWS], OF_A_PLACE)
    pairs = [pair for pair in combinations(faults, 2) if pair[0].place != pair[1].place]
    for pair in pairs[part::PARTS]:
        try_faults(bench, state, pair, ["check"])
    return {"pairs of faults": len(pairs[part::PARTS])}
