"""Random pairs of offices: a plan turns each first one into each second one, and the plain model follows it."""

import random
from collections import Counter
from contextlib import redirect_stderr, redirect_stdout
from io import StringIO

import pytest

from machine.state import MOST
from program.offices import read_rows

from . import drawing, judging_plans

# How many jobs share the pairs, and how many pairs each of them tries: 300 with --gate.
JOBS, EACH, EACH_OF_GATE = 6, 5, 50

# The seed of the first pairs, as many as EACH, which meet all of MET. The others are random ones.
KNOWN = 1

# What has to be met in some of the pairs.
MET = [
    "plans with a gap",
    "sets made under a free name",
    "pairs with as many sets as there may be",
    "sessions that end",
    "sessions that are ended",
    "permissions that are away",
]


def make_office(bench, name, state):
    """An office in a file with what a state has."""
    path = bench.path(name)
    bench.ends(["init", path], makes=[name])
    done = bench.run(["replay", path], b"".join(drawing.lines(state)))
    bench.same("answers other than ok", set(done.out.split()) - {b'{"ok":true}'}, set())
    return path


def watched(path, start, judge):
    """The office in a file, whose commands a judge sees with their refusals, after the model has done them."""
    from rbac_policy.in_file import InFile

    class Watched(InFile):
        """The model follows each command."""

        def apply(self, commands, judging, starts=()):
            state = start

            def both(command, refusal):
                nonlocal state
                state, code = judging_plans.step(state, command)
                judge(command, state, code, refusal)
                return judging(command, refusal)

            super().apply(commands, both, starts)

    return Watched(path)


def draw_pair(random, number):
    """Two states: the second one is another one, or the first one after some changes. One in six has as many sets of a sort as there may be."""
    has_many = number % 6 == 0
    first = drawing.draw_state(random, 250)
    if has_many:
        first = drawing.fill_sets(random, first, "Ssd" if number % 12 else "Dsd")
    # The second one has no sessions, so that its dynamic sets may end those of the first.
    start = None if number % 6 == 1 else first.but(sessions={})
    second = drawing.draw_state(random, 30 if start else 250, start, 80 if has_many else 6)
    if number % 2:
        first, second = drawing.move_user(random, first, second)
    if number % 5 == 2:
        first, second = drawing.forbid_session(random, first, second)
    if number % 3 != 1:
        second = drawing.replace_roles(random, second)
    if number % 4 < 2:
        second = drawing.permute_sets(random, second)
    return first, second


@pytest.mark.slow
@pytest.mark.parametrize("part", range(JOBS))
@pytest.mark.seeds()
def check_pairs(bench, part, seed):
    """Each plan is accepted; after each command nobody has what neither gives, and no set that both have is missing."""
    met = Counter()
    each = EACH_OF_GATE if bench.is_gate or bench.is_long else EACH
    for number in range(part * each, (part + 1) * each):
        chosen = KNOWN if number < EACH else seed
        first, second = draw_pair(random.Random(f"{chosen} {number}"), number)
        turn(bench, f"pair {number} of seed {chosen}", first, second, met)
    return dict(met)


def turn(bench, what, first, second, met):
    """Applies the second state to the first, and compares the rows, and what is printed afterwards."""
    from rbac_policy.applying import do, plan_for
    from rbac_policy.policy_command import main
    from rbac_policy.reading import read_policy
    from rbac_policy.validating import validate

    path = make_office(bench, f"{what} office", first)
    text = bench.path(f"{what}.toml")
    (bench.folder / f"{what}.toml").write_text(drawing.toml(second), encoding="utf-8")
    policy = read_policy([text])
    validate(policy)
    bench.same(f"{what}: mistakes", list(map(str, policy.mistakes)), [])
    faults = []
    has_gap = False

    def judge(command, state, code, refusal):
        if (None if refusal is None else refusal["code"]) != code:
            faults.append(f"{command}: {refusal}, and the model says {code}")
        if users := judging_plans.beyond(state, first, second):
            faults.append(f"after {command} {users} have what neither gives")
        if not has_gap and (sets := judging_plans.missing_sets(state, first, second)):
            faults.append(f"after {command} {sets} are missing")

    target = watched(path, first, judge)
    plan, effects = plan_for(policy, target)
    has_gap = bool(plan.gaps)
    compare_effects(bench, what, effects, first, second)
    with redirect_stdout(StringIO()) as out, redirect_stderr(StringIO()) as err:
        status = do(plan, target)
        said = [line for line in err.getvalue().splitlines() if not line.startswith(("changes: ", "answers "))]
        bench.same(f"{what}: the status of apply", (status, said), (0, []))
        status = main(["plan", text, "--file", path])
        bench.same(f"{what}: plan afterwards", (status, out.getvalue().splitlines()[-1]), (0, "No difference."))
    bench.judge(f"{what}: after each command", faults)
    bench.same(
        f"{what}: the rows", rows_of(path), rows_of(make_office(bench, f"{what} other", judging_plans.but_sessions(second)))
    )
    pull_again(bench, what, path)
    met["pairs"] += 1
    met["commands"] += len(plan.commands)
    met["plans with a gap"] += has_gap
    met["permissions that are away"] += sum(map(len, effects.away.values()))
    met["sets made under a free name"] += sum(is_free(command) for command in plan.commands)
    met["pairs with as many sets as there may be"] += max(len(first.static_sets), len(first.dynamic_sets)) == MOST["ssdSet"]
    met["sessions that end"] += len(effects.ended)
    met["sessions that are ended"] += sum(command["fn"] == "deleteSession" for command in plan.commands)


def is_free(command):
    """Whether a command makes a set under a free name."""
    return command["fn"] in ("createSsdSet", "createDsdSet") and command["set"].startswith("rbac-policy ")


def compare_effects(bench, what, effects, first, second):
    """Who gains and who loses is as the model has it."""
    wanted = {True: {}, False: {}}
    for user in sorted(first.users | second.users):
        before, after = judging_plans.permissions(first, user), judging_plans.permissions(second, user)
        for is_gain, changed in ((True, after - before), (False, before - after)):
            if changed:
                wanted[is_gain][user] = changed
    bench.same(f"{what}: who gains", effects.gained, wanted[True])
    bench.same(f"{what}: who loses", effects.lost, wanted[False])


def rows_of(path):
    """The rows of an office but for its sessions."""
    found = read_rows(path)
    found["pair_row"] = [row for row in found["pair_row"] if row[0] not in (7, 8)]
    return found


def pull_again(bench, what, path):
    """What is pulled is valid, makes no difference, and is pulled again with the same bytes."""
    from rbac_policy.policy_command import main

    with redirect_stdout(StringIO()) as first:
        main(["pull", "--users", "--file", path])
    pulled = bench.write(f"{what} pulled.toml", first.getvalue().encode())
    with redirect_stdout(StringIO()) as out:
        statuses = [main(["validate", pulled]), main(["plan", pulled, "--file", path]), main(["apply", pulled, "--file", path])]
        bench.same(f"{what}: validate, plan and apply of what was pulled", statuses, [0, 0, 0])
        bench.same(f"{what}: they say so", out.getvalue().count("No difference."), 2)
    with redirect_stdout(StringIO()) as again:
        main(["pull", "--users", "--file", path])
    bench.same(f"{what}: pulled again", again.getvalue(), first.getvalue())
