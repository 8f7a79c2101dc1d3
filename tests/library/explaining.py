"""The reasons of decisions, the sets that commands would violate, and the rows with a first name are those of the plain model."""

import itertools
import json
import random
import sys
from collections import Counter

import pytest

from machine.commands import COMMANDS, apply
from machine.reasons import (
    activation_conflicts,
    assignment_conflicts,
    creation_conflicts,
    explain_session,
    explain_user,
    inheritance_conflicts,
)
from machine.state import Refused, State

from .building import LANGUAGES, built, command_of, run_language
from .users import PERMISSIONS, USERS, draw_commands

OFFICES = 1_000


def model_of(commands):
    """Returns the plain model after these commands, some of which are refused, and those that were done."""
    state, done = State(), []
    for function, arguments in commands:
        try:
            state, _ = apply(state, function, [arguments[key] for key in COMMANDS[function][1].split()])
        except Refused:
            continue
        done.append((function, arguments))
    return state, done


@pytest.mark.needs("python-headers")
def check_reasons(bench):
    """In random offices with dynamic sets, juniors and locks each reason is that of the model, and says whether the user may."""
    sys.path.insert(0, str(built() / "python"))
    from rbac_office import Office
    from rbac_office import Refused as NotThere

    draws, counted, wrong = random.Random(66), Counter(), []
    asked = [*PERMISSIONS, ("desk", "open"), ("safe", "burn")]
    for number in range(OFFICES):
        state, commands = model_of(draw_commands(draws)[1])
        with Office() as office:
            for function, arguments in commands:
                office.call(function, **arguments)
            for user in [*USERS, "zoe"]:
                for ob, op in asked:
                    try:
                        wanted = explain_user(state, user, op, ob)
                    except Refused as refused:
                        wanted = refused.code
                    try:
                        reason = tuple(office.explain_user(user, op, ob))
                        if (reason[0] == "allowed") != office.check_user(user, op, ob):
                            wrong.append(f"office {number}, {user}, {op}, {ob}: {reason}, which is not the decision")
                    except NotThere as refused:
                        reason = refused.code
                    if reason != wanted:
                        wrong.append(f"office {number}, {user}, {op}, {ob}: {reason} and not {wanted}")
                    counted[wanted if isinstance(wanted, int) else wanted[0]] += 1
    bench.judge("reasons", wrong)
    for why, count in counted.items():
        bench.same(f"at least 100: {why}", count >= 100, True)
    bench.same(
        "kinds", {str(it) for it in counted}, {"allowed", "locked", "notGranted", "notAuthorized", "separated", "2", "6", "33"}
    )
    return {f"reasons: {why}": count for why, count in counted.items()}


def draw_sets(draws, roles, function="createSsdSet"):
    """Returns commands that make overlapping sets of these roles, static ones if no function is named."""
    commands = []
    for number in range(draws.randint(1, 4)):
        members = draws.sample(roles, draws.randint(2, min(4, len(roles))))
        commands.append((function, {"set": f"s{number}", "roles": members, "cardinality": draws.randint(2, len(members))}))
    return commands


def with_sets(commands, roles, *sets):
    """Returns the commands, which begin by adding the roles, with those for sets directly behind these."""
    return [*commands[: len(roles)], *itertools.chain(*sets), *commands[len(roles) :]]


def wanted_conflicts(state, user, role):
    """Returns the sets that the model would violate, or the code of its refusal, and the set that its command names."""
    try:
        apply(state, "assignUser", [user, role])
        named = None
    except Refused as refused:
        named = refused.details.get("set")
    try:
        return assignment_conflicts(state, user, role), named
    except Refused as refused:
        return refused.code, named


@pytest.mark.needs("python-headers")
def check_conflicts(bench):
    """In random offices with static sets and juniors the sets are those of the model, and assignUser names the first."""
    sys.path.insert(0, str(built() / "python"))
    from rbac_office import Office
    from rbac_office import Refused as NotThere

    draws, counted, wrong = random.Random(67), Counter(), []
    for number in range(OFFICES):
        roles, commands = draw_commands(draws)
        sets = draw_sets(draws, roles)
        state, commands = model_of(with_sets(commands, roles, sets) if number % 2 else commands + sets)
        with Office() as office:
            for function, arguments in commands:
                office.call(function, **arguments)
            for user in [*USERS, "zoe"]:
                for role in [*roles, "none"]:
                    wanted, named = wanted_conflicts(state, user, role)
                    try:
                        given = office.assignment_conflicts(user, role)
                    except NotThere as refused:
                        given = refused.code
                    if given != wanted or named is not None and given[0] != named:
                        wrong.append(f"office {number}, {user}, {role}: {given} and not {wanted}, {named}")
                    counted[f"refused {given}" if isinstance(given, int) else f"{min(len(given), 2)} sets"] += 1
    bench.judge("conflicts", wrong)
    bench.same("kinds", set(counted), {"0 sets", "1 sets", "2 sets", "refused 2", "refused 4"})
    for why, count in counted.items():
        bench.same(f"at least 100: {why}", count >= 100, True)
    return {f"conflicts: {why}": count for why, count in counted.items()}


def draw_sessions(draws, roles):
    """Returns commands that create sessions and activate these roles in them."""
    commands = []
    for session in ("t0", "t1", "t2", "t3"):
        user, active = draws.choice(USERS), draws.sample(roles, draws.randint(0, 2))
        commands.append(("createSession", {"user": user, "session": session, "roles": active}))
        commands.append(("createSession", {"user": user, "session": session, "roles": []}))
        for role in draws.sample(roles, 3):
            commands.append(("addActiveRole", {"user": user, "session": session, "role": role}))
    return commands


def answer(function, *arguments):
    """Returns what a function of the model gives, or the code of its refusal."""
    try:
        return function(*arguments)
    except Refused as refused:
        return refused.code


def answer_of(function, *arguments):
    """The same for a function of the library."""
    from rbac_office import Refused as NotThere

    try:
        return function(*arguments)
    except NotThere as refused:
        return refused.code


def named_set(state, function, *arguments):
    """Returns the code of the command's refusal, and the set that it names; both are None if it is done."""
    try:
        apply(state, function, list(arguments))
    except Refused as refused:
        return refused.code, refused.details.get("set")
    return None, None


def judged(bench, what, counted, wrong):
    """Nothing is wrong, and each kind came often enough."""
    bench.judge(what, wrong)
    for why, count in counted.items():
        bench.same(f"at least 100: {what}, {why}", count >= 100, True)
    return {f"{what}: {why}": count for why, count in counted.items()}


@pytest.mark.needs("python-headers")
def check_reasons_of_sessions(bench):
    """In random offices with sessions each reason is that of the model, and says whether the session may."""
    sys.path.insert(0, str(built() / "python"))
    from rbac_office import Office

    draws, counted, wrong = random.Random(68), Counter(), []
    for number in range(OFFICES):
        roles, commands = draw_commands(draws)
        state, commands = model_of(commands + draw_sessions(draws, roles))
        with Office() as office:
            for function, arguments in commands:
                office.call(function, **arguments)
            for session in ["t0", "t1", "t2", "t3", "t4"]:
                for ob, op in [*PERMISSIONS, ("desk", "open"), ("safe", "burn")]:
                    wanted, given = answer(explain_session, state, session, op, ob), answer_of(
                        office.explain_session, session, op, ob
                    )
                    given = given if isinstance(given, int) else tuple(given)
                    if given != wanted:
                        wrong.append(f"office {number}, {session}, {op}, {ob}: {given} and not {wanted}")
                    if not isinstance(given, int) and (given[0] == "allowed") != office.check(session, op, ob):
                        wrong.append(f"office {number}, {session}, {op}, {ob}: {given}, which is not the decision")
                    counted[str(wanted if isinstance(wanted, int) else wanted[0])] += 1
    bench.same("kinds", set(counted), {"allowed", "notGranted", "notActive", "26", "6", "33"})
    return judged(bench, "reasons of sessions", counted, wrong)


@pytest.mark.needs("python-headers")
def check_activations(bench):
    """In random offices with dynamic sets the sets are those of the model, and addActiveRole names the first."""
    sys.path.insert(0, str(built() / "python"))
    from rbac_office import Office

    draws, counted, wrong = random.Random(69), Counter(), []
    for number in range(OFFICES):
        roles, commands = draw_commands(draws)
        state, commands = model_of(commands + draw_sessions(draws, roles))
        with Office() as office:
            for function, arguments in commands:
                office.call(function, **arguments)
            for asked in itertools.product([*USERS, "zoe"], ["t0", "t1", "t4"], [*roles, "none"]):
                wanted, given = answer(activation_conflicts, state, *asked), answer_of(office.activation_conflicts, *asked)
                code, named = named_set(state, "addActiveRole", *asked)
                if given != wanted or code == 25 and given[0] != named or code is None and given != []:
                    wrong.append(f"office {number}, {asked}: {given} and not {wanted}, {named}")
                counted[f"refused {given}" if isinstance(given, int) else f"{min(len(given), 2)} sets"] += 1
    wanted = {"0 sets", "1 sets", "2 sets", "refused 2", "refused 4", "refused 26", "refused 28", "refused 29"}
    bench.same("kinds", set(counted), wanted)
    return judged(bench, "activations", counted, wrong)


@pytest.mark.needs("python-headers")
def check_creations(bench):
    """In random offices with dynamic sets the sets and their roles are those of the model, and createSession names the first."""
    sys.path.insert(0, str(built() / "python"))
    from rbac_office import Office

    draws, counted, wrong = random.Random(72), Counter(), []
    for number in range(OFFICES):
        roles, commands = draw_commands(draws)
        commands = with_sets(commands, roles, draw_sets(draws, roles, "createDsdSet"))
        state, commands = model_of(commands + draw_sessions(draws, roles))
        with Office() as office:
            for function, arguments in commands:
                office.call(function, **arguments)
            for user, count in itertools.product([*USERS, "zoe"], range(4)):
                asked = user, draws.sample([*roles, "none"], count)
                wanted, given = answer(creation_conflicts, state, *asked), answer_of(office.creation_conflicts, *asked)
                code, named = named_set(state, "createSession", *asked, "new")
                if given != wanted or code == 25 and given[0][0] != named or code is None and given != []:
                    wrong.append(f"office {number}, {asked}: {given} and not {wanted}, {named}")
                counted[f"refused {given}" if isinstance(given, int) else f"{min(len(given), 2)} sets"] += 1
    bench.same("kinds", set(counted), {"0 sets", "1 sets", "2 sets", "refused 2", "refused 4", "refused 29", "refused 37"})
    return judged(bench, "creations", counted, wrong)


@pytest.mark.needs("python-headers")
def check_inheritances(bench):
    """In random offices the sets with users and with sessions are those of the model, and addInheritance names the first."""
    sys.path.insert(0, str(built() / "python"))
    from rbac_office import Office

    draws, counted, wrong = random.Random(70), Counter(), []
    for number in range(OFFICES):
        roles, commands = draw_commands(draws)
        sets = draw_sets(draws, roles), draw_sets(draws, roles, "createDsdSet")
        state, commands = model_of(with_sets(commands, roles, *sets) + draw_sessions(draws, roles))
        with Office() as office:
            for function, arguments in commands:
                office.call(function, **arguments)
            for asked in itertools.product([*roles, "none"], repeat=2):
                wanted = answer(inheritance_conflicts, state, *asked)
                users = answer_of(office.inheritance_conflicts, *asked)
                given = users if isinstance(users, int) else (users, office.inheritance_conflicts(*asked, of_sessions=True))
                code, named = named_set(state, "addInheritance", *asked)
                first = {24: lambda: users[0][0], 25: lambda: given[1][0][0]}.get(code, lambda: None)
                if given != wanted or first() != named or code is None and given != ([], []):
                    wrong.append(f"office {number}, {asked}: {given} and not {wanted}, {named}")
                if isinstance(given, int):
                    counted[f"refused {given}"] += 1
                    continue
                for kind, found in zip(("static", "dynamic"), given):
                    counted[f"{min(len(found), 2)} {kind}"] += 1
    kinds = {f"{count} {kind}" for count in range(3) for kind in ("static", "dynamic")}
    bench.same("kinds", set(counted), kinds | {"refused 4", "refused 16"})
    return judged(bench, "inheritances", counted, wrong)


@pytest.mark.needs("python-headers")
def check_ranges(bench):
    """In random offices the rows with a first name are those of all rows that have it."""
    sys.path.insert(0, str(built() / "python"))
    from rbac_office import Office, TABLES

    draws, counted, wrong = random.Random(71), Counter(), []
    for number in range(OFFICES // 5):
        roles, commands = draw_commands(draws)
        _, commands = model_of(with_sets(commands, roles, draw_sets(draws, roles)) + draw_sessions(draws, roles))
        with Office() as office:
            for function, arguments in commands:
                office.call(function, **arguments)
            all_rows = list(office.rows())
            asked = {row.names[0] for row in all_rows} | {"", "a", "r", "s\N{LATIN SMALL LETTER ETH}", "zz"}
            for table, first in itertools.product(TABLES, sorted(asked)):
                wanted = [row for row in all_rows if row.table == table and row.names[0] == first]
                if office.rows_with(table, first) != wanted:
                    wrong.append(f"office {number}, {table}, {first}: not {wanted}")
                counted[f"{table}, {'some' if wanted else 'none'}"] += 1
    bench.same("tables with rows", {why.split(",")[0] for why in counted if why.endswith("some")}, set(TABLES))
    bench.judge("ranges", wrong)
    return {"ranges": sum(counted.values())}


def said(found):
    """Returns what a language prints for the sets that a command would violate, or for the code of a refusal."""
    if isinstance(found, int):
        return str(-found).encode()
    rows = [row if isinstance(row, tuple) else (row, ()) for row in found]
    rows = [(name, *([more] if isinstance(more, str) else more)) for name, more in rows]
    return ";".join(",".join(row) for row in rows).encode()


def asked_of_all(draws, state, roles):
    """Returns lines that ask for conflicts, and what each language has to print."""
    users, sessions, roles = [*USERS, "zoe"], ["t0", "t1", "t4"], [*roles, "none"]
    asked = []
    for _ in range(25):
        user, session, asc, desc = draws.choice(users), draws.choice(sessions), draws.choice(roles), draws.choice(roles)
        some = draws.sample(roles, draws.randint(0, 3))
        asked.append((["assignment", user, asc], answer(assignment_conflicts, state, user, asc)))
        asked.append((["activation", user, session, asc], answer(activation_conflicts, state, user, session, asc)))
        asked.append((["creation", user, *some], answer(creation_conflicts, state, user, some)))
        both = answer(inheritance_conflicts, state, asc, desc)
        for place, kind in enumerate(("users", "sessions")):
            asked.append(([kind, asc, desc], both if isinstance(both, int) else both[place]))
    return [b"%" + "\t".join(words).encode() for words, _ in asked], [said(found) for _, found in asked]


@pytest.mark.parametrize("language", LANGUAGES)
def check_conflicts_in_all_languages(bench, language):
    """In random offices each language names the sets of the model, and with whom or with which roles they would be violated."""
    draws, faults, counted = random.Random(73), [], Counter()
    for number in range(OFFICES // 25):
        roles, commands = draw_commands(draws)
        sets = draw_sets(draws, roles), draw_sets(draws, roles, "createDsdSet")
        state, commands = model_of(with_sets(commands, roles, *sets) + draw_sessions(draws, roles))
        lines = [json.dumps({**arguments, "fn": function}).encode() for function, arguments in commands]
        asked, wanted = asked_of_all(draws, state, roles)
        given, errors, status = run_language(command_of(language), b"\n".join([*lines, *asked]) + b"\n")
        if errors or status or given[: len(lines)] != [b'{"ok":true}'] * len(lines) or len(given) != len(lines) + len(asked):
            faults.append(f"office {number}: status {status}, {len(given)} answers, {errors[-300:]!r}")
        for line, got, want in zip(asked, given[len(lines) :], wanted):
            if got != want:
                faults.append(f"office {number}, {line!r}: {got!r} and not {want!r}")
            counted["refused" if want.startswith(b"-") else "violated" if want else "none"] += 1
    bench.judge(language, faults)
    for kind in ("refused", "violated", "none"):
        bench.same(f"at least 100: {kind}", counted[kind] >= 100, True)
    return {f"conflicts, {language}": sum(counted.values())}
