"""The tests of a policy: the program answers them, from an office in memory."""

import json
from collections.abc import Iterator

from .model import State, shown
from .program import OK, Replay, memory_office
from .reading import Policy, Test
from .validating import absent

# The session in which a test is made, of which an office in memory has no other.
_SESSION = "test"


def run_tests(policy: Policy) -> tuple[int, list[str]]:
    """How many tests a policy without mistakes has, and a text for each thing that isn't as one of them says."""
    faults: list[str] = []
    state = policy.state
    with memory_office(state) as with_users, memory_office(state.but(users={}, assignments=set())) as without:
        for test in policy.tests:
            faults += [str(policy.at(test.path, text)) for text in _faults(test, state, with_users if test.user else without)]
    return len(policy.tests), faults


def _faults(test: Test, state: State, office: Replay) -> Iterator[str]:
    """What a test finds."""
    if test.user is not None and test.user not in state.users:
        yield absent("user", test.user, state.users)
        return
    user = test.user or "test"
    refusal = _make(test, user, office)
    if refusal is None and test.refused_by is not None:
        yield f"nothing is refused by the set {shown(test.refused_by)}"
    elif refusal is not None and (test.refused_by is None or refusal.get("set") != test.refused_by):
        yield _refusal_text(refusal)
    elif refusal is None:
        yield from _answers(test, user, state, office)
    if test.user is None:
        office.do([{"fn": "deleteUser", "user": user}])
    else:
        office.do([{"fn": "deleteSession", "user": user, "session": _SESSION}])


def _make(test: Test, user: str, office: Replay) -> dict[str, object] | None:
    """Makes the user of a test and its session, and returns the first refusal."""
    commands: list[dict[str, object]] = []
    if test.roles is not None:
        commands += [{"fn": "addUser", "user": user}]
        commands += [{"fn": "assignUser", "user": user, "role": role} for role in test.roles]
    if test.session is not None:
        commands += [{"fn": "createSession", "user": user, "roles": list(test.session), "session": _SESSION}]
    for command in commands:
        (answer,) = office.do([command])
        if not answer.startswith(OK):
            refusal: dict[str, object] = json.loads(answer)
            return refusal
    return None


def _refusal_text(refusal: dict[str, object]) -> str:
    details = f" {shown(str(refusal['set']))}" if "set" in refusal else ""
    return f"the roles or the session are refused: {refusal['code']} {refusal['error']}{details}"


def _answers(test: Test, user: str, state: State, office: Replay) -> Iterator[str]:
    """What the user of a test may do and shouldn't, or the other way round."""
    allowed = _allowed(test, user, state, office)
    for wanted, permissions in ((True, test.may), (False, test.may_not)):
        for ob, op in permissions:
            if ob not in state.objects:
                yield absent("object", ob, state.objects)
            elif (ob, op) not in state.permissions:
                known = {known for other, known in state.permissions if other == ob}
                yield f"the object {shown(ob)} has {absent('operation', op, known, 'no')}"
            elif ((ob, op) in allowed) != wanted:
                who = shown(user) if test.user else "a user with these roles"
                yield f"{who} {'may not' if wanted else 'may'} {shown(op)} on {shown(ob)}"


def _allowed(test: Test, user: str, state: State, office: Replay) -> set[tuple[str, str]]:
    """Which of the permissions that a test names the user has."""
    if test.session is None:
        if state.users.get(user, False) and test.user:
            return set()
        (answer,) = office.do([{"fn": "userPermissions", "user": user}])
        return {(ob, op) for ob, op in json.loads(answer)["value"]}
    named = [*test.may, *test.may_not]
    questions = [{"fn": "checkAccess", "session": _SESSION, "operation": op, "object": ob} for ob, op in named]
    return {pair for pair, answer in zip(named, office.do(questions)) if answer == b'{"ok":true,"value":true}'}
