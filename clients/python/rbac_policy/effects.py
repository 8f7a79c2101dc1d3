"""What a plan changes for users and sessions. The program answers it, over offices in memory."""

import json
from collections.abc import Iterable
from dataclasses import dataclass, field

from .model import Command, State
from .planning import Plan
from .program import OK, Replay, memory_office

Permission = tuple[str, str]

# How many questions are asked at once.
_MOST_AT_ONCE = 2_000


@dataclass
class Effects:
    """What users may do after a plan and not before, and the other way round, and what both give and is away in between.

    A locked user may do nothing. `ended` has the sessions that end, and `refused` the commands that the office would refuse.
    """

    gained: dict[str, set[Permission]] = field(default_factory=dict)
    lost: dict[str, set[Permission]] = field(default_factory=dict)
    away: dict[str, set[Permission]] = field(default_factory=dict)
    ended: dict[str, str] = field(default_factory=dict)
    refused: list[tuple[Command, dict[str, object]]] = field(default_factory=list)


def effects_of(plan: Plan) -> Effects:
    """Does a plan over a copy of the office in memory, and asks who may do what before, in between and after."""
    effects = Effects()
    if not plan.commands:
        return effects
    samples = _samples(plan)
    found, wanted = plan.found.users, plan.wanted.users
    with memory_office(plan.found) as office:
        before = _permissions(office, (user for user in samples if found.get(user) is False))
        _do(office, plan.commands[: plan.lowest], effects)
        between = _permissions(office, (user for user in samples if not found.get(user) and not wanted.get(user)))
        _do(office, plan.commands[plan.lowest :], effects)
        after = _permissions(office, (user for user in samples if wanted.get(user) is False))
        effects.ended = ended_sessions(office, plan.found)
    nothing: frozenset[Permission] = frozenset()
    for sample, users in samples.items():
        had, kept, has = (answers.get(sample, nothing) for answers in (before, between, after))
        for changed, kind in ((has - had, effects.gained), (had - has, effects.lost), ((had & has) - kept, effects.away)):
            if changed:
                kind.update((user, set(changed)) for user in users)
    return effects


def ended_sessions(office: Replay, found: State) -> dict[str, str]:
    """The sessions of a state that an office no longer has, with their users."""
    questions = [{"fn": "sessionRoles", "session": session} for session in found.sessions]
    answers = zip(found.sessions.items(), office.do(questions))
    return {session: user for (session, (user, _)), answer in answers if not answer.startswith(OK)}


def _samples(plan: Plan) -> dict[str, list[str]]:
    """One of the users who have the same roles before, in between and after, and are locked alike, with all of them."""
    roles: dict[str, tuple[list[str], list[str], list[str]]] = {}
    early = [command for command in plan.commands[: plan.lowest] if command["fn"] == "assignUser"]
    added = sorted((command["user"], command["role"]) for command in early)
    for place, pairs in enumerate((sorted(plan.found.assignments), added, sorted(plan.wanted.assignments))):
        for user, role in pairs:
            roles.setdefault(user, ([], [], []))[place].append(role)
    alike: dict[object, list[str]] = {}
    for user in sorted({*plan.found.users, *plan.wanted.users}):
        locks = plan.found.users.get(user), plan.wanted.users.get(user)
        kinds = tuple(tuple(names) for names in roles.get(user, ()))
        alike.setdefault((kinds, locks), []).append(user)
    return {users[0]: users for users in alike.values()}


def _permissions(office: Replay, users: Iterable[str]) -> dict[str, frozenset[Permission]]:
    """The permissions of users who aren't locked: none of those who aren't there."""
    found: dict[str, frozenset[Permission]] = {}
    read: dict[bytes, frozenset[Permission]] = {}
    left = list(users)
    while left:
        some, left = left[:_MOST_AT_ONCE], left[_MOST_AT_ONCE:]
        for user, answer in zip(some, office.do({"fn": "userPermissions", "user": user} for user in some)):
            if answer not in read:
                value = json.loads(answer).get("value", []) if answer.startswith(OK) else []
                read[answer] = frozenset((ob, op) for ob, op in value)
            found[user] = read[answer]
    return found


def _do(office: Replay, commands: list[Command], effects: Effects) -> None:
    """Does commands, and notes those that are refused. A session that has already ended needs no end."""
    for command, answer in zip(commands, office.do(commands)):
        if not answer.startswith(OK):
            refusal = json.loads(answer)
            if not (command["fn"] == "deleteSession" and refusal["code"] == 26):
                effects.refused.append((command, refusal))
