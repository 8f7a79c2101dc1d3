"""Policies are tried by the program, over an office in memory: it refuses what an office would refuse."""

import difflib
import json
from collections import Counter
from collections.abc import Iterable

from .mistakes import Path
from .model import KINDS, LIMITS, SET_FUNCTIONS, Command, State, listed, shown
from .program import OK, Replay
from .reading import Policy

# The key of the thing that a refusal says isn't there, in the order in which a command is judged.
_CREATES = {functions[0]: sort for sort, functions in SET_FUNCTIONS.items()}


def validate(policy: Policy) -> None:
    """Notes what the office would refuse of a policy that was read, and what no test may name."""
    with Replay() as office:
        answers = office.do(command for command, _ in policy.steps)
    beyond: set[str] = set()
    for (command, path), answer in zip(policy.steps, answers):
        if answer.startswith(OK):
            continue
        refusal = json.loads(answer)
        if refusal["code"] == 32 and refusal["kind"] != "member":
            if refusal["kind"] not in beyond:
                beyond.add(refusal["kind"])
                _note_beyond(policy, refusal["kind"], path)
            continue
        if beyond and _is_there(policy.state, command, refusal["code"]):
            continue
        for at, text in reasons(policy.state, command, path, refusal):
            policy.note(at, text)


def _is_there(state: State, command: Command, code: object) -> bool:
    """Whether the policy has what the office says isn't there: a limit alone has kept it out."""
    roles = {command[key] for key in ("role", "asc", "desc") if key in command} | {*command.get("roles", ())}
    return (
        (code == 2 and command["user"] in state.users)
        or (code == 4 and roles <= state.roles)
        or (code == 6 and command["object"] in state.objects)
        or (code == 8 and (command["object"], command["operation"]) in state.permissions)
    )


def _note_beyond(policy: Policy, kind: str, path: Path) -> None:
    count = policy.state.counts()[kind]
    policy.note(path[:1], f"an office has at most {LIMITS[kind]:,} {KINDS[kind]}, and these are {count:,}")


def reasons(state: State, command: Command, path: Path, refusal: dict[str, object]) -> Iterable[tuple[Path, str]]:
    """Why the office refuses a command that is from a path, for a reader of the file: each reason with its path."""
    code, function = refusal["code"], command["fn"]
    if _is_there(state, command, code):
        yield path, f"the office refuses {function}: {code} {refusal['error']}, since a limit has kept that out"
    elif code == 4 and "roles" in command:
        for role in command["roles"]:
            if role not in state.roles:
                yield (*path, "roles"), absent("role", role, state.roles)
    elif code == 4:
        role = next(command[key] for key in ("role", "desc", "asc") if key in command and command[key] not in state.roles)
        yield path, absent("role", role, state.roles)
    elif code == 6:
        yield path, absent("object", command["object"], state.objects)
    elif code == 8:
        known = {op for ob, op in state.permissions if ob == command["object"]}
        yield path, f"the object {shown(command['object'])} has {absent('operation', command['operation'], known, 'no')}"
    elif code == 16:
        yield path, f"a role would inherit from itself: {cycle_text(state, command['asc'], command['desc'])}"
    elif code == 23 and "roles" in command:
        count = len(set(command["roles"]))
        yield (*path, "cardinality"), f"it has to be from 2 to the number of roles, which is {count}" if count > 1 else (
            f"a set needs at least 2 roles, and this one has {count}"
        )
    elif code == 32 and "roles" in command:
        yield (*path, "roles"), f"a set has at most {LIMITS['member']} roles, and this one has {len(set(command['roles']))}"
    elif code in (24, 25):
        yield path, violation_text(state, command, str(refusal["set"]), "static" if code == 24 else "dynamic")
    else:
        yield path, f"the office refuses {function}: {code} {refusal['error']}"


def absent(what: str, name: str, known: Iterable[str], article: str = "there is no") -> str:
    """That there is no such thing, and what may have been meant."""
    near = difflib.get_close_matches(name, list(known), 1)
    return f"{article} {what} {shown(name)}" + (f"; is {shown(near[0])} meant?" if near else "")


def cycle_text(state: State, asc: str, desc: str) -> str:
    """The roles of a way from a descendant to its ascendant, and back."""
    juniors: dict[str, list[str]] = {}
    for senior, junior in sorted(state.edges):
        juniors.setdefault(senior, []).append(junior)
    before: dict[str, str] = {}
    ahead = [desc]
    for role in ahead:
        for junior in juniors.get(role, ()):
            if junior not in before and junior != desc:
                before[junior] = role
                ahead.append(junior)
    way = [asc]
    while way[-1] != desc and way[-1] in before:
        way.append(before[way[-1]])
    return " > ".join(map(shown, [asc, *reversed(way)]))


def violation_text(state: State, command: Command, name: str, sort: str) -> str:
    """Who would have too many roles of a set, and which."""
    duty = state.sets(sort).get(name)
    if duty is None:
        return f"the {sort} set {shown(name)} would be violated"
    most = (
        f"of which nobody may have {duty.cardinality}"
        if sort == "static"
        else f"of which no session may have {duty.cardinality}"
    )
    what = f"the {sort} set {shown(name)} has {listed(duty.roles, 32)}, {most}"
    if "user" in command:
        return f"{shown(command['user'])} would have too many roles of a set: {what}"
    holders = violators(state, name, sort)
    who = "users" if sort == "static" else "sessions"
    return f"{what}; these {who} do or would: {listed(holders)}" if holders else what


def violators(state: State, name: str, sort: str) -> list[str]:
    """The users who have too many roles of a static set, or the sessions that have too many of a dynamic one."""
    duty = state.sets(sort)[name]
    below = juniors_of(state)
    counts: Counter[str] = Counter()
    if sort == "static":
        had: dict[str, set[str]] = {}
        for user, role in state.assignments:
            had.setdefault(user, set()).update(below.get(role, {role}))
    else:
        had = {
            session: {junior for role in roles for junior in below.get(role, {role})}
            for session, (_, roles) in state.sessions.items()
        }
    for holder, roles in had.items():
        counts[holder] = len(roles & duty.roles)
    return sorted(holder for holder, count in counts.items() if count >= duty.cardinality)


def juniors_of(state: State) -> dict[str, set[str]]:
    """Each role with itself and all of its juniors."""
    direct: dict[str, list[str]] = {}
    for senior, junior in state.edges:
        direct.setdefault(senior, []).append(junior)
    found: dict[str, set[str]] = {}
    for role in state.roles:
        reached, ahead = {role}, [role]
        while ahead:
            for junior in direct.get(ahead.pop(), ()):
                if junior not in reached:
                    reached.add(junior)
                    ahead.append(junior)
        found[role] = reached
    return found
