"""The commands that turn an office into what a policy says, in an order in which nobody has what neither gives."""

from collections.abc import Iterable, Iterator
from dataclasses import dataclass, field

from .early import Early
from .masks import Masks, Numbering
from .model import LIMITS, Command, DutySet, State
from .sets import Sets


@dataclass
class Plan:
    """Commands in their order. After the first `lowest` of them users have least.

    `gaps` has why a set that both states have is away for a moment. Nothing is done then unless that is accepted.
    """

    found: State
    wanted: State
    commands: list[Command] = field(default_factory=list)
    lowest: int = 0
    gaps: list[str] = field(default_factory=list)


def make_plan(found: State, wanted: State) -> Plan:
    """A plan from what was found to what is wanted. If the latter says nothing about users, they keep their roles that are left.

    Users are deleted and locked first. Additions that are safe come next, then all removals and the changes of sets, then the other
    additions. Locks are removed last.
    """
    if not wanted.has_users:
        kept = {pair for pair in found.assignments if pair[1] in wanted.roles}
        wanted = wanted.but(users=dict(found.users), assignments=kept, has_users=True)
    plan = Plan(found, wanted)
    if found.digest() == wanted.digest():
        return plan
    start = _begin(plan)
    early = Early(start, wanted)
    late: dict[str, list[Command]] = {}
    for kind, commands in _additions(start, wanted).items():
        first, late[kind] = early.take(kind, commands)
        plan.commands += _with_locks(first, wanted)
    middle = _remove(plan, start)
    _change_sets(plan, middle, late.pop("role"))
    plan.lowest = len(plan.commands)
    for commands in late.values():
        plan.commands += _with_locks(commands, wanted)
    plan.commands += [
        {"fn": "unlockUserAccount", "user": user}
        for user, is_locked in sorted(found.users.items())
        if is_locked and wanted.users.get(user) is False
    ]
    return plan


def _begin(plan: Plan) -> State:
    """Plans that users are deleted and locked, and returns the state after that."""
    found, wanted = plan.found, plan.wanted
    gone = found.users.keys() - wanted.users.keys()
    locked = {user for user, is_locked in wanted.users.items() if is_locked and found.users.get(user) is False}
    plan.commands += [{"fn": "deleteUser", "user": user} for user in sorted(gone)]
    plan.commands += [{"fn": "lockUserAccount", "user": user} for user in sorted(locked)]
    return found.but(
        users={user: is_locked or user in locked for user, is_locked in found.users.items() if user not in gone},
        assignments={pair for pair in found.assignments if pair[0] not in gone},
        sessions={name: one for name, one in found.sessions.items() if one[0] not in gone | locked},
    )


def _additions(start: State, wanted: State) -> dict[str, list[Command]]:
    """What the wanted state has more, by its kind: names before their relations."""
    return {
        "role": [{"fn": "addRole", "role": role} for role in sorted(wanted.roles - start.roles)],
        "object": [{"fn": "addPermObj", "object": ob} for ob in sorted(wanted.objects - start.objects)],
        "permission": [
            {"fn": "addPermission", "object": ob, "operation": op} for ob, op in sorted(wanted.permissions - start.permissions)
        ],
        "user": [{"fn": "addUser", "user": user} for user in sorted(wanted.users.keys() - start.users.keys())],
        "edge": [{"fn": "addInheritance", "asc": asc, "desc": desc} for asc, desc in sorted(wanted.edges - start.edges)],
        "grant": [
            {"fn": "grantPermission", "object": ob, "operation": op, "role": role}
            for ob, op, role in sorted(wanted.grants - start.grants)
        ],
        "assignment": [
            {"fn": "assignUser", "user": user, "role": role} for user, role in sorted(wanted.assignments - start.assignments)
        ],
    }


def _with_locks(commands: Iterable[Command], wanted: State) -> Iterator[Command]:
    """Commands, of which those that add a user who is locked are followed by the lock."""
    for command in commands:
        yield command
        if command["fn"] == "addUser" and wanted.users[command["user"]]:
            yield {"fn": "lockUserAccount", "user": command["user"]}


def _remove(plan: Plan, start: State) -> State:
    """Plans all removals of relations, permissions and objects, and returns the state after that.

    What goes with a role is left until that is deleted, but for its inheritances.
    """
    wanted = plan.wanted
    edges = start.edges - wanted.edges
    assignments = {pair for pair in start.assignments - wanted.assignments if pair[1] in wanted.roles}
    grants = {one for one in start.grants - wanted.grants if one[2] in wanted.roles and one[:2] in wanted.permissions}
    permissions, objects = start.permissions - wanted.permissions, start.objects - wanted.objects
    early = _after_additions(start, plan.commands)
    plan.commands += [{"fn": "deleteInheritance", "asc": asc, "desc": desc} for asc, desc in sorted(edges)]
    plan.commands += [{"fn": "deassignUser", "user": user, "role": role} for user, role in sorted(assignments)]
    plan.commands += [
        {"fn": "revokePermission", "object": ob, "operation": op, "role": role} for ob, op, role in sorted(grants)
    ]
    plan.commands += [{"fn": "deletePermission", "object": ob, "operation": op} for ob, op in sorted(permissions)]
    plan.commands += [{"fn": "deletePermObj", "object": ob} for ob in sorted(objects)]
    return early.but(edges=early.edges - edges, assignments=early.assignments - assignments)


def _after_additions(start: State, commands: Iterable[Command]) -> State:
    """The roles, users, edges and assignments after the first commands of a plan."""
    state = start.but(
        roles=set(start.roles), users=dict(start.users), edges=set(start.edges), assignments=set(start.assignments)
    )
    for command in commands:
        match command:
            case {"fn": "addRole", "role": role}:
                state.roles.add(role)
            case {"fn": "addUser", "user": user}:
                state.users[user] = False
            case {"fn": "addInheritance", "asc": asc, "desc": desc}:
                state.edges.add((asc, desc))
            case {"fn": "assignUser", "user": user, "role": role}:
                state.assignments.add((user, role))
    return state


def _change_sets(plan: Plan, middle: State, late: list[Command]) -> None:
    """Plans the changes of sets, that roles are deleted, and that those are added for which there was no room before."""
    wanted = plan.wanted
    numbering = Numbering(middle, wanted)
    masks, after = Masks(middle, numbering), Masks(wanted, numbering)
    left = _sessions_left(middle, masks, numbering)
    ended = [name for name, active in left.items() if _violates(after.closure(active), wanted.dynamic, numbering)]
    plan.commands += [{"fn": "deleteSession", "user": middle.sessions[name][0], "session": name} for name in sorted(ended)]
    closures = [masks.closure(active) for name, active in left.items() if name not in ended]

    def is_kept_by_sessions(duty: DutySet) -> bool:
        return not any(_violates(roles, {"": duty}, numbering) for roles in closures)

    sorts = [
        Sets("static", middle.static, wanted.static, lambda duty: not masks.holders(duty)),
        Sets("dynamic", middle.dynamic, wanted.dynamic, is_kept_by_sessions),
    ]
    there, going = set(middle.roles), middle.roles - wanted.roles
    while True:
        for sets in sorts:
            plan.commands += sets.commands(there)
        free = {role for role in going if not any(sets.have(role) for sets in sorts)}
        plan.commands += [{"fn": "deleteRole", "role": role} for role in sorted(free)]
        there, going = there - free, going - free
        room = LIMITS["role"] - len(there)
        new, late = late[:room], late[room:]
        plan.commands += new
        there |= {command["role"] for command in new}
        if not new and not free:
            away = [command for sets in sorts for command in sets.take_away(there)] if late else []
            if not away:
                break
            plan.commands += away
    for sets in sorts:
        plan.gaps += sets.gaps


def _sessions_left(middle: State, masks: Masks, numbering: Numbering) -> dict[str, int]:
    """The activated roles of the sessions that there still are after the removals."""
    left = {}
    for name, (user, roles) in middle.sessions.items():
        active = numbering.roles.mask(roles)
        if not active & ~masks.authorized(numbering.users.of(user)):
            left[name] = active
    return left


def _violates(roles: int, sets: dict[str, DutySet], numbering: Numbering) -> bool:
    """Whether a session with these roles violates a dynamic set."""
    return any((roles & numbering.roles.mask(duty.roles)).bit_count() >= duty.cardinality for duty in sets.values())
