"""Random offices as states of the plain model, and the lines that make them."""

import json

from machine.commands import apply
from machine.state import MOST as LIMITS
from machine.state import Refused, State

# How many names of each kind a state may have.
MOST = {"user": 7, "role": 9, "object": 4, "operation": 4, "session": 4}


def name(random, kind, most=None):
    """A random name of a kind."""
    return f"{kind[0]}{random.randrange(most or MOST[kind])}"


def draw_command(random, sets):
    """A random command, of which some are refused. `sets` is how many names of sets there are."""
    user, role, other = name(random, "user"), name(random, "role"), name(random, "role")
    ob, op, session = name(random, "object"), name(random, "operation"), name(random, "session")
    some = frozenset(name(random, "role") for _ in range(random.randint(2, 5)))
    number, sort = f"t{random.randrange(sets)}", random.choice(("Ssd", "Dsd"))
    weighted = [
        (2, "addUser", [user]),
        (1, "deleteUser", [user]),
        (4, "addRole", [role]),
        (1, "deleteRole", [role]),
        (2, "addPermObj", [ob]),
        (0.2, "deletePermObj", [ob]),
        (4, "addPermission", [ob, op]),
        (0.5, "deletePermission", [ob, op]),
        (9, "grantPermission", [ob, op, role]),
        (2, "revokePermission", [ob, op, role]),
        (8, "assignUser", [user, role]),
        (2, "deassignUser", [user, role]),
        (5, "addInheritance", [role, other]),
        (2, "deleteInheritance", [role, other]),
        (3, f"create{sort}Set", [number, some, random.randint(2, 3)]),
        (1, f"add{sort}RoleMember", [number, role]),
        (1, f"delete{sort}RoleMember", [number, role]),
        (1, f"set{sort}SetCardinality", [number, random.randint(2, 4)]),
        (0.7, f"delete{sort}Set", [number]),
        (6, "createSession", [user, frozenset([role, other] if random.random() < 0.5 else [role]), session]),
        (1, "lockUserAccount", [user]),
        (1, "unlockUserAccount", [user]),
    ]
    ((_, function, arguments),) = random.choices(weighted, [weight for weight, _, _ in weighted])
    return function, arguments


def draw_state(random, count, start=None, sets=6):
    """A state that random commands have made, from the empty one or another."""
    state = start or State()
    for _ in range(count):
        function, arguments = draw_command(random, sets)
        try:
            state, _ = apply(state, function, arguments)
        except Refused:
            pass
    return state


def fill_sets(random, state, sort):
    """The state with as many sets of a sort as there may be, as far as its users and sessions keep them."""
    roles = sorted(state.roles)
    if len(roles) < 3:
        return state
    for _ in range(2000):
        sets = state.static_sets if sort == "Ssd" else state.dynamic_sets
        if len(sets) == LIMITS[f"{sort.lower()}Set"]:
            break
        some = frozenset(random.sample(roles, random.randint(2, min(4, len(roles)))))
        try:
            state, _ = apply(state, f"create{sort}Set", [f"t{random.randrange(80)}", some, random.randint(2, len(some))])
        except Refused:
            pass
    return state


def tried(state, *commands):
    """The state after those of some commands that are accepted."""
    for function, *arguments in commands:
        try:
            state, _ = apply(state, function, arguments)
        except Refused:
            pass
    return state


def permute_sets(random, state):
    """The state with the demands of some sets of each sort given to one another, and with some sets renamed."""
    for part in ("static_sets", "dynamic_sets"):
        sets = dict(getattr(state, part))
        names = random.sample(sorted(sets), random.randint(0, len(sets)))
        others = random.sample(names, len(names))
        changed = {other: sets[name] for name, other in zip(names, others)}
        sets.update(changed)
        for name in random.sample(sorted(sets), min(len(sets), random.randint(0, 2))):
            sets[f"renamed {name}"] = sets.pop(name)
        state = state.but(**{part: sets})
    return state


def move_user(random, first, second):
    """Two states in which a user moves from a role to another one that has the same permission, and a set excludes both."""
    user, old, new = name(random, "user"), *random.sample([f"r{number}" for number in range(MOST["role"])], 2)
    ob, op, excluding = name(random, "object"), name(random, "operation"), "moving"
    both = [("addUser", user), ("addRole", old), ("addRole", new), ("addPermObj", ob), ("addPermission", ob, op)]
    both += [("grantPermission", ob, op, old), ("grantPermission", ob, op, new)]
    both += [("deassignUser", user, new), ("createSsdSet", excluding, frozenset([old, new]), 2)]
    first = tried(first, *both, ("assignUser", user, old), ("createSession", user, frozenset([old]), "moved"))
    second = tried(second, *both, ("deassignUser", user, old), ("assignUser", user, new))
    return first, second


def forbid_session(random, first, second):
    """Two states of which the second has a dynamic set that a session of the first violates."""
    user, (one, other) = name(random, "user"), random.sample([f"r{number}" for number in range(MOST["role"])], 2)
    both = [("addUser", user), ("addRole", one), ("addRole", other), ("assignUser", user, one), ("assignUser", user, other)]
    first = tried(first, *both, ("unlockUserAccount", user), ("createSession", user, frozenset([one, other]), "both"))
    second = tried(second, *both, ("unlockUserAccount", user), ("createDsdSet", "forbidding", frozenset([one, other]), 2))
    return first, second


def replace_roles(random, state):
    """The state with other roles in some sets, which somebody may have beside those that go."""
    for sort, sets in (("Ssd", state.static_sets), ("Dsd", state.dynamic_sets)):
        for one in random.sample(sorted(sets), min(len(sets), 2)):
            roles = random.sample(sorted(state.roles), min(len(state.roles), random.randint(2, 3)))
            state = tried(state, (f"delete{sort}Set", one))
            changed = tried(state, (f"create{sort}Set", one, frozenset(roles), 2))
            state = changed if one in (changed.static_sets if sort == "Ssd" else changed.dynamic_sets) else state
    return state


def lines(state):
    """The lines that make a state, with its sessions."""
    commands = [{"fn": "addUser", "user": one} for one in sorted(state.users)]
    commands += [{"fn": "addRole", "role": one} for one in sorted(state.roles)]
    commands += [{"fn": "addInheritance", "asc": asc, "desc": desc} for asc, desc in sorted(state.edges)]
    commands += [{"fn": "addPermObj", "object": one} for one in sorted(state.objects)]
    commands += [{"fn": "addPermission", "object": ob, "operation": op} for ob, op in sorted(state.permissions)]
    commands += [{"fn": "grantPermission", "object": ob, "operation": op, "role": r} for ob, op, r in sorted(state.grants)]
    commands += [{"fn": "assignUser", "user": user, "role": role} for user, role in sorted(state.assignments)]
    for create, sets in (("createSsdSet", state.static_sets), ("createDsdSet", state.dynamic_sets)):
        for one, (roles, cardinality) in sorted(sets.items()):
            commands.append({"fn": create, "set": one, "roles": sorted(roles), "cardinality": cardinality})
    for session, (user, roles) in sorted(state.sessions.items()):
        commands.append({"fn": "createSession", "user": user, "roles": sorted(roles), "session": session})
    commands += [{"fn": "lockUserAccount", "user": one} for one in sorted(state.locked)]
    return [json.dumps(command).encode() + b"\n" for command in commands]


def toml(state):
    """A policy with all that a state has, but for sessions. Every JSON text is one of TOML."""
    text = json.dumps
    parts = ["[objects]"]
    for ob in sorted(state.objects):
        parts.append(f"{text(ob)} = {text(sorted(op for other, op in state.permissions if other == ob))}")
    for role in sorted(state.roles):
        parts.append(f"[roles.{text(role)}]")
        parts.append(f"inherits = {text(sorted(desc for asc, desc in state.edges if asc == role))}")
        for ob in sorted({ob for ob, _, granted in state.grants if granted == role}):
            some = sorted(op for other, op, granted in state.grants if (other, granted) == (ob, role))
            parts.append(f"grants.{text(ob)} = {text(some)}")
    for sort, sets in (("static", state.static_sets), ("dynamic", state.dynamic_sets)):
        for one, (roles, cardinality) in sorted(sets.items()):
            parts.append(f"[{sort}.{text(one)}]\nroles = {text(sorted(roles))}\ncardinality = {cardinality}")
    parts.append("[users]")
    for user in sorted(state.users):
        roles = text(sorted(role for other, role in state.assignments if other == user))
        parts.append(f"{text(user)} = {{ roles = {roles}, locked = {text(user in state.locked)} }}")
    return "\n".join(parts) + "\n"
