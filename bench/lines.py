#!/usr/bin/env python3
"""bench/lines.py WHAT COUNT: prints the lines of the benchmark `replay`: those that set up an office, then COUNT more.

`setup`      the office alone: 5,000 users, 256 roles in a tree, 400 objects with 1,200 permissions and 3,000 grants,
             24 separation of duty sets of each kind, 5,000 assignments and 800 sessions
`access`     questions for access
`reviews`    review functions; the name of one selects only that one
`questions`  two in three ask for access, the others are review functions
`commands`   commands that add rows and commands that remove them again, so that the tables keep their size
`mix`        half of the lines ask for access, a quarter are review functions, a quarter are commands

The lines are the same in each run, and nearly all of them are accepted.
"""

import json
import random
import sys

USERS = [f"user{number:04}" for number in range(5_000)]
ROLES = [f"role{number:03}" for number in range(256)]
OBJECTS = [f"object{number:03}" for number in range(400)]
PERMISSIONS = [(thing, operation) for thing in OBJECTS for operation in ("open", "read", "write")]
SESSIONS = [f"session{number:03}" for number in range(800)]
EACH = [(permission, role) for permission in PERMISSIONS for role in ROLES]
GRANTS = random.Random(7).sample(EACH, 3_000)
CHILDREN = 3
# Roles that are on one level of the tree: a user who has one of them has no other through it.
LEVEL = ROLES[40:121]
SETS = 24
MEMBERS = 8
# The users from this number on are assigned further roles, and deassigned from them again.
LOOSE = 4_000
AT_ONCE = 6

# The review functions with the keys of their arguments.
REVIEWS = {
    "assignedUsers": "role",
    "assignedRoles": "user",
    "authorizedUsers": "role",
    "authorizedRoles": "user",
    "rolePermissions": "role",
    "userPermissions": "user",
    "sessionRoles": "session",
    "sessionPermissions": "session",
    "roleOperationsOnObject": "role object",
    "userOperationsOnObject": "user object",
    "ssdRoleSets": "",
    "ssdRoleSetRoles": "set",
    "ssdRoleSetCardinality": "set",
    "dsdRoleSets": "",
    "dsdRoleSetRoles": "set",
    "dsdRoleSetCardinality": "set",
    "permissionRoles": "object operation",
}


def line(function, **keys):
    """Returns the line of one call."""
    return json.dumps({"fn": function, **keys}, separators=(",", ":"))


def below(number):
    """The roles that a role of the tree inherits from, itself among them."""
    found = [ROLES[number]]
    while number > 0:
        number = (number - 1) // CHILDREN
        found.append(ROLES[number])
    return found


def role_number(user):
    """The number of the role of a user that stays assigned."""
    return 7 * user % len(ROLES)


def allowed(number):
    """The permissions that are granted to a role or to a junior of it."""
    roles = set(below(number))
    return [permission for permission, role in GRANTS if role in roles]


ALLOWED = [allowed(number) for number in range(len(ROLES))]


def setup(draw):
    """The lines that set up the office, each accepted."""
    yield from (line("addUser", user=user) for user in draw.sample(USERS, len(USERS)))
    yield from (line("addRole", role=role) for role in draw.sample(ROLES, len(ROLES)))
    yield from (line("addPermObj", object=thing) for thing in draw.sample(OBJECTS, len(OBJECTS)))
    for number in range(1, len(ROLES)):
        yield line("addInheritance", asc=ROLES[number], desc=ROLES[(number - 1) // CHILDREN])
    for thing, operation in PERMISSIONS:
        yield line("addPermission", object=thing, operation=operation)
    for (thing, operation), role in GRANTS:
        yield line("grantPermission", object=thing, operation=operation, role=role)
    for number in range(SETS):
        for function in ("createSsdSet", "createDsdSet"):
            roles = draw.sample(LEVEL, MEMBERS)
            yield line(function, set=f"set{number:02}", roles=roles, cardinality=2 + number % 2)
    for number, user in enumerate(USERS):
        yield line("assignUser", user=user, role=ROLES[role_number(number)])
    for number, session in enumerate(SESSIONS):
        roles = [ROLES[role_number(number)]]
        yield line("createSession", user=USERS[number], roles=roles, session=session)


def access(draw):
    """A question for access. Half of them are for what is granted to the role of the session or to a junior of it."""
    number = draw.randrange(len(SESSIONS))
    permissions = draw.choice([PERMISSIONS, ALLOWED[role_number(number)]])
    thing, operation = draw.choice(permissions)
    return line("checkAccess", session=SESSIONS[number], operation=operation, object=thing)


def review(draw, function=None):
    """A line of this review function, or of a random one, each as often as the others."""
    keys = REVIEWS[function] if function else None
    if not function:
        function, keys = draw.choice(list(REVIEWS.items()))
    drawn = {
        "user": draw.choice(USERS),
        "role": draw.choice(ROLES),
        "object": draw.choice(OBJECTS),
        "operation": "read",
        "session": draw.choice(SESSIONS),
        "set": f"set{draw.randrange(SETS):02}",
    }
    return line(function, **{key: drawn[key] for key in keys.split()})


# Each of these adds rows and removes them again. The number makes its names unique.


def user_comes_and_goes(draw, number):
    """A user with a role, who is locked for a time."""
    user, role = f"visitor{number}", draw.choice(ROLES)
    yield line("addUser", user=user)
    yield line("assignUser", user=user, role=role)
    yield line("lockUserAccount", user=user)
    yield line("unlockUserAccount", user=user)
    yield line("deassignUser", user=user, role=role)
    yield line("deleteUser", user=user)


def user_is_assigned(draw, _):
    """A further role of a user. Static separation of duty may refuse it, and then there is nothing to remove."""
    user, role = draw.choice(USERS[LOOSE:]), draw.choice(ROLES)
    yield line("assignUser", user=user, role=role)
    yield line("deassignUser", user=user, role=role)


def users_are_imported(draw, _):
    """An import of five assignments."""
    pairs = [(draw.choice(USERS[LOOSE:]), draw.choice(ROLES)) for _ in range(5)]
    yield line("importAssignments", csv="user,role\n" + "".join(f"{user},{role}\n" for user, role in pairs))
    for user, role in pairs:
        yield line("deassignUser", user=user, role=role)


def permission_comes_and_goes(draw, number):
    """An object with a permission and two grants of it."""
    thing, (first, second) = f"thing{number}", draw.sample(ROLES, 2)
    yield line("addPermObj", object=thing)
    yield line("addPermission", object=thing, operation="open")
    yield line("grantPermission", object=thing, operation="open", role=first)
    yield line("grantPermission", object=thing, operation="open", role=second)
    yield line("revokePermission", object=thing, operation="open", role=first)
    yield line("deletePermission", object=thing, operation="open")
    yield line("deletePermObj", object=thing)


def session_comes_and_goes(draw, number):
    """A session in which a junior role is activated and dropped."""
    at = draw.randrange(LOOSE)
    user, session, roles = USERS[at], f"visit{number}", below(role_number(at))
    yield line("createSession", user=user, roles=roles[:1], session=session)
    if len(roles) > 1:
        yield line("addActiveRole", user=user, session=session, role=roles[-1])
        yield line("dropActiveRole", user=user, session=session, role=roles[0])
    yield line("deleteSession", user=user, session=session)


def role_comes_and_goes(draw, number):
    """A role that inherits from two others, and a role from which it inherits."""
    first, second = draw.sample(ROLES[:40], 2)
    above, under = f"senior{number}", f"junior{number}"
    yield line("addAscendant", asc=above, desc=first)
    yield line("addInheritance", asc=above, desc=second)
    yield line("addDescendant", asc=above, desc=under)
    yield line("deleteInheritance", asc=above, desc=under)
    yield line("deleteInheritance", asc=above, desc=second)
    yield line("deleteInheritance", asc=above, desc=first)
    yield line("deleteRole", role=above)
    yield line("deleteRole", role=under)


def set_comes_and_goes(draw, number):
    """A separation of duty set, static and dynamic in turn."""
    kind = "Ssd" if number % 2 == 0 else "Dsd"
    name, roles = f"extra{number}", draw.sample(LEVEL, 5)
    yield line(f"create{kind}Set", set=name, roles=roles[:4], cardinality=3)
    yield line(f"add{kind}RoleMember", set=name, role=roles[4])
    yield line(f"set{kind}SetCardinality", set=name, cardinality=4)
    yield line(f"delete{kind}RoleMember", set=name, role=roles[0])
    yield line(f"delete{kind}Set", set=name)


# Of 20 lines, how many are of each kind.
COMMANDS = 5 * [user_is_assigned] + 4 * [user_comes_and_goes] + 4 * [permission_comes_and_goes]
COMMANDS += 4 * [session_comes_and_goes] + [role_comes_and_goes, set_comes_and_goes, users_are_imported]


class Commands:
    """Random commands, from several such lists at once."""

    def __init__(self, draw):
        self.draw = draw
        self.number = 0
        self.begun = {does: [] for does in COMMANDS}

    def begin(self, does):
        """Begins a further list of commands."""
        self.number += 1
        return does(self.draw, self.number)

    def next(self):
        """The next command of a random list."""
        does = self.draw.choice(COMMANDS)
        begun = self.begun[does]
        if len(begun) < AT_ONCE:
            begun.append(self.begin(does))
            return next(begun[-1])
        at = self.draw.randrange(AT_ONCE)
        found = next(begun[at], None)
        if found is None:
            begun[at] = self.begin(does)
            found = next(begun[at])
        return found


# What to choose from, if the lines are of several kinds.
PARTS = {"questions": ["access", "access", "reviews"], "mix": ["access", "access", "reviews", "commands"]}


def lines(what, count):
    """Yields the lines."""
    draw = random.Random(359)
    yield from setup(draw)
    commands = Commands(draw)
    for _ in range(count):
        part = draw.choice(PARTS.get(what, [what]))
        if part == "access":
            yield access(draw)
        elif part == "commands":
            yield commands.next()
        else:
            yield review(draw, part if part in REVIEWS else None)


if __name__ == "__main__":
    WHAT, COUNT = sys.argv[1], int(sys.argv[2])
    sys.stdout.writelines(f"{it}\n" for it in lines(WHAT, 0 if WHAT == "setup" else COUNT))
