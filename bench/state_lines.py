#!/usr/bin/env python3
"""bench/state_lines.py WHAT: prints the lines of the benchmark `state`: a label and a command each.

`limits`   makes a state that has one less of everything than an office of version 2 may have, and then
           does each command once, each round, and undoes it; `quarter` is a quarter of that
`full`     makes a state that has as much of everything as such an office may have, and then asks for the state of
           its rows and for the role report, and adds and removes edges by which all users and sessions have members
           of all separation of duty sets
`chain`    the same rows and report of a state without sets and sessions, whose roles are one chain
`import`   10,000 records, all pairs of 100 users and 100 roles, with 64 static separation sets

A line of work that is not a command is a label and `of_rows` or `report`.
"""

import sys
from pathlib import Path

sys.path.insert(0, str(Path(__file__).resolve().parent.parent / "tests"))
from machine.state import MOST  # noqa: E402

ROUNDS = 3


def say(*words):
    """Prints a line that is not timed."""
    print("-", *words)


def time(label, *words):
    """Prints a line whose times are printed under the label."""
    print(label, *words)


def user(number):
    """The name of a user."""
    return f"user{number:05}"


def role(number):
    """The name of a role."""
    return f"role{number:04}"


class Sizes:
    """How many there are of each thing: `less` than the limits of version 2, or than a part of them."""

    def __init__(self, part, less=1):
        self.users = MOST["user"] // part - less
        self.roles = MOST["role"] // part - less
        self.edges = MOST["edge"] // part - less
        self.objects = MOST["object"] // part - less
        self.permissions = MOST["permission"] // part - less
        self.grants = MOST["grant"] // part - less
        self.sessions = MOST["session"] // part - less
        self.active = MOST["activeRole"] // part - less
        self.sets = MOST["ssdSet"] // part - less
        self.members = MOST["member"] // part - less
        # the first of the roles of the lower chain
        self.lower = MOST["role"] // 2 // part

    def assigned(self, number):
        """The role of a user: one in twenty has one in the upper chain, but none of its first 32."""
        if number % 20 == 0:
            return role(32 + number // 20 % (self.lower // 2 - 32))
        return role(self.lower + number % ((self.roles - self.lower) // 2))

    def permission(self, number):
        """The object and the operation of a permission."""
        return f"object{number % self.objects:04}", f"operation{number // self.objects}"

    def first_active(self, number):
        """The roles that are activated in the session of a user: the lowest of the user's chain."""
        end = self.lower if number % 20 == 0 else self.roles
        return [role(it) for it in range(end - self.active, end)]

    def members_of(self, number, count):
        """The members of a separation of duty set: two that no user has, and others of the upper chain."""
        rest = range(count - 2)
        return [role(0), role(1)] + [role(2 + (7 * number + 5 * it) % (self.lower - 2)) for it in rest]


class Full(Sizes):
    """As much of everything as there may be. All users have their roles in the upper half of the upper chain."""

    def __init__(self, part=1):
        super().__init__(part, 0)

    def assigned(self, number):
        """The role of a user: none of the first two."""
        return role(2 + number % (self.lower // 2 - 2))

    def first_active(self, number):
        """The roles that are activated in each session: the lowest of the upper chain."""
        return [role(it) for it in range(self.lower - self.active, self.lower)]

    def members_of(self, number, count):
        """The members of a separation of duty set: two that no user has, the last of the lower chain, and others of
        both chains."""
        others, rest = self.roles - 3, count - 3
        spread = [role(2 + (7 * number + others // rest * it) % others) for it in range(rest)]
        return [role(0), role(1), *spread, role(self.roles - 1)]


class Chain(Full):
    """As much of everything as there may be, but no separation of duty set and no session, and one chain of roles."""

    def __init__(self, part=1):
        super().__init__(part)
        self.sets = self.sessions = 0
        self.lower = self.roles

    def assigned(self, number):
        """The role of a user: each role in turn."""
        return role(number % self.roles)


def hierarchy(sizes):
    """Makes two chains of roles, with edges that pass over one to four roles, from the bottom up."""
    for number in range(sizes.roles):
        say("addRole", role(number))
    edges = []
    for step in range(1, 6):
        for first in range(sizes.roles - step):
            if (first < sizes.lower) == (first + step < sizes.lower):
                edges.append((first, first + step))
    edges = sorted(edges[: sizes.edges], key=lambda edge: (-edge[0], edge[1]))
    assert len(edges) == sizes.edges
    for first, second in edges:
        say("addInheritance", role(first), role(second))


def session(sizes, number):
    """The command that makes the session of a user."""
    return "createSession", user(number), f"session{number:05}", *sizes.first_active(number)


def build(sizes):
    """Makes the state."""
    hierarchy(sizes)
    for number in range(sizes.users):
        say("addUser", user(number))
        say("assignUser", user(number), sizes.assigned(number))
    for number in range(sizes.objects):
        say("addPermObj", f"object{number:04}")
    for number in range(sizes.permissions):
        say("addPermission", *sizes.permission(number))
    for number in range(sizes.grants):
        granted = (number * 7 + number // sizes.permissions) % sizes.roles
        say("grantPermission", *sizes.permission(number % sizes.permissions), role(granted))
    for number in range(sizes.sessions):
        say(*session(sizes, number))
    for kind in ("Ssd", "Dsd"):
        for number in range(sizes.sets):
            members = sizes.members_of(number, sizes.members)
            say(f"create{kind}Set", f"set{number:02}", sizes.members, *members)


def on_users(sizes):
    """The commands of users and roles, and of the assignments of one to another."""
    someone = user(1)
    their = sizes.assigned(1)
    time("addUser", "addUser", "user-new")
    say("assignUser", "user-new", role(2))
    say("deassignUser", "user-new", role(2))
    say("deleteUser", "user-new")
    time("deleteUser", "deleteUser", someone)
    say("addUser", someone)
    say("assignUser", someone, their)
    say(*session(sizes, 1))
    time("addRole", "addRole", "role-new")
    say("assignUser", user(3), "role-new")
    say("grantPermission", *sizes.permission(0), "role-new")
    time("deleteRole", "deleteRole", "role-new")
    time("assignUser", "assignUser", user(sizes.users - 1), role(40))
    say("deassignUser", user(sizes.users - 1), role(40))
    time("deassignUser", "deassignUser", someone, their)
    say("assignUser", someone, their)
    say(*session(sizes, 1))
    time("lockUserAccount", "lockUserAccount", someone)
    time("unlockUserAccount", "unlockUserAccount", someone)
    say(*session(sizes, 1))
    records = [f"{user(it)} {sizes.assigned(it)}" for it in range(sizes.users // 2)]
    time("importAssignments", "importAssignments", f"{someone} {role(40)}", *records[1:])
    say("deassignUser", someone, role(40))


def on_permissions(sizes):
    """The commands of objects and permissions."""
    time("addPermObj", "addPermObj", "object-new")
    time("deletePermObj", "deletePermObj", "object-new")
    first = sizes.permission(0)
    time("addPermission", "addPermission", first[0], "operation-new")
    say("grantPermission", first[0], "operation-new", role(7))
    time("deletePermission", "deletePermission", first[0], "operation-new")
    time("grantPermission", "grantPermission", *first, role(9))
    time("revokePermission", "revokePermission", *first, role(9))


def on_hierarchy(sizes):
    """The commands of the hierarchy: an edge that joins the chains, and one whose pair the order already has."""
    ends = role(sizes.lower - 1), role(sizes.lower)
    time("addInheritance/joining", "addInheritance", *ends)
    time("deleteInheritance/parting", "deleteInheritance", *ends)
    near = role(40), role(47)
    time("addInheritance/judged", "addInheritance", *near)
    time("deleteInheritance/judged", "deleteInheritance", *near)
    time("addAscendant", "addAscendant", "role-new", role(0))
    say("deleteInheritance", "role-new", role(0))
    say("deleteRole", "role-new")
    time("addDescendant", "addDescendant", role(sizes.roles - 1), "role-new")
    say("deleteInheritance", role(sizes.roles - 1), "role-new")
    say("deleteRole", "role-new")


def on_sets(sizes):
    """The commands of separation of duty sets."""
    for kind in ("Ssd", "Dsd"):
        members = sizes.members_of(sizes.sets, sizes.members + 1)
        time(f"create{kind}Set", f"create{kind}Set", "set-new", sizes.members + 1, *members)
        time(f"delete{kind}Set", f"delete{kind}Set", "set-new")
        member = role(sizes.lower + 100 % sizes.members)
        time(f"add{kind}RoleMember", f"add{kind}RoleMember", "set00", member)
        time(f"delete{kind}RoleMember", f"delete{kind}RoleMember", "set00", member)
        lower = sizes.members - 1
        time(f"set{kind}SetCardinality", f"set{kind}SetCardinality", "set00", lower)
        say(f"set{kind}SetCardinality", "set00", sizes.members)


def on_sessions(sizes):
    """The commands of sessions."""
    owner = user(20)
    words = session(sizes, 20)
    time("createSession", "createSession", owner, "session-new", *words[3:])
    time("addActiveRole", "addActiveRole", owner, "session-new", role(sizes.lower - sizes.active - 1))
    time("dropActiveRole", "dropActiveRole", owner, "session-new", role(sizes.lower - 1))
    time("deleteSession", "deleteSession", owner, "session-new")


def all_sessions_end(sizes):
    """Locks a user who has all sessions, each with as many roles as before."""
    for number in range(sizes.sets):
        say("deleteDsdSet", f"set{number:02}")
    for number in range(sizes.sessions):
        say("deleteSession", user(number), f"session{number:05}")
    for number in range(sizes.sessions):
        say("createSession", user(20), f"session{number:05}", *sizes.first_active(20))
    time("lockUserAccount/all-sessions", "lockUserAccount", user(20))


def a_role_of_all_goes(sizes):
    """Deletes a role that all users have and that is granted each permission."""
    for number in range(sizes.sets):
        say("deleteSsdSet", f"set{number:02}")
    say("addRole", "role-of-all")
    for number in range(sizes.users):
        say("deassignUser", user(number), sizes.assigned(number))
        say("assignUser", user(number), "role-of-all")
    for number in range(sizes.permissions):
        permission = sizes.permission(number)
        say("revokePermission", *permission, role(number * 7 % sizes.roles))
        say("grantPermission", *permission, "role-of-all")
    time("deleteRole/of-all", "deleteRole", "role-of-all")


def limits(part):
    """Each command at the limits, or at a part of them."""
    sizes = Sizes(part)
    build(sizes)
    for _ in range(ROUNDS):
        on_users(sizes)
        on_permissions(sizes)
        on_hierarchy(sizes)
        on_sets(sizes)
        on_sessions(sizes)
    all_sessions_end(sizes)
    a_role_of_all_goes(sizes)


def rows_and_report():
    """The state of the existing rows, and the role report."""
    for _ in range(ROUNDS):
        time("of_rows", "of_rows")
        time("report_roles", "report")


def all_users(sizes):
    """Edges from the lowest role of the upper chain, which all users and sessions have: one to the lowest role of the
    lower chain, which is in all sets, and one that joins the chains. An edge that changes no pair is removed before."""
    say("deleteInheritance", role(0), role(2))
    asc = role(sizes.lower - 1)
    for _ in range(ROUNDS):
        for more, desc in (("", sizes.roles - 1), ("-joined", sizes.lower)):
            time(f"addInheritance/all-users{more}", "addInheritance", asc, role(desc))
            time(f"deleteInheritance/all-users{more}", "deleteInheritance", asc, role(desc))


def full(sizes):
    """A state that is full: its rows, its report, and edges for which all of its sets are judged for all users."""
    build(sizes)
    rows_and_report()
    all_users(sizes)


def chain(sizes):
    """A state whose roles are one chain: its rows and its report."""
    build(sizes)
    rows_and_report()


def imports():
    """An import of all pairs of 100 users and 100 roles, and its repetition."""
    for number in range(100):
        say("addUser", user(number))
        say("addRole", role(number))
    for number in range(64):
        members = sorted({(number + 3 * it) % 100 for it in range(32)})
        say("createSsdSet", f"set{number:02}", 32, *map(role, members))
    records = [f"{user(first)} {role(second)}" for first in range(100) for second in range(100)]
    time("import", "importAssignments", *records)
    time("import/again", "importAssignments", *records)


def main():
    """Prints the lines that are asked for."""
    what = {"limits": lambda: limits(1), "quarter": lambda: limits(4), "import": imports}
    what |= {"full": lambda: full(Full()), "chain": lambda: chain(Chain())}
    what[sys.argv[1]]()


if __name__ == "__main__":
    main()
