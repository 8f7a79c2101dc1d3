"""Decisions about users are those of all sessions that they may create."""

import itertools
import random
import sys

import pytest

from .building import built

OFFICES, MOST_ROLES = 1_000, 3
CHANGED, CHANGES, MANY_CHANGES = 200, 8, 2_000
USERS = ["ann", "bob", "eve"]
PERMISSIONS = [("safe", "open"), ("safe", "close"), ("vault", "open")]


def draw_commands(draws):
    """Returns the commands of a random office. Some of them are refused."""
    roles = [f"r{number}" for number in range(draws.randint(3, 6))]
    commands = [("addRole", {"role": role}) for role in roles]
    commands += [("addUser", {"user": user}) for user in USERS]
    commands += [("addPermObj", {"object": object}) for object in ("safe", "vault")]
    commands += [("addPermission", {"object": object, "operation": operation}) for object, operation in PERMISSIONS]
    for _ in range(draws.randint(2, 8)):
        asc, desc = draws.sample(roles, 2)
        commands.append(("addInheritance", {"asc": asc, "desc": desc}))
    for number in range(draws.randint(0, 2)):
        members = draws.sample(roles, draws.randint(2, min(4, len(roles))))
        cardinality = draws.randint(2, len(members))
        commands.append(("createDsdSet", {"set": f"d{number}", "roles": members, "cardinality": cardinality}))
    for _ in range(draws.randint(2, 7)):
        commands.append(("assignUser", {"user": draws.choice(USERS), "role": draws.choice(roles)}))
    for _ in range(draws.randint(2, 6)):
        object, operation = draws.choice(PERMISSIONS)
        commands.append(("grantPermission", {"object": object, "operation": operation, "role": draws.choice(roles)}))
    if draws.random() < 0.4:
        commands.append(("lockUserAccount", {"user": draws.choice(USERS)}))
    return roles, commands


def is_done(office, function, arguments):
    """Returns whether the office does a command."""
    from rbac_office import Refused

    try:
        office.call(function, **arguments)
    except Refused:
        return False
    return True


def had_in_a_session(office, user, roles):
    """Returns the permissions that the user has in some session with at most three of these roles."""
    had = set()
    for count in range(MOST_ROLES + 1):
        for chosen in itertools.combinations(roles, count):
            if is_done(office, "createSession", {"user": user, "session": "s", "roles": list(chosen)}):
                had |= {it for it in PERMISSIONS if office.check("s", it[1], it[0])}
                office.call("deleteSession", user=user, session="s")
    return had


def has_grant(office, user, permission):
    """Returns whether the user is authorized for a role that is granted the permission."""
    granted = office.call("permissionRoles", object=permission[0], operation=permission[1])
    return bool(set(granted) & set(office.call("authorizedRoles", user=user)))


@pytest.mark.needs("python-headers")
def check_all_sessions(bench):
    """A user may do what some session with up to three roles may do, in random offices with dynamic sets, juniors and locks."""
    sys.path.insert(0, str(built() / "python"))
    from rbac_office import Office

    draws, counted, wrong = random.Random(65), {"yes": 0, "refused by dynamic sets": 0, "locked": 0, "no grant": 0}, []
    for number in range(OFFICES):
        roles, commands = draw_commands(draws)
        with Office() as office:
            locked = [it["user"] for function, it in commands if is_done(office, function, it) and function == "lockUserAccount"]
            for user in USERS:
                had = had_in_a_session(office, user, roles)
                for permission in PERMISSIONS:
                    says = office.check_user(user, permission[1], permission[0])
                    if says != (permission in had):
                        wrong.append(f"office {number}, {user}, {permission}: {says}")
                    granted = has_grant(office, user, permission)
                    why = "yes" if says else "no grant" if not granted else "locked" if user in locked else "refused by dynamic sets"
                    counted[why] += 1
    bench.judge("decisions about users", wrong)
    for why, count in counted.items():
        bench.same(f"at least 100: {why}", count >= 100, True)
    return {f"decisions about users: {why}": count for why, count in counted.items()}


def draw_change(draws, roles):
    """Returns a random command that may change what users may do."""
    role, other, user = draws.choice(roles), draws.choice(roles), draws.choice(USERS)
    object, operation = draws.choice(PERMISSIONS)
    grant, name = {"object": object, "operation": operation, "role": role}, draws.choice(["d0", "d1"])
    return draws.choice([
        ("addInheritance", {"asc": role, "desc": other}),
        ("deleteInheritance", {"asc": role, "desc": other}),
        ("createDsdSet", {"set": name, "roles": draws.sample(roles, 2), "cardinality": 2}),
        ("deleteDsdSet", {"set": name}),
        ("addDsdRoleMember", {"set": name, "role": role}),
        ("deleteDsdRoleMember", {"set": name, "role": role}),
        ("setDsdSetCardinality", {"set": name, "cardinality": draws.choice([2, 3])}),
        ("assignUser", {"user": user, "role": role}),
        ("deassignUser", {"user": user, "role": role}),
        ("grantPermission", grant),
        ("revokePermission", grant),
        ("deleteRole", {"role": role}),
        ("addRole", {"role": role}),
        ("lockUserAccount", {"user": user}),
        ("unlockUserAccount", {"user": user}),
    ])


@pytest.mark.needs("python-headers")
def check_changed_offices(bench):
    """Decisions about users are those of all sessions after random commands too, some of which change what bars a role."""
    sys.path.insert(0, str(built() / "python"))
    from rbac_office import Office

    draws, done, counted, wrong = random.Random(71), 0, {True: 0, False: 0}, []
    for number in range(CHANGED):
        roles, commands = draw_commands(draws)
        with Office() as office:
            for function, it in commands:
                is_done(office, function, it)
            for _ in range(CHANGES):
                done += sum(is_done(office, *draw_change(draws, roles)) for _ in range(draws.randint(1, 4)))
                user = draws.choice(USERS)
                had = had_in_a_session(office, user, roles)
                for permission in PERMISSIONS:
                    says = office.check_user(user, permission[1], permission[0])
                    counted[says] += 1
                    if says != (permission in had):
                        wrong.append(f"office {number}, {user}, {permission}: {says}")
    bench.judge("decisions about users after commands", wrong)
    bench.same("at least 100 of each decision", min(counted.values()) >= 100, True)
    return {"commands between decisions about users": done, "decisions about users after commands": sum(counted.values())}


def draw_small_change(draws, roles):
    """Returns a random command that changes few of the roles for which users are authorized."""
    role, other, user = draws.choice(roles), draws.choice(roles), draws.choice(USERS)
    object, operation = draws.choice(PERMISSIONS)
    grant = {"object": object, "operation": operation, "role": role}
    changes = [
        (6, "assignUser", {"user": user, "role": role}),
        (3, "deassignUser", {"user": user, "role": role}),
        (1, "addInheritance", {"asc": role, "desc": other}),
        (1, "grantPermission", grant),
        (3, "revokePermission", grant),
        (3, "addRole", {"role": role}),
        (1, "deleteRole", {"role": role}),
    ]
    return draws.choices([(function, it) for _, function, it in changes], [weight for weight, *_ in changes])[0]


@pytest.mark.needs("python-headers")
def check_many_roles(bench):
    """Decisions about users with more and with fewer roles than have a row are right after each of many random commands."""
    sys.path.insert(0, str(built() / "python"))
    from rbac_office import Office

    draws, counted, wrong = random.Random(67), {(is_many, says): 0 for is_many in (True, False) for says in (True, False)}, []
    roles, edges = [f"r{number}" for number in range(40)], []
    with Office() as office:
        for function, it in draw_commands(draws)[1] + [("addRole", {"role": role}) for role in roles]:
            if function not in ("createDsdSet", "lockUserAccount"):
                is_done(office, function, it)
        for _ in range(MANY_CHANGES):
            function, it = draw_small_change(draws, roles)
            if is_done(office, function, it) and function == "addInheritance":
                edges.append(it)
            if len(edges) > 6:
                is_done(office, "deleteInheritance", edges.pop(draws.randrange(len(edges))))
            for user in USERS:
                is_many = len(office.call("assignedRoles", user=user)) > 16
                for permission in PERMISSIONS:
                    says = office.check_user(user, permission[1], permission[0])
                    counted[is_many, says] += 1
                    if says != has_grant(office, user, permission):
                        wrong.append(f"{function} {it}, {user}, {permission}: {says}")
    bench.judge("decisions about users with many roles", wrong)
    bench.same("at least 100 of each decision, with many roles and with few", min(counted.values()) >= 100, True)
    return {"decisions about users with many roles": sum(count for (is_many, _), count in counted.items() if is_many)}


@pytest.mark.needs("python-headers")
def check_full_office(bench):
    """A decision about a user is the same if there are as many sessions as there may be."""
    sys.path.insert(0, str(built() / "python"))
    from rbac_office import Office

    with Office() as office:
        office.call("addUser", user="ann")
        office.call("addRole", role="clerk")
        office.call("assignUser", user="ann", role="clerk")
        office.call("addPermObj", object="safe")
        office.call("addPermission", object="safe", operation="open")
        office.call("grantPermission", object="safe", operation="open", role="clerk")
        for number in range(1_000):
            office.call("createSession", user="ann", session=f"s{number}", roles=[])
        bench.same("one more session", is_done(office, "createSession", {"user": "ann", "session": "s", "roles": []}), False)
        bench.same("the user", office.check_user("ann", "open", "safe"), True)
