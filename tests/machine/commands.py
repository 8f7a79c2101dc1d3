"""The commands: each has a state and its arguments, and refuses, or returns the state after it.

The tests in a command are in the order in which it is judged. Sessions that may not continue after
a command are ended by `apply`, for all commands alike.
"""

from .state import (
    Refused,
    authorized_roles,
    below,
    dynamic_violation,
    end_sessions,
    refuse_if,
    static_violation,
)

# Tests that several commands have.


def need_user(state, user):
    refuse_if(user not in state.users, 2)


def need_role(state, role):
    refuse_if(role not in state.roles, 4)


def need_object(state, ob):
    refuse_if(ob not in state.objects, 6)


def need_permission(state, ob, op):
    refuse_if((ob, op) not in state.permissions, 8)


def need_set(sets, name):
    refuse_if(name not in sets, 20)


def need_session(state, session):
    refuse_if(session not in state.sessions, 26)


def need_owner(state, user, session):
    refuse_if(state.sessions[session][0] != user, 28)


def need_room(state, kind, count):
    """Refuses if the count of this kind would exceed the limit."""
    refuse_if(count > state.limit(kind), 32, kind=kind)


def need_cardinality(roles, cardinality):
    refuse_if(not 2 <= cardinality <= len(roles), 23)


def need_static_separation(state):
    violated = static_violation(state)
    refuse_if(violated is not None, 24, set=violated)


def need_dynamic_separation(state):
    violated = dynamic_violation(state)
    refuse_if(violated is not None, 25, set=violated)


# Users and roles.


def add_user(state, user):
    refuse_if(user in state.users, 3)
    need_room(state, "user", len(state.users) + 1)
    return state.but(users=state.users | {user})


def delete_user(state, user):
    need_user(state, user)
    return state.but(
        users=state.users - {user},
        locked=state.locked - {user},
        assignments=frozenset(pair for pair in state.assignments if pair[0] != user),
    )


def add_role(state, role):
    refuse_if(role in state.roles, 5)
    need_room(state, "role", len(state.roles) + 1)
    return state.but(roles=state.roles | {role})


def delete_role(state, role):
    need_role(state, role)
    sets = [*state.static_sets.values(), *state.dynamic_sets.values()]
    refuse_if(any(role in edge for edge in state.edges) or any(role in roles for roles, _ in sets), 17)
    return state.but(
        roles=state.roles - {role},
        assignments=frozenset(pair for pair in state.assignments if pair[1] != role),
        grants=frozenset(grant for grant in state.grants if grant[2] != role),
    )


# Objects and permissions.


def add_object(state, ob):
    refuse_if(ob in state.objects, 7)
    need_room(state, "object", len(state.objects) + 1)
    return state.but(objects=state.objects | {ob})


def delete_object(state, ob):
    need_object(state, ob)
    refuse_if(any(permission[0] == ob for permission in state.permissions), 18)
    return state.but(objects=state.objects - {ob})


def add_permission(state, ob, op):
    need_object(state, ob)
    refuse_if((ob, op) in state.permissions, 9)
    need_room(state, "permission", len(state.permissions) + 1)
    return state.but(permissions=state.permissions | {(ob, op)})


def delete_permission(state, ob, op):
    need_object(state, ob)
    need_permission(state, ob, op)
    return state.but(
        permissions=state.permissions - {(ob, op)},
        grants=frozenset(grant for grant in state.grants if grant[:2] != (ob, op)),
    )


def grant_permission(state, ob, op, role):
    need_object(state, ob)
    need_permission(state, ob, op)
    need_role(state, role)
    refuse_if((ob, op, role) in state.grants, 12)
    need_room(state, "grant", len(state.grants) + 1)
    return state.but(grants=state.grants | {(ob, op, role)})


def revoke_permission(state, ob, op, role):
    need_object(state, ob)
    need_permission(state, ob, op)
    need_role(state, role)
    refuse_if((ob, op, role) not in state.grants, 13)
    return state.but(grants=state.grants - {(ob, op, role)})


# Assignments.


def assign_user(state, user, role):
    need_user(state, user)
    need_role(state, role)
    refuse_if((user, role) in state.assignments, 10)
    need_room(state, "assignment", len(state.assignments) + 1)
    after = state.but(assignments=state.assignments | {(user, role)})
    need_static_separation(after)
    return after


def deassign_user(state, user, role):
    need_user(state, user)
    need_role(state, role)
    refuse_if((user, role) not in state.assignments, 11)
    return state.but(assignments=state.assignments - {(user, role)})


def import_assignments(state, pairs):
    """The state after an import, and its tally. Records are numbered from 1."""
    need_room(state, "record", len(pairs))
    tally = {"already": 0, "assigned": 0, "refused": []}
    for record, (user, role) in enumerate(pairs, 1):
        try:
            state = assign_user(state, user, role)
            tally["assigned"] += 1
        except Refused as refused:
            if refused.code == 10:
                tally["already"] += 1
            else:
                tally["refused"].append({"code": refused.code, "record": record})
    return state, tally


# The role hierarchy.


def add_inheritance(state, asc, desc):
    need_role(state, asc)
    need_role(state, desc)
    refuse_if((asc, desc) in state.edges, 14)
    refuse_if(asc in below(state, desc), 16)
    need_room(state, "edge", len(state.edges) + 1)
    after = state.but(edges=state.edges | {(asc, desc)})
    need_static_separation(after)
    need_dynamic_separation(after)
    return after


def delete_inheritance(state, asc, desc):
    need_role(state, asc)
    need_role(state, desc)
    refuse_if((asc, desc) not in state.edges, 15)
    return state.but(edges=state.edges - {(asc, desc)})


def add_role_with_edge(state, role, edge):
    """Adds a role and an edge of it to an existing role."""
    refuse_if(role in state.roles, 5)
    need_room(state, "role", len(state.roles) + 1)
    need_room(state, "edge", len(state.edges) + 1)
    return state.but(roles=state.roles | {role}, edges=state.edges | {edge})


def add_ascendant(state, asc, desc):
    need_role(state, desc)
    return add_role_with_edge(state, asc, (asc, desc))


def add_descendant(state, asc, desc):
    need_role(state, asc)
    return add_role_with_edge(state, desc, (asc, desc))


# Separation of duty sets. Static and dynamic ones differ in what is judged of the state after a command.


class SetCommands:
    """The five commands for sets of one sort, which the state keeps in this part."""

    def __init__(self, part, kind, need_separation):
        self.part = part
        self.kind = kind
        self.need_separation = need_separation

    def sets(self, state):
        return getattr(state, self.part)

    def with_set(self, state, name, roles, cardinality):
        """The state with the set as it is given here."""
        return state.but(**{self.part: {**self.sets(state), name: (roles, cardinality)}})

    def create(self, state, name, roles, cardinality):
        roles = frozenset(roles)
        refuse_if(not roles <= state.roles, 4)
        refuse_if(name in self.sets(state), 19)
        need_cardinality(roles, cardinality)
        need_room(state, self.kind, len(self.sets(state)) + 1)
        need_room(state, "member", len(roles))
        after = self.with_set(state, name, roles, cardinality)
        self.need_separation(after)
        return after

    def add_member(self, state, name, role):
        need_set(self.sets(state), name)
        need_role(state, role)
        roles, cardinality = self.sets(state)[name]
        refuse_if(role in roles, 21)
        need_room(state, "member", len(roles) + 1)
        after = self.with_set(state, name, roles | {role}, cardinality)
        self.need_separation(after)
        return after

    def delete_member(self, state, name, role):
        need_set(self.sets(state), name)
        need_role(state, role)
        roles, cardinality = self.sets(state)[name]
        refuse_if(role not in roles, 22)
        refuse_if(not cardinality < len(roles), 23)
        return self.with_set(state, name, roles - {role}, cardinality)

    def set_cardinality(self, state, name, cardinality):
        need_set(self.sets(state), name)
        roles, _ = self.sets(state)[name]
        need_cardinality(roles, cardinality)
        after = self.with_set(state, name, roles, cardinality)
        self.need_separation(after)
        return after

    def delete(self, state, name):
        need_set(self.sets(state), name)
        others = {other: kept for other, kept in self.sets(state).items() if other != name}
        return state.but(**{self.part: others})


STATIC = SetCommands("static_sets", "ssdSet", need_static_separation)
DYNAMIC = SetCommands("dynamic_sets", "dsdSet", need_dynamic_separation)


# Sessions.


def with_session(state, session, user, active):
    """The state with the session as it is given here."""
    return state.but(sessions={**state.sessions, session: (user, active)})


def create_session(state, user, roles, session):
    roles = frozenset(roles)
    need_user(state, user)
    refuse_if(not roles <= state.roles, 4)
    refuse_if(session in state.sessions, 27)
    refuse_if(not roles <= authorized_roles(state, user), 29)
    refuse_if(user in state.locked, 37)
    need_room(state, "session", len(state.sessions) + 1)
    need_room(state, "activeRole", len(roles))
    after = with_session(state, session, user, roles)
    need_dynamic_separation(after)
    return after


def delete_session(state, user, session):
    need_user(state, user)
    need_session(state, session)
    need_owner(state, user, session)
    others = {other: kept for other, kept in state.sessions.items() if other != session}
    return state.but(sessions=others)


def add_active_role(state, user, session, role):
    need_user(state, user)
    need_session(state, session)
    need_role(state, role)
    need_owner(state, user, session)
    _, active = state.sessions[session]
    refuse_if(role in active, 30)
    refuse_if(role not in authorized_roles(state, user), 29)
    need_room(state, "activeRole", len(active) + 1)
    after = with_session(state, session, user, active | {role})
    need_dynamic_separation(after)
    return after


def drop_active_role(state, user, session, role):
    need_user(state, user)
    need_session(state, session)
    need_role(state, role)
    need_owner(state, user, session)
    _, active = state.sessions[session]
    refuse_if(role not in active, 31)
    return with_session(state, session, user, active - {role})


# Locks, which version 1 does not know.


def lock_user_account(state, user):
    refuse_if(state.version == 1, 51, version=1)
    need_user(state, user)
    return state.but(locked=state.locked | {user})


def unlock_user_account(state, user):
    refuse_if(state.version == 1, 51, version=1)
    need_user(state, user)
    return state.but(locked=state.locked - {user})


# Each command with its keys in the order of its arguments, and its refusals in the order in which they
# are judged; 32 has its kind beside it. `record` is met while reading, and 51 in version 1 alone.
COMMANDS = {
    "addUser": (add_user, "user", "3 32:user"),
    "deleteUser": (delete_user, "user", "2"),
    "addRole": (add_role, "role", "5 32:role"),
    "deleteRole": (delete_role, "role", "4 17"),
    "addPermObj": (add_object, "object", "7 32:object"),
    "deletePermObj": (delete_object, "object", "6 18"),
    "addPermission": (add_permission, "object operation", "6 9 32:permission"),
    "deletePermission": (delete_permission, "object operation", "6 8"),
    "grantPermission": (grant_permission, "object operation role", "6 8 4 12 32:grant"),
    "revokePermission": (revoke_permission, "object operation role", "6 8 4 13"),
    "assignUser": (assign_user, "user role", "2 4 10 32:assignment 24"),
    "deassignUser": (deassign_user, "user role", "2 4 11"),
    "addInheritance": (add_inheritance, "asc desc", "4 14 16 32:edge 24 25"),
    "deleteInheritance": (delete_inheritance, "asc desc", "4 15"),
    "addAscendant": (add_ascendant, "asc desc", "4 5 32:role 32:edge"),
    "addDescendant": (add_descendant, "asc desc", "4 5 32:role 32:edge"),
    "createSsdSet": (STATIC.create, "set roles cardinality", "4 19 23 32:ssdSet 32:member 24"),
    "addSsdRoleMember": (STATIC.add_member, "set role", "20 4 21 32:member 24"),
    "deleteSsdRoleMember": (STATIC.delete_member, "set role", "20 4 22 23"),
    "setSsdSetCardinality": (STATIC.set_cardinality, "set cardinality", "20 23 24"),
    "deleteSsdSet": (STATIC.delete, "set", "20"),
    "createDsdSet": (DYNAMIC.create, "set roles cardinality", "4 19 23 32:dsdSet 32:member 25"),
    "addDsdRoleMember": (DYNAMIC.add_member, "set role", "20 4 21 32:member 25"),
    "deleteDsdRoleMember": (DYNAMIC.delete_member, "set role", "20 4 22 23"),
    "setDsdSetCardinality": (DYNAMIC.set_cardinality, "set cardinality", "20 23 25"),
    "deleteDsdSet": (DYNAMIC.delete, "set", "20"),
    "createSession": (
        create_session,
        "user roles session",
        "2 4 27 29 37 32:session 32:activeRole 25",
    ),
    "deleteSession": (delete_session, "user session", "2 26 28"),
    "addActiveRole": (add_active_role, "user session role", "2 26 4 28 30 29 32:activeRole 25"),
    "dropActiveRole": (drop_active_role, "user session role", "2 26 4 28 31"),
    "importAssignments": (import_assignments, "csv", "32:record"),
    "lockUserAccount": (lock_user_account, "user", "51 2"),
    "unlockUserAccount": (unlock_user_account, "user", "51 2"),
}


def apply(state, function, arguments):
    """The state after a command, and what is reported: None, or the tally of an import."""
    does, _, _ = COMMANDS[function]
    if does is import_assignments:
        return import_assignments(state, *arguments)
    return end_sessions(does(state, *arguments)), None
