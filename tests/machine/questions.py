"""The questions: each has a state and its arguments, and refuses, or returns its answer.

An answer is a set of names or of permissions, a number or a truth value.
"""

from . import state as facts
from .commands import create_session, need_object, need_permission, need_role, need_session, need_set, need_user
from .state import Refused, refuse_if


def need_operation(state, op):
    """Refuses unless some permission, of any object, has the operation."""
    refuse_if(all(known != op for _, known in state.permissions), 33)


def check_access(state, session, op, ob):
    need_session(state, session)
    need_object(state, ob)
    need_operation(state, op)
    return (ob, op) in facts.granted_permissions(state, facts.session_roles(state, session))


def assigned_users(state, role):
    need_role(state, role)
    return facts.assigned_users(state, role)


def assigned_roles(state, user):
    need_user(state, user)
    return facts.assigned_roles(state, user)


def authorized_users(state, role):
    need_role(state, role)
    return facts.authorized_users(state, role)


def authorized_roles(state, user):
    need_user(state, user)
    return facts.authorized_roles(state, user)


def role_permissions(state, role):
    need_role(state, role)
    return facts.authorized_permissions(state, role)


def user_permissions(state, user):
    need_user(state, user)
    return facts.granted_permissions(state, facts.authorized_roles(state, user))


def session_roles(state, session):
    need_session(state, session)
    return facts.session_roles(state, session)


def session_permissions(state, session):
    need_session(state, session)
    return facts.granted_permissions(state, facts.session_roles(state, session))


def role_operations_on_object(state, role, ob):
    need_role(state, role)
    need_object(state, ob)
    return {op for on, op in role_permissions(state, role) if on == ob}


def user_operations_on_object(state, user, ob):
    need_user(state, user)
    need_object(state, ob)
    return {op for on, op in user_permissions(state, user) if on == ob}


def permission_roles(state, ob, op):
    need_object(state, ob)
    need_permission(state, ob, op)
    return {role for on, by, role in state.grants if (on, by) == (ob, op)}


def ssd_role_sets(state):
    return set(state.static_sets)


def ssd_role_set_roles(state, name):
    need_set(state.static_sets, name)
    return state.static_sets[name][0]


def ssd_role_set_cardinality(state, name):
    need_set(state.static_sets, name)
    return state.static_sets[name][1]


def dsd_role_sets(state):
    return set(state.dynamic_sets)


def dsd_role_set_roles(state, name):
    need_set(state.dynamic_sets, name)
    return state.dynamic_sets[name][0]


def dsd_role_set_cardinality(state, name):
    need_set(state.dynamic_sets, name)
    return state.dynamic_sets[name][1]


# Each question with its keys in the order of its arguments, and its refusals in the order in which they
# are judged.
QUESTIONS = {
    "checkAccess": (check_access, "session operation object", "26 6 33"),
    "assignedUsers": (assigned_users, "role", "4"),
    "assignedRoles": (assigned_roles, "user", "2"),
    "authorizedUsers": (authorized_users, "role", "4"),
    "authorizedRoles": (authorized_roles, "user", "2"),
    "rolePermissions": (role_permissions, "role", "4"),
    "userPermissions": (user_permissions, "user", "2"),
    "sessionRoles": (session_roles, "session", "26"),
    "sessionPermissions": (session_permissions, "session", "26"),
    "roleOperationsOnObject": (role_operations_on_object, "role object", "4 6"),
    "userOperationsOnObject": (user_operations_on_object, "user object", "2 6"),
    "ssdRoleSets": (ssd_role_sets, "", ""),
    "ssdRoleSetRoles": (ssd_role_set_roles, "set", "20"),
    "ssdRoleSetCardinality": (ssd_role_set_cardinality, "set", "20"),
    "dsdRoleSets": (dsd_role_sets, "", ""),
    "dsdRoleSetRoles": (dsd_role_set_roles, "set", "20"),
    "dsdRoleSetCardinality": (dsd_role_set_cardinality, "set", "20"),
    "permissionRoles": (permission_roles, "object operation", "6 8"),
}


def ask(state, function, arguments):
    """Returns the answer to a question."""
    tells, _, _ = QUESTIONS[function]
    return tells(state, *arguments)


def check_user(state, user, op, ob):
    """Whether the user may create a session that has access. Only the library answers this: no line asks it.

    Of the sessions with one role: no further role helps. There are no other sessions, so that their number doesn't refuse one.
    """
    need_user(state, user)
    need_object(state, ob)
    need_operation(state, op)
    alone = state.but(sessions={})
    for role in facts.authorized_roles(state, user):
        try:
            after = create_session(alone, user, [role], "session")
        except Refused:
            continue
        if check_access(after, "session", op, ob):
            return True
    return False
