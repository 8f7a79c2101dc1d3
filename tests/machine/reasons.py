"""Why a user or a session may do an operation on an object, or why not, and which sets a command would violate."""

from . import state as facts
from .commands import need_object, need_owner, need_role, need_session, need_user, with_session
from .questions import need_operation
from .state import refuse_if


def violated_alone(state, role):
    """The first dynamic set in byte order that a session with this role alone would violate, or None."""
    roles = facts.below(state, role)
    return min((name for name, (members, n) in state.dynamic_sets.items() if len(members & roles) >= n), default=None)


def explain_user(state, user, op, ob):
    """The first reason that applies, and its names."""
    need_user(state, user)
    need_object(state, ob)
    need_operation(state, op)
    granted = {role for object, operation, role in state.grants if (object, operation) == (ob, op)}
    served = granted & facts.authorized_roles(state, user)
    usable = {role for role in served if violated_alone(state, role) is None}
    if user in state.locked:
        return "locked", ()
    if not granted:
        return "notGranted", ()
    if not served:
        return "notAuthorized", ()
    if not usable:
        return "separated", (min(served), violated_alone(state, min(served)))
    return "allowed", (min(facts.assigned_roles(state, user) & facts.above(state, min(usable))), min(usable))


def explain_session(state, session, op, ob):
    """The reason of the decision about a session, and its names."""
    need_session(state, session)
    need_object(state, ob)
    need_operation(state, op)
    granted = {role for object, operation, role in state.grants if (object, operation) == (ob, op)}
    had = granted & facts.session_roles(state, session)
    if not granted:
        return "notGranted", ()
    if not had:
        return "notActive", ()
    return "allowed", (min(state.sessions[session][1] & facts.above(state, min(had))), min(had))


def assignment_conflicts(state, user, role):
    """The static sets that would be violated if the user were assigned to the role, in byte order."""
    need_user(state, user)
    need_role(state, role)
    after = state.but(assignments=state.assignments | {(user, role)})
    had = [facts.authorized_roles(after, it) for it in state.users]
    return sorted(name for name, (members, n) in state.static_sets.items() if any(len(members & roles) >= n for roles in had))


def activation_conflicts(state, user, session, role):
    """The dynamic sets that would be violated if the role were activated in the session, in byte order."""
    need_user(state, user)
    need_session(state, session)
    need_role(state, role)
    need_owner(state, user, session)
    refuse_if(role not in facts.authorized_roles(state, user), 29)
    after = with_session(state, session, user, state.sessions[session][1] | {role})
    return [name for name, _ in conflicts(after.dynamic_sets, {it: facts.session_roles(after, it) for it in after.sessions})]


def creation_conflicts(state, user, roles):
    """The dynamic sets that a new session with these roles would violate, in byte order, with those of their roles that it would have."""
    need_user(state, user)
    for role in roles:
        need_role(state, role)
    refuse_if(not set(roles) <= facts.authorized_roles(state, user), 29)
    refuse_if(user in state.locked, 37)
    had = facts.session_roles(with_session(state, "new", user, frozenset(roles)), "new")
    return [
        (name, sorted(members & had)) for name, (members, n) in sorted(state.dynamic_sets.items()) if len(members & had) >= n
    ]


def inheritance_conflicts(state, asc, desc):
    """The static sets that would be violated if asc inherited from desc, with the first user of each; the dynamic ones with sessions."""
    need_role(state, asc)
    need_role(state, desc)
    refuse_if(asc in facts.below(state, desc), 16)
    after = state.but(edges=state.edges | {(asc, desc)})
    users = conflicts(after.static_sets, {user: facts.authorized_roles(after, user) for user in after.users})
    return users, conflicts(after.dynamic_sets, {it: facts.session_roles(after, it) for it in after.sessions})


def conflicts(sets, had):
    """The sets of which somebody has too many roles, each with the first who has, in byte order."""
    found = []
    for name, (members, n) in sorted(sets.items()):
        holders = sorted(holder for holder, roles in had.items() if len(members & roles) >= n)
        found += [(name, holder) for holder in holders[:1]]
    return found
