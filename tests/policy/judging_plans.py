"""What has to hold after each command of a plan, by the plain model."""

import machine.state as facts
from machine.commands import COMMANDS, apply
from machine.state import Refused


def step(state, command):
    """The state after a command as a line has it, and the code of its refusal, or None."""
    _, keys, _ = COMMANDS[command["fn"]]
    values = [frozenset(command[key]) if key == "roles" else command[key] for key in keys.split()]
    try:
        return apply(state, command["fn"], values)[0], None
    except Refused as refused:
        return state, refused.code


def permissions(state, user):
    """What a user may do: nothing if the user isn't there or is locked."""
    if user not in state.users or user in state.locked:
        return set()
    return facts.granted_permissions(state, facts.authorized_roles(state, user))


def beyond(state, first, second):
    """The users who have a permission that neither of two states gives them."""
    users = state.users | first.users | second.users
    return {user for user in users if permissions(state, user) - permissions(first, user) - permissions(second, user)}


def missing_sets(state, first, second):
    """The sets that two states both have, by name or by what they demand, and of which a state demands less than both."""
    missing = []
    for part in ("static_sets", "dynamic_sets"):
        olds, news, now = (getattr(one, part) for one in (first, second, state))
        wanted = [(name, olds[name], news[name]) for name in olds.keys() & news.keys()]
        wanted += [(name, duty, duty) for name, duty in olds.items() if duty in news.values()]
        there = set(now.values())
        for name, *demands in wanted:
            if there.isdisjoint(demands) and not any(as_strong(duty, demand) for duty in there for demand in demands):
                missing.append(f"{part} {name}")
    return missing


def as_strong(duty, demand):
    """Whether a set forbids all that another one forbids."""
    return duty[0] >= demand[0] and duty[1] <= demand[1]


def but_sessions(state):
    """A state without its sessions."""
    return state.but(sessions={})
