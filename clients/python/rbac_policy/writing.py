"""Policies are written as TOML, in a fixed order: the same office gives the same bytes."""

from collections.abc import Iterable, Iterator, Sequence

from .groups import grouped
from .mistakes import path_text, text_of
from .mistakes import key_text as key
from .model import State

# A list that would make a longer line has a line for each of its names.
_LONGEST = 100


def write_policy(state: State) -> str:
    """The text of a policy: what `reading` reads as this state, without sessions."""
    operations: dict[str, list[str]] = {ob: [] for ob in sorted(state.objects)}
    for ob, op in sorted(state.permissions):
        operations[ob].append(op)
    parts = [["[objects]", *_lists(operations)] if operations else [], *_roles(state)]
    for sort in ("static", "dynamic"):
        for name, duty in sorted(state.sets(sort).items()):
            lines = [*_lists({"roles": sorted(duty.roles)}), f"cardinality = {duty.cardinality}"]
            parts.append([_header(sort, name), *lines])
    if state.has_users:
        parts.append(["[users]", *_users(state)])
    return _text(parts)


def write_callers(state: State) -> str:
    """The text of a policy of callers, with a line for each thing that it says."""
    juniors, grants = _by_role(state)
    roles, sets = [], []
    for role in sorted(state.roles):
        lists: dict[tuple[str, ...], list[str]] = {(role, "inherits"): juniors[role]} if role in juniors else {}
        lists |= {(role, "grants", ob): grouped(functions) for ob, functions in grants.get(role, {}).items()}
        roles += [f"{path_text(path)} = {_list(names)}" for path, names in lists.items()] or [f"{key(role)} = {{}}"]
    for name, duty in sorted(state.static.items()):
        sets.append(f"{key(name)} = {{ roles = {_list(sorted(duty.roles))}, cardinality = {duty.cardinality} }}")
    parts = (("roles", roles), ("static", sets), ("users", list(_users(state))))
    return _text([f"[{section}]", *lines] for section, lines in parts if lines)


def _text(parts: Iterable[list[str]]) -> str:
    return "\n".join("".join(f"{line}\n" for line in part) for part in parts if part)


def _header(*path: str) -> str:
    return f"[{path_text(tuple(path))}]"


def _by_role(state: State) -> tuple[dict[str, list[str]], dict[str, dict[str, list[str]]]]:
    """What each role inherits, and what is granted to it: the operations by their objects."""
    juniors: dict[str, list[str]] = {}
    for asc, desc in sorted(state.edges):
        juniors.setdefault(asc, []).append(desc)
    grants: dict[str, dict[str, list[str]]] = {}
    for ob, op, role in sorted(state.grants):
        grants.setdefault(role, {}).setdefault(ob, []).append(op)
    return juniors, grants


def _roles(state: State) -> Iterator[list[str]]:
    juniors, grants = _by_role(state)
    for role in sorted(state.roles):
        if role in juniors or role not in grants:
            yield [_header("roles", role), *(_lists({"inherits": juniors[role]}) if role in juniors else [])]
        if role in grants:
            yield [_header("roles", role, "grants"), *_lists(grants[role])]


def _users(state: State) -> Iterator[str]:
    roles: dict[str, list[str]] = {}
    for user, role in sorted(state.assignments):
        roles.setdefault(user, []).append(role)
    for user, is_locked in sorted(state.users.items()):
        if is_locked:
            yield f"{key(user)} = {{ roles = {_list(roles.get(user, []))}, locked = true }}"
        else:
            yield from _lists({user: roles.get(user, [])})


def _list(names: Sequence[str]) -> str:
    return f"[{', '.join(map(text_of, names))}]"


def _lists(values: dict[str, list[str]]) -> Iterator[str]:
    """Lines with a list at each key. If a list is long, a line has one of its names."""
    for name, names in values.items():
        line = f"{key(name)} = {_list(names)}"
        if len(line) <= _LONGEST or len(names) < 2:
            yield line
            continue
        yield f"{key(name)} = ["
        yield from (f"    {text_of(one)}," for one in names)
        yield "]"
