"""Policies are read from files in TOML."""

import tomllib
from collections.abc import Iterator, Sequence
from dataclasses import dataclass, field, replace
from pathlib import Path as File
from typing import Any

from .groups import members
from .mistakes import Lines, Mistake, Path, name_fault
from .model import SET_FUNCTIONS, Command, DutySet, State, shown

SECTIONS = ("objects", "roles", "static", "dynamic", "users", "tests")


@dataclass(frozen=True)
class Test:
    """A test of a policy: what a user may do, and by which set an assignment or a session is refused."""

    path: Path
    user: str | None = None
    roles: tuple[str, ...] | None = None
    session: tuple[str, ...] | None = None
    may: tuple[tuple[str, str], ...] = ()
    may_not: tuple[tuple[str, str], ...] = ()
    refused_by: str | None = None


@dataclass
class Policy:
    """What files say: a state, its commands with the paths that they are from, and tests."""

    state: State
    steps: list[tuple[Command, Path]] = field(default_factory=list)
    tests: list[Test] = field(default_factory=list)
    mistakes: list[Mistake] = field(default_factory=list)
    lines: dict[str, Lines] = field(default_factory=dict)
    files: dict[Path, str] = field(default_factory=dict)
    texts: dict[str, str] = field(default_factory=dict)
    first_tests: dict[str, int] = field(default_factory=dict)
    is_of_callers: bool = False

    def note(self, path: Path, text: str, file: str | None = None) -> None:
        """Notes a mistake at a path."""
        self.mistakes.append(self.at(path, text, file))

    def at(self, path: Path, text: str, file: str | None = None) -> Mistake:
        """A text about what is at a path, with its file and line."""
        file = file or self.file_of(path)
        if path[:1] == ("tests",) and len(path) > 1 and isinstance(path[1], int):
            path = ("tests", path[1] - self.first_tests[file], *path[2:])
        if file not in self.lines:
            self.lines[file] = Lines(self.texts.get(file, ""))
        return Mistake(file, self.lines[file].of(path), path, text)

    def file_of(self, path: Path) -> str:
        """The file that has the beginning of a path."""
        return self.files.get(path[:2], "") or self.files.get(path[:1], "") or next(iter(self.texts), "")


def read_policy(paths: Sequence[str], is_of_callers: bool = False) -> Policy:
    """Reads a policy from one or more files, which may each have a part of it. What is wrong is at `mistakes`.

    A policy of callers has no objects, dynamic sets and locks: an object is a scope, and exists if something is granted on it.
    """
    policy = Policy(State(has_users=is_of_callers), is_of_callers=is_of_callers)
    read: dict[str, dict[str, Any]] = {section: {} for section in SECTIONS}
    for path in paths:
        _read_file(policy, path, read)
    for section, take in (("objects", _objects), ("roles", _roles), ("users", _users)):
        for name, value in read[section].items():
            take(policy, name, value)
    for sort in ("static", "dynamic"):
        for name, value in read[sort].items():
            _set(policy, sort, name, value)
    for number, value in read["tests"].items():
        _test(policy, ("tests", number), value)
    _order(policy)
    return policy


def _read_file(policy: Policy, path: str, read: dict[str, dict[str, Any]]) -> None:
    """Reads a file, and adds its sections to those of the files before."""
    try:
        text = File(path).read_bytes().decode()
        values = tomllib.loads(text)
    except OSError as error:
        policy.mistakes.append(Mistake(path, 0, (), error.strerror or "it can't be read"))
        return
    except UnicodeDecodeError:
        policy.mistakes.append(Mistake(path, 0, (), "it is not UTF-8"))
        return
    except (ValueError, RecursionError) as error:
        policy.mistakes.append(Mistake(path, 0, (), str(error) or "it nests too deep"))
        return
    policy.texts[path] = text
    for section, value in values.items():
        if section not in SECTIONS or policy.is_of_callers and section in ("objects", "dynamic"):
            allowed = ", ".join(name for name in SECTIONS if not (policy.is_of_callers and name in ("objects", "dynamic")))
            policy.note((section,), f"unknown key; allowed here: {allowed}", path)
        elif section == "tests":
            _add_tests(policy, path, value, read[section])
        elif _is(policy, (section,), value, dict, "a table", path):
            policy.state.has_users |= section == "users"
            _add(policy, path, section, value, read[section])


def _add(policy: Policy, path: str, section: str, value: dict[str, Any], read: dict[str, Any]) -> None:
    policy.files.setdefault((section,), path)
    for name, part in value.items():
        if name in read:
            policy.note((section, name), f"{policy.files[section, name]} has it too", path)
        else:
            policy.files[section, name], read[name] = path, part


def _add_tests(policy: Policy, path: str, value: Any, read: dict[Any, Any]) -> None:
    """Adds the tests of a file. They are numbered from 0, and those of later files go on."""
    if _is(policy, ("tests",), value, list, "a list of tables: [[tests]]", path):
        policy.first_tests[path] = len(read)
        for part in value:
            policy.files["tests", len(read)] = path
            read[len(read)] = part


def _is(policy: Policy, path: Path, value: Any, kind: type, words: str, file: str | None = None) -> bool:
    """Whether a value is of a kind; otherwise that is noted."""
    if type(value) is not kind:
        policy.note(path, f"this has to be {words}", file)
        return False
    return True


def _has_keys(policy: Policy, path: Path, value: dict[str, Any], allowed: Sequence[str]) -> None:
    """Notes the keys of a table that are unknown."""
    for key in value:
        if key not in allowed:
            policy.note((*path, key), f"unknown key; allowed here: {', '.join(allowed)}")


def _is_name(policy: Policy, path: Path, name: str) -> bool:
    if fault := name_fault(name):
        policy.note(path, fault)
    return fault is None


def _names(policy: Policy, path: Path, value: Any) -> Iterator[tuple[str, Path]]:
    """The names of a list, with their paths. What is no name, and what occurs twice, is noted."""
    seen: set[str] = set()
    if not _is(policy, path, value, list, "a list of names"):
        return
    for place, name in enumerate(value):
        at = (*path, place)
        if not _is(policy, at, name, str, "a name in quotes") or not _is_name(policy, at, name):
            continue
        if name in seen:
            policy.note(at, f"{shown(name)} is in this list twice")
        else:
            seen.add(name)
            yield name, at


def _objects(policy: Policy, ob: str, value: Any) -> None:
    path: Path = ("objects", ob)
    if not _is_name(policy, path, ob):
        return
    policy.state.objects.add(ob)
    policy.steps.append(({"fn": "addPermObj", "object": ob}, path))
    for op, at in _names(policy, path, value):
        policy.state.permissions.add((ob, op))
        policy.steps.append(({"fn": "addPermission", "object": ob, "operation": op}, at))


def _roles(policy: Policy, role: str, value: Any) -> None:
    path: Path = ("roles", role)
    if not _is_name(policy, path, role):
        return
    policy.state.roles.add(role)
    policy.steps.append(({"fn": "addRole", "role": role}, path))
    if not _is(policy, path, value, dict, "a table"):
        return
    _has_keys(policy, path, value, ("inherits", "grants"))
    for desc, at in _names(policy, (*path, "inherits"), value.get("inherits", [])):
        policy.state.edges.add((role, desc))
        policy.steps.append(({"fn": "addInheritance", "asc": role, "desc": desc}, at))
    for (ob, op), at in _permissions(policy, (*path, "grants"), value.get("grants", {})):
        if policy.is_of_callers:
            _scope(policy, ob, op, at)
        policy.state.grants.add((ob, op, role))
        policy.steps.append(({"fn": "grantPermission", "object": ob, "operation": op, "role": role}, at))


def _scope(policy: Policy, ob: str, op: str, path: Path) -> None:
    """Makes the object and the permission of a grant to callers, if they aren't there yet."""
    if ob not in policy.state.objects:
        policy.state.objects.add(ob)
        policy.steps.append(({"fn": "addPermObj", "object": ob}, path))
    if (ob, op) not in policy.state.permissions:
        policy.state.permissions.add((ob, op))
        policy.steps.append(({"fn": "addPermission", "object": ob, "operation": op}, path))


def _permissions(policy: Policy, path: Path, value: Any) -> Iterator[tuple[tuple[str, str], Path]]:
    """The permissions of a table of objects and their operations."""
    if _is(policy, path, value, dict, 'a table of objects, such as { vault = ["open"] }'):
        for ob, operations in value.items():
            if _is_name(policy, (*path, ob), ob):
                for op, at in _operations(policy, (*path, ob), operations):
                    yield (ob, op), at


def _operations(policy: Policy, path: Path, value: Any) -> Iterator[tuple[str, Path]]:
    """The operations of a list. In that of callers a group of functions means all of them: none of these is beside it."""
    found: dict[str, str] = {}
    for name, at in _names(policy, path, value):
        for op in members(name) if policy.is_of_callers else [name]:
            if op in found:
                policy.note(at, f"{shown(op)} is one of {shown(found[op] if name == op else name)}, which this list has")
                break
            found[op] = name
            yield op, at


def _set(policy: Policy, sort: str, name: str, value: Any) -> None:
    path: Path = (sort, name)
    if not _is_name(policy, path, name) or not _is(policy, path, value, dict, "a table"):
        return
    _has_keys(policy, path, value, ("roles", "cardinality"))
    missing = [key for key in ("roles", "cardinality") if key not in value]
    for key in missing:
        policy.note(path, f"the key {key} is missing")
    if missing or not _is(policy, (*path, "cardinality"), value["cardinality"], int, "a number"):
        return
    roles = [role for role, _ in _names(policy, (*path, "roles"), value["roles"])]
    cardinality = min(max(value["cardinality"], 0), 2**32 - 1)
    policy.state.sets(sort)[name] = DutySet(frozenset(roles), cardinality)
    create = SET_FUNCTIONS[sort][0]
    policy.steps.append(({"fn": create, "set": name, "roles": sorted(roles), "cardinality": cardinality}, path))


def _users(policy: Policy, user: str, value: Any) -> None:
    path: Path = ("users", user)
    if not _is_name(policy, path, user):
        return
    roles: Any = value
    is_locked = False
    at = path
    if isinstance(value, dict) and not policy.is_of_callers:
        _has_keys(policy, path, value, ("roles", "locked"))
        roles, at = value.get("roles", []), (*path, "roles")
        is_locked = value.get("locked", False)
        if not _is(policy, (*path, "locked"), is_locked, bool, "true or false"):
            is_locked = False
    policy.state.users[user] = is_locked
    policy.steps.append(({"fn": "addUser", "user": user}, path))
    if is_locked:
        policy.steps.append(({"fn": "lockUserAccount", "user": user}, path))
    for role, place in _names(policy, at, roles):
        policy.state.assignments.add((user, role))
        policy.steps.append(({"fn": "assignUser", "user": user, "role": role}, place))


def _test(policy: Policy, path: Path, value: Any) -> None:
    if not _is(policy, path, value, dict, "a table"):
        return
    allowed = ("user", "roles", "session", "may", "may_not", "refused_by")
    _has_keys(policy, path, value, allowed)
    if ("user" in value) == ("roles" in value):
        policy.note(path, "a test has either a user of the policy, at user, or a list of roles, at roles")
    for key in ("user", "refused_by"):
        if key in value and not _is(policy, (*path, key), value[key], str, "a name in quotes"):
            return

    def names(key: str) -> tuple[str, ...] | None:
        return tuple(name for name, _ in _names(policy, (*path, key), value[key])) if key in value else None

    def permissions(key: str) -> tuple[tuple[str, str], ...]:
        return tuple(found for found, _ in _permissions(policy, (*path, key), value.get(key, {})))

    test = Test(path, value.get("user"), names("roles"), names("session"), permissions("may"), permissions("may_not"))
    policy.tests.append(replace(test, refused_by=value.get("refused_by")))


# The order in which the steps of a policy are done: each uses what is there before.
_RANKS = {
    function: rank
    for rank, function in enumerate(
        "addRole addInheritance addPermObj addPermission grantPermission createSsdSet createDsdSet addUser assignUser "
        "lockUserAccount".split()
    )
}


def _order(policy: Policy) -> None:
    policy.steps.sort(key=lambda step: _RANKS[step[0]["fn"]])
