"""An office of this process from the lines of a snapshot: by its rows, since a large office is loaded faster by them."""

import json
from typing import Any, Callable, Dict, Iterable, Iterator, List, Mapping, Set, Tuple

from rbac_office import Office, Row

from ._decision import Unexpected


def _sets(members: str, cardinalities: str) -> Callable[[Dict[str, Any]], Iterator[Row]]:
    def rows(line: Dict[str, Any]) -> Iterator[Row]:
        yield Row(cardinalities, (line["set"],), line["cardinality"])
        for role in line["roles"]:
            yield Row(members, (line["set"], role))

    return rows


def _session(line: Dict[str, Any]) -> Iterator[Row]:
    yield Row("sessions", (line["session"], line["user"]))
    for role in line["roles"]:
        yield Row("activatedRoles", (line["session"], role))


def _names(table: str, keys: Tuple[str, ...]) -> Callable[[Dict[str, Any]], Iterator[Row]]:
    return lambda line: iter([Row(table, tuple(line[key] for key in keys))])


# The tables of the functions whose values are names alone, with their keys.
_OF_NAMES: Mapping[str, Tuple[str, Tuple[str, ...]]] = {
    "addUser": ("users", ("user",)),
    "addRole": ("roles", ("role",)),
    "addInheritance": ("inheritances", ("asc", "desc")),
    "addPermObj": ("objects", ("object",)),
    "addPermission": ("permissions", ("object", "operation")),
    "grantPermission": ("grants", ("object", "operation", "role")),
    "assignUser": ("assignments", ("user", "role")),
    "lockUserAccount": ("locks", ("user",)),
}

# The keys and the rows of a line of a snapshot, by its function.
_LINES: Mapping[str, Tuple[Set[str], Callable[[Dict[str, Any]], Iterator[Row]]]] = {
    **{function: ({"fn", *keys}, _names(table, keys)) for function, (table, keys) in _OF_NAMES.items()},
    "createSsdSet": ({"fn", "set", "roles", "cardinality"}, _sets("staticMembers", "staticCardinalities")),
    "createDsdSet": ({"fn", "set", "roles", "cardinality"}, _sets("dynamicMembers", "dynamicCardinalities")),
    "createSession": ({"fn", "user", "roles", "session"}, _session),
}


def _rows_of(text: bytes) -> List[Row]:
    """The rows that a line makes, or none if it isn't one as the front writes it: then the office judges it."""
    line = json.loads(text)
    keys, rows = _LINES.get(line.get("fn", "") if isinstance(line, dict) else "", (None, None))
    if rows is None or line.keys() != keys or not all(_is_value(key, value) for key, value in line.items()):
        return []
    return list(rows(line))


def _is_value(key: str, value: Any) -> bool:
    """Whether a value has the type that its key has."""
    if key == "roles":
        return type(value) is list and all(type(role) is str for role in value)
    return type(value) is (int if key == "cardinality" else str)


def office_of(lines: List[bytes]) -> Office:
    """The office that the lines of a snapshot make. Raises `Unexpected` if they make none."""
    rows: List[Row] = []
    done = 0
    try:
        for line in lines:
            found = _rows_of(line)
            if not found:
                break
            rows.extend(found)
            done += 1
        rows.extend(_closure([row.names for row in rows if row.table == "inheritances"]))
        office = Office.load(rows)
    except MemoryError:
        raise
    except Exception as error:  # Whatever is in the lines.
        raise Unexpected(f"the snapshot is none of an office: {type(error).__name__}") from None
    for line in lines[done:]:
        answer_to(office, line)
    return office


def answer_to(office: Office, line: bytes) -> None:
    """Does a command that the office of the front has accepted. Raises `Unexpected` if this one doesn't accept it."""
    before = office.revision
    answer = office.answer(line)
    if not answer.startswith(b'{"ok":true') or office.revision != before + 1:
        code = json.loads(answer).get("code", "it is no command")
        raise Unexpected(f"the copy does not accept a command: {code}")


def _closure(edges: Iterable[Tuple[str, ...]]) -> Iterator[Row]:
    """The pairs of a role and one that it inherits from, directly or through others."""
    juniors: Dict[str, List[str]] = {}
    for senior, junior in edges:
        juniors.setdefault(senior, []).append(junior)
    for senior in juniors:
        reached: Set[str] = set()
        ahead = [senior]
        while ahead:
            for junior in juniors.get(ahead.pop(), ()):
                if junior not in reached:
                    reached.add(junior)
                    ahead.append(junior)
        for junior in reached:
            yield Row("closurePairs", (senior, junior))
