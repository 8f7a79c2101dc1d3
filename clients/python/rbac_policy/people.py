"""The people of a file in CSV, and the commands that make an office have them."""

import csv
import difflib
import io
from collections import Counter
from collections.abc import Iterable, Iterator
from dataclasses import dataclass, field
from pathlib import Path

from .mistakes import name_fault
from .model import LIMITS, Command, State, Stop, shown

_COLUMNS = ("user", "roles", "locked")
_YES, _NO = ("yes", "true", "1", "x"), ("no", "false", "0")

# Above how many users who would be locked or deleted, or lose all roles, their number has to be confirmed: 5 of 100. If more people of
# a file than that have no room, nothing is done.
_SHARE = 20


@dataclass(frozen=True)
class Person:
    """A line of the file. `roles` and `is_locked` are None if the file doesn't say them."""

    line: int
    user: str
    roles: tuple[str, ...] | None = None
    is_locked: bool | None = None


@dataclass
class People:
    """The people of a file, and what is wrong in it: a text with each line."""

    people: list[Person] = field(default_factory=list)
    mistakes: list[tuple[int, str]] = field(default_factory=list)

    def note(self, line: int, text: str) -> None:
        """Notes a mistake."""
        self.mistakes.append((line, text))


def read_people(path: str) -> People:
    """Reads a file as spreadsheets write it: separated by commas or semicolons, with or without a byte order mark."""
    try:
        text = Path(path).read_bytes().decode("utf-8-sig")
    except OSError as error:
        raise Stop(f"{path}: {error.strerror}") from None
    except UnicodeDecodeError:
        raise Stop(f"{path}: it is not UTF-8: save it as CSV UTF-8") from None
    found = People()
    first = text.partition("\n")[0]
    delimiter = ";" if first.count(";") > first.count(",") else ","
    rows = csv.reader(io.StringIO(text, newline=""), delimiter=delimiter, strict=True)
    try:
        columns = [name.strip().lower() for name in next(rows, [])]
        _judge_columns(found, columns)
        if not found.mistakes:
            _judge_size(path, columns, csv.reader(io.StringIO(text, newline=""), delimiter=delimiter, strict=True))
            for row in rows:
                _read_row(found, rows.line_num, columns, row)
    except csv.Error as error:
        found.note(rows.line_num, str(error))
    for user, count in Counter(person.user for person in found.people).items():
        if count > 1:
            lines = [person.line for person in found.people if person.user == user]
            found.note(lines[1], f"{shown(user)} is in the file {count} times, first in line {lines[0]}")
    return found


def _judge_columns(found: People, columns: list[str]) -> None:
    if "user" not in columns:
        found.note(1, "the first line has no column user; it names the columns: user, roles, locked")
    for name in _COLUMNS:
        if columns.count(name) > 1:
            found.note(1, f"there are two columns {name}")
    missing = [name for name in _COLUMNS if name not in columns]
    for name in columns:
        # Other columns are ignored, but one that is only misspelt would leave roles and locks as they are, and nobody would see it.
        for near in difflib.get_close_matches(name, missing, 1, 0.8):
            found.note(1, f"the column {shown(name)} would be ignored; is {near} meant?")


def _judge_size(path: str, columns: list[str], rows: Iterator[list[str]]) -> None:
    """Raises `Stop` if an office has no room for many of the people, whatever it has now. It takes much less time than to read all."""
    at = columns.index("roles") if "roles" in columns else len(columns)
    try:
        next(rows)  # The names of the columns.
        cells = Counter(row[at] if at < len(row) else "" for row in rows if any(row))
    except csv.Error:
        return  # Whoever reads all says in which line it is.
    sizes: Counter[int] = Counter()
    for cell, count in cells.items():
        sizes[len({role.strip() for role in cell.split(";") if role.strip()})] += count
    users, assignments = LIMITS["user"], LIMITS["assignment"]
    fitting, room = 0, assignments
    for size, count in sorted(sizes.items()):  # Those with few roles first, of whom most fit.
        some = min(count, room // size) if size else count
        fitting, room = fitting + some, room - some * size
    people = sizes.total()
    if is_many(people - min(fitting, users), people):
        wanted = sum(size * count for size, count in sizes.items())
        what = f"{people:,} people with {wanted:,} assignments are in the file"
        raise Stop(
            f"{path}: {what}, and an office has room for {users:,} users and {assignments:,} assignments: nothing was done"
        )


def _read_row(found: People, line: int, columns: list[str], row: list[str]) -> None:
    if not any(cell.strip() for cell in row):
        return
    if len(row) != len(columns):
        found.note(line, f"the line has {len(row)} fields, and the first line has {len(columns)}")
        return
    cells = {name: cell.strip() for name, cell in zip(columns, row) if name in _COLUMNS}
    roles = tuple(role.strip() for role in cells["roles"].split(";") if role.strip()) if "roles" in cells else None
    locked = cells.get("locked", "").lower()
    faults = [f"user: {fault}" for fault in [name_fault(cells["user"])] if fault]
    faults += [f"roles: {fault}" for role in roles or () if (fault := name_fault(role))]
    if locked not in (*_YES, *_NO, ""):
        faults.append(f"locked is {shown(locked)}: it has to be yes or no, or empty to leave it as it is")
    for fault in faults:
        found.note(line, fault)
    if not faults:
        is_locked = None if not locked else locked in _YES
        found.people.append(Person(line, cells["user"], None if roles is None else tuple(dict.fromkeys(roles)), is_locked))


@dataclass(frozen=True)
class Group:
    """Commands that are done together or not at all, and the line that they are from, or 0 for who isn't in the file."""

    line: int
    commands: tuple[Command, ...]


@dataclass
class Changes:
    """The commands for the people of a file.

    `crowded` are the groups for which the office has no room, by the kind of which it has too many: they aren't among `groups`.
    `absent` are the users who aren't in the file, and `leavers` those of them who are locked or deleted. `bare` are the users of the
    file who lose their roles, and get none.
    """

    groups: list[Group] = field(default_factory=list)
    crowded: dict[str, list[Group]] = field(default_factory=dict)
    absent: list[str] = field(default_factory=list)
    leavers: list[str] = field(default_factory=list)
    bare: list[str] = field(default_factory=list)

    @property
    def commands(self) -> list[Command]:
        """The commands of all groups for which there is room."""
        return [command for group in self.groups for command in group.commands]

    @property
    def out(self) -> int:
        """For how many people there is no room."""
        return sum(map(len, self.crowded.values()))


def changes_of(found: State, people: list[Person], leavers: str) -> Changes:
    """What makes an office have these people. `leavers` is what becomes of users who aren't among them: keep, lock or delete.

    What a person loses and gets is one group, in which the losses come first, so that the person never has more than before or after.
    What only takes something away comes first, also a lock. So it makes room, and nobody loses a role to make room for somebody else.
    """
    changes = Changes()
    roles: dict[str, set[str]] = {}
    for user, role in found.assignments:
        roles.setdefault(user, set()).add(role)
    here = {person.user for person in people}
    changes.bare = [person.user for person in people if person.roles == () and roles.get(person.user)]
    changes.absent = sorted(user for user in found.users if user not in here)
    if leavers != "keep":
        changes.leavers = [user for user in changes.absent if leavers == "delete" or not found.users[user]]
    function = "deleteUser" if leavers == "delete" else "lockUserAccount"
    removing = [Group(0, (_command(function, user=user),)) for user in changes.leavers]
    others: list[Group] = []
    for person in people:
        own = roles.get(person.user, set())
        if person.is_locked and found.users.get(person.user) is False:
            removing.append(Group(person.line, (_command("lockUserAccount", user=person.user),)))
        takes, gives = _takes(person, own), _gives(person, found, own)
        if takes or gives:
            (others if gives else removing).append(Group(person.line, (*takes, *gives)))
    changes.groups = removing + _with_room(changes, found, roles, removing, others)
    return changes


def _with_room(
    changes: Changes, found: State, roles: dict[str, set[str]], before: list[Group], groups: list[Group]
) -> list[Group]:
    """Those of some groups for which an office has room after those before. The others are noted."""
    counts = {"user": len(found.users), "assignment": len(found.assignments)}
    for group in before:
        for command in group.commands:
            counts["user"] -= command["fn"] == "deleteUser"
            counts["assignment"] -= len(roles.get(command["user"], ())) if command["fn"] == "deleteUser" else 0
            counts["assignment"] -= command["fn"] == "deassignUser"
    fitting = []
    # Those that need no more room than they leave are sure of it, whoever comes before them.
    for group in sorted(groups, key=lambda group: max(_growth(group).values()) > 0):
        more = _growth(group)
        full = next((kind for kind, count in more.items() if count > 0 and counts[kind] + count > LIMITS[kind]), None)
        if full is not None:
            changes.crowded.setdefault(full, []).append(group)
            continue
        fitting.append(group)
        for kind, count in more.items():
            counts[kind] += count
    return fitting


def _growth(group: Group) -> dict[str, int]:
    """How many more of each kind there are after a group."""
    functions = [command["fn"] for command in group.commands]
    return {"user": functions.count("addUser"), "assignment": functions.count("assignUser") - functions.count("deassignUser")}


def _command(function: str, **arguments: str) -> Command:
    return {"fn": function, **arguments}


def _takes(person: Person, roles: set[str]) -> list[Command]:
    """The roles that a person loses."""
    lost = () if person.roles is None else sorted(roles - set(person.roles))
    return [_command("deassignUser", user=person.user, role=role) for role in lost]


def _gives(person: Person, found: State, roles: set[str]) -> list[Command]:
    """What a person gets."""
    user, gives = person.user, []
    if user not in found.users:
        gives.append(_command("addUser", user=user))
        if person.is_locked:
            gives.append(_command("lockUserAccount", user=user))
    gives += [_command("assignUser", user=user, role=role) for role in person.roles or () if role not in roles]
    if person.is_locked is False and found.users.get(user):
        gives.append(_command("unlockUserAccount", user=user))
    return gives


# What undoes a command of a group, in an office that is as the command has left it.
_UNDO = {
    "addUser": "deleteUser",
    "assignUser": "deassignUser",
    "deassignUser": "assignUser",
    "lockUserAccount": "unlockUserAccount",
    "unlockUserAccount": "lockUserAccount",
}


def undone(commands: Iterable[Command]) -> list[Command]:
    """The commands that undo some of a group."""
    return [{**command, "fn": _UNDO[command["fn"]]} for command in reversed(list(commands))]


def needs_confirmation(found: State, changes: Changes) -> int:
    """How many users who lose everything have to be confirmed: 0 if they are few."""
    count = len(changes.leavers) + len(changes.bare)
    return count if is_many(count, len(found.users)) else 0


def is_many(count: int, all_of_them: int) -> bool:
    """Whether the count is more than 5 of 100."""
    return count * _SHARE > all_of_them
