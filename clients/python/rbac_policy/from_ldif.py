"""Directories as LDIF: groups of names and of POSIX are roles, and entries with a uid are users."""

import base64
import re
from collections import Counter
from collections.abc import Iterator
from datetime import datetime, timezone
from pathlib import Path

from .imported import Imported
from .model import Stop, shown

_GROUPS = ("groupofnames", "groupofuniquenames", "posixgroup")

# What names the members of an entry that is a group of another kind.
_MEMBERS = ("member", "uniquemember", "memberuid", "memberurl", "roleoccupant")

# What says that an account is locked. An empty value doesn't. A lock of the first kind is for ever if it has the second value.
_LOCKS = ("pwdaccountlockedtime", "nsaccountlock")
_FOR_EVER = "000001010000Z"

# The same in the words of other servers, the state of an account that isn't locked, and Samba's flags without D (disabled) and L (locked).
_OTHER_LOCKS = ("logindisabled", "ds-pwp-account-disabled")
_ACTIVE, _NO_LOCK = "active", re.compile(r"\[[A-CE-KM-Z ]*\]")

# What says when an account begins or ends: as a time, or as a count since 1970. With it: the seconds of its unit, and the value for never.
_TIMES = {"pwdstarttime": "begins"} | dict.fromkeys(
    ("pwdendtime", "krbprincipalexpiration", "loginexpirationtime", "ds-pwp-account-expiration-time"), "ends"
)
_NUMBERS = {"shadowexpire": (86_400, "-1"), "sambakickofftime": (1, "0")}

# A value of these that can't be read is kept as it is written: it locks.
_JUDGED = {*_LOCKS, *_OTHER_LOCKS, "sambaacctflags", "inetuserstatus", *_TIMES, *_NUMBERS}

# What a server keeps about entries beside what they are given: an export has all of it or nothing.
_OF_SERVER = ("entryuuid", "nsuniqueid", "createtimestamp", *_LOCKS)

Entry = dict[str, list[str]]

# A distinguished name in one spelling: for each part, its keys and values.
Name = tuple[tuple[tuple[str, str], ...], ...]


def from_ldif(path: str) -> Imported:
    """Reads an export of a directory. A group that is a member of another one inherits from it, since its members are members."""
    found = Imported()
    entries = list(_entries(path, found))
    by_dn: dict[Name, Entry] = {}
    for entry in entries:
        if by_dn.setdefault(_plain(entry["dn"][0]), entry) is not entry:
            raise Stop(f"{path}: the entry {shown(entry['dn'][0])} is in it twice")
    roles: dict[Name, str] = {}
    users: dict[Name, str] = {}
    for dn, entry in by_dn.items():
        if {name.lower() for name in entry.get("objectclass", [])} & {*_GROUPS}:
            roles[dn] = _name(dn, entry, "cn")
        elif "uid" in entry:
            users[dn] = _name(dn, entry, "uid")
        elif any(key in entry for key in _MEMBERS):
            reason = (
                "its members are found by a search"
                if "memberurl" in entry
                else "it is of another kind than those that are read"
            )
            found.leave(f"the group {shown(entry['dn'][0])}", reason)
    for sort, names in (("groups", roles), ("users", users)):
        if several := [name for name, count in Counter(names.values()).items() if count > 1]:
            first, second, *_ = (shown(by_dn[dn]["dn"][0]) for dn, name in names.items() if name == several[0])
            raise Stop(
                f"{path}: the {sort} {first} and {second} have one name, {shown(several[0])}: rename or remove one in the file"
            )
    found.roles |= set(roles.values())
    for dn, user in users.items():
        found.users[user] = _is_locked(found, by_dn[dn], user)
    if users and not any(key in entry for entry in entries for key in _OF_SERVER):
        found.leave(
            "locks of users",
            "the file lacks what the server keeps: export it by slapcat, or have ldapsearch ask for '*' and '+'",
        )
    by_uid: dict[str, set[str]] = {}
    for dn, user in users.items():
        for uid in by_dn[dn]["uid"]:
            by_uid.setdefault(uid, set()).add(user)
    for dn, role in roles.items():
        _read_members(found, by_dn[dn], role, roles, users, by_uid)
    _read_primary(found, by_dn, roles, users)
    found.leave("what members of groups may do", "a directory doesn't say it: grant it to the roles")
    return found


def _is_locked(found: Imported, entry: Entry, user: str) -> bool:
    """Whether a user can't log in now. What may change by itself is left."""
    locks = [value for key in _LOCKS + _OTHER_LOCKS for value in entry.get(key, []) if value and value.lower() != "false"]
    if locks:
        if _FOR_EVER not in locks and "true" not in map(str.lower, locks):
            found.leave(
                f"whether {shown(user)} is still locked", f"the directory has locked it at {locks[0]}, perhaps for a time"
            )
        return True
    flags = [value for value in entry.get("sambaacctflags", []) if not _NO_LOCK.fullmatch(value)]
    if flags and "D" not in flags[0]:
        found.leave(f"whether {shown(user)} is still locked", f"Samba's flags are {shown(flags[0])}")
    is_inactive = any(value.lower() != _ACTIVE for value in entry.get("inetuserstatus", []))
    return _is_out_of_time(found, entry, user) or is_inactive or bool(flags)


def _is_out_of_time(found: Imported, entry: Entry, user: str) -> bool:
    """Whether the account of a user hasn't begun or has ended. What may change by itself is left."""
    now, is_out = datetime.now(timezone.utc), False
    for key, what in _TIMES.items():
        for text in entry.get(key, []):
            time = _time_of(text)
            if time is None or what == "ends" or time > now:
                is_now = time is None or (time > now) == (what == "begins")
                _leave_time(found, user, f"{what} at {shown(text)}", is_now)
                is_out = is_out or is_now
    for key, (seconds, never) in _NUMBERS.items():
        for text in entry.get(key, []):
            if text != never:
                is_now = not re.fullmatch(r"\d{1,20}", text) or int(text) * seconds <= now.timestamp()
                _leave_time(found, user, f"ends at {shown(text)} of {key}", is_now)
                is_out = is_out or is_now
    return is_out


def _leave_time(found: Imported, user: str, what: str, is_now: bool) -> None:
    """Notes a time of an account, and whether the user is locked now because of it."""
    found.leave(f"that the account of {shown(user)} {what}", f"an office knows no time{'; the user is locked' * is_now}")


def _time_of(text: str) -> datetime | None:
    """A time of a directory, which may lack minutes and seconds, or None if it can't be read."""
    parts = re.fullmatch(r"(\d{10})(\d\d)?(\d\d)?(?:[.,]\d+)?(Z|[+-]\d\d)(\d\d)?", text)
    if parts is None:
        return None
    zone = parts[4] if parts[4] == "Z" else f"{parts[4]}{parts[5] or '00'}"
    try:
        return datetime.strptime(f"{parts[1]}{parts[2] or '00'}{parts[3] or '00'}{zone}", "%Y%m%d%H%M%S%z")
    except ValueError:
        return None


def _read_members(
    found: Imported, entry: Entry, role: str, roles: dict[Name, str], users: dict[Name, str], by_uid: dict[str, set[str]]
) -> None:
    for key in ("member", "uniquemember"):
        for dn in entry.get(key, []):
            if _plain(dn) in users:
                found.assignments.add((users[_plain(dn)], role))
            elif _plain(dn) in roles:
                if roles[_plain(dn)] != role:
                    found.edges.add((roles[_plain(dn)], role))
            else:
                found.leave(f"the member {shown(dn)} of {shown(role)}", "the file has no user and no group with this name")
    for uid in entry.get("memberuid", []):
        if uid in by_uid:
            found.assignments |= {(user, role) for user in by_uid[uid]}
        else:
            found.leave(f"the member {shown(uid)} of {shown(role)}", "the file has no user with this uid")


def _read_primary(found: Imported, by_dn: dict[Name, Entry], roles: dict[Name, str], users: dict[Name, str]) -> None:
    """A user of POSIX is a member of the group whose number the user has."""
    numbers: dict[str, list[str]] = {}
    for dn, role in roles.items():
        for number in by_dn[dn].get("gidnumber", []):
            numbers.setdefault(number, []).append(role)
    for dn, user in users.items():
        for number in by_dn[dn].get("gidnumber", []):
            found.assignments |= {(user, role) for role in numbers.get(number, [])}


def _name(dn: Name, entry: Entry, key: str) -> str:
    """The name of an entry: its value at a key, of several the one in its distinguished name."""
    values = entry.get(key, [])
    if not values:
        raise Stop(f"the entry {shown(entry['dn'][0])} has no {key}")
    first = dict(dn[0]).get(key) if dn else None
    return next((value for value in values if _folded(value) == first), values[0])


def _plain(dn: str) -> Name:
    """A distinguished name without what makes no difference: case, spaces, escapes, and the order within a part."""
    return tuple(tuple(sorted(map(_pair, _split(part, "+")))) for part in _split(dn, ",;"))


def _split(text: str, signs: str) -> list[str]:
    """The parts of a text between signs that aren't escaped."""
    return re.findall(rf"(?:[^\\{signs}]|\\.)+", text)


def _pair(text: str) -> tuple[str, str]:
    """The key and the value of a part of a distinguished name."""
    key, _, value = text.partition("=")
    plain = re.sub(rb"\\([0-9A-Fa-f]{2}|.)", _unescaped, value.encode())
    return key.strip().lower(), _folded(plain.decode(errors="surrogateescape"))


def _unescaped(found: re.Match[bytes]) -> bytes:
    return bytes.fromhex(found[1].decode()) if len(found[1]) == 2 else found[1]


def _folded(value: str) -> str:
    """A value without case and needless spaces."""
    return " ".join(value.casefold().split())


def _entries(path: str, found: Imported) -> Iterator[Entry]:
    """The entries of a file: their values by their keys in small letters."""
    try:
        text = Path(path).read_text(encoding="utf-8-sig")
    except OSError as error:
        raise Stop(f"{path}: {error.strerror}") from None
    except UnicodeDecodeError:
        raise Stop(f"{path}: it is not UTF-8") from None
    if text and not text.endswith("\n"):
        raise Stop(f"{path}: its last line doesn't end, so the file may be truncated")
    unfolded = re.sub(r"\r?\n ", "", text)
    for block in re.split(r"(?:\r?\n){2,}", unfolded.strip("\r\n")):
        entry: Entry = {}
        for line in re.split(r"\r?\n", block):
            if not line or line.startswith("#") or line.lower().startswith("version:"):
                continue
            parts = re.fullmatch(r"([A-Za-z0-9.-]+)(?:;[A-Za-z0-9;-]+)?:([:<]?) *(.*)", line)
            if parts is None:
                raise Stop(f"{path}: this is no line of LDIF: {shown(line[:60])}")
            key, value = parts[1].lower(), _value(path, found, parts[1].lower(), parts[2], parts[3])
            if key == "changetype":
                raise Stop(f"{path}: it has changes and not entries")
            if value is not None:
                entry.setdefault(key, []).append(value)
        if "dn" in entry:
            yield entry


def _value(path: str, found: Imported, key: str, kind: str, text: str) -> str | None:
    """The value of a line, or None if it can't be read. `kind` is what is between its key and its text."""
    fault = "it is in another file" if kind == "<" else "it is no text"
    try:
        if not kind:
            return text
        if kind == ":":
            return base64.b64decode(text.strip(), validate=True).decode()
    except ValueError:
        if key == "dn":
            raise Stop(f"{path}: the name of an entry is no text: {shown(text[:60])}") from None
    if key not in ("userpassword", "jpegphoto"):
        found.leave(f"a value of {key}", fault)
    return text if key in _JUDGED else None
