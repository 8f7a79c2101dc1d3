"""An office behind a front: it is read by lists, and changed by batches that name the revision of the policy."""

import http.client
import json
import socket
import ssl
from bisect import bisect_right
from collections.abc import Iterator, Sequence
from dataclasses import dataclass

from rbac_client._http import NO_TLS, Address, judged

from .model import Command, DutySet, State, Stop, line_of
from .target import Broken, Judge, refusal_of

# How many rows the front answers at once, how many commands it does at once, and how often lists are read anew if others write.
_MOST_ROWS, _MOST_COMMANDS, _MOST_READS = 1_000, 100, 5
_MOST_BYTES = 2_000_000

# The statuses below 500 after which the same request may be accepted.
_PASSING = (408, 412, 429)

_LISTS = {
    "users": ("",),
    "locked": ("",),
    "roles": ("",),
    "objects": ("",),
    "permissions": ("object", "operation"),
    "grants": ("object", "operation", "role"),
    "assignments": ("user", "role"),
    "inheritances": ("asc", "desc"),
    "staticSets": (),
    "dynamicSets": (),
    "sessions": (),
}


@dataclass(frozen=True)
class Access:
    """How a server is reached: where, and as whom. The token is never shown."""

    address: str
    token_file: str | None = None
    ca: str | None = None
    certificate: str | None = None
    key: str | None = None
    token_over_http: bool = False
    timeout: float = 30.0


class Connection:
    """A connection to a server, made anew when it was closed."""

    def __init__(self, access: Access) -> None:
        """Raises `Stop` if the address or one of the files can't be used."""
        self._access = access
        self._open: http.client.HTTPConnection | None = None
        try:
            self._address = Address.read(access.address)
            self._token = None
            if access.token_file is not None:
                with open(access.token_file, encoding="ascii") as file:
                    self._token = judged(file.read())
            self._context = None
            if self._address.is_tls:
                self._context = ssl.create_default_context(cafile=access.ca)
                if access.certificate is not None:
                    self._context.load_cert_chain(access.certificate, access.key)
        except (OSError, ValueError) as error:
            raise Stop(str(error)) from None
        if self._token is not None and not access.token_over_http and not self._address.hides:
            raise Stop(f"{NO_TLS}, or --token-over-http if the network encrypts by itself")

    def ask(
        self, method: str, path: str, body: bytes | None, fields: dict[str, str]
    ) -> tuple[int, http.client.HTTPMessage, bytes]:
        """The status, the fields and the body of an answer. Raises `OSError` or `HTTPException` if there is none."""
        if self._open is None:
            self._open = self._connect()
        if self._token is not None:
            fields = {**fields, "Authorization": f"Bearer {self._token}"}
        try:
            self._open.request(method, path, body, fields)
            answer = self._open.getresponse()
            found = answer.status, answer.headers, answer.read()
        except BaseException:
            self.close()
            raise
        if answer.will_close:
            self.close()
        return found

    def close(self) -> None:
        if self._open is not None:
            self._open.close()
            self._open = None

    def _connect(self) -> http.client.HTTPConnection:
        address, timeout = self._address, self._access.timeout
        if address.path:
            return _OverSocket(address.path, timeout)
        if self._context is not None:
            return http.client.HTTPSConnection(address.host, address.port, timeout=timeout, context=self._context)
        return http.client.HTTPConnection(address.host, address.port, timeout=timeout)


class _OverSocket(http.client.HTTPConnection):
    """A connection to a socket in the file system."""

    def __init__(self, path: str, timeout: float) -> None:
        super().__init__("localhost", timeout=timeout)
        self._path = path

    def connect(self) -> None:
        self.sock = socket.socket(socket.AF_UNIX)
        self.sock.settimeout(self.timeout)
        self.sock.connect(self._path)


class Front:
    """The office behind a front, which needs SQLite for its lists."""

    def __init__(self, access: Access, reason: str | None = None) -> None:
        """`reason` is why the office is changed: the front records it with each command."""
        self._connection, self._revision = Connection(access), ""
        self._fields = {} if reason is None else {"Office-Reason": reason}

    def read(self) -> State:
        for _ in range(_MOST_READS):
            found = self._lists()
            if found is not None:
                return _state(found)
        raise Stop("others change the policy all the time: try again later")

    def apply(self, commands: Sequence[Command], judge: Judge, starts: Sequence[int] = ()) -> None:
        done = 0
        while done < len(commands):
            batch = _batch_of(commands[done : done + _end_of(starts, done, len(commands))])
            is_end = batch[0]["fn"] == "deleteSession"
            answers = [self._end_session(batch[0])] if is_end else self._batch(batch)
            if not answers or len(answers) < len(batch) and "code" not in answers[-1]:
                raise Broken("the front has not answered all commands", len(batch) - len(answers))
            for command, answer in zip(batch, answers):
                if not judge(command, answer if "code" in answer else None):
                    return
            done += len(answers)

    def close(self) -> None:
        self._connection.close()

    def _lists(self) -> dict[str, list[object]] | None:
        """All rows of all lists, or None if the policy has changed meanwhile."""
        found: dict[str, list[object]] = {name: [] for name in _LISTS}
        after: dict[str, str | None] = dict.fromkeys(_LISTS)
        revisions: set[str | None] = set()
        while after:
            queries = [
                {"list": name, "limit": _MOST_ROWS, **({} if at is None else {"after": at})} for name, at in after.items()
            ]
            fields, body = self._ask("POST", "/lists", b"".join(map(line_of, queries)))
            revisions.add(fields.get("Policy-Revision"))
            parts = [json.loads(line) for line in body.splitlines()]
            if len(revisions) > 1 or None in revisions or len(parts) != len(queries):
                return None
            names, after = list(after), {}
            for name, part in zip(names, parts):
                found[name] += part["value"]
                if "next" in part:
                    after[name] = part["next"]
        self._revision = str(revisions.pop())
        return found

    def _ask(self, method: str, path: str, body: bytes) -> tuple[http.client.HTTPMessage, bytes]:
        """Asks a question. Raises `Stop` unless it is answered."""
        try:
            status, fields, text = self._connection.ask(method, path, body, {})
        except (OSError, http.client.HTTPException) as error:
            raise Stop(f"the front does not answer: {error or type(error).__name__}") from None
        if status != 200:
            raise Stop(f"the front refuses {path}: {_failure(status, fields, text)}")
        return fields, text

    def _batch(self, commands: Sequence[Command]) -> list[dict[str, object]]:
        """Does commands until one is refused, if the policy still is the one that was read or that they have made."""
        fields = {**self._fields, "If-Policy-Revision": self._revision}
        body = b"".join(map(line_of, commands))
        try:
            status, head, text = self._connection.ask("POST", "/v1/batch?stop=first", body, fields)
        except (OSError, http.client.HTTPException) as error:
            raise Broken(f"the front does not answer: {error or type(error).__name__}", len(commands)) from None
        if status == 412:
            raise Broken("somebody else has changed the policy meanwhile")
        if status != 200:
            # Whatever isn't an answer of the office may have been done, but for what refuses the request as a whole.
            is_denied = 400 <= status < 500 and status not in _PASSING
            raise Broken(f"the front refuses: {_failure(status, head, text)}", 0 if status < 500 else len(commands), is_denied)
        self._revision = head.get("Policy-Revision") or "0"
        return [json.loads(line) for line in text.splitlines()]

    def _end_session(self, command: Command) -> dict[str, object]:
        """Ends a session by its digest."""
        try:
            status, head, text = self._connection.ask("DELETE", f"/sessions/{command['session']}", None, self._fields)
        except (OSError, http.client.HTTPException) as error:
            raise Broken(f"the front does not answer: {error or type(error).__name__}", 1) from None
        if status not in (200, 409):
            is_denied = 400 <= status < 500 and status not in _PASSING
            raise Broken(f"the front refuses to end a session: {_failure(status, head, text)}", is_denied=is_denied)
        return refusal_of(text)


def _end_of(starts: Sequence[int], done: int, count: int) -> int:
    """How many of `count` commands, of which some are done, come next: as many as the front does at once, up to where some begin."""
    if count - done <= _MOST_COMMANDS:
        return count - done
    last = starts[bisect_right(starts, done + _MOST_COMMANDS) - 1] if starts else 0
    return last - done if last > done else _MOST_COMMANDS


def _batch_of(commands: Sequence[Command]) -> Sequence[Command]:
    """The first of some commands that the front does at once. The end of a session is done alone."""
    size = 0
    for place, command in enumerate(commands):
        size += len(line_of(command))
        if place and (command["fn"] == "deleteSession" or size > _MOST_BYTES):
            return commands[:place]
        if command["fn"] == "deleteSession":
            return commands[:1]
    return commands


def _failure(status: int, fields: http.client.HTTPMessage, text: bytes) -> str:
    """What a refusal says: its status, its code and name, and what is wrong. Nothing else of it is shown."""
    try:
        answer = json.loads(text)
        words = [str(status), str(int(answer["code"])), str(answer["error"])[:40]]
    except (ValueError, KeyError, TypeError):
        return f"status {status}"
    why = fields.get("Office-Why")
    return " ".join(word for word in words if word.isprintable()) + (f": {why}" if why and why.isprintable() else "")


def _state(lists: dict[str, list[object]]) -> State:
    """The state of some lists."""
    rows = {name: list(_rows(lists[name], keys)) for name, keys in _LISTS.items() if keys}
    locked = {user for (user,) in rows["locked"]}
    sets = [{str(one["set"]): _duty(one) for one in map(_table, lists[name])} for name in ("staticSets", "dynamicSets")]
    sessions = {
        str(one["session"]): (str(one["user"]), frozenset(_texts(one["roles"]))) for one in map(_table, lists["sessions"])
    }
    return State(
        users={user: user in locked for (user,) in rows["users"]},
        roles={role for (role,) in rows["roles"]},
        objects={ob for (ob,) in rows["objects"]},
        permissions={(ob, op) for ob, op in rows["permissions"]},
        grants={(ob, op, role) for ob, op, role in rows["grants"]},
        edges={(asc, desc) for asc, desc in rows["inheritances"]},
        assignments={(user, role) for user, role in rows["assignments"]},
        static=sets[0],
        dynamic=sets[1],
        sessions=sessions,
    )


def _rows(rows: list[object], keys: tuple[str, ...]) -> Iterator[tuple[str, ...]]:
    for row in rows:
        yield (str(row),) if keys == ("",) else tuple(str(_table(row)[key]) for key in keys)


def _table(row: object) -> dict[str, object]:
    assert isinstance(row, dict)
    return row


def _texts(value: object) -> list[str]:
    assert isinstance(value, list)
    return [str(one) for one in value]


def _duty(row: dict[str, object]) -> DutySet:
    cardinality = row["cardinality"]
    assert isinstance(cardinality, int)
    return DutySet(frozenset(_texts(row["roles"])), cardinality)
