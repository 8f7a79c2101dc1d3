"""The client that waits for its answers."""

import contextlib
import math
import os
import re
import socket
import ssl
import time
from typing import Any, Dict, List, Optional, Sequence, Tuple, Union

from ._answers import BY_USER, ENDS, body_of, read_answer, target_of
from ._connecting import connected
from ._course import Course, Settings, remaining
from ._decision import Decision, Error, Reason, Refused, Unanswered
from ._functions import Functions
from ._http import Address, Reply, Token, request
from ._office import Decisions, decided, undecided
from ._following import LONGEST_SNAPSHOT, Snapshot, Watch, now, read_snapshot
from ._locks import Lock
from ._sessions import Session, session_name

_MOST_IDLE = 16


class Office(Functions):
    """The functions as methods, decisions, and sessions."""

    def __init__(self) -> None:
        self._decisions = Decisions()
        # Until then sessions are made by createSession, since the server opens none.
        self._creates_until = -math.inf

    @property
    def counts(self) -> Dict[Reason, int]:
        """How many decisions there were, by their reasons."""
        return self._decisions.counts

    def check(self, session: str, operation: str, object: str) -> Decision:
        """Whether the session may do the operation on the object, and why. It raises nothing: without an answer it denies."""
        return self._decisions.keep(self._decide(session, operation, object), operation, object)

    def decide_by_user(self, user: str, operation: str, object: str) -> Decision:
        """Whether the user may do the operation on the object in some session, and why: for applications without sessions.

        The front decides; `rbac serve` can't. Like `check` it raises nothing.
        """
        return self._decisions.keep(self._decide_by_user(user, operation, object), operation, object)

    def _decide(self, session: str, operation: str, object: str, *, limit: Optional[float] = None) -> Decision:
        """A decision that isn't counted yet."""
        return self._asked("checkAccess", {"session": session, "operation": operation, "object": object}, limit)

    def _decide_by_user(self, user: str, operation: str, object: str) -> Decision:
        """A decision about a user that isn't counted yet."""
        return self._asked(BY_USER, {"user": user, "operation": operation, "object": object})

    def _asked(self, function: str, arguments: Dict[str, Any], limit: Optional[float] = None) -> Decision:
        """The decision that a question has for its answer."""
        try:
            return decided(self._call(function, arguments, None, limit))
        except Exception as error:  # Whatever it is, it doesn't allow.
            return undecided(error)

    def may(self, session: str, operation: str, object: str) -> bool:
        """Whether to let the session do the operation on the object."""
        return self.check(session, operation, object).allowed

    def open_session(self, user: str, roles: Optional[Sequence[str]] = None, renews: bool = False) -> Session:
        """Makes a session of the user, under a new name that nobody can guess.

        The front activates as many of the roles in their order, or of all that the user is assigned to, as it can, and `left` of
        the session has the others. `rbac serve` activates exactly these roles, or refuses. With `renews` the session is made
        again when a decision finds that it has ended, with those of its roles that are left, and never with others.
        """
        session = Session(self, user, roles, renews)
        session.open()
        return session

    def end_session(self, digest: str) -> None:
        """Ends the session that has this digest, as lists and records of the front show it."""
        if not re.fullmatch("[0-9a-f]{32}", digest):
            raise ValueError("this is not the digest of a session")  # It may be the name of one.
        self._call(ENDS, {"digest": digest})

    def _call(
        self, function: str, arguments: Dict[str, Any], again: Optional[int] = None, limit: Optional[float] = None
    ) -> Any:
        raise NotImplementedError

    def _limit(self) -> float:
        """When a call that begins now has to have ended."""
        raise NotImplementedError


class Client(Office):
    """A server, or several servers of one office. Threads may share it, and so may processes after a fork."""

    def __init__(
        self,
        addresses: Union[str, Sequence[str]],
        *,
        token: Optional[Token] = None,
        timeout: float = 10.0,
        ca: Optional[str] = None,
        certificate: Optional[str] = None,
        key: Optional[str] = None,
        pause: float = 0.1,
        repeats: bool = True,
        token_over_http: bool = False,
    ) -> None:
        """`addresses`: one or more of `http://HOST:PORT`, `https://HOST:PORT` and `unix:PATH`; one answers for all.

        `token`: shows who asks; a text, or a function that returns the present one. The end of a line after it is ignored.
        `timeout`: how many seconds a call may take as a whole, with all of its attempts, and a check with the renewal of its session.
        `ca`: the file of the authorities that may have issued the server's certificate, instead of those of the system.
        `certificate`, `key`: the files of the client's own certificate and key.
        `pause`: how many seconds pass before a command is sent again, or a question at the same addresses, which is done while half of
        the time is left. Each further pause is twice as long.
        `repeats`: whether a command whose answer was lost is sent again, if docs/howto/integrate.md, section 3, says that it may be.
        `token_over_http`: whether the token is sent to other machines without TLS too, over a network that encrypts by itself.
        """
        super().__init__()
        self._settings = Settings.of(addresses, timeout, token, ca, certificate, key, pause, repeats, token_over_http)
        self._idle: List[Tuple[Address, socket.socket]] = []
        self._lock, self._owner = Lock(), os.getpid()

    def __enter__(self) -> "Client":
        return self

    def __exit__(self, *_: object) -> None:
        self.close()

    def snapshot(self, place: int = 0) -> Snapshot:
        """What is in the office, by the front at the address with this number. It is for callers with the right `snapshot`."""
        limit = time.monotonic() + self._settings.timeout
        address, reply, asked = self._settings.addresses[place], Reply(LONGEST_SNAPSHOT), now()
        with contextlib.closing(self._connected(address, limit)) as connection:
            _exchange(connection, request(address, "GET /snapshot", None, self._settings.token, False), reply, limit)
        return read_snapshot(reply, asked)

    def watch(self, after: int, place: int = 0, silence: float = 5.0) -> Watch:
        """The commands that the office accepts after a number, as they come. It is for callers with the right `watch`.

        A watch that says nothing for `silence` seconds has ended: the front writes the newest number each second.
        """
        address, asked = self._settings.addresses[place], now()
        connection = self._connected(address, time.monotonic() + min(self._settings.timeout, silence))
        target = f"GET /watch?after={after}"
        try:
            return Watch(connection, request(address, target, None, self._settings.token, False), asked, silence)
        except BaseException:
            connection.close()
            raise

    @property
    def places(self) -> int:
        """How many addresses there are."""
        return len(self._settings.addresses)

    @property
    def policy_revision(self) -> int:
        """The newest revision of the policy that an answer has had: `Policy-Revision` of docs/reference/requests.md, or 0.

        It begins anew if a replica of this client finds that the office may have been restored.
        """
        return self._settings.revision

    def close(self) -> None:
        """Closes the connections that are kept. A further call opens a new one."""
        with self._lock:
            idle, self._idle = self._idle, []
        for _, connection in idle:
            connection.close()

    def _limit(self) -> float:
        return time.monotonic() + self._settings.timeout

    def _call(
        self, function: str, arguments: Dict[str, Any], again: Optional[int] = None, limit: Optional[float] = None
    ) -> Any:
        target, body = target_of(function, arguments), body_of(function, arguments)
        course = Course(self._settings, function, again, limit)
        while True:
            try:
                value = self._attempt(course, function, target, body)
            except Error as error:
                pause = course.after(error)
                if pause is None:
                    return None
                time.sleep(pause)
            else:
                course.answered()
                return value

    def _attempt(self, course: Course, function: str, target: str, body: Optional[bytes]) -> Any:
        """Sends a request once. A question is sent over a kept connection if there is one, and a command over a new one."""
        address, limit = course.address, course.limit()
        text = request(address, target, body, self._settings.token, course.is_question)
        kept = self._kept(address) if course.is_question else None
        if kept is not None:
            try:
                return self._exchange(address, kept, function, text, limit)
            except Unanswered:
                remaining(limit)  # The server may have closed it: this question is asked once more.
        return self._exchange(address, self._connected(address, limit), function, text, limit)

    def _exchange(self, address: Address, connection: socket.socket, function: str, text: bytes, limit: float) -> Any:
        """Sends a request, and reads its answer. The connection is kept only after an answer of the server."""
        reply, is_of_server = Reply(), False
        try:
            _exchange(connection, text, reply, limit)
            value = read_answer(function, reply.status, reply.body)
            is_of_server = True
        except Refused:
            is_of_server = True
            raise
        finally:
            if is_of_server and reply.keeps:
                self._keep(address, connection)
            else:
                connection.close()
        self._settings.saw(reply.revision)
        return value

    def _connected(self, address: Address, limit: float) -> socket.socket:
        return connected(address, self._settings.context if address.is_tls else None, limit)

    def _keep(self, address: Address, connection: socket.socket) -> None:
        with self._lock:
            if len(self._idle) < _MOST_IDLE and self._owner == os.getpid():
                self._idle.append((address, connection))
                return
        connection.close()

    def _kept(self, address: Address) -> Optional[socket.socket]:
        """A connection to the address that is open, and on which nothing has come meanwhile."""
        if self._owner != os.getpid():
            self._forked()
        while True:
            with self._lock:
                place = next((at for at, (of, _) in reversed(list(enumerate(self._idle))) if of is address), None)
                if place is None:
                    return None
                _, connection = self._idle.pop(place)
            try:
                connection.settimeout(0)
                connection.recv(1)
            except (BlockingIOError, ssl.SSLWantReadError):
                return connection
            except OSError:
                pass
            connection.close()

    def _forked(self) -> None:
        """After a fork the connections are those of the other process."""
        self._owner = os.getpid()
        self.close()


def _exchange(connection: socket.socket, text: bytes, reply: Reply, limit: float) -> None:
    """Sends a request, and reads its answer."""
    broken: Optional[OSError] = None
    try:
        try:
            rest = memoryview(text)
            while rest:
                connection.settimeout(remaining(limit))
                rest = rest[connection.send(rest) :]
        except OSError as error:  # A server may refuse a request that it hasn't read to the end.
            broken = error
        while True:
            connection.settimeout(remaining(limit))
            piece = connection.recv(65_536)
            if not piece:
                raise Unanswered("the connection was closed before the answer ended")
            if reply.feed(piece):
                break
    except OSError as error:
        raise Unanswered(str(broken or error)) from error
    if broken is not None:
        reply.keeps = False
