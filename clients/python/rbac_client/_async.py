"""The client whose methods are awaited."""

import asyncio
import math
import re
import select
import time
from typing import Any, Dict, List, Optional, Sequence, Tuple, Union

from ._answers import BY_USER, ENDS, body_of, read_answer, target_of
from ._connecting import reason_of
from ._course import Course, Settings, remaining
from ._decision import Decision, Error, Reason, Refused, Unanswered, Unexpected, Unreachable
from ._functions import AsyncFunctions
from ._http import Address, Reply, Token, request
from ._office import Decisions, decided, undecided
from ._sessions import AsyncSession

_MOST_IDLE = 16


class AsyncOffice(AsyncFunctions):
    """The functions as methods, decisions, and sessions."""

    def __init__(self) -> None:
        self._decisions = Decisions()
        # Until then sessions are made by createSession, since the server opens none.
        self._creates_until = -math.inf

    @property
    def counts(self) -> Dict[Reason, int]:
        """How many decisions there were, by their reasons."""
        return self._decisions.counts

    async def check(self, session: str, operation: str, object: str) -> Decision:
        """Whether the session may do the operation on the object, and why. It raises nothing: without an answer it denies."""
        return self._decisions.keep(await self._decide(session, operation, object), operation, object)

    async def decide_by_user(self, user: str, operation: str, object: str) -> Decision:
        """Whether the user may do the operation on the object in some session, and why: for applications without sessions.

        The front decides; `rbac serve` can't. Like `check` it raises nothing.
        """
        return self._decisions.keep(await self._decide_by_user(user, operation, object), operation, object)

    async def _decide(self, session: str, operation: str, object: str, *, limit: Optional[float] = None) -> Decision:
        """A decision that isn't counted yet."""
        return await self._asked("checkAccess", {"session": session, "operation": operation, "object": object}, limit)

    async def _decide_by_user(self, user: str, operation: str, object: str) -> Decision:
        """A decision about a user that isn't counted yet."""
        return await self._asked(BY_USER, {"user": user, "operation": operation, "object": object})

    async def _asked(self, function: str, arguments: Dict[str, Any], limit: Optional[float] = None) -> Decision:
        """The decision that a question has for its answer."""
        try:
            return decided(await self._call(function, arguments, None, limit))
        except Exception as error:  # Whatever it is, it doesn't allow.
            return undecided(error)

    async def may(self, session: str, operation: str, object: str) -> bool:
        """Whether to let the session do the operation on the object."""
        return (await self.check(session, operation, object)).allowed

    async def open_session(self, user: str, roles: Optional[Sequence[str]] = None, renews: bool = False) -> AsyncSession:
        """Makes a session of the user, under a new name that nobody can guess.

        The front activates as many of the roles in their order, or of all that the user is assigned to, as it can, and `left` of
        the session has the others. `rbac serve` activates exactly these roles, or refuses. With `renews` the session is made
        again when a decision finds that it has ended, with those of its roles that are left, and never with others.
        """
        session = AsyncSession(self, user, roles, renews)
        await session.open()
        return session

    async def end_session(self, digest: str) -> None:
        """Ends the session that has this digest, as lists and records of the front show it."""
        if not re.fullmatch("[0-9a-f]{32}", digest):
            raise ValueError("this is not the digest of a session")  # It may be the name of one.
        await self._call(ENDS, {"digest": digest})

    async def _call(
        self, function: str, arguments: Dict[str, Any], again: Optional[int] = None, limit: Optional[float] = None
    ) -> Any:
        raise NotImplementedError

    def _limit(self) -> float:
        """When a call that begins now has to have ended."""
        raise NotImplementedError


class AsyncClient(AsyncOffice):
    """A server, or several servers of one office, for one event loop. Tasks may share it."""

    def __init__(
        self,
        addresses: Union[str, Sequence[str]],
        *,
        token: Optional[Token] = None,
        timeout: float = 10.0,
        ca: Optional[str] = None,
        certificate: Optional[str] = None,
        key: Optional[str] = None,
        pause: float = 0.1,
        repeats: bool = True,
        token_over_http: bool = False,
    ) -> None:
        """The parameters are those of `Client`."""
        super().__init__()
        self._settings = Settings.of(addresses, timeout, token, ca, certificate, key, pause, repeats, token_over_http)
        self._idle: List[Tuple[Address, _Connection]] = []

    async def __aenter__(self) -> "AsyncClient":
        return self

    async def __aexit__(self, *_: object) -> None:
        await self.close()

    @property
    def policy_revision(self) -> int:
        """The newest revision of the policy that an answer has had: `Policy-Revision` of docs/reference/requests.md, or 0."""
        return self._settings.revision

    async def close(self) -> None:
        """Closes the connections that are kept. A further call opens a new one."""
        idle, self._idle = self._idle, []
        for _, connection in idle:
            connection.close()

    def _limit(self) -> float:
        return time.monotonic() + self._settings.timeout

    async def _call(
        self, function: str, arguments: Dict[str, Any], again: Optional[int] = None, limit: Optional[float] = None
    ) -> Any:
        target, body = target_of(function, arguments), body_of(function, arguments)
        course = Course(self._settings, function, again, limit)
        while True:
            try:
                value = await self._attempt(course, function, target, body)
            except Error as error:
                pause = course.after(error)
                if pause is None:
                    return None
                await asyncio.sleep(pause)
            else:
                course.answered()
                return value

    async def _attempt(self, course: Course, function: str, target: str, body: Optional[bytes]) -> Any:
        """Sends a request once. A question is sent over a kept connection if there is one, and a command over a new one."""
        address, limit = course.address, course.limit()
        text = request(address, target, body, self._settings.token, course.is_question)
        kept = self._kept(address) if course.is_question else None
        if kept is not None:
            try:
                return await self._exchange(address, kept, function, text, limit)
            except Unanswered:
                remaining(limit)  # The server may have closed it: this question is asked once more.
        return await self._exchange(address, await self._connected(address, limit), function, text, limit)

    async def _exchange(self, address: Address, connection: "_Connection", function: str, text: bytes, limit: float) -> Any:
        """Sends a request, and reads its answer. The connection is kept only after an answer of the server."""
        reply, is_of_server = Reply(), False
        try:
            seconds = remaining(limit)
            reply = await asyncio.wait_for(connection.exchange(text), seconds)
            value = read_answer(function, reply.status, reply.body)
            is_of_server = True
        except Refused:
            is_of_server = True
            raise
        except asyncio.TimeoutError as error:
            raise Unanswered("no complete answer came in time") from error
        finally:
            if is_of_server and reply.keeps and connection.is_open and len(self._idle) < _MOST_IDLE:
                self._idle.append((address, connection))
            else:
                connection.close()
        self._settings.saw(reply.revision)
        return value

    async def _connected(self, address: Address, limit: float) -> "_Connection":
        loop = asyncio.get_running_loop()

        def made() -> _Connection:
            return _Connection(loop)

        try:
            seconds = remaining(limit)
            if address.path:
                _, connection = await asyncio.wait_for(loop.create_unix_connection(made, address.path), seconds)
                return connection
            context = self._settings.context if address.is_tls else None
            # If one of the host's addresses is silent, the next one is tried beside it.
            opened = loop.create_connection(made, address.host, address.port, ssl=context, happy_eyeballs_delay=0.25)
            _, connection = await asyncio.wait_for(opened, seconds)
            return connection
        except (OSError, ValueError, asyncio.TimeoutError, Unanswered) as error:
            raise Unreachable(ascii(str(error))[1:-1] or "no connection was made in time", reason_of(error)) from error

    def _kept(self, address: Address) -> Optional["_Connection"]:
        """A connection to the address that is open, and on which nothing has come meanwhile."""
        loop = asyncio.get_running_loop()
        for place in reversed(range(len(self._idle))):
            of, connection = self._idle[place]
            if of is address:
                del self._idle[place]
                if connection.loop is loop and connection.is_silent():
                    return connection
                if connection.loop is loop:
                    connection.close()
        return None


class _Connection(asyncio.Protocol):
    """A connection that carries one request at a time. What comes without a request closes it."""

    def __init__(self, loop: asyncio.AbstractEventLoop) -> None:
        self.loop, self.is_open = loop, False
        self._transport: Optional[asyncio.Transport] = None
        self._waiting: Optional["asyncio.Future[Reply]"] = None
        self._reply = Reply()

    async def exchange(self, text: bytes) -> Reply:
        """Sends a request, and returns its answer."""
        if not self.is_open or self._transport is None:
            raise Unanswered("the connection was closed")
        self._reply, self._waiting = Reply(), self.loop.create_future()
        self._transport.write(text)
        return await self._waiting

    def is_silent(self) -> bool:
        """Whether it is open, and nothing has come that the loop hasn't seen yet."""
        if not self.is_open or self._transport is None:
            return False
        poll = select.poll()
        poll.register(self._transport.get_extra_info("socket").fileno(), select.POLLIN)
        return not poll.poll(0)

    def close(self) -> None:
        """Closes the connection."""
        self.is_open = False
        if self._transport is not None:
            self._transport.abort()

    def connection_made(self, transport: asyncio.BaseTransport) -> None:
        assert isinstance(transport, asyncio.Transport)
        self._transport, self.is_open = transport, True

    def data_received(self, data: bytes) -> None:
        if self._waiting is None or self._waiting.done():
            self.close()
            return
        try:
            if self._reply.feed(data):
                self._waiting.set_result(self._reply)
        except Unexpected as error:
            self._waiting.set_exception(error)
            self.close()

    def connection_lost(self, exc: Optional[Exception]) -> None:
        self.is_open = False
        if self._waiting is not None and not self._waiting.done():
            self._waiting.set_exception(Unanswered(str(exc or "the connection was closed before the answer ended")))
