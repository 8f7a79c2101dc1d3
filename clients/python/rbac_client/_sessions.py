"""Sessions: opened when a user logs in, made again if that is wanted, and closed when the user logs out."""

import asyncio
import os
import secrets
import threading
import time
from typing import TYPE_CHECKING, Any, Dict, List, Optional, Sequence

from ._answers import OPENS
from ._course import remaining
from ._decision import Decision, Error, Reason, Refused, Unanswered
from ._functions import NAMES
from ._locks import Lock
from ._office import undecided
from ._values import LeftOut, OpenedSession, names

if TYPE_CHECKING:
    from ._async import AsyncOffice
    from ._client import Office

# The refusals of a session that is to be deleted and has ended: its user may be gone as well.
_ENDED = (2, 26)

# What a server answers that opens no sessions, such as `rbac serve`, and what the front answers if no role is left.
_NO_SUCH_PATH, _NOT_AUTHORIZED = 35, 29

# For how many seconds such a server isn't asked to open a session again.
_CREATES = 60.0


def session_name() -> str:
    """A new name for a session, which nobody can guess and no other session has."""
    return secrets.token_hex(16)


class _Base:
    """A session: its present name, the roles that are activated, and those of the wanted ones that were left out."""

    def __init__(self, user: str, roles: Optional[Sequence[str]], renews: bool) -> None:
        self.user, self.renews = user, renews
        self.name, self.roles = "", names(roles or [])
        self.left: List[LeftOut] = []
        self._wanted = None if roles is None else list(self.roles)

    def __repr__(self) -> str:
        return f"<session of {self.user!r}>"  # Without its name: whoever knows that can ask.

    def _request(self) -> Dict[str, Any]:
        return {"user": self.user} if self._wanted is None else {"user": self.user, "roles": self._wanted}

    def _became(self, opened: OpenedSession) -> None:
        self.roles, self.left, self.name = opened.roles, opened.left, opened.name
        # If it is made again it gets no role that it hasn't had.
        self._wanted = list(opened.roles)

    def _kept(self, authorized: Sequence[str]) -> List[str]:
        """Those of its roles that the user is still authorized for. Without one there is no session to be made again."""
        wanted = self._wanted or []
        kept = [role for role in wanted if role in authorized]
        if wanted and not kept:
            raise Refused(_NOT_AUTHORIZED, NAMES[_NOT_AUTHORIZED], {})
        return kept


def _after(decision: Decision, error: Exception) -> Decision:
    """The decision if a session that has ended couldn't be made again. A refusal leaves it ended."""
    return decision if isinstance(error, Error) and error.reason is Reason.REFUSED else undecided(error)


class _Renewal:
    """That a thread makes a session again. Others wait until it is over, and get its error."""

    def __init__(self) -> None:
        self.process, self.over = os.getpid(), threading.Event()
        self.error: Optional[Exception] = None


class Session(_Base):
    """A session of a user. Threads may share it."""

    def __init__(self, office: "Office", user: str, roles: Optional[Sequence[str]], renews: bool) -> None:
        super().__init__(user, roles, renews)
        self._office, self._lock = office, Lock()
        self._renewal: Optional[_Renewal] = None

    def open(self, limit: Optional[float] = None) -> None:
        """Makes the session, under a new name, until a limit."""
        if time.monotonic() >= self._office._creates_until:
            try:
                self._became(self._office._call(OPENS, self._request(), None, limit))
                return
            except Refused as error:
                if error.code != _NO_SUCH_PATH:
                    raise
                self._office._creates_until = time.monotonic() + _CREATES
        self._became(self._created(limit))

    def _created(self, limit: Optional[float]) -> OpenedSession:
        """Makes the session by createSession. If the answer is lost it is sent again: nobody else has that name."""
        name, roles = session_name(), self._wanted
        if roles is None:
            roles = self._office._call("assignedRoles", {"user": self.user}, None, limit)
        elif self.name:
            roles = self._kept(self._office._call("authorizedRoles", {"user": self.user}, None, limit))
        self._office._call("createSession", {"user": self.user, "roles": roles, "session": name}, 27, limit)
        return OpenedSession(name, roles, [])

    def close(self) -> None:
        """Ends the session, for good. It is no error if it has ended before."""
        with self._lock:
            self.renews, renewal = False, self._renewal
        if renewal is not None and renewal.process == os.getpid():
            renewal.over.wait(max(self._office._limit() - time.monotonic(), 0))
        try:
            self._office._call("deleteSession", {"user": self.user, "session": self.name}, 26)
        except Refused as error:
            if error.code not in _ENDED:
                raise

    def check(self, operation: str, object: str) -> Decision:
        """Whether the session may do the operation on the object, and why."""
        limit, name = self._office._limit(), self.name
        decision = self._office._decide(name, operation, object, limit=limit)
        if decision.reason is Reason.ENDED_SESSION and self.renews:
            try:
                self._renew(name, limit)
                decision = self._office._decide(self.name, operation, object, limit=limit)
            except Exception as error:  # Whatever it is, it doesn't allow.
                decision = _after(decision, error)
        return self._office._decisions.keep(decision, operation, object)

    def may(self, operation: str, object: str) -> bool:
        """Whether to let the session do the operation on the object."""
        return self.check(operation, object).allowed

    def _renew(self, name: str, limit: float) -> None:
        """Makes the session again, or waits for the thread that does."""
        with self._lock:
            if self.name != name or not self.renews:
                return
            renewal = self._renewal
            is_own = renewal is None or renewal.process != os.getpid()
            if renewal is None or is_own:
                renewal = self._renewal = _Renewal()
        if is_own:
            self._make_again(renewal, limit)
        elif not renewal.over.wait(remaining(limit)):
            raise Unanswered("the session wasn't made again in time")
        if renewal.error is not None:
            raise renewal.error

    def _make_again(self, renewal: _Renewal, limit: float) -> None:
        try:
            self.open(limit)
        except Exception as error:
            renewal.error = error
        finally:
            with self._lock:
                self._renewal = None
            renewal.over.set()


class AsyncSession(_Base):
    """A session of a user, whose methods are awaited."""

    def __init__(self, office: "AsyncOffice", user: str, roles: Optional[Sequence[str]], renews: bool) -> None:
        super().__init__(user, roles, renews)
        self._office = office
        self._renewal: "Optional[asyncio.Task[None]]" = None

    async def open(self, limit: Optional[float] = None) -> None:
        """Makes the session, under a new name, until a limit."""
        if time.monotonic() >= self._office._creates_until:
            try:
                self._became(await self._office._call(OPENS, self._request(), None, limit))
                return
            except Refused as error:
                if error.code != _NO_SUCH_PATH:
                    raise
                self._office._creates_until = time.monotonic() + _CREATES
        self._became(await self._created(limit))

    async def _created(self, limit: Optional[float]) -> OpenedSession:
        """Makes the session by createSession. If the answer is lost it is sent again: nobody else has that name."""
        name, roles = session_name(), self._wanted
        if roles is None:
            roles = await self._office._call("assignedRoles", {"user": self.user}, None, limit)
        elif self.name:
            roles = self._kept(await self._office._call("authorizedRoles", {"user": self.user}, None, limit))
        await self._office._call("createSession", {"user": self.user, "roles": roles, "session": name}, 27, limit)
        return OpenedSession(name, roles, [])

    async def close(self) -> None:
        """Ends the session, for good. It is no error if it has ended before."""
        self.renews = False
        if self._renewal is not None:
            await asyncio.wait([self._renewal])
        try:
            await self._office._call("deleteSession", {"user": self.user, "session": self.name}, 26)
        except Refused as error:
            if error.code not in _ENDED:
                raise

    async def check(self, operation: str, object: str) -> Decision:
        """Whether the session may do the operation on the object, and why."""
        limit, name = self._office._limit(), self.name
        decision = await self._office._decide(name, operation, object, limit=limit)
        if decision.reason is Reason.ENDED_SESSION and self.renews:
            try:
                await self._renew(name, limit)
                decision = await self._office._decide(self.name, operation, object, limit=limit)
            except Exception as error:  # Whatever it is, it doesn't allow.
                decision = _after(decision, error)
        return self._office._decisions.keep(decision, operation, object)

    async def may(self, operation: str, object: str) -> bool:
        """Whether to let the session do the operation on the object."""
        return (await self.check(operation, object)).allowed

    async def _renew(self, name: str, limit: float) -> None:
        """Makes the session again, once for all tasks that wait for it."""
        if self.name != name or not self.renews:
            return
        if self._renewal is None:
            self._renewal = asyncio.ensure_future(self._make_again(limit))
            # Nobody may be left who waits for its error.
            self._renewal.add_done_callback(lambda task: task.cancelled() or task.exception())
        try:
            await asyncio.wait_for(asyncio.shield(self._renewal), remaining(limit))
        except asyncio.TimeoutError:
            raise Unanswered("the session wasn't made again in time") from None

    async def _make_again(self, limit: float) -> None:
        try:
            await self.open(limit)
        finally:
            self._renewal = None
