"""Guards for applications of WSGI and of ASGI: a request passes only if its session, or its user, may do what it asks for."""

import functools
import inspect
from typing import Any, Awaitable, Callable, Dict, Iterable, List, MutableMapping, Optional, Tuple, TypeVar, Union

from ._async import AsyncOffice
from ._client import Office
from ._decision import Decision, Reason

# An operation and an object. A request for which there is none passes without a question.
Need = Optional[Tuple[str, str]]

_WORDS = {401: "Unauthorized", 403: "Forbidden", 503: "Service Unavailable"}
_PLAIN = [("Content-Type", "text/plain; charset=utf-8"), ("Cache-Control", "no-store")]


def status_of(decision: Optional[Decision]) -> int:
    """The status of the answer to a request that doesn't pass. Without a session there is no decision."""
    if decision is None or (isinstance(decision, Decision) and decision.reason is Reason.ENDED_SESSION):
        return 401
    return 403 if isinstance(decision, Decision) and decision.is_decided else 503


def passes(decision: Any) -> bool:
    """Whether to let a request pass. Nothing else that is true does, such as what was not awaited."""
    return isinstance(decision, Decision) and decision.allowed is True


def _is_awaited(office: Any) -> bool:
    """Whether the decisions of an office are awaited."""
    return inspect.iscoroutinefunction(office.check)


Environ = Dict[str, Any]
StartResponse = Callable[..., Any]
WsgiApp = Callable[[Environ, StartResponse], Iterable[bytes]]


class WsgiGuard:
    """An application of WSGI behind a guard."""

    def __init__(
        self,
        app: WsgiApp,
        office: Office,
        need: Callable[[Environ], Need],
        session: Callable[[Environ], Optional[str]],
    ) -> None:
        """`need` returns what a request needs, and `session` the name of its session, which the application keeps."""
        if _is_awaited(office):
            raise TypeError("the decisions of this office are awaited: WsgiGuard needs a Client, AsgiGuard an AsyncClient")
        self._app, self._need, self._holder = app, need, session
        self._decide: Callable[[str, str, str], Decision] = office.check

    @classmethod
    def by_user(
        cls, app: WsgiApp, office: Office, need: Callable[[Environ], Need], user: Callable[[Environ], Optional[str]]
    ) -> "WsgiGuard":
        """A guard that decides by the user whom the application has authenticated, for applications without sessions."""
        guard = cls(app, office, need, user)
        guard._decide = office.decide_by_user
        return guard

    def __call__(self, environ: Environ, start_response: StartResponse) -> Iterable[bytes]:
        need = self._need(environ)
        if need is not None:
            name = self._holder(environ)
            decision = self._decide(name, *need) if name else None
            if not passes(decision):
                status = status_of(decision)
                start_response(f"{status} {_WORDS[status]}", list(_PLAIN))
                return [f"{_WORDS[status]}\n".encode()]
        return self._app(environ, start_response)


Scope = MutableMapping[str, Any]
Receive = Callable[[], Awaitable[Any]]
Send = Callable[[Any], Awaitable[None]]
AsgiApp = Callable[[Scope, Receive, Send], Awaitable[None]]


class AsgiGuard:
    """An application of ASGI behind a guard: requests over HTTP, and websockets before they are accepted."""

    def __init__(
        self,
        app: AsgiApp,
        office: AsyncOffice,
        need: Callable[[Scope], Need],
        session: Callable[[Scope], Optional[str]],
    ) -> None:
        """`need` returns what a request needs, and `session` the name of its session, which the application keeps."""
        if not _is_awaited(office):
            raise TypeError("the decisions of this office aren't awaited: AsgiGuard needs an AsyncClient, or an AsyncReplica")
        self._app, self._need, self._holder = app, need, session
        self._decide: Callable[[str, str, str], Awaitable[Decision]] = office.check

    @classmethod
    def by_user(
        cls, app: AsgiApp, office: AsyncOffice, need: Callable[[Scope], Need], user: Callable[[Scope], Optional[str]]
    ) -> "AsgiGuard":
        """A guard that decides by the user whom the application has authenticated, for applications without sessions."""
        guard = cls(app, office, need, user)
        guard._decide = office.decide_by_user
        return guard

    async def __call__(self, scope: Scope, receive: Receive, send: Send) -> None:
        kind = scope.get("type")
        if kind not in ("http", "websocket", "lifespan"):
            raise ValueError("a guard passes http, websocket and lifespan, and no scope of another type")
        need = None if kind == "lifespan" else self._need(scope)
        if need is not None:
            name = self._holder(scope)
            decision = await self._decide(name, *need) if name else None
            if not passes(decision):
                await _refuse(scope, send, status_of(decision))
                return
        await self._app(scope, receive, send)


async def _refuse(scope: Scope, send: Send, status: int) -> None:
    """Answers a request that doesn't pass."""
    if scope["type"] == "websocket":
        await send({"type": "websocket.close", "code": 1008})
        return
    headers: List[Tuple[bytes, bytes]] = [(name.lower().encode(), value.encode()) for name, value in _PLAIN]
    await send({"type": "http.response.start", "status": status, "headers": headers})
    await send({"type": "http.response.body", "body": f"{_WORDS[status]}\n".encode()})


class NotAllowed(Exception):
    """A function with `needs` was called for a session that may not do it. `decision` is None without a session."""

    def __init__(self, decision: Optional[Decision]) -> None:
        super().__init__(decision)
        self.decision, self.status = decision, status_of(decision)


Guarded = TypeVar("Guarded", bound=Callable[..., Any])


def needs(
    office: Union[Office, AsyncOffice], session: Callable[[], Optional[str]], operation: str, object: str
) -> Callable[[Guarded], Guarded]:
    """A decorator: the function runs only if the session may do the operation on the object. Otherwise it raises `NotAllowed`.

    With an `AsyncClient` the function is one to await.
    """
    return _needing(office, office.check, session, operation, object)


def needs_by_user(
    office: Union[Office, AsyncOffice], user: Callable[[], Optional[str]], operation: str, object: str
) -> Callable[[Guarded], Guarded]:
    """The same for applications without sessions: it decides by the user whom the application has authenticated."""
    return _needing(office, office.decide_by_user, user, operation, object)


def _needing(
    office: Any, decide: Callable[..., Any], holder: Callable[[], Optional[str]], operation: str, object: str
) -> Callable[[Guarded], Guarded]:
    def decorated(function: Any) -> Any:
        @functools.wraps(function)
        def guarded(*given: Any, **named: Any) -> Any:
            name = holder()
            decision: Any = decide(name, operation, object) if name else None
            if not passes(decision):
                raise NotAllowed(decision)
            return function(*given, **named)

        @functools.wraps(function)
        async def awaited(*given: Any, **named: Any) -> Any:
            name = holder()
            decision = await decide(name, operation, object) if name else None
            if not passes(decision):
                raise NotAllowed(decision)
            return await function(*given, **named)

        if not _is_awaited(office):
            return guarded
        if not inspect.iscoroutinefunction(function):
            raise TypeError("the decisions of this office are awaited, so the function has to be one with async def")
        return awaited

    return decorated
