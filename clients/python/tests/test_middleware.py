"""Guards let nobody in whom the office hasn't allowed, whatever they are given."""

import asyncio

import pytest

from rbac_client import AsyncClient, Client, Decision, Reason
from rbac_client.middleware import AsgiGuard, NotAllowed, WsgiGuard, needs, needs_by_user

from fake import DENIED, RIGHT

NOWHERE = "http://127.0.0.1:9"
NEED, SESSION = (lambda _: ("open", "safe")), (lambda _: "s1")


class Wrong:
    """An office whose decisions are none."""

    def __init__(self, decision):
        self.decision = decision

    def check(self, *_):
        return self.decision

    decide_by_user = check


class WrongToAwait(Wrong):
    async def check(self, *_):
        return self.decision

    decide_by_user = check


class Always:
    """Something that is true, and that says it allows."""

    allowed, reason, is_decided = "yes", Reason.ALLOWED, True


ALMOST = [True, 1, "allowed", object(), Always(), [Decision(Reason.ALLOWED)], None]


def wsgi(office, made=WsgiGuard):
    """The status that a guard answers with, which passes what is allowed."""
    statuses = []
    app = made(lambda _, start: start("200 OK", []) or [], office, NEED, SESSION)
    list(app({}, lambda line, _: statuses.append(line)))
    return statuses[0][:3]


def asgi(office, made=AsgiGuard, scope={"type": "http"}):
    sent = []

    async def passed(scope, receive, send):
        sent.append({"status": 200})

    async def send(message):
        sent.append(message)

    asyncio.run(made(passed, office, NEED, SESSION)(dict(scope), None, send))
    return str(sent[0]["status"])


def test_a_guard_refuses_a_client_of_the_other_kind():
    with pytest.raises(TypeError):
        WsgiGuard(None, AsyncClient(NOWHERE), NEED, SESSION)
    with pytest.raises(TypeError):
        AsgiGuard(None, Client(NOWHERE), NEED, SESSION)


@pytest.mark.parametrize("decision", ALMOST, ids=str)
def test_a_guard_passes_nothing_but_a_decision(decision):
    assert wsgi(Wrong(decision)) in ("401", "503")
    assert asgi(WrongToAwait(decision)) in ("401", "503")
    assert wsgi(Wrong(decision), WsgiGuard.by_user) in ("401", "503")
    assert asgi(WrongToAwait(decision), AsgiGuard.by_user) in ("401", "503")
    for office in Wrong(decision), WrongToAwait(decision):
        for decorator in needs, needs_by_user:
            with pytest.raises(NotAllowed):
                call(office, decorator)


def call(office, decorator=needs):
    """Calls a function with a need, which may be one to await."""

    async def awaited():
        return "done"

    guarded = decorator(office, lambda: "s1", "open", "safe")(
        awaited if isinstance(office, (WrongToAwait, AsyncClient)) else lambda: "done"
    )
    found = guarded()
    return asyncio.run(found) if asyncio.iscoroutine(found) else found


def test_decisions_of_a_server(server):
    for answer, status in ((RIGHT, "200"), (DENIED, "403"), (b"", "503")):
        server.answer = answer
        assert wsgi(Client(server.address, pause=60)) == status
        assert asgi(AsyncClient(server.address, pause=60)) == status
        for kind in Client, AsyncClient:
            if status == "200":
                assert call(kind(server.address)) == "done"
                continue
            with pytest.raises(NotAllowed) as raised:
                call(kind(server.address))
            assert raised.value.status == int(status)


def test_decisions_of_a_server_about_users(server):
    for answer, status in ((RIGHT, "200"), (DENIED, "403"), (b"", "503")):
        server.answer = answer
        clients = [kind(server.address, pause=60) for kind in (Client, AsyncClient)]
        assert (wsgi(clients[0], WsgiGuard.by_user), asgi(clients[1], AsgiGuard.by_user)) == (status, status)
        for office in clients:
            if status == "200":
                assert call(office, needs_by_user) == "done"
                continue
            with pytest.raises(NotAllowed) as raised:
                call(office, needs_by_user)
            assert raised.value.status == int(status)
    asked = {request.partition(b" HTTP")[0] + b" " + request.partition(b"\r\n\r\n")[2] for request in server.requests}
    assert asked == {b'POST /v1/decideByUser {"user":"s1","operation":"open","object":"safe"}'}


@pytest.mark.parametrize("scope", [{"type": "webtransport"}, {"type": "http.extension"}, {"type": None}, {}], ids=str)
def test_a_guard_names_what_may_pass(scope):
    with pytest.raises(ValueError):
        asgi(WrongToAwait(Decision(Reason.ALLOWED)), scope=scope)
    assert asgi(WrongToAwait(Decision(Reason.DENIED)), scope={"type": "lifespan"}) == "200"


def test_a_function_that_isn_t_awaited_needs_a_client_that_isn_t():
    with pytest.raises(TypeError):
        needs(AsyncClient(NOWHERE), lambda: "s1", "open", "safe")(lambda: "done")


def test_a_function_that_is_awaited_waits_for_the_decision():
    """The function isn't begun before the decision."""
    begun = []

    @needs(AsyncClient(NOWHERE, pause=60), lambda: "s1", "open", "safe")
    async def guarded():
        begun.append(True)

    with pytest.raises(NotAllowed):
        asyncio.run(guarded())
    assert begun == []


def test_without_a_session():
    office = Wrong(Decision(Reason.ALLOWED))
    with pytest.raises(NotAllowed) as raised:
        needs(office, lambda: None, "open", "safe")(lambda: "done")()
    assert raised.value.status == 401
