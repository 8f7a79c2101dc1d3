"""The guards of the client in Python, and kept connections that threads, tasks and processes share."""

import asyncio
import os
import shutil
import threading

from front.program import Front
from program.offices import small_office
from program.web import HOST, Server, free_port

import pytest

from .client import PATIENT, office_at, rbac
from .driving import FRONT

from rbac_client.middleware import AsgiGuard, NotAllowed, WsgiGuard, needs  # noqa: E402  client.py finds it

# What a request needs, by its path.
NEEDS = {"/open": ("open", "safe"), "/view": ("view", "safe"), "/none": ("fly", "safe")}

# The paths with the statuses that they get without a session, in s1, which may do both, and in s2, which may only open.
STATUSES = {"/open": (401, 200, 200), "/view": (401, 200, 403), "/none": (401, 503, 503), "/free": (200, 200, 200)}


async def application(scope, receive, send):
    """An application of ASGI that answers every request."""
    await send({"type": "http.response.start", "status": 200} if scope["type"] == "http" else {"type": "websocket.accept"})


async def asgi(guard, kind, path, session):
    """The status of a request, or how a websocket is answered."""
    sent = []

    async def send(message):
        sent.append(message)

    await guard({"type": kind, "path": path, "session": session}, None, send)
    return sent[0].get("status") or sent[0]["type"]


def check_over_asgi(bench):
    """A guard of ASGI passes what the session may do, and refuses the rest with its status; also websockets."""

    async def ask_all(port):
        async with rbac.AsyncClient(f"http://{HOST}:{port}", timeout=PATIENT) as office:
            guard = AsgiGuard(application, office, lambda scope: NEEDS.get(scope["path"]), lambda scope: scope["session"])
            for path, wanted in STATUSES.items():
                given = tuple([await asgi(guard, "http", path, session) for session in (None, "s1", "s2")])
                bench.same(f"the statuses of {path}", given, wanted)
            bench.same("after its end", await asgi(guard, "http", "/open", "s3"), 401)
            sockets = [await asgi(guard, "websocket", "/view", session) for session in ("s1", "s2")]
            bench.same("websockets", sockets, ["websocket.accept", "websocket.close"])
            bench.same("the start of a server", await asgi(guard, "lifespan", "/open", None), "websocket.accept")

    with Server(bench, small_office(bench).path, 1_000) as server:
        office_at(server.port).create_session("bob", ["clerk"], "s2")
        asyncio.run(ask_all(server.port))


def check_over_wsgi(bench):
    """The same by WSGI, and by a decorator."""
    with Server(bench, small_office(bench).path, 1_000) as server:
        office = office_at(server.port)
        office.create_session("bob", ["clerk"], "s2")

        def status(office, path, session):
            statuses = []
            app = WsgiGuard(
                lambda environ, start: start("200 OK", []) or [],
                office,
                lambda environ: NEEDS.get(environ["PATH_INFO"]),
                lambda environ: environ["session"],
            )
            list(app({"PATH_INFO": path, "session": session}, lambda line, _: statuses.append(int(line[:3]))))
            return statuses[0]

        for path, wanted in STATUSES.items():
            bench.same(f"the statuses of {path}", tuple(status(office, path, one) for one in (None, "s1", "s2")), wanted)
        bench.same("without a server", status(office_at(free_port()), "/open", "s1"), 503)
        for session, wanted in [("s1", "done"), ("s2", 403), ("s3", 401), (None, 401)]:
            bench.same(f"the decorator for {session}", called(office, session), wanted)


def called(office, session):
    """What a decorated function returns, or the status of its refusal."""

    @needs(office, lambda: session, "view", "safe")
    def guarded(word):
        return word

    try:
        return guarded("done")
    except NotAllowed as error:
        return error.status


def users_of(client):
    """Makes users, each with a role of its own."""
    users = {f"user {number}": f"role {number}" for number in range(8)}
    for user, role in users.items():
        client.add_user(user)
        client.add_role(role)
        client.assign_user(user, role)
    return users


@pytest.mark.needs(*FRONT)
def check_shared_connections(bench):
    """Threads, tasks, and processes after a fork share a client with kept connections: each gets its own answers."""
    small_office(bench)
    with Front(bench) as front:
        client = office_at(front.port)
        users = users_of(client)
        wanted = {user: {(role,)} for user, role in users.items()}
        given = {}

        def asks(user):
            given[user] = {tuple(client.authorized_roles(user)) for _ in range(100)}

        threads = [threading.Thread(target=asks, args=(user,)) for user in users]
        for thread in threads:
            thread.start()
        for thread in threads:
            thread.join()
        bench.same("the answers to threads", given, wanted)
        first, second = list(users)[:2]
        process = os.fork()
        if process == 0:
            asks(first)
            os._exit(0 if given[first] == wanted[first] else 1)
        asks(second)
        bench.same("the answers to the process", given[second], wanted[second])
        bench.same("the answers to the forked process", os.waitpid(process, 0)[1], 0)
        bench.same("the answers to tasks", asyncio.run(asked_by_tasks(front.port, users)), wanted)


async def asked_by_tasks(port, users):
    """What tasks are answered that share a client."""
    async with rbac.AsyncClient(f"http://{HOST}:{port}", timeout=PATIENT) as client:

        async def asks(user):
            return user, {tuple(await client.authorized_roles(user)) for _ in range(50)}

        return dict(await asyncio.gather(*map(asks, users)))
