"""What the tests of the client use: `pytest`, in clients/python."""

import asyncio

import pytest

import rbac_client

from fake import Server


class Waiting:
    """An AsyncClient whose methods wait for their answers, so that one test fits both clients."""

    def __init__(self, client, loop):
        self.client, self.loop = client, loop

    def __getattr__(self, name):
        return lambda *given, **named: self.loop.run_until_complete(getattr(self.client, name)(*given, **named))


@pytest.fixture
def server():
    server = Server()
    yield server
    server.close()


@pytest.fixture(params=["Client", "AsyncClient"])
def made(request):
    """What makes a client of one of the two kinds."""
    loop = asyncio.new_event_loop()

    def make(*given, **named):
        client = getattr(rbac_client, request.param)(*given, **named)
        return client if request.param == "Client" else Waiting(client, loop)

    yield make
    loop.run_until_complete(asyncio.sleep(0))
    loop.close()
