"""A time limit is that of a whole call: of the search for its host, all of its addresses, and what is sent and read."""

import asyncio
import gc
import socket
import ssl
import threading
import time
import warnings

import pytest

import rbac_client
from rbac_client import _connecting

from fake import Server


class Clock:
    """A clock that only goes on when somebody waits."""

    now = 1_000.0

    def monotonic(self):
        return self.now


class SilentSocket:
    """A connection to an address that doesn't answer takes all of its time limit."""

    tried = []
    clock = None

    def __init__(self, *_):
        self.timeout = None

    def settimeout(self, seconds):
        self.timeout = seconds

    def connect(self, place):
        self.tried.append((place, self.timeout))
        self.clock.now += self.timeout
        raise socket.timeout("timed out")

    def close(self):
        pass


def test_all_addresses_share_the_time(monkeypatch):
    clock = Clock()
    monkeypatch.setattr(SilentSocket, "clock", clock)
    monkeypatch.setattr(SilentSocket, "tried", [])
    monkeypatch.setattr(time, "monotonic", clock.monotonic)
    places = [(socket.AF_INET, socket.SOCK_STREAM, 6, "", (f"192.0.2.{number}", 80)) for number in range(1, 5)]
    monkeypatch.setattr(_connecting.socket, "getaddrinfo", lambda *_, **__: places)
    monkeypatch.setattr(_connecting.socket, "socket", SilentSocket)
    with pytest.raises(rbac_client.Unreachable):
        rbac_client.Client("http://192.0.2.9", timeout=1.0).add_user("ann")
    assert [place for place, _ in SilentSocket.tried] == [place[4] for place in places]
    assert sum(seconds for _, seconds in SilentSocket.tried) == pytest.approx(1.0)


def test_nobody_waits_for_a_host_that_isn_t_found(monkeypatch):
    is_over, found = threading.Event(), socket.getaddrinfo

    def search(*given, **named):
        is_over.wait(60)
        return found("127.0.0.1", 9, type=socket.SOCK_STREAM)

    monkeypatch.setattr(_connecting.socket, "getaddrinfo", search)
    decision = rbac_client.Client("http://nowhere.invalid", timeout=0.05).check("s1", "open", "safe")
    assert (decision.reason.value, is_over.is_set()) == ("unreachable", False)
    is_over.set()


def test_a_server_that_takes_nothing(monkeypatch):
    """A request that isn't read ends by the limit too: each part that is sent has only what is left."""
    given = []

    class Slow:
        def settimeout(self, seconds):
            given.append(seconds)

        def send(self, text):
            time.sleep(0.001)
            return 1

        def recv(self, size):
            raise socket.timeout("timed out")

        def close(self):
            pass

    client = rbac_client.Client("http://127.0.0.1:9", timeout=0.05)
    monkeypatch.setattr(client, "_connected", lambda *_: Slow())
    with pytest.raises(rbac_client.Unanswered):
        client.add_user("a" * 1_000)
    assert len(given) > 2 and given == sorted(given, reverse=True) and given[-1] < given[0]


def test_no_coroutine_is_left_at_the_limit():
    """A client whose time is over before it begins has asked nobody, and leaves nothing behind."""
    server = Server()

    async def ask():
        office = rbac_client.AsyncClient(server.address, timeout=1e-9)
        assert (await office.check("s1", "open", "safe")).allowed is False
        with pytest.raises(rbac_client.Error):
            await office.add_user("ann")
        late = rbac_client.AsyncClient(server.address, timeout=60)
        assert (await late.check("s1", "open", "safe")).allowed is True
        limit = time.monotonic() - 1
        for address in late._settings.addresses:
            with pytest.raises(rbac_client.Unreachable):
                await late._connected(address, limit)
            connection = await late._connected(address, time.monotonic() + 60)
            with pytest.raises(rbac_client.Unanswered):
                await late._exchange(address, connection, "checkAccess", b"", limit)
            assert not connection.is_open

    with warnings.catch_warnings(record=True) as warned:
        warnings.simplefilter("always")
        asyncio.run(ask())
        gc.collect()
    server.close()
    assert [str(one.message) for one in warned if issubclass(one.category, RuntimeWarning)] == []


def test_an_error_of_tls_is_closed():
    """A connection on which TLS fails isn't left open."""
    server = Server()
    server.answer = b"HTTP/1.1 400 Bad Request\r\n\r\n"
    context = ssl.create_default_context()
    with warnings.catch_warnings(record=True) as warned:
        warnings.simplefilter("always")
        with pytest.raises(rbac_client.Unreachable) as raised:
            address = rbac_client._http.Address.read(server.address.replace("http", "https"))
            _connecting.connected(address, context, time.monotonic() + 0.2)
        del raised
        gc.collect()
    server.close()
    assert [str(one.message) for one in warned if issubclass(one.category, ResourceWarning)] == []
