"""Connections to an address, made before a moment, whatever takes long: to find the host, each of its addresses, or TLS."""

import contextlib
import ipaddress
import queue
import socket
import ssl
import threading
from typing import Any, List, Optional, Tuple

from ._course import remaining
from ._decision import Reason, Unanswered, Unreachable
from ._http import Address

# Where a host can be reached: what `socket.getaddrinfo` returns.
_Place = Tuple[Any, Any, int, str, Any]


def connected(address: Address, context: Optional[ssl.SSLContext], limit: float) -> socket.socket:
    """A new connection to an address, with TLS if there is a context. Raises `Unreachable` if there is none before the limit."""
    try:
        connection = _connected(address, limit)
        if context is None:
            return connection
        with _closed_by_errors(connection):
            connection.settimeout(remaining(limit))
            return context.wrap_socket(connection, server_hostname=address.host)
    except (OSError, ValueError, Unanswered) as error:
        raise Unreachable(ascii(str(error))[1:-1], reason_of(error)) from error


def reason_of(error: BaseException) -> Reason:
    """Why there is no connection. A server that closes it amid the handshake has shown no certificate that isn't trusted."""
    is_lost = isinstance(error, (ssl.SSLEOFError, ssl.SSLZeroReturnError))
    return Reason.UNTRUSTED if isinstance(error, ssl.SSLError) and not is_lost else Reason.UNREACHABLE


def _connected(address: Address, limit: float) -> socket.socket:
    """A connection without TLS: to the first of the places that answers, each of which gets a share of the time."""
    if address.path:
        connection = socket.socket(socket.AF_UNIX)
        with _closed_by_errors(connection):
            connection.settimeout(remaining(limit))
            connection.connect(address.path)
        return connection
    failure: OSError = OSError("the host has no address")
    places = _places(address, limit)
    for number, (family, kind, protocol, _, place) in enumerate(places):
        try:
            connection = socket.socket(family, kind, protocol)
            with _closed_by_errors(connection):
                connection.settimeout(remaining(limit) / (len(places) - number))
                connection.connect(place)
                connection.setsockopt(socket.IPPROTO_TCP, socket.TCP_NODELAY, 1)
            return connection
        except OSError as error:
            failure = error
    raise failure


def _places(address: Address, limit: float) -> List[_Place]:
    """The addresses of the host. If the system looks them up for longer than the time limit, nobody waits for it."""
    with contextlib.suppress(ValueError):
        ipaddress.ip_address(address.host)
        return socket.getaddrinfo(address.host, address.port, type=socket.SOCK_STREAM)
    found: "queue.SimpleQueue[Any]" = queue.SimpleQueue()

    def find() -> None:
        try:
            found.put(socket.getaddrinfo(address.host, address.port, type=socket.SOCK_STREAM))
        except (OSError, ValueError) as error:
            found.put(error)

    threading.Thread(target=find, name="rbac-host", daemon=True).start()
    try:
        places = found.get(timeout=remaining(limit))
    except queue.Empty:
        raise TimeoutError("the address of the host wasn't found in time") from None
    if isinstance(places, Exception):
        raise places
    return list(places)


@contextlib.contextmanager
def _closed_by_errors(connection: socket.socket) -> Any:
    """Closes a connection if an error comes."""
    try:
        yield
    except BaseException:
        connection.close()
        raise
