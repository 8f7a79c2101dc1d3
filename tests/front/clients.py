"""Clients that are slow, that are many, and that send heads which could be read in two ways: no other client notices."""

import random
import resource
import socket
import threading
import time

import pytest

from .identities import bearer, secured
from .program import HOST, Front, read_all, refused_start, until

GOOD = b"POST /v1/addUser HTTP/1.1\r\nHost: localhost\r\n"
INNER = b"POST /v1/addUser HTTP/1.1\r\nHost: localhost\r\nContent-Length: 19\r\n\r\n" + b'{"user":"smuggled"}'

# Requests with something in them that another reader could take for a second request.
SMUGGLED = {
    "a length and pieces": GOOD + b"Content-Length: 5\r\nTransfer-Encoding: chunked\r\n\r\n0\r\n\r\n" + INNER,
    "pieces and a length": GOOD + b"Transfer-Encoding: chunked\r\nContent-Length: 5\r\n\r\n0\r\n\r\n" + INNER,
    "pieces": GOOD + b"Transfer-Encoding: chunked\r\n\r\n0\r\n\r\n" + INNER,
    "pieces twice": GOOD + b"Transfer-Encoding: chunked\r\nTransfer-Encoding: chunked\r\n\r\n0\r\n\r\n" + INNER,
    "pieces and identity": GOOD + b"Transfer-Encoding: chunked, identity\r\n\r\n0\r\n\r\n" + INNER,
    "pieces with a tab": GOOD + b"Transfer-Encoding:\tchunked\r\n\r\n0\r\n\r\n" + INNER,
    "pieces with a vertical tab": GOOD + b"Transfer-Encoding: \x0bchunked\r\nContent-Length: 0\r\n\r\n" + INNER,
    "pieces with a space before the colon": GOOD + b"Transfer-Encoding : chunked\r\nContent-Length: 0\r\n\r\n" + INNER,
    "pieces in a folded field": GOOD + b"X: y\r\n Transfer-Encoding: chunked\r\nContent-Length: 4\r\n\r\n{}  ",
    "two lengths": GOOD + b"Content-Length: 2\r\nContent-Length: 90\r\n\r\n{}" + INNER,
    "a list of lengths": GOOD + b"Content-Length: 2, 90\r\n\r\n{}" + INNER,
    "a length with a sign": GOOD + b"Content-Length: +2\r\n\r\n{}" + INNER,
    "a length in hexadecimal": GOOD + b"Content-Length: 0x2\r\n\r\n{}" + INNER,
    "a length with a space in it": GOOD + b"Content-Length: 2 0\r\n\r\n{}" + INNER,
    "a space before the colon of the length": GOOD + b"Content-Length : 2\r\n\r\n{}" + INNER,
    "a bare CR": GOOD + b"X: y\rContent-Length: 0\r\n\r\n" + INNER,
    "a NUL": GOOD + b"X: y\x00z\r\nContent-Length: 0\r\n\r\n" + INNER,
    "a request in a field": GOOD + b"X: " + INNER.replace(b"\r\n", b" ") + b"\r\nContent-Length: 2\r\n\r\n{}",
    "an upgrade to HTTP/2": GOOD + b"Connection: Upgrade, HTTP2-Settings\r\nUpgrade: h2c\r\nHTTP2-Settings: AAMAAABk\r\n"
                            + b"Content-Length: 2\r\n\r\n{}",
    "the beginning of HTTP/2": b"PRI * HTTP/2.0\r\n\r\nSM\r\n\r\n" + INNER,
    "a body of a GET": b"GET /v1/addUser HTTP/1.1\r\nHost: localhost\r\nContent-Length: %d\r\n\r\n" % len(INNER) + INNER,
    "a body of an unknown function": GOOD.replace(b"addUser", b"fly") + b"Content-Length: %d\r\n\r\n" % len(INNER) + INNER,
    "a body that is expected": GOOD.replace(b"addUser", b"fly") + b"Expect: 100-continue\r\n"
                               + b"Content-Length: %d\r\n\r\n" % len(INNER) + INNER,
}  # fmt: skip


def check_smuggling(bench):
    """What is inside a request is never done as another one, and after 501 the connection is closed."""
    with Front(bench) as front:
        for name, text in SMUGGLED.items():
            said = front.raw(text)
            bench.same(f"the user of {name}", front.ask("assignedRoles", {"user": "smuggled"})[0], 409)
            if b" 501 " in said[:20]:
                bench.same(f"answers to {name}", said.count(b"HTTP/1.1 "), 1)
        bench.same("two requests at once", front.raw(INNER + INNER).count(b"HTTP/1.1 "), 2)
        bench.same("the user of a good request", front.ask("assignedRoles", {"user": "smuggled"})[0], 200)


def check_spoiled(bench):
    """Requests in which bytes were changed do nothing that another request means, and the front goes on."""
    seed = random.randrange(1 << 30)
    print(f"the seed of the spoiled requests is {seed}", flush=True)
    draws = random.Random(seed)
    with Front(bench) as front:
        process = front.process.pid
        for _ in range(1_500):
            text = bytearray(GOOD + b"Content-Length: 14\r\n\r\n" + b'{"user":"ann"}')
            for _ in range(draws.choice([1, 2, 4, 16])):
                at = draws.randrange(len(text))
                text[at : at + draws.choice([0, 1, 3])] = bytes(
                    draws.choice(b"\r\n\0 :;,\t/AZ\xff09") for _ in range(draws.choice([0, 1, 2]))
                )
            said = front.raw(bytes(text))
            if said and not said.startswith(b"HTTP/1."):
                bench.faults.append(f"{bytes(text)!r}: {said[:100]!r}")
        bench.same("the process", (front.process.poll(), front.process.pid), (None, process))
        bench.same("it answers", front.ask("ssdRoleSets")[0], 200)


def check_long_heads(bench):
    """A head of a megabyte is refused after some kilobytes, and so are many fields."""
    with Front(bench) as front:
        for name, text in [
            ("one field", GOOD + b"X: " + b"y" * (1 << 20) + b"\r\n\r\n"),
            ("many fields", GOOD + b"X: y\r\n" * (1 << 17) + b"\r\n"),
            ("a line", b"POST /" + b"y" * (1 << 20) + b" HTTP/1.1\r\nHost: localhost\r\n\r\n"),
        ]:
            with socket.create_connection((HOST, front.port)) as client:
                client.settimeout(20)
                try:
                    client.sendall(text)
                except OSError:
                    pass  # The front has closed it.
                said = read_all(client)
                bench.same(f"a head with {name}", said[:12] in (b"HTTP/1.1 431", b""), True)
        bench.same("it answers", front.ask("ssdRoleSets")[0], 200)


def slow_head(client):
    """Sends a byte of a head now and then."""
    client.sendall(GOOD)
    while True:
        client.sendall(b"X")
        time.sleep(0.4)


def slow_body(client):
    """Sends a byte of a body now and then."""
    client.sendall(GOOD + b"Content-Length: 1000\r\n\r\n{")
    while True:
        client.sendall(b" ")
        time.sleep(0.4)


def never_reading(client):
    """Asks for much, and takes none of it."""
    text = b"POST /v1/assignedUsers HTTP/1.1\r\nHost: localhost\r\nContent-Length: 16\r\n\r\n" + b'{"role":"clerk"}'
    while True:
        client.sendall(text * 50)


def silent(client):
    """Sends nothing."""
    client.recv(1)
    raise ConnectionError


SLOW = [slow_head, slow_body, never_reading, silent]


def run_slow(front, way, ends):
    """Is a slow client, and notes after how many seconds the front has closed its connection."""
    with socket.socket() as client:
        client.setsockopt(socket.SOL_SOCKET, socket.SO_RCVBUF, 4096)
        client.settimeout(60)
        client.connect((HOST, front.port))
        start = time.monotonic()
        try:
            way(client)
        except OSError:
            ends.append((way.__name__, time.monotonic() - start))


@pytest.mark.slow
def check_slow_clients(bench):
    """Slow clients are cut off in time, and others are answered meanwhile."""
    with Front(bench) as front:
        front.ask("addRole", {"role": "clerk"})
        kept = front.connection()
        for number in range(1_500):
            name = f"{number:04}" + "x" * 56
            front.ask("addUser", {"user": name}, kept)
            front.ask("assignUser", {"user": name, "role": "clerk"}, kept)
        ends = []
        slow = [threading.Thread(target=run_slow, args=(front, way, ends), daemon=True) for way in SLOW for _ in range(8)]
        for thread in slow:
            thread.start()
        answered = 0
        while any(thread.is_alive() for thread in slow):
            bench.same("another client", front.ask("ssdRoleSets", {}, kept)[0], 200)
            answered += 1
            time.sleep(0.05)
        kept.close()
        bench.same("all were cut off", sorted(name for name, _ in ends), sorted(way.__name__ for way in SLOW for _ in range(8)))
        bench.same("others were answered meanwhile", answered > 20, True)
        until(lambda: connections(front) <= 1, "the connections are gone")
        return {"slow clients": len(ends), "answers meanwhile": answered}


def connections(front):
    """How many connections the front says it has."""
    text = front.exchange("GET", "/metrics")[1]
    return next(float(line.split()[1]) for line in text.splitlines() if line.startswith("rbac_node_connections "))


def idle_clients(count, port):
    """Connections that have asked once and are idle, and some that have sent half a request."""
    found = []
    for number in range(count):
        client = socket.create_connection((HOST, port), 20)
        client.sendall(
            GOOD.replace(b"addUser", b"ssdRoleSets") + (b"Content-Length: 2\r\n\r\n{}" if number % 8 else b"Content-Len")
        )
        found.append(client)
    return found


@pytest.mark.slow
def check_many_connections(bench):
    """While thousands of connections are idle or half open, others are answered; the longest idle ones make room."""
    _, hard = resource.getrlimit(resource.RLIMIT_NOFILE)
    count = min(3_000, hard - 500)
    soft = resource.getrlimit(resource.RLIMIT_NOFILE)[0]
    resource.setrlimit(resource.RLIMIT_NOFILE, (max(soft, min(hard, 4_096)), hard))
    with Front(bench, "--connections", str(count // 2)) as front:
        kept = front.connection()
        clients = idle_clients(count // 3, front.port)
        for _ in range(200):
            bench.same("beside idle ones", front.ask("ssdRoleSets", {}, kept)[0], 200)
        kept.close()
        clients += idle_clients(count // 2, front.port)
        bench.same("one more than there is room for", front.ask("ssdRoleSets")[0], 200)
        bench.same("no more than there may be", connections(front) <= count // 2, True)
        for client in clients:
            client.close()
        bench.same("the end", front.end(), 0)
    return {"idle connections": len(clients)}


def end_of(client):
    """What comes on a connection until it is closed, or nothing if nothing has come yet and it is open."""
    client.setblocking(False)
    try:
        return client.recv(65_536)
    except BlockingIOError:
        return None
    except ConnectionResetError:
        return b""


# What a stranger may ask for, and what not.
STRANGERS = ["GET /healthz", "GET /console/", "GET /reports/x", "OPTIONS *", "POST /v1/addUser"]


@pytest.mark.parametrize("target", STRANGERS)
def check_strangers(bench, target):
    """Who shows no identity and doesn't send the rest of a request makes room for a caller, also where no identity is needed."""
    head = f"{target} HTTP/1.1\r\nHost: localhost\r\nContent-Length: 1000\r\n\r\n".encode()
    with secured(bench, "--connections", "20") as front:
        strangers = []
        for _ in range(20):
            strangers.append(socket.create_connection((HOST, front.port), 20))
            # The first request is whole, so the connection has been idle.
            strangers[-1].sendall(b"GET /healthz HTTP/1.1\r\nHost: localhost\r\n\r\n")
            strangers[-1].recv(65_536)
            strangers[-1].sendall(head)
        bench.same("a caller", front.ask("assignedRoles", {"user": "ann"}, **bearer("secret"))[0] < 500, True)
        # One that isn't closed for a caller is answered when its time is over.
        found = []
        until(lambda: found.extend(end for end in map(end_of, strangers) if end is not None) or found, "a connection has ended")
        bench.same("what the first stranger gets", found[0], b"")
        for client in strangers:
            client.close()


def fill(front, count):
    """Begins so many requests of a caller, and returns them if one more gets 429. It returns none if one of them was refused instead, or
    ended before that."""
    open_requests = []
    for _ in range(count):
        client = socket.create_connection((HOST, front.port), 20)
        client.sendall(GOOD.replace(b"addUser", b"assignedRoles") + b"Authorization: Bearer secret\r\nContent-Length: 14\r\n\r\n")
        open_requests.append(client)
    if any(front.ask("ssdRoleSets", **bearer("secret"))[0] == 429 for _ in range(20)):
        return open_requests
    for client in open_requests:
        client.close()
    return []


def check_at_once(bench):
    """A caller with 64 requests at hand gets 429 for another one, and other callers don't notice."""
    with secured(bench) as front:
        open_requests = []
        until(lambda: open_requests or open_requests.extend(fill(front, 64)) or open_requests, "the caller has too many requests")
        bench.same("another caller", front.ask("addUser", {"user": "bob"}, **bearer("another"))[0], 200)
        for client in open_requests:
            client.sendall(b'{"user":"ann"}')
            bench.same("a request that was at hand", client.recv(12), b"HTTP/1.1 409")
            client.close()
        until(lambda: front.ask("ssdRoleSets", **bearer("secret"))[0] == 403, "the caller may ask again")


def check_caller_requests(bench):
    """`--caller-requests` says how many requests a caller may have in flight."""
    with secured(bench, "--caller-requests", "2") as front:
        waiting = []
        until(lambda: waiting or waiting.extend(fill(front, 2)) or waiting, "the caller has too many requests")
        bench.same("another caller", front.ask("addUser", {"user": "bob"}, **bearer("another"))[0], 200)
        for client in waiting:
            client.close()
        until(lambda: front.ask("ssdRoleSets", **bearer("secret"))[0] == 403, "the caller may ask again")
    status, _, said = refused_start("serve", "--office", bench.path("other"), "--caller-requests", "0")
    bench.same("none", (status, "--caller-requests must be at least 1" in said), (1, True))
