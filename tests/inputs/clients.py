"""Clients that send or read slowly, or not at all: each waits as long as is stated, and the next one is served.

No memory is allocated for what a client announces and doesn't send.
"""

import json
import socket
import time

import pytest

from machine import state
from machine.assignments import MOST_BYTES
from machine.requests import LONGEST_LINE
from program.bench import SECONDS
from program.cases import cases
from program.heads import ANN, CURL, LENGTH
from program.offices import Office, change
from program.serving import LEAST, MOST, PATIENCE
from program.web import BAD_REQUEST, HOST, Server, connect, head, post, read_all, reply
from stopped.shim import Shim

DONE = b'{"ok":true}'
ADD_ANN = b'{"fn":"addUser","user":"ann"}'

# A slow client sends a byte at this interval in seconds, which is less than it may wait.
SLOW = 3

# A write that waits may still send some bytes: at most this many wait until one sends none.
WRITES = 4

# How many clients leave.
LEAVING = 20

# How many bytes are sent of a body that was announced as longer.
SENT = [0, 1, 8_192]
# The most bytes of a body that are read at once. Room for them is reserved before they are read.
PIECE = 8_192

# How many users have one role: the reply that names them has 2.5 MB, the longest possible.
USERS = state.MOST["user"]


def waited_for(bench, what, start, least, most):
    """Counts whether between `least` and `most` seconds have passed since `start`."""
    seconds = time.monotonic() - start
    bench.same(f"{what}: {seconds:.1f} s", least <= seconds <= most, True)


def serve_next(bench, server, office, what, start, least, most):
    """Counts whether the next client is served, and how long it had to wait."""
    bench.same(f"the client after {what}", server.ask(CURL), reply(200, DONE))
    waited_for(bench, f"the client after {what} waited", start, least, most)
    office.model.answer(ADD_ANN)
    server.ends()
    office.compare_with_model()


@pytest.mark.parametrize("count", cases([3], [30]))
def check_drip(bench, count):
    """A client that sends a byte now and then is waited for, until it stops: five seconds after its last byte."""
    office = Office(bench)
    with Server(bench, office.path, 2) as server, connect(server.port) as slow:
        start = time.monotonic()
        for byte in CURL[:count]:
            slow.sendall(bytes([byte]))
            time.sleep(SLOW)
        least = SLOW * (count - 1) + LEAST
        serve_next(bench, server, office, f"{count} bytes of a slow one", start, least, least - LEAST + MOST)
        bench.same("the slow client", read_all(slow), b"")
    return {"slow clients": 1}


def check_send_slowly(bench):
    """A client that takes long, but never as long as it may wait, is answered."""
    office = Office(bench)
    parts = [CURL[:1], CURL[1:40], CURL[40:-14], CURL[-14:-1], CURL[-1:]]
    with Server(bench, office.path, 1) as server, connect(server.port) as slow:
        for part in parts:
            slow.sendall(part)
            time.sleep(SLOW if part != parts[-1] else 0)
        bench.same("a slow client", read_all(slow), reply(200, DONE))
        server.ends()
    office.model.answer(ADD_ANN)
    office.compare_with_model()
    return {"slow clients": 1}


@pytest.mark.parametrize("count", cases([2], [6]))
def check_say_nothing(bench, count):
    """Clients that send nothing hold up the next one for five seconds each."""
    office = Office(bench)
    with Server(bench, office.path, count + 1) as server:
        silent = [connect(server.port) for _ in range(count)]
        start = time.monotonic()
        serve_next(bench, server, office, f"{count} silent ones", start, count * LEAST, count * PATIENCE + SECONDS)
        for client in silent:
            bench.same("a silent client", read_all(client), b"")
            client.close()
    return {"silent clients": count}


def crowded_office(bench):
    """An office with many users who all have one role, and the reply that names them."""
    office = Office(bench)
    users = [f"{number:05d}".ljust(64, '"') for number in range(USERS)]
    rows = ", ".join(f"(1, '{user}')" for user in users)
    pairs = ", ".join(f"(2, '{user}', 'clerk')" for user in users)
    statements = [f"INSERT INTO name_row VALUES (2, 'clerk'), {rows}", f"INSERT INTO pair_row VALUES {pairs}"]
    change(office.path, statements)
    text = json.dumps({"ok": True, "value": users}, separators=(",", ":")).encode()
    return office, reply(200, text)


def narrow(port):
    """Returns a connection for which the system buffers few bytes that the client has not read."""
    client = socket.socket()
    client.setsockopt(socket.SOL_SOCKET, socket.SO_RCVBUF, 4_096)
    client.setsockopt(socket.IPPROTO_TCP, socket.TCP_MAXSEG, 536)
    client.settimeout(SECONDS)
    client.connect((HOST, port))
    return client


def ask_for_users(port, opened=connect):
    """A client that has asked for all users of the role."""
    client = opened(port)
    client.sendall(post("assignedUsers", b'{"role":"clerk"}'))
    return client


def check_read_nothing(bench):
    """The connection of a client that doesn't read its reply is closed after a few writes have waited."""
    office, wanted = crowded_office(bench)
    with Server(bench, office.path, 2) as server, ask_for_users(server.port, narrow) as silent:
        start = time.monotonic()
        refused = reply(409, b'{"code":32,"error":"TooMany","kind":"user"}')
        bench.same("the client after one that doesn't read", server.ask(CURL), refused)
        waited_for(bench, "the client after one that doesn't read waited", start, LEAST, WRITES * PATIENCE + SECONDS)
        found = read_all(silent)
        is_part = wanted.startswith(found) and 0 < len(found) < len(wanted)
        bench.same(f"what it could have read: {len(found):,} bytes of {len(wanted):,}", is_part, True)
        server.ends()
    bench.ends(["check", office.path], b"good\n", keeps=True)
    return {"clients that don't read": 1}


def check_read_slowly(bench):
    """A client that reads its long reply slowly gets all of it."""
    office, wanted = crowded_office(bench)
    with Server(bench, office.path, 1) as server, ask_for_users(server.port) as slow:
        time.sleep(SLOW)
        found = b""
        while piece := slow.recv(50_000):
            found += piece
            time.sleep(0.05)
        bench.same("the whole reply", found, wanted)
        server.ends()
    return {"clients that read slowly": 1}


def check_leave_amid_reply(bench):
    """Clients that leave without their long replies harm nobody."""
    office, _ = crowded_office(bench)
    with Server(bench, office.path, LEAVING + 1) as server:
        for _ in range(LEAVING):
            ask_for_users(server.port).close()
        bench.same("the next client", server.ask(post("addUser", b"{}")), reply(400, BAD_REQUEST))
        server.ends()
    return {"clients that go away": LEAVING}


def check_stop_in_body(bench):
    """A client that announces the longest import and sends half of it is disconnected, and nothing is imported."""
    office = Office(bench)
    long = head("POST /v1/importAssignments HTTP/1.1", "Content-Length: 2097152") + b"user,role\n" * 100_000
    with Server(bench, office.path, 2) as server, connect(server.port) as slow:
        slow.sendall(long)
        start = time.monotonic()
        serve_next(bench, server, office, "one that stops amid a long body", start, LEAST, MOST)
        bench.same("the client that stopped", read_all(slow), b"")
    short = head("POST /v1/addUser HTTP/1.1", LENGTH) + ANN[:-1]
    with Server(bench, office.path, 1) as server:
        bench.same("a body that is cut", server.ask(short, cut=True), reply(400, BAD_REQUEST))
        server.ends()
    return {"slow clients": 1}


def allocated(bench, shim, path, function, length, body):
    """Returns how many bytes a server allocates, in all and at once, if its client announces a length and sends a part."""
    fields = [f"Content-Length: {length}", "X:".ljust(10 - len(str(length)), "y")]
    request = head(f"POST /v1/{function} HTTP/1.1", *fields) + body
    shim.forget()
    with Server(bench, path, 1, environment=shim.environment({"ALLOCATED": shim.file})) as server:
        bench.same(f"{len(body)} bytes of {length}", server.ask(request, cut=True), reply(400, BAD_REQUEST))
        server.ends()
    return tuple(int(number) for number in shim.ask().split())


@pytest.mark.parametrize("function, most", [("importAssignments", MOST_BYTES), ("addUser", LONGEST_LINE)])
def check_announce(bench, function, most):
    """A server allocates memory for the bytes that arrive and for the next piece: as many for the longest body as for a short one."""
    path, shim = Office(bench).path, Shim(bench, "inputs/allocated.c")
    for sent in SENT:
        wanted = allocated(bench, shim, path, function, sent + PIECE, b"x" * sent)
        for length in (sent + PIECE + 1, most - 1, most):
            found = allocated(bench, shim, path, function, length, b"x" * sent)
            what = f"allocated for {sent:,} bytes of a body of {length:,}"
            bench.same(f"{what}: {found[0]:,} bytes in all, {found[1]:,} at once", found, wanted)
    return {"bodies that were announced": 4 * len(SENT)}
