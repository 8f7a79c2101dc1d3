"""Requests that are done, connections that end early, and how a server ends."""

import errno
import json
import socket
import struct
import time

from machine.assignments import MOST_BYTES
from machine.commands import COMMANDS
from machine.drawing import draw_script
from machine.questions import QUESTIONS

from .bench import SECONDS
from .heads import ANN, CURL, LENGTH
from .importing import RECORDS, SEPARATED
from .offices import STORE, Office, small_office
from .web import BAD_REQUEST, HOST, NO_FUNCTION, Server
from .web import connect, free_port, head, listening, low_port, post, read_all, reply

# The greatest limit of connections.
MOST_CONNECTIONS = 1_000_000

DONE = b'{"ok":true}'
ADD_ANN = b'{"fn":"addUser","user":"ann"}'

# How long a client may send nothing, and how far from that its connection may be closed: on a busy machine much later.
PATIENCE = 5
LEAST, MOST = PATIENCE - 1, PATIENCE + SECONDS

# How many bytes a piece of a long request has.
PIECE = 250_000

# More bytes than the server and the system read after a head that is refused.
ENDLESS = 1 << 26


def check_add_user(bench):
    """A user is added by a request as a client writes it, once; the file has the user afterwards."""
    office = Office(bench)
    with Server(bench, office.path, 2) as server:
        answer = (
            b"HTTP/1.1 200 OK\r\nContent-Type: application/json\r\n"
            b'Content-Length: 11\r\nConnection: close\r\n\r\n{"ok":true}'
        )
        bench.same("the first request", server.ask(CURL), answer)
        answer = (
            b"HTTP/1.1 409 Conflict\r\nContent-Type: application/json\r\n"
            b'Content-Length: 31\r\nConnection: close\r\n\r\n{"code":3,"error":"UserExists"}'
        )
        bench.same("the second request", server.ask(CURL), answer)
        server.ends()
    office.model.answer(ADD_ANN)
    office.compare_with_model()


def check_limit(bench):
    """A server ends after its limit of connections, those that end early included, and listens no more."""
    office = Office(bench)
    with Server(bench, office.path, 3) as server:
        bench.same("a question", server.ask(post("ssdRoleSets", b"")), reply(200, b'{"ok":true,"value":[]}'))
        connect(server.port).close()
        bench.same("nobody has ended it", server.process.poll(), None)
        bench.same("a command", server.ask(post("addUser", ANN)), reply(200, DONE))
        server.ends()
        with socket.socket() as client:
            bench.same("a further connection is refused", client.connect_ex((HOST, server.port)) != 0, True)
    office.model.answer(ADD_ANN)
    office.compare_with_model()


def check_exact_limits(bench):
    """Of some connections that wait, exactly as many as the limit says are answered; then the server ends."""
    for limit in (1, 2, 5):
        office = Office(bench, f"office {limit}")
        with Server(bench, office.path, limit) as server:
            clients = [connect(server.port) for _ in range(limit + 2)]
            # The server waits for the first, so all requests are sent before it ends.
            for number, client in reversed([*enumerate(clients)]):
                client.sendall(post("addUser", b'{"user":"u%d"}' % number))
            answers = [read_all(client) for client in clients]
            bench.same(f"the answers of {limit}", answers, [reply(200, DONE)] * limit + [b"", b""])
            server.ends()
            for client in clients:
                client.close()
        for number in range(limit):
            office.model.answer(b'{"fn":"addUser","user":"u%d"}' % number)
        office.compare_with_model()


def check_greatest_limit(bench):
    """A server with the greatest limit of connections answers, and then waits for more of them."""
    office = Office(bench)
    with Server(bench, office.path, MOST_CONNECTIONS) as server:
        bench.same("a request", server.ask(CURL), reply(200, DONE))
        bench.same("another one", server.ask(CURL), reply(409, b'{"code":3,"error":"UserExists"}'))
        bench.same("nobody has ended it", server.process.poll(), None)


def check_address(bench):
    """A server listens on its port of 127.0.0.1, and at no other address."""
    office = Office(bench)
    with Server(bench, office.path, 1) as server:
        bench.same("where it listens", listening(server.process.pid), [(HOST, server.port)])
        with socket.socket() as client:
            bench.same("at 127.0.0.2", client.connect_ex(("127.0.0.2", server.port)), errno.ECONNREFUSED)
        bench.same("a request", server.ask(CURL), reply(200, DONE))
        server.ends()
    office.model.answer(ADD_ANN)
    office.compare_with_model()


def check_forms(bench):
    """Requests are done however they are written: HTTP/1.0, other cases, 64 fields, slow clients."""
    office = Office(bench)
    add = "POST /v1/addUser HTTP/1.1"
    requests = {
        "HTTP/1.0": head("POST /v1/addUser HTTP/1.0", "Content-Length: 12") + b'{"user":"a"}',
        "other cases": head(add, "cOnTeNt-LeNgTh: 12") + b'{"user":"b"}',
        "two equal lengths": head(add, "Content-Length: 12", "Content-Length: 12") + b'{"user":"c"}',
        "64 fields": head(add, "Content-Length: 12", *["X: y"] * 62) + b'{"user":"d"}',
        "expecting": head(add, "Expect: 100-continue", "Content-Length: 12") + b'{"user":"e"}',
        "another function named": post("addUser", b'{"fn":"fly","user":"f"}'),
        "more after the body": post("addUser", b'{"user":"g"}') + CURL,
        "the longest body": post("addUser", b'{"user":"h"}'.ljust(65_536)),
    }
    with Server(bench, office.path, len(requests) + 1) as server:
        for (name, request), user in zip(requests.items(), "abcdefgh"):
            bench.same(f"a request with {name}", server.ask(request), reply(200, DONE))
            office.model.answer(b'{"fn":"addUser","user":"%s"}' % user.encode())
        bench.same("a request in pieces", ask_slowly(server, CURL), reply(200, DONE))
        office.model.answer(ADD_ANN)
        server.ends()
    office.compare_with_model()


def ask_slowly(server, request):
    """The answer to a request that is sent in pieces."""
    with connect(server.port) as client:
        client.setsockopt(socket.IPPROTO_TCP, socket.TCP_NODELAY, 1)
        for start in range(0, len(request), 40):
            client.sendall(request[start : start + 40])
            time.sleep(0.02)
        return read_all(client)


def check_import(bench):
    """An import over HTTP has the text itself as its body, up to the most bytes that are allowed."""
    office = Office(bench)
    office.replay([SEPARATED])
    with Server(bench, office.path, 2) as server:
        report = b'{"ok":true,"value":{"already":%d,"assigned":%d,"refused":[{"code":24,"record":3}]}}'
        request = head("POST /v1/importAssignments HTTP/1.1", "Content-Length: 50") + RECORDS
        bench.same("an import", server.ask(request), reply(200, report % (1, 1)))
        request = post("importAssignments", RECORDS.ljust(MOST_BYTES, b"\n"))
        bench.same("the longest import", server.ask(request), reply(200, report % (2, 0)))
        server.ends()
    office.model.answer(b'{"fn":"assignUser","role":"clerk","user":"bob"}')
    office.compare_with_model()


def request_of(line):
    """A random line as a request over HTTP, or None if it names no function or has no text to import."""
    try:
        value = json.loads(line.decode())
        function = value["fn"]
        body = value["csv"].encode() if function == "importAssignments" else line
    except (ValueError, KeyError, TypeError, AttributeError):
        return None
    if not isinstance(function, str) or function not in {**COMMANDS, **QUESTIONS}:
        return None
    return post(function, body)


def status_of(answer):
    """The status of an answer."""
    parsed = json.loads(answer)
    if "ok" in parsed:
        return 200
    return 400 if parsed["code"] in (1, 34, 36) else 409


def check_drawn_requests(bench):
    """Random requests in two runs of a server are answered as by the model."""
    for seed in (4_001, 4_002):
        office = Office(bench, f"drawn-{seed}")
        lines = [line for _, line, answer in draw_script(seed, 360) if answer]
        asked = [(line, request_of(line)) for line in lines]
        asked = [(line, request) for line, request in asked if request]
        half = len(asked) // 2
        for some in (asked[:half], asked[half:]):
            with Server(bench, office.path, len(some)) as server:
                for line, request in some:
                    answer = office.model.answer(line)
                    wanted = reply(status_of(answer), answer)
                    bench.same(f"the request {request!r}", server.ask(request), wanted)
                server.ends()
            office.compare_with_model()


def check_silent_client(bench):
    """A client that sends nothing is closed without an answer, and the next one is served."""
    silent_before(bench, b"")


def check_stopped_client(bench):
    """So is a client that stops in the middle of its body, and nothing is done for it."""
    silent_before(bench, head("POST /v1/addUser HTTP/1.1", LENGTH) + b'{"user"')


def silent_before(bench, said):
    """A client stops after it sent something, and another one asks."""
    office = Office(bench)
    with Server(bench, office.path, 2) as server, connect(server.port) as silent:
        silent.sendall(said)
        start = time.monotonic()
        bench.same("the next client", server.ask(CURL), reply(200, DONE))
        waited = time.monotonic() - start
        bench.same(f"the next client waited {waited:.1f} seconds", LEAST <= waited <= MOST, True)
        bench.same("the silent client", read_all(silent), b"")
        server.ends()
    office.model.answer(ADD_ANN)
    office.compare_with_model()


def check_refused_early(bench):
    """A request that is refused by its head is still read: a client can send all of it first, and gets the reply."""
    office, rest = Office(bench), b"x" * 3_000_000
    too_long = head("POST /v1/importAssignments HTTP/1.1", f"Content-Length: {len(rest)}")
    no_function = head("POST /v1/none HTTP/1.1", f"Content-Length: {len(rest)}")
    with Server(bench, office.path, 9) as server:
        for _ in range(4):
            bench.same("a body that is too long", ask_whole(server, too_long + rest), reply(413, BAD_REQUEST))
            bench.same("the body of no function", ask_whole(server, no_function + rest), reply(404, NO_FUNCTION))
        bench.same("the next client", server.ask(CURL), reply(200, DONE))
        server.ends()
    office.model.answer(ADD_ANN)
    office.compare_with_model()


def check_refused_body(bench):
    """After the reply to a body that was read whole, the server reads nothing more, and doesn't wait for the client to close."""
    office = Office(bench)
    with Server(bench, office.path, 2) as server, connect(server.port) as client:
        client.sendall(post("addUser", b"user=ann"))
        bench.same("the reply", read_all(client), reply(400, BAD_REQUEST))
        bench.same("the connection is closed", is_closed(client), True)
        bench.same("the next client", server.ask(CURL), reply(200, DONE))
        server.ends()
    office.model.answer(ADD_ANN)
    office.compare_with_model()


def is_closed(client):
    """Whether the server has closed the connection, and not only its own side of it: then what is sent is refused."""
    deadline = time.monotonic() + SECONDS
    while time.monotonic() < deadline:
        try:
            client.send(b"x")
        except OSError:
            return True
        time.sleep(0.1)
    return False


def check_endless(bench):
    """The connection of a client that keeps sending after a head that is refused is closed after some megabytes."""
    office = Office(bench)
    with Server(bench, office.path, 2) as server, connect(server.port) as endless:
        endless.sendall(head("POST /v1/addUser HTTP/1.1", "Content-Length: 65537"))
        taken = 0
        try:
            while taken < ENDLESS:
                taken += endless.send(b"x" * 65_536)
        except OSError:
            pass
        bench.same(f"not all of {ENDLESS} bytes are read: {taken}", taken < ENDLESS, True)
        bench.same("the next client", server.ask(CURL), reply(200, DONE))
        server.ends()
    office.model.answer(ADD_ANN)
    office.compare_with_model()


def ask_whole(server, request):
    """Returns the answer to a request of which each piece is accepted, or the error that ended the connection before that."""
    with connect(server.port) as client:
        try:
            for start in range(0, len(request), PIECE):
                client.sendall(request[start : start + PIECE])
                time.sleep(0.02)
            return b"".join(iter(lambda: client.recv(65_536), b""))
        except OSError as error:
            return error


def check_resets(bench):
    """Clients that reset the connection, or don't wait for their answers, harm nobody."""
    office = Office(bench)
    with Server(bench, office.path, 9) as server:
        for said in (b"", CURL[:20], CURL[:-1], post("ssdRoleSets", b"")):
            for _ in range(2):
                with connect(server.port) as client:
                    client.setsockopt(socket.SOL_SOCKET, socket.SO_LINGER, struct.pack("ii", 1, 0))
                    client.sendall(said)
        bench.same("the next client", server.ask(CURL), reply(200, DONE))
        server.ends()
    office.model.answer(ADD_ANN)
    office.compare_with_model()


def check_port_in_use(bench):
    """A port that is in use is reported, and the file stays; what is no office is reported before that."""
    office = small_office(bench)
    with socket.socket() as other:
        port = free_port()
        other.bind((HOST, port))
        other.listen()
        words = ["--port", str(port), "--limit", "1"]
        bench.refuses(["serve", office.path, *words], b"cannot listen", what="serve on a port in use")
        bench.refuses(["serve", bench.path("away"), *words], STORE, what="serve of no file on a port in use")
    office.compare_with_model()


def check_low_port(bench):
    """At a port below 1024 a server listens exactly if the system lets it: mostly only root may."""
    office = Office(bench)
    port, is_allowed = low_port()
    if not is_allowed:
        words = ["serve", office.path, "--port", str(port), "--limit", "1"]
        bench.refuses(words, b"cannot listen", what=f"serve on port {port}")
        return
    with Server(bench, office.path, 1, port=port) as server:
        bench.same(f"where it listens, of port {port}", listening(server.process.pid), [(HOST, port)])
        bench.same(f"a request on port {port}", server.ask(CURL), reply(200, DONE))
        server.ends()
    office.model.answer(ADD_ANN)
    office.compare_with_model()


def check_file_in_use(bench):
    """While a server has the file, the other subcommands are refused, and what was answered stays in it."""
    office = Office(bench)
    with Server(bench, office.path, 1) as server:
        for words in (["check"], ["replay"], ["export"], ["report"], ["migrate"], ["init"]):
            done = bench.run([*words, office.path], ADD_ANN)
            wanted = (b"", b"rbac: " + STORE + b"\n", 1)
            bench.same(f"{words} beside a server", (done.out, done.err, done.status), wanted)
        bench.same("a request", server.ask(CURL), reply(200, DONE))
        server.ends()
    office.model.answer(ADD_ANN)
    office.compare_with_model()
