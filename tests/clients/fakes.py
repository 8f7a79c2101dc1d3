"""Servers that send chosen answers, and wrong answers."""

import json
import socket
import ssl
import struct
import threading
import time

from program.bench import SECONDS, TESTS
from program.web import HOST, connect, read_all, reply


# The one body that allows, and the answers that allow and deny, over HTTP.
ALLOWED = b'{"ok":true,"value":true}'
RIGHT = reply(200, ALLOWED)
DENIED = reply(200, b'{"ok":true,"value":false}')

# In place of an answer: the connection is reset; the request is passed on to a server, and its answer is passed back, or lost.
RESET = "reset"
PASSED_ON = "passed on"
LOST = "lost"


class Kept:
    """An answer after which the connection is kept."""

    def __init__(self, *pieces):
        self.pieces = [piece.replace(b"Connection: close\r\n", b"") if isinstance(piece, bytes) else piece for piece in pieces]


class Fake:
    """A server that answers each request by the next of its answers: bytes, or a list of bytes and of seconds to wait.

    A request for a path of no function gets the right answer. With a context it speaks TLS. It answers requests for sessions only if
    it `opens` some.
    """

    def __init__(self, answers, behind=None, context=None, opens=False):
        self.answers, self.opens = list(answers), opens
        self.behind, self.context = behind, context
        self.lock = threading.Lock()
        self.requests, self.sending = [], 0
        self.listener = socket.create_server((HOST, 0))
        self.port = self.listener.getsockname()[1]
        self.address = f"{'https' if context else 'http'}://{HOST}:{self.port}"
        self.ending = threading.Event()
        self.threads = [threading.Thread(target=self.serve, daemon=True)]
        self.threads[0].start()

    def __enter__(self):
        return self

    def __exit__(self, *_):
        self.ending.set()
        self.listener.shutdown(socket.SHUT_RDWR)
        self.listener.close()
        for thread in self.threads:
            thread.join(SECONDS)

    def serve(self):
        """Serves each connection in a thread of its own."""
        while True:
            try:
                client, _ = self.listener.accept()
            except OSError:
                return
            thread = threading.Thread(target=self.converse, args=(client,), daemon=True)
            self.threads.append(thread)
            thread.start()

    def converse(self, client):
        """Answers the requests of a connection, until an answer doesn't keep it."""
        with client:
            try:
                client.settimeout(SECONDS)
                if self.context:
                    client = self.context.wrap_socket(client, server_side=True)
                with client:
                    while self.answer(client):
                        pass
            except OSError:
                pass

    def next(self, request):
        """The next answer. It opens no sessions, as `rbac serve`, unless it has answers for that."""
        if request.startswith(b"POST /sessions ") and not self.opens:
            return answered(404, b'{"code":35,"error":"UnknownFunction"}')
        with self.lock:
            self.requests.append(request)
            if request.startswith((b"POST /v1/", b"POST /sessions ")):
                return self.answers.pop(0) if self.answers else b""
        return RIGHT

    def answer(self, client):
        """Reads and answers a request. Returns whether the connection is kept."""
        request = read_request(client, self.ending)
        if not request:
            return False
        answer = self.next(request)
        if answer == RESET:
            client.setsockopt(socket.SOL_SOCKET, socket.SO_LINGER, struct.pack("ii", 1, 0))
            return False
        if answer in (PASSED_ON, LOST):
            with connect(self.behind) as server:
                server.sendall(request)
                reply_of_server = read_all(server)
            answer = reply_of_server if answer == PASSED_ON else b""
        with self.lock:
            self.sending += 1
        try:
            for piece in [answer] if isinstance(answer, bytes) else getattr(answer, "pieces", answer):
                if isinstance(piece, bytes):
                    client.sendall(piece)
                elif self.ending.wait(piece):
                    return False
        finally:
            with self.lock:
                self.sending -= 1
        return isinstance(answer, Kept)

    def wait(self):
        """Waits until each answer that was begun has been sent."""
        deadline = time.monotonic() + SECONDS
        while self.sending and time.monotonic() < deadline:
            time.sleep(0.01)


def read_request(client, ending):
    """A whole request, or nothing if none comes."""
    request = b""
    deadline = time.monotonic() + SECONDS
    client.settimeout(0.1)
    while not ending.is_set() and time.monotonic() < deadline:
        head, end, body = request.partition(b"\r\n\r\n")
        length = next((int(line[15:]) for line in head.split(b"\r\n") if line.lower().startswith(b"content-length:")), 0)
        if end and len(body) >= length:
            client.settimeout(SECONDS)
            return request
        try:
            piece = client.recv(65_536)
        except (socket.timeout, ssl.SSLWantReadError):
            continue
        if not piece:
            break
        request += piece
    return b""


def lengthened(body, length, status=200):
    """Returns an answer whose head states another length of the body."""
    return reply(status, body).replace(b"Length: %d\r" % len(body), b"Length: %s\r" % str(length).encode())


def with_status(status):
    """The right answer with another status."""
    return RIGHT.replace(b" 200 OK", b" %s" % status.encode())


def slowly(answer, seconds):
    """Returns an answer byte by byte, with `seconds` seconds between two bytes."""
    return [piece for byte in answer for piece in (bytes([byte]), seconds)]


def shared(name):
    """A file of what all clients have to do alike: their own tests read it too."""
    return json.loads((TESTS.parent / "clients/conformance" / name).read_text(encoding="utf-8"))


CONFORMANCE = shared("wrong_answers.json")


def answered(status, body, *fields):
    """An answer with any status, and with further fields."""
    lines = [f"HTTP/1.1 {status} A", f"Content-Length: {len(body)}", "Connection: close", *fields]
    return "".join(line + "\r\n" for line in [*lines, ""]).encode() + body


def pieces_of(answer, port):
    """The pieces of an answer of the file: texts, in which each character is a byte, and how often some come."""
    for piece in answer:
        text, times = (piece, 1) if isinstance(piece, str) else piece
        yield text.replace("{port}", str(port)).encode("latin-1") * times


def wrong_answers(port):
    """Answers that no client may accept as the right one, by their names, each with the reason that a client is to report.

    `port` is that of the sending server.
    """
    return {
        case["name"]: (RESET if case.get("reset") else list(pieces_of(case["answer"], port)), case["reason"])
        for case in CONFORMANCE["cases"]
    }


# Bodies that are not the one that allows.
BODIES = [
    b"".join(pieces_of(case["answer"], 0)).partition(b"\r\n\r\n")[2]
    for case in CONFORMANCE["cases"]
    if "body of" in case["name"]
]


def slow_answers():
    """Answers that don't come in time, by their names."""
    return {
        "a body that stops": [RIGHT[:-1], SECONDS],
        "a head that stops": [RIGHT[:20], SECONDS],
        "an answer byte by byte": slowly(RIGHT, 0.2),
        "nothing": [SECONDS],
    }
