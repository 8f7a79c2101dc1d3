"""A server of an office, and clients of it."""

import contextlib
import errno
import itertools
import os
import random
import socket
import struct
import subprocess
from pathlib import Path

from .bench import PROGRAM, SECONDS

HOST = "127.0.0.1"

# Ports that the system assigns to no client by itself.
PORTS = (20_000, 32_000)

# Ports that many systems reserve for root.
LOW_PORTS = (1, 1_024)

# The numbers of a listening socket, and of one with a connection, in the system's tables.
LISTENS, CONNECTED = "0A", "01"

PHRASES = {
    200: "OK",
    400: "Bad Request",
    404: "Not Found",
    405: "Method Not Allowed",
    409: "Conflict",
    411: "Length Required",
    413: "Payload Too Large",
    431: "Request Header Fields Too Large",
    500: "Internal Server Error",
    501: "Not Implemented",
    503: "Service Unavailable",
}

BAD_REQUEST = b'{"code":34,"error":"BadRequest"}'
NO_FUNCTION = b'{"code":35,"error":"UnknownFunction"}'


# How many processes that test side by side have ports of their own, and which of its ports this one takes next.
PROCESSES = 40
NEXT = itertools.count(random.Random(os.urandom(8)).randrange(PORTS[1]))


def free_port():
    """A port on which nobody listens, and that no test beside this one takes. It comes again only after all others."""
    count = (PORTS[1] - PORTS[0]) // PROCESSES
    process = int(os.environ.get("PYTEST_XDIST_WORKER", "gw0").removeprefix("gw")) % PROCESSES
    while True:
        port = PORTS[0] + process * count + next(NEXT) % count
        with socket.socket() as probe:
            try:
                probe.bind((HOST, port))
            except OSError:
                continue
            return port


def low_port():
    """A port below 1024 on which nobody listens, and whether the system lets this user listen there."""
    draws = random.Random(os.urandom(8))
    while True:
        port = draws.randrange(*LOW_PORTS)
        with socket.socket() as probe:
            try:
                probe.bind((HOST, port))
            except OSError as error:
                if error.errno == errno.EADDRINUSE:
                    continue
                return port, False
            return port, True


def reply(status, body):
    """All bytes of an answer."""
    lines = [
        f"HTTP/1.1 {status} {PHRASES[status]}",
        "Content-Type: application/json",
        f"Content-Length: {len(body)}",
        "Connection: close",
    ]
    if status == 405:
        lines.append("Allow: POST")
    return "".join(line + "\r\n" for line in [*lines, ""]).encode() + body


def head(first, *fields):
    """The head of a request with these lines."""
    return "".join(line + "\r\n" for line in [first, "Host: a", *fields, ""]).encode()


def post(function, body):
    """A request for a function."""
    return head(f"POST /v1/{function} HTTP/1.1", f"Content-Length: {len(body)}") + body


def connect(port):
    """A connection to the server."""
    client = socket.create_connection((HOST, port), SECONDS)
    client.settimeout(SECONDS)
    return client


def read_all(client):
    """What the server sends until it closes the connection."""
    pieces = []
    while True:
        try:
            piece = client.recv(65_536)
        except ConnectionResetError:
            break
        if not piece:
            break
        pieces.append(piece)
    return b"".join(pieces)


def listening(pid):
    """The hosts and ports at which a process listens over TCP, as the system reports; hosts of IPv6 in hex."""
    links = []
    for path in Path(f"/proc/{pid}/fd").iterdir():
        with contextlib.suppress(FileNotFoundError):  # It has been closed since.
            links.append(os.readlink(path))
    found = []
    for table in ("tcp", "tcp6"):
        for line in Path(f"/proc/{pid}/net/{table}").read_text(encoding="ascii").splitlines()[1:]:
            fields = line.split()
            host, port = fields[1].split(":")
            if fields[3] == LISTENS and f"socket:[{fields[9]}]" in links:
                is_old = table == "tcp"
                found.append((socket.inet_ntoa(struct.pack("=I", int(host, 16))) if is_old else host, int(port, 16)))
    return found


def has_unread(pid, port):
    """Whether bytes have come to a port that nobody has read yet, also by a connection that isn't accepted, in the network of a process."""
    rows = [line.split() for line in Path(f"/proc/{pid}/net/tcp").read_text(encoding="ascii").splitlines()[1:]]
    return any(
        int(row[1].partition(":")[2], 16) == port and row[3] == CONNECTED and int(row[4].partition(":")[2], 16) for row in rows
    )


class Server:
    """The program as it serves an office. It is killed at the end if it has not ended by itself."""

    def __init__(self, bench, path, limit, environment=None, port=None):
        self.bench = bench
        self.port = port or free_port()
        self.process = subprocess.Popen(
            [PROGRAM, "serve", path, "--port", str(self.port), "--limit", str(limit)],
            stdin=subprocess.DEVNULL,
            stdout=subprocess.PIPE,
            stderr=subprocess.PIPE,
            cwd=bench.folder,
            env=environment,
        )

    def __enter__(self):
        line = f"listening on {HOST}:{self.port}\n".encode()
        self.bench.same("the line of serve", self.process.stdout.readline(), line)
        return self

    def __exit__(self, *_):
        self.process.kill()
        self.process.wait()
        self.process.stdout.close()
        self.process.stderr.close()

    def ask(self, request, cut=False):
        """The answer to a request. With `cut` the client closes its side after it."""
        with connect(self.port) as client:
            try:
                client.sendall(request)
                if cut:
                    client.shutdown(socket.SHUT_WR)
            except OSError:
                pass
            return read_all(client)

    def ends(self, err=b"", status=0):
        """The server has ended by itself, and printed nothing more than this."""
        out, said = self.process.communicate(timeout=SECONDS)
        self.bench.same("the end of serve", (out, said, self.process.returncode), (b"", err, status))
