"""The rounds of the benchmark `http`: two servers of one office are asked the same requests in turn.

`rounds` starts both, compares their replies, and times requests to both with `http_client.rs`.
"""

import os
import random
import socket
import subprocess
import sys

import lines

sys.path.append(os.path.join(os.path.dirname(os.path.abspath(__file__)), "..", "tests"))
from program.heads import REFUSED

HOST = "127.0.0.1"
SECONDS = 60
# The rounds of a request, and how often it is sent to each server in a round.
ROUNDS = 400
COUNT = 25

# Ports that the system assigns to no client by itself.
PORTS = (20_000, 32_000)


def request(function, **keys):
    """The bytes of a request as curl writes it, with the line of a call as its body."""
    body = lines.line(function, **keys)
    fields = [
        f"POST /v1/{function} HTTP/1.1",
        "Host: 127.0.0.1:8080",
        "User-Agent: curl/8.5.0",
        "Accept: */*",
        f"Content-Length: {len(body)}",
        "Content-Type: application/x-www-form-urlencoded",
    ]
    return "".join(f"{it}\r\n" for it in [*fields, ""]).encode() + body.encode()


def timed_requests():
    """The requests that are timed: none of them changes the office that the lines set up."""
    thing, operation = lines.ALLOWED[lines.role_number(0)][0]
    return {
        "checkAccess, allowed": request(
            "checkAccess", session=lines.SESSIONS[0], operation=operation, object=thing
        ),
        "assignedUsers, 20 names": request("assignedUsers", role=lines.ROLES[0]),
        "addUser, refused by 409": request("addUser", user=lines.USERS[0]),
        "no such function, 404": request("fly"),
    }


def free_port():
    """A port on which nobody listens."""
    draws = random.Random(os.urandom(8))
    while True:
        port = draws.randrange(*PORTS)
        with socket.socket() as probe:
            try:
                probe.bind((HOST, port))
            except OSError:
                continue
            return port


class Server:
    """A running server. Its arguments name its port and how many connections it answers."""

    def __init__(self, words, limit):
        self.port = free_port()
        words = [it.format(port=self.port, limit=limit) for it in words]
        self.process = subprocess.Popen(words, stdin=subprocess.DEVNULL, stdout=subprocess.PIPE)
        line = self.process.stdout.readline().decode()
        if line != f"listening on {HOST}:{self.port}\n":
            raise RuntimeError(f"{words[0]} prints {line!r}")

    def ask(self, asked):
        """The reply to the bytes of a request."""
        pieces = []
        with socket.create_connection((HOST, self.port), SECONDS) as client:
            client.sendall(asked)
            while piece := client.recv(65_536):
                pieces.append(piece)
        return b"".join(pieces)

    def processor(self):
        """The processor time of the server in nanoseconds. It has one thread."""
        with open(f"/proc/{self.process.pid}/schedstat", encoding="ascii") as file:
            return int(file.read().split()[0])

    def end(self):
        """Waits until the server has ended by itself, which it does with status 0."""
        status = self.process.wait(SECONDS)
        self.process.stdout.close()
        if status:
            raise RuntimeError(f"{self.process.args[0]} ends with status {status}")


def same_reply(servers, name, asked):
    """The reply of both servers to the bytes of a request."""
    replies = [server.ask(asked) for server in servers]
    if replies[0] != replies[1]:
        raise RuntimeError(f"the two servers reply differently to {name}: {replies}")
    return replies[0]


def time_request(servers, client, folder, asked, reply):
    """For each server the nanoseconds of a reply in each round, and the processor time of the server for one."""
    for name, content in (("request", asked), ("reply", reply)):
        with open(f"{folder}/{name}", "wb") as file:
            file.write(content)
    words = [client, f"{folder}/request", f"{folder}/reply", str(COUNT), str(ROUNDS)]
    before = [server.processor() for server in servers]
    told = subprocess.run([*words, *(str(it.port) for it in servers)], stdout=subprocess.PIPE, check=True)
    spent = [server.processor() - was for server, was in zip(servers, before)]
    each = zip(*(map(int, line.split()) for line in told.stdout.splitlines()))
    return [([it / COUNT for it in times], whole / COUNT / ROUNDS) for times, whole in zip(each, spent)]


def rounds(words, client, folder):
    """By request the status of its reply and the times of both servers. `words` are the arguments of both servers, in
    which `{port}` and `{limit}` are the port and the number of connections."""
    timed = timed_requests()
    servers = [Server(it, len(REFUSED) + len(timed) * (1 + ROUNDS * COUNT)) for it in words]
    try:
        for name, (asked, *_) in REFUSED.items():
            same_reply(servers, name, asked)
        found = {}
        for name, asked in timed.items():
            reply = same_reply(servers, name, asked)
            status = int(reply.split(maxsplit=2)[1])
            found[name] = (status, time_request(servers, client, folder, asked, reply))
        for server in servers:
            server.end()
    finally:
        for server in servers:
            server.process.kill()
            server.process.wait()
    return found
