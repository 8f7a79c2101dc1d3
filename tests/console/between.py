"""A proxy between the browser and the front, as a bank has one: it can lose answers, replace them, and hold up requests."""

import http.client
import socket
import threading

from front.program import HOST
from program.bench import SECONDS

# What a gateway, or a portal where somebody should log in, answers in place of the front.
FOREIGN = b"<html><body><h1>Sorry</h1></body></html>"
# The fields that are about one connection.
OWN = ("connection", "content-length", "transfer-encoding", "keep-alive")


class Request:
    """A request that a client has sent."""

    def __init__(self, head, body):
        first, *fields = head.decode("latin-1").split("\r\n")
        self.method, self.target, _ = first.split(" ")
        self.fields = [field.split(": ", 1) for field in fields]
        self.body = body

    def is_for(self, method, path, part):
        """Whether it is for a path, and has a text in its body."""
        return (self.method, self.target.split("?")[0]) == (method, path) and part.encode() in self.body


def answered(status, body=FOREIGN, kind="text/html"):
    """An answer that leaves the connection open."""
    return f"HTTP/1.1 {status} A\r\nContent-Type: {kind}\r\nContent-Length: {len(body)}\r\n\r\n".encode() + body


class Between:
    """A proxy with connections that are kept, as Chromium and the front keep them, and rules for some requests."""

    def __init__(self, front):
        self.front, self.rules, self.seen, self.clients = front, [], [], set()
        self.lock = threading.Lock()
        self.listener = socket.create_server((HOST, 0))
        self.port = self.listener.getsockname()[1]
        threading.Thread(target=self.serve, daemon=True).start()

    def __enter__(self):
        return self

    def __exit__(self, *_):
        self.listener.shutdown(socket.SHUT_RDWR)
        self.listener.close()
        with self.lock:
            for client in self.clients:
                client.close()

    def when(self, method, path, act, part="", times=1):
        """Has the next requests for a path answered by `act`, which gets a request. The connection ends if it returns nothing."""
        with self.lock:
            self.rules.append([method, path, part, act, times])

    def count(self, path):
        """How many requests have come for a path."""
        with self.lock:
            return sum(request.target.split("?")[0] == path for request in self.seen)

    def serve(self):
        while True:
            try:
                client, _ = self.listener.accept()
            except OSError:
                return
            with self.lock:
                self.clients.add(client)
            threading.Thread(target=self.converse, args=(client,), daemon=True).start()

    def converse(self, client):
        with client, client.makefile("rb") as reader:
            try:
                while request := read_request(reader):
                    answer = self.rule_for(request)(request)
                    if answer is None:
                        return
                    client.sendall(answer)
            except (OSError, ValueError):
                return

    def rule_for(self, request):
        """What answers a request: the first rule that is left for it, or the front."""
        with self.lock:
            self.seen.append(request)
            for rule in self.rules:
                method, path, part, act, times = rule
                if times > 0 and request.is_for(method, path, part):
                    rule[-1] -= 1
                    return act
        return self.passed_on

    def passed_on(self, request):
        """What the front answers to a request."""
        connection = http.client.HTTPConnection(HOST, self.front.port, timeout=SECONDS)
        connection.putrequest(request.method, request.target, skip_host=True, skip_accept_encoding=True)
        for name, value in request.fields:
            if name.lower() != "connection":
                connection.putheader(name, value)
        connection.endheaders(request.body)
        reply = connection.getresponse()
        body = reply.read()
        connection.close()
        fields = [f"{name}: {value}" for name, value in reply.getheaders() if name.lower() not in OWN]
        head = "\r\n".join([f"HTTP/1.1 {reply.status} A", *fields, f"Content-Length: {len(body)}"])
        return f"{head}\r\n\r\n".encode("latin-1") + body

    def lost(self, request):
        """Passes a request on, and ends the connection in place of the answer."""
        self.passed_on(request)

    def replaced(self, answer):
        """Passes a request on, and answers something else."""
        return lambda request: self.passed_on(request) and answer

    def followed(self, *commands):
        """Passes a request on, and has commands done before the client gets the answer."""

        def act(request):
            answer = self.passed_on(request)
            for function, values in commands:
                self.front.ask(function, values)
            return answer

        return act


def read_request(reader):
    """A whole request, or nothing if none comes any more."""
    head = b""
    while not head.endswith(b"\r\n\r\n"):
        line = reader.readline()
        if not line:
            return None
        head += line
    request = Request(head[:-4], b"")
    length = next((int(value) for name, value in request.fields if name.lower() == "content-length"), 0)
    request.body = reader.read(length)
    return request
