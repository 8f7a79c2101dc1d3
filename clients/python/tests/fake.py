"""A server that sends one answer after each request, and the data that the tests of all clients share."""

import json
import socket
import struct
import threading
from pathlib import Path

RIGHT = b'HTTP/1.1 200 OK\r\nContent-Length: 24\r\n\r\n{"ok":true,"value":true}'
DENIED = b'HTTP/1.1 200 OK\r\nContent-Length: 25\r\n\r\n{"ok":true,"value":false}'


def shared(name):
    """A file of clients/conformance."""
    return json.loads((Path(__file__).parents[2] / "conformance" / name).read_text(encoding="utf-8"))


def bytes_of(pieces, port):
    """An answer as wrong_answers.json has it: texts, in which each character is a byte, or how often one comes."""
    found = [(piece, 1) if isinstance(piece, str) else piece for piece in pieces]
    return b"".join(text.replace("{port}", str(port)).encode("latin-1") * times for text, times in found)


class Server:
    """Sends `answer` after each request, and closes the connection unless it `keeps` it. With None it resets the connection."""

    def __init__(self):
        self.listener = socket.create_server(("127.0.0.1", 0))
        self.port = self.listener.getsockname()[1]
        self.address = f"http://127.0.0.1:{self.port}"
        self.answer, self.requests, self.keeps, self.connections = RIGHT, [], False, 0
        threading.Thread(target=self.run, daemon=True).start()

    def run(self):
        while True:
            try:
                client, _ = self.listener.accept()
            except OSError:
                return
            self.connections += 1
            if self.keeps:
                threading.Thread(target=self.converse, args=(client,), daemon=True).start()
            else:
                self.converse(client)

    def converse(self, client):
        """Answers the request of a connection, or all of them if it is kept."""
        with client:
            while request := whole_request(client):
                self.requests.append(request)
                if self.answer is None:
                    client.setsockopt(socket.SOL_SOCKET, socket.SO_LINGER, struct.pack("ii", 1, 0))
                    return
                try:
                    client.sendall(self.answer)
                except OSError:
                    return
                if not self.keeps:
                    return

    def close(self):
        self.listener.shutdown(socket.SHUT_RDWR)
        self.listener.close()


def whole_request(client):
    """The next request, or nothing if the connection has ended."""
    request = b""
    while b"\r\n\r\n" not in request or len(request.partition(b"\r\n\r\n")[2]) < length(request):
        try:
            piece = client.recv(65_536)
        except OSError:
            return b""
        if not piece:
            return b""
        request += piece
    return request


def length(request):
    """The length that a request states of its body."""
    return next((int(line[15:]) for line in request.split(b"\r\n") if line.lower().startswith(b"content-length:")), 0)
