"""A way to a front that cuts connections, holds them up, or lets nothing through."""

import select
import socket
import threading

HOST = "127.0.0.1"


class Proxy:
    """Passes on what comes, by a thread for each connection."""

    def __init__(self, port):
        self.target = port
        self.listener = socket.create_server((HOST, 0))
        self.port = self.listener.getsockname()[1]
        self.address = f"http://{HOST}:{self.port}"
        self.lock = threading.Lock()
        self.open, self.count = set(), 0
        # Nothing is passed on to clients while this isn't set.
        self.passes = threading.Event()
        self.passes.set()
        threading.Thread(target=self.serve, daemon=True).start()

    def __enter__(self):
        return self

    def __exit__(self, *_):
        self.listener.shutdown(socket.SHUT_RDWR)
        self.listener.close()
        self.passes.set()
        self.cut()

    def serve(self):
        while True:
            try:
                client, _ = self.listener.accept()
            except OSError:
                return
            threading.Thread(target=self.converse, args=(client,), daemon=True).start()

    def converse(self, client):
        with client:
            try:
                server = socket.create_connection((HOST, self.target), 60)
            except OSError:
                return
            with server:
                with self.lock:
                    self.open.update((client, server))
                    self.count += 1
                try:
                    self.pass_on(client, server)
                except OSError:
                    pass
                with self.lock:
                    self.open.difference_update((client, server))

    def pass_on(self, client, server):
        while True:
            for one in select.select([client, server], [], [])[0]:
                piece = one.recv(65_536)
                if not piece:
                    return
                if one is client:
                    server.sendall(piece)
                else:
                    self.passes.wait()
                    client.sendall(piece)

    def cut(self):
        """Cuts all connections."""
        with self.lock:
            for one in self.open:
                try:
                    one.shutdown(socket.SHUT_RDWR)
                except OSError:
                    pass
