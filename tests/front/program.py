"""A front over the program, and clients of it."""

import http.client
import json
import os
import shutil
import signal
import socket
import ssl
import subprocess
import time

from program.bench import PROGRAM as RBAC
from program.bench import SECONDS
from program.web import free_port

from .recorded import left_in_memory, tool
from .running import PROGRAM

HOST = "127.0.0.1"


class Unix(http.client.HTTPConnection):
    """A connection to a socket in the file system."""

    def __init__(self, path):
        super().__init__("localhost", timeout=SECONDS)
        self.path = path

    def connect(self):
        self.sock = socket.socket(socket.AF_UNIX)
        self.sock.settimeout(SECONDS)
        self.sock.connect(self.path)


class Asking:
    """Something that is asked over connections of its own."""

    def connection(self):
        """A connection, which is not made yet."""
        raise NotImplementedError

    def ask(self, function, arguments=None, connection=None, **fields):
        """The status and the body of the answer to a request for a function."""
        body = arguments if isinstance(arguments, (bytes, str)) else json.dumps(arguments or {})
        return self.exchange("POST", f"/v1/{function}", body, connection, **fields)

    def exchange(self, method, path, body=None, connection=None, **fields):
        """The status and the body of an answer. Names of fields have `_` for `-`."""
        own = connection or self.connection()
        try:
            own.request(method, path, body, {name.replace("_", "-"): value for name, value in fields.items()})
            reply = own.getresponse()
            return reply.status, reply.read().decode()
        finally:
            if connection is None:
                own.close()


class Front(Asking):
    """A front in the folder of a bench, at a port of this machine unless `listen` says something else."""

    def __init__(self, bench, *more, name="office", listen=None, environment=None):
        self.bench, self.more = bench, more
        self.office = bench.path(name)
        self.port = free_port()
        self.listen = listen or f"{HOST}:{self.port}"
        self.log = bench.path(f"{name}.log")
        self.environment = environment
        # The words before those of the front, which run it in some way.
        self.prefix = []
        self.process = None
        # How many bytes the log had before the last start.
        self.logged = 0

    def words(self):
        """The arguments of the front."""
        return ["serve", "--office", self.office, "--program", RBAC, "--listen", self.listen, *self.more]

    def adopt(self):
        """Begins the record of an office that has commands from before its first front."""
        has_office = os.path.exists(self.office) and os.path.getsize(self.office) > 0
        if has_office and not os.path.exists(f"{self.office}.record") and "--no-record" not in self.more:
            tool("record", "adopt", "--office", self.office, "--by", "tests", "--reason", "commands from before")

    def start_without_waiting(self):
        """Starts the front, and returns its process."""
        self.adopt()
        with open(self.log, "ab") as log:
            self.logged = log.tell()
            return subprocess.Popen(
                [*self.prefix, os.environ[PROGRAM], *self.words()],
                stdin=subprocess.DEVNULL,
                stdout=log,
                stderr=log,
                env=self.environment,
            )

    def start(self):
        """Starts the front, and waits until it answers."""
        self.process = self.start_without_waiting()
        until(self.is_listening, "the front listens", lambda: self.said()[-2000:])

    def is_listening(self):
        """Whether somebody listens for the front, which still runs."""
        if self.process.poll() is not None:
            raise RuntimeError(f"the front has ended: {self.said()[-2000:]}")
        # What a front that was killed has just begun to run has its sockets for some moments.
        if '"msg":"listening"' not in self.said(self.logged):
            return False
        try:
            connection = self.connection()
            connection.connect()
            connection.close()
            return True
        except (OSError, http.client.HTTPException):
            return False

    def __enter__(self):
        self.start()
        return self

    def __exit__(self, *_):
        if self.process.poll() is None:
            self.process.kill()
        self.process.wait()
        # The next start would remove them.
        for name in left_in_memory(self.office):
            shutil.rmtree(f"/dev/shm/{name}", ignore_errors=True)

    def said(self, after=0):
        """What the front has logged after some bytes."""
        with open(self.log, "rb") as file:
            file.seek(after)
            return file.read().decode(errors="replace")

    def end(self):
        """Ends the front in order, and returns its status."""
        self.process.send_signal(signal.SIGTERM)
        return self.process.wait(SECONDS)

    def kill(self):
        """Kills the front."""
        self.process.kill()
        self.process.wait()

    def replays(self):
        """The processes that the front has started: the office's replay, and those of what is tried over a copy."""
        return children(self.process.pid)

    def settle(self):
        """Waits until a command is answered, even if the replay has just been killed: what the front then knows is in the file."""
        until(lambda: self.ask("deleteUser", {"user": "nobody has this name"})[0] != 503, "commands are answered again")

    def connection(self):
        """A connection to the front, which is not made yet."""
        if self.listen.startswith("unix:"):
            return Unix(self.listen[len("unix:") :])
        return http.client.HTTPConnection(HOST, self.port, timeout=SECONDS)

    def raw(self, request, cut=True, seconds=SECONDS):
        """All that the front answers to some bytes."""
        with socket.create_connection((HOST, self.port), seconds) as client:
            client.sendall(request)
            if cut:
                client.shutdown(socket.SHUT_WR)
            return read_all(client)


def read_all(client):
    """What comes until the connection is closed."""
    said = b""
    try:
        while piece := client.recv(65_536):
            said += piece
    except ConnectionResetError:
        pass
    return said


def over_tls(bench, port, name="", authority="ca.crt"):
    """A connection over TLS to a port, with the certificate of this name. It is made at once."""
    context = ssl.create_default_context(cafile=bench.path(authority))
    if name:
        context.load_cert_chain(bench.path(f"{name}.crt"), bench.path(f"{name}.key"))
    connection = http.client.HTTPSConnection(HOST, port, timeout=SECONDS, context=context)
    connection.connect()
    return connection


def children(process):
    """The processes that another one has started."""
    try:
        path = f"/proc/{process}/task"
        return [int(one) for task in os.listdir(path) for one in open(f"{path}/{task}/children", encoding="ascii").read().split()]
    except OSError:
        return []


def until(holds, what, about=lambda: ""):
    """Waits until something holds."""
    deadline = time.monotonic() + SECONDS
    while not holds():
        if time.monotonic() > deadline:
            raise TimeoutError(f"not in {SECONDS} seconds: {what} {about()}")
        time.sleep(0.02)


def refused_start(*words):
    """The status and the outputs of a front that is to end by itself."""
    done = subprocess.run(
        [os.environ[PROGRAM], *words], stdin=subprocess.DEVNULL, capture_output=True, text=True, timeout=SECONDS, check=False
    )
    return done.returncode, done.stdout, done.stderr
