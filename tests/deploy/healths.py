"""The health check: servers that answer, that don't, and that answer something else."""

import os
import signal
import socket
import threading
import time

from clients.fakes import RESET, Fake
import pytest

from program.bench import SECONDS
from program.offices import small_office
from program.web import Server, free_port, reply

from .common import DEPLOY, is_paused, run, wait_until

pytestmark = pytest.mark.needs("curl")

HEALTH = DEPLOY / "health"

GOOD = b'{"ok":true,"value":["pay"]}'

# Answers that no served office sends, each with a part of what the check prints about it.
WRONG = {
    "no answer": (b"", "no whole answer"),
    "a reset": (RESET, "no whole answer"),
    "a truncated answer": (reply(200, GOOD)[:-3], "no whole answer"),
    "a store that failed": (reply(500, b'{"code":41,"error":"Store"}'), '"code":41'),
    "no memory": (reply(503, b'{"code":40,"error":"Memory"}'), '"code":40'),
    "a good text with a bad status": (reply(500, GOOD), " 500"),
    "a refusal with status 200": (reply(200, b'{"code":42,"error":"Closed"}'), '"code":42'),
    "a page of another server": (reply(200, b"<html>welcome</html>"), "<html>"),
    "an answer that is too late": ([2.5, reply(200, GOOD)], "no answer in 1 seconds"),
}


def said(port, *more):
    """Runs the check for a port, and returns its status and what it prints."""
    done = run([HEALTH, port, *more])
    return done.status, done.out.decode(), done.err.decode()


def check_answering(bench):
    """A server that answers is reported as healthy, and no byte of its files changes. One that is paused or gone is not."""
    office = small_office(bench)
    with Server(bench, office.path, 100) as server:
        before = bench.contents()
        bench.same("a server", said(server.port), (0, "", ""))
        bench.same("the files", bench.contents(), before)
        server.process.send_signal(signal.SIGSTOP)
        bench.same("it is paused", wait_until(is_paused, server.process.pid), True)
        start = time.monotonic()
        bench.same("a paused server", said(server.port, 1), (1, "", "health: no answer in 1 seconds\n"))
        bench.same("it ends in time", time.monotonic() - start < SECONDS / 2, True)
        server.process.send_signal(signal.SIGCONT)
        bench.same("a server that continues", said(server.port, SECONDS), (0, "", ""))
    bench.same("no server", said(server.port), (1, "", f"health: nobody listens on port {server.port}\n"))


def check_wrong_answers(bench):
    """An answer other than that of an office is reported as wrong, in one line."""
    for name, (answer, why) in WRONG.items():
        with Fake([answer]) as fake:
            status, out, err = said(fake.port, 1 if "1 seconds" in why else SECONDS)
        bench.same(name, (status, out, why in err, err.count("\n")), (1, "", True, 1))
    with Fake([reply(200, GOOD)]) as fake:
        bench.same("the right answer", said(fake.port, SECONDS), (0, "", ""))


# Answers at the socket of a front, each with whether they are good.
OF_FRONTS = {
    "a front": (reply(200, b'{"ready":true}'), True),
    "a front without callers": (reply(200, b'{"ready":true,"open":true}'), True),
    "a front whose office is not open": (reply(503, b'{"ready":false,"why":"x"}'), False),
    "a good text with a bad status": (reply(503, b'{"ready":true}'), False),
    "the program": (reply(200, GOOD), False),
}


def check_at_sockets(bench):
    """The front of an office is asked at its socket, for /healthz."""
    path = bench.path("office.sock")
    bench.same("nobody", said(path), (1, "", f"health: nobody listens on {path}\n"))
    name = f"{os.getpid()}-none"
    bench.same("a name", said(name), (1, "", f"health: nobody listens on /run/rbac/{name}.sock\n"))
    with socket.socket(socket.AF_UNIX) as listener:
        listener.bind(path)
        listener.listen()
        for what, (answer, is_good) in OF_FRONTS.items():
            asked = []
            thread = threading.Thread(target=answer_one, args=(listener, answer, asked))
            thread.start()
            status, out, err = said(path)
            thread.join()
            bench.same(what, (status, out, bool(err)), (0 if is_good else 1, "", not is_good))
            bench.same(f"{what}: the request", asked[0].partition(b"\r\n")[0], b"GET /healthz HTTP/1.1")


def answer_one(listener, answer, asked):
    """Gives one client an answer, and keeps what it asked."""
    client, _ = listener.accept()
    with client:
        asked.append(client.recv(65_536))
        client.sendall(answer)


def check_arguments(bench):
    """Arguments that are no port, name or socket and no seconds are refused with status 2. `--help` says what may be given."""
    done = run([HEALTH, "--help"], env=dict(os.environ))
    bench.same("the help", (done.status, done.out.split(b"  ")[0], done.err), (0, b"health [NAME|SOCKET|PORT [SECONDS]]", b""))
    port = str(free_port())
    for words in (["0"], ["65536"], [port, "0"], [port, "-1"], [port, "1", "1"], [""], [port, "1.5"]):
        done = run([HEALTH, *words], env=dict(os.environ))
        bench.same(f"the status for {words}", (done.status, done.out, done.err.startswith(b"usage: ")), (2, b"", True))
