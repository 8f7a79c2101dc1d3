"""A child of a fork shares a client: it waits for no lock, and for no renewal, of a thread that isn't there."""

import json
import os
import threading
import time
from http.server import BaseHTTPRequestHandler, ThreadingHTTPServer

import pytest

import rbac_client

NOWHERE = "http://127.0.0.1:9"


class Office(BaseHTTPRequestHandler):
    """A server all of whose sessions have ended, except the third one. The second one is never opened."""

    opened = []
    over = threading.Event()

    def do_POST(self):
        asked = json.loads(self.rfile.read(int(self.headers["Content-Length"])))
        if self.path == "/sessions":
            self.opened.append(asked)
            name = f"s{len(self.opened)}"
            if name == "s2":
                self.over.wait(60)
            return self.reply(200, {"ok": True, "value": {"left": [], "roles": ["boss"], "session": name}})
        if asked["session"] == "s3":
            return self.reply(200, {"ok": True, "value": True})
        return self.reply(409, {"code": 26, "error": "NoSession"})

    def reply(self, status, value):
        body = json.dumps(value, separators=(",", ":"), sort_keys=True).encode()
        self.send_response(status)
        self.send_header("Content-Length", str(len(body)))
        self.end_headers()
        self.wfile.write(body)

    def log_message(self, *_):
        pass


def in_child(call):
    """What a call returns in a child of a fork, as a number, or None if it hasn't ended after a minute."""
    child = os.fork()
    if child == 0:
        status = 99
        try:
            status = call()
        finally:
            os._exit(status)
    for _ in range(6_000):
        ended, status = os.waitpid(child, os.WNOHANG)
        if ended:
            return os.waitstatus_to_exitcode(status)
        time.sleep(0.01)
    os.kill(child, 9)
    os.waitpid(child, 0)
    return None


def locks_of(office, session):
    return [office._decisions._lock, office._decisions._lines._lock, office._settings.lock, office._lock, session._lock]


@pytest.mark.parametrize("number", range(5))
def test_a_child_waits_for_no_lock(number):
    """Whatever lock another thread has at the fork."""
    office = rbac_client.Client(NOWHERE, timeout=0.1, pause=1)
    session = rbac_client.Session(office, "ann", ["boss"], True)
    has, over = threading.Event(), threading.Event()

    def hold():
        with locks_of(office, session)[number]:
            has.set()
            over.wait(120)

    thread = threading.Thread(target=hold, daemon=True)
    thread.start()
    has.wait(60)

    def asks():
        office._settings.saw(7)
        office.close()
        reasons = [one.check("s1", "open", "safe").reason for one in [office] * 3] + [session.check("open", "safe").reason]
        session.renews = False
        return 0 if set(reasons) == {rbac_client.Reason.UNREACHABLE} and sum(office.counts.values()) == 4 else 1

    assert in_child(asks) == 0
    over.set()
    thread.join(60)


def test_a_child_makes_a_session_again_itself():
    """A renewal that another thread makes at the fork is none of the child's."""
    server = ThreadingHTTPServer(("127.0.0.1", 0), Office)
    threading.Thread(target=server.serve_forever, daemon=True).start()
    session = rbac_client.Client(f"http://127.0.0.1:{server.server_port}", timeout=60).open_session("ann", renews=True)
    waiting = threading.Thread(target=session.check, args=("open", "safe"), daemon=True)
    waiting.start()
    while len(Office.opened) < 2:
        time.sleep(0.01)
    assert in_child(lambda: 0 if session.check("open", "safe").allowed else 1) == 0
    Office.over.set()
    waiting.join(60)
    server.shutdown()
