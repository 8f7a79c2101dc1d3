"""Entries that go to syslog while `rbac-node record export` is killed again and again."""

import json
import os
import re
import signal
import socket
import subprocess
import threading

from .program import Front, until
from .recorded import entries, tool
from .running import PROGRAM

# How often the export is killed, and after how many entries that came since the last time.
KILLS, BETWEEN = 12, 5

FORM = re.compile(r"<1(?:08|10)>1 \S+ \S+ rbac-node - record - (\{.*\})")


class Receiver:
    """A receiver of datagrams, which keeps what they have."""

    def __init__(self, path):
        self.came = []
        self.socket = socket.socket(socket.AF_UNIX, socket.SOCK_DGRAM)
        self.socket.bind(path)
        threading.Thread(target=self.receive, daemon=True).start()

    def receive(self):
        while text := self.socket.recv(65_536):
            self.came.append(json.loads(FORM.fullmatch(text.decode("ascii"))[1]))


class Asking(threading.Thread):
    """A client that asks for commands until it is to end."""

    def __init__(self, front):
        super().__init__()
        self.front, self.is_over = front, False

    def run(self):
        connection, turn = self.front.connection(), 0
        while not self.is_over:
            turn += 1
            self.front.ask(["addUser", "deleteUser"][turn % 2], {"user": "ann"}, connection, Office_Reason=f"für {turn}".encode())


def check_kills(bench):
    """No entry is left out, each comes as it is in the record, and those that come twice are the last ones before a kill."""
    receiver = Receiver(bench.path("receiver"))
    words = [os.environ[PROGRAM], "record", "export", "--syslog", "unix:" + bench.path("receiver"), "--place", bench.path("place")]
    with Front(bench) as front:
        client = Asking(front)
        client.start()
        for _ in range(KILLS):
            before = len(receiver.came)
            export = subprocess.Popen([*words, "--office", front.office, "--follow"])
            until(lambda n=before: len(receiver.came) > n + BETWEEN, "entries come")
            export.kill()
            export.wait()
        export = subprocess.Popen([*words, "--office", front.office, "--follow"])
        client.is_over = True
        client.join()
        last = entries(front.office)[-1].n
        until(lambda: receiver.came[-1]["number"] == last, "all entries have come")
        export.send_signal(signal.SIGTERM)
        bench.same("the end of the export", export.wait(), 0)
        found = {
            entry.n: (entry.at, entry.caller, entry.reason, json.loads(entry.request), json.loads(entry.answer), entry.chain)
            for entry in entries(front.office)
        }
        bench.same("the place", open(bench.path("place"), encoding="ascii").read(), tool("record", "head", "--office", front.office)[1])
        bench.same("the end", front.end(), 0)
    numbers = [one["number"] for one in receiver.came]
    bench.same("the entries", sorted(set(numbers)), sorted(found))
    steps = [after - before for before, after in zip(numbers, numbers[1:])]
    bench.judge("none is left out on the way", [step for step in steps if step > 1])
    bench.judge("as often as it was killed", [] if sum(step < 1 for step in steps) <= KILLS else [steps])
    keys = ("at", "caller", "reason", "request", "answer", "chain")
    bench.judge("as they are", [one for one in receiver.came if tuple(one.get(key, "") for key in keys) != found[one["number"]]])
    return {"entries sent to syslog": len(found), "kills of an export": KILLS}
