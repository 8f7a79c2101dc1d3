"""Sessions that end, are made again or not, and questions that are asked again: clients/conformance/sessions.json, by each client."""

import json
import socket
import threading
import time

import pytest

from program.bench import SECONDS
from program.web import HOST

from .client import PATIENT
from .driving import NAMES, Driven
from .fakes import RIGHT, Fake, answered, read_request, shared

CASES = shared("sessions.json")


class Office(Fake):
    """A server that answers the requests for each path of a case in their order, and the last answer to all further ones."""

    def __init__(self, case):
        self.given = {path: list(answers) for path, answers in case["answers"].items()}
        self.bodies = {}
        super().__init__([], opens=True)

    def answer(self, client):
        request = read_request(client, self.ending)
        if not request:
            return False
        head, _, text = request.partition(b"\r\n\r\n")
        path, body = head.decode().partition(" HTTP/1.1\r\n")[0], json.loads(text)
        with self.lock:
            session = body.pop("session", "")
            self.bodies.setdefault(path, []).append(body)
            answers = self.given.get(f"{path} {session}") or self.given[path]
            answer = answers.pop(0) if len(answers) > 1 else answers[0]
        if isinstance(answer, dict):
            if self.ending.wait(answer["after"]):
                return False
            answer = answer["answer"]
        if answer is not None:
            status, value = answer
            text = value if isinstance(value, str) else json.dumps(value, separators=(",", ":"), sort_keys=True)
            client.sendall(answered(status, text.encode()))
        return False

    def goes_down(self, seconds):
        """Listens no more, and again later. The port stays its own: whoever connects meanwhile is refused."""
        self.listener.shutdown(socket.SHUT_RDWR)
        self.threads[0].join(SECONDS)
        self.listener.close()
        self.listener = socket.socket()
        self.listener.setsockopt(socket.SOL_SOCKET, socket.SO_REUSEADDR, 1)
        self.listener.bind((HOST, self.port))

        def comes_back():
            time.sleep(seconds)
            self.listener.listen()
            self.serve()

        self.threads[0] = threading.Thread(target=comes_back, daemon=True)
        self.threads[0].start()


def warm_up(driver):
    """Asks a question: the first one takes Java long on a busy machine, and a case may have a short time limit."""
    with Fake([RIGHT]) as fake:
        driver.open(fake.address, timeout=PATIENT)
        driver.check()


@pytest.mark.parametrize("case", CASES, ids=[case["name"].replace(" ", "-") for case in CASES])
@pytest.mark.parametrize("name", NAMES)
def check_sessions(bench, name, case):
    """Each client does what the case says."""
    settings = {key: case[key] for key in ("timeout", "pause") if key in case}
    with Office(case) as office, Driven(bench, name, **{"timeout": PATIENT, **settings}) as driver:
        warm_up(driver)
        driver.open(office.address)
        bench.same("the session", driver.do("login", **case["session"]).get("reason"), None)
        if "down" in case:
            office.goes_down(case["down"])
        for wanted in case["reasons"]:
            found = driver.do("asks", operation="open", object="safe", times=case.get("times", 1))["reasons"]
            bench.same("the decisions", found, [wanted] * case.get("times", 1))
        for path, wanted in case.get("requests", {}).items():
            sent = office.bodies[path]
            bench.same(f"the requests for {path}", len(sent) if isinstance(wanted, int) else sent, wanted)
        if "roles" in case:
            bench.same("its roles", driver.do("opened")["roles"], case["roles"])
    return {f"sessions.json by {name}": 1}
