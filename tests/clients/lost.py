"""Commands whose answers are lost on the way: in the end the office is what the client has reported."""

import json
import random
import socket
import threading

from machine.drawing import Draws
from program.bench import SECONDS
from program.offices import Office, read_rows, small_office
from program.web import HOST, Server, connect, free_port, read_all

import pytest

from .client import PATIENT
from .driving import NAMES, Driven
from .fakes import LOST, PASSED_ON, Fake, answered, read_request, shared
from .functions import repetitions

COMMANDS, COMMANDS_OF_GATE, LOGINS, PAUSE = 300, 1_000, 100, 0.001

# How often a command is sent to a server that dies, if a busy machine is too slow to send it.
ATTEMPTS = 10

# What refuses each command the second time, according to the page.
AGAIN = repetitions()

# What the proxy does with a request: how often, whether the server gets it, and what the client gets of the answer.
WAYS = [
    (12, True, lambda answer: answer),
    (3, True, lambda answer: b""),
    (2, True, lambda answer: answer[: len(answer) // 2]),
    (1, True, lambda answer: answer[:-1]),
    (1, True, lambda answer: answered(504, b"<html></html>")),
    (2, False, lambda answer: b""),
    (1, False, lambda answer: answered(502, b"<html></html>")),
]

# The commands that a client repeats by itself, and what is refused if they had been done.
REPEATED = {"addPermission": 9, "grantPermission": 12, "assignUser": 10, "addInheritance": 14, "addSsdRoleMember": 21}
REPEATED |= {"addDsdRoleMember": 21, "addActiveRole": 30}
REPEATED |= dict.fromkeys(["setSsdSetCardinality", "setDsdSetCardinality", "lockUserAccount", "unlockUserAccount"], 0)
REPEATED |= {"importAssignments": 0}


class Losing:
    """A proxy in front of a server that loses requests and answers at random."""

    def __init__(self, port, seed):
        self.behind, self.random, self.lock = port, random.Random(seed), threading.Lock()
        self.counts = {False: 0, True: 0}
        self.ending = threading.Event()
        self.listener = socket.create_server((HOST, 0))
        self.address = f"http://{HOST}:{self.listener.getsockname()[1]}"
        self.thread = threading.Thread(target=self.serve, daemon=True)
        self.thread.start()

    def __enter__(self):
        return self

    def __exit__(self, *_):
        self.ending.set()
        self.listener.shutdown(socket.SHUT_RDWR)
        self.listener.close()
        self.thread.join(SECONDS)

    def serve(self):
        """Serves one request of each connection, each connection in a thread of its own."""
        while True:
            try:
                client, _ = self.listener.accept()
            except OSError:
                return
            threading.Thread(target=self.pass_on, args=(client,), daemon=True).start()

    def pass_on(self, client):
        """Passes on a request and its answer, or not."""
        with client:
            request = read_request(client, self.ending)
            if not request:
                return
            with self.lock:
                _, is_passed_on, shown = self.random.choices(WAYS, [way[0] for way in WAYS])[0]
                self.counts[is_passed_on] += 1
                answer = b""
                if is_passed_on:
                    with connect(self.behind) as server:
                        server.sendall(request)
                        answer = read_all(server)
            client.sendall(shown(answer))


def is_done(function, expected):
    """Whether an answer says that a command is done: it was accepted, or is refused because it had been done."""
    return "ok" in expected or REPEATED.get(function) == expected.get("code", -1)


def judged(bench, what, function, outcome, expected):
    """Counts whether what a client has reported is what the model's answer says of the office."""
    if "value" not in outcome:
        bench.same(what, outcome["refusal"], expected)
    elif function != "importAssignments":
        bench.same(what, is_done(function, expected), True)
    else:
        report, wanted = outcome["value"], expected["value"]
        bench.same(f"{what}: refused", report["refused"], wanted["refused"])
        counts = [report["already"] + report["assigned"], wanted["already"] + wanted["assigned"]]
        bench.same(f"{what}: counts", counts[0], counts[1])


@pytest.mark.parametrize("name", NAMES)
def check_many_commands(bench, name):
    """Hundreds of random commands. If one may have been done, it is repeated as the page says, and the office is as it says."""
    seed = random.randrange(1 << 30)
    print(f"{name}: the seed of the lost answers is {seed}", flush=True)
    office, draws, unclear = Office(bench), Draws(seed), 0
    with Server(bench, office.path, 100_000) as server, Losing(server.port, seed) as proxy:
        with Driven(bench, name, timeout=PATIENT, pause=PAUSE) as driver, Driven(bench, "python", timeout=PATIENT) as direct:
            driver.open(proxy.address)
            direct.open(f"http://{HOST}:{server.port}")
            for number in range(COMMANDS_OF_GATE if bench.is_gate or bench.is_long else COMMANDS):
                function, arguments = drawn(draws)
                outcome, what = driver.call(function, **arguments), f"{number}: {function} {arguments}"
                expected = json.loads(draws.replay.answer(json.dumps({"fn": function, **arguments}).encode()))
                if "value" not in outcome and "refusal" not in outcome:
                    bench.same(f"{what}: {outcome}", outcome["may_be_done"], True)
                    unclear += 1
                    again = json.loads(direct.answer(function, **arguments))
                    bench.same(f"{what}, repeated", follows(function, again, expected), True)
                else:
                    judged(bench, what, function, outcome, expected)
            bench.same("some answers are lost, and some commands", min(proxy.counts.values()) > 0 and unclear > 0, True)
    bench.run(["check", office.path])
    office.model = draws.replay
    office.compare_with_model()


def drawn(draws):
    """A command, most of which are accepted."""
    while True:
        draws.drawn += 1
        function = draws.draw_function()
        values = {key: json.loads(value) for key, value in draws.draw_values(function).items()}
        if function in AGAIN:
            return function, values


def follows(function, again, expected):
    """Whether the answer to a repeat is what the page says, if the command was to be answered by `expected`."""
    if "ok" not in expected:
        return again == expected
    return "ok" in again or str(again["code"]) == AGAIN[function].split()[0]


@pytest.mark.parametrize("name", NAMES)
def check_many_logins(bench, name):
    """Each login has exactly one session in the end, and each logout ends one, although answers are lost."""
    office = small_office(bench)
    before = sessions(office.path)
    with Server(bench, office.path, 100_000) as server, Losing(server.port, 7) as proxy:
        with Driven(bench, name, timeout=PATIENT, pause=PAUSE) as driver:
            driver.open(proxy.address)
            made, failed = set(), 0
            for number in range(LOGINS):
                outcome = driver.do("login", user="ann", roles=["boss"], renews=False)
                while "value" not in outcome:
                    bench.same("a login may be done", outcome["may_be_done"], True)
                    failed += 1
                    outcome = driver.do("login", user="ann", roles=["boss"], renews=False)
                made.add(outcome["value"])
                if number % 2:
                    while "value" not in driver.do("logout"):
                        pass
                    made.discard(outcome["value"])
    bench.run(["check", office.path])
    left = sessions(office.path) - before
    bench.same("sessions of logins that are left", made - left, set())
    bench.same("sessions of no login, at most one of each that failed", len(left - made) <= failed, True)


def sessions(path):
    """The names of the sessions in an office."""
    return {row[1] for row in read_rows(path)["pair_row"] if row[0] == 7}


@pytest.mark.parametrize("name", NAMES)
def check_one_login(bench, name):
    """A login whose answer is lost has one session; one that is refused has none."""
    office = small_office(bench)
    with Server(bench, office.path, 100) as server, Driven(bench, name, timeout=PATIENT, pause=PAUSE) as driver:
        for answers, user, reason in [
            ([b"", PASSED_ON], "ann", None),
            ([LOST, PASSED_ON], "ann", None),
            ([LOST, LOST, LOST, PASSED_ON], "ann", None),
            ([LOST, PASSED_ON], "bob", "refused"),
            ([LOST, LOST, LOST, LOST], "ann", "unanswered"),
        ]:
            with Fake(answers, server.port) as fake:
                driver.open(fake.address)
                outcome = driver.do("login", user=user, roles=["boss"], renews=False)
                bench.same(f"a login of {user} with the answers {answers}", outcome.get("reason"), reason)
                bench.same("requests", len(fake.requests), len(answers))
    bench.run(["check", office.path])
    # One exists from the start, and each login has made one, except for the one that was refused.
    bench.same("the number of sessions", len(sessions(office.path)), 1 + 4)


class Dying:
    """A server that reads one request, and is gone without an answer: its connection and its port are closed."""

    def __init__(self):
        self.listener = socket.create_server((HOST, 0))
        self.address = f"http://{HOST}:{self.listener.getsockname()[1]}"
        self.requests = []
        self.thread = threading.Thread(target=self.serve, daemon=True)
        self.thread.start()

    def serve(self):
        client, _ = self.listener.accept()
        with client:
            request = read_request(client, threading.Event())
            self.listener.close()
            if request:
                self.requests.append(request)


# Commands that may be repeated, and some that may not.
DIED = [(case["function"], case["arguments"]) for case in shared("lost_commands.json")]


@pytest.mark.parametrize("name", NAMES)
def check_server_that_dies(bench, name):
    """A command that was sent is unanswered, and may have been done, if the server dies while doing it and there is none afterwards."""
    with Driven(bench, name, timeout=1.0, pause=0.01) as driver:
        for function, arguments in DIED:
            for others in ([], [f"http://{HOST}:{free_port()}"]):
                for _ in range(ATTEMPTS):
                    server = Dying()
                    driver.open(server.address, *others)
                    outcome = driver.call(function, **arguments)
                    if server.requests:  # Otherwise the client was too slow to send anything.
                        break
                what = f"{function} with {len(others)} further addresses"
                bench.same(what, (outcome.get("reason"), outcome.get("may_be_done")), ("unanswered", True))
                bench.same(f"{what}: its requests", len(server.requests), 1)
        driver.open(f"http://{HOST}:{free_port()}")
        for function, arguments in DIED:
            outcome = driver.call(function, **arguments)
            bench.same(f"{function} without a server", (outcome["reason"], outcome["may_be_done"]), ("unreachable", False))
