"""Drivers: a program in each language that does with its client what its input says, so that one test fits all clients.

Each line of a driver's input is an object with the key `do`, and each line of its output says what came of it:

    open     makes a client of `addresses`, `timeout`, `pause`, `repeats`, `token`, `ca`, `certificate` and `key`
    call     calls the method of `function` with `arguments`: its `value`, or the `reason` why there is none, with `may_be_done`
             and the `refusal`, if there is one
    check    a decision about `session`, `operation` and `object`: `allowed`, its `reason`, and the `code` of a refusal or 0
    decide   a decision about `user`, `operation` and `object`, as `check`
    login    opens a session of `user` with `roles`, or with all if there are none, which `renews` or doesn't: its name as `value`, or as `call`
    opened   the `roles` of that session, and those that were `left` out: each role with the code of the refusal and its further key
    end      ends the session with a `digest`, as `call`; without one, that session by the digest of its name
    ask      a decision of that session about `operation` and `object`, as `check`, and the session's `name`
    asks     as many such decisions at once as `times` says: their `reasons`
    logout   closes that session, as `call`
    counts   how many decisions there were, by their reasons
"""

import json
import os
import subprocess
import sys
from pathlib import Path

import pytest

from machine.commands import COMMANDS
from machine.questions import QUESTIONS
from needs import lacking
from program.bench import SECONDS, TESTS

ROOT = TESTS.parent
DRIVERS = TESTS / "clients/drivers"

# The keys of each function, in the order of the parameters of its method.
KEYS = {function: row[1].split() for function, row in {**COMMANDS, **QUESTIONS}.items()}

# The variable that names the folder of the drivers that were built.
BUILT = "RBAC_DRIVERS"


def go_environment(**more):
    """The environment of Go: it fetches nothing. With CGO_ENABLED=1 Go's own packages needn't be compiled: Debian's has them."""
    return {**os.environ, "GOFLAGS": "-mod=mod", "GOPROXY": "off", "GOWORK": "off", "CGO_ENABLED": "1", **more}


def build_go(folder):
    """Builds the driver in Go."""
    command = ["go", "build", "-o", str(Path(folder) / "go-driver"), "."]
    subprocess.run(command, cwd=DRIVERS / "go", env=go_environment(), check=True, timeout=600)


def build_java(folder):
    """Builds the client and the driver in Java, with all warnings as errors."""
    sources = [*sorted((ROOT / "clients/java/src/main/java/rbac/client").glob("*.java")), DRIVERS / "Driver.java"]
    words = [*JAVAC, "-Xlint:all", "-Werror", "--release", "11", "-encoding", "UTF-8", "-d", str(Path(folder) / "java")]
    subprocess.run([*words, *map(str, sources)], check=True, timeout=600)


# Java, without what a short run doesn't need. Its log has a line for each message.
SHORT = ["-XX:TieredStopAtLevel=1", "-XX:+UseSerialGC"]
JAVA = ["java", *SHORT, "-Djava.util.logging.SimpleFormatter.format=%5$s%n"]
JAVAC = ["javac", *(f"-J{word}" for word in SHORT)]

# What each client needs, if not Python alone, what builds its driver into a folder, and what starts it.
CLIENTS = {
    "python": (None, None, lambda folder: [sys.executable, DRIVERS / "driver.py", "sync"]),
    "asyncio": (None, None, lambda folder: [sys.executable, DRIVERS / "driver.py", "async"]),
    "go": ("go", build_go, lambda folder: [f"{folder}/go-driver", json.dumps(KEYS)]),
    "node": ("node", None, lambda folder: ["node", DRIVERS / "driver.mjs", json.dumps(KEYS)]),
    "java": ("javac", build_java, lambda folder: [*JAVA, "-cp", f"{folder}/java", "Driver", json.dumps(KEYS)]),
}


# The clients as parameters, and what a check of the front needs.
NAMES = [pytest.param(name, marks=pytest.mark.needs(*filter(None, [need]))) for name, (need, _, _) in CLIENTS.items()]
FRONT = ("go", "gcc", "libraries of the server")


def build(folder):
    """Builds the drivers into a folder, if their languages are there."""
    os.environ[BUILT] = str(folder)
    for need, builder, _ in CLIENTS.values():
        if builder and not lacking([need]):
            builder(folder)


# The clients that can connect to a socket in the file system, by their standard libraries.
WITH_SOCKETS = {"python", "asyncio", "go", "node"}


class Driven:
    """A driver as it runs. What it logs is kept."""

    def __init__(self, bench, name, **settings):
        self.name, self.settings = name, settings
        self.log = bench.folder.parent / f"{name}.log"
        with open(self.log, "ab") as log:
            self.process = subprocess.Popen(
                CLIENTS[name][2](os.environ.get(BUILT, "")),
                stdin=subprocess.PIPE,
                stdout=subprocess.PIPE,
                stderr=log,
                env={**os.environ, "PYTHONPATH": str(ROOT / "clients/python"), "PYTHONDONTWRITEBYTECODE": "1"},
            )

    def __enter__(self):
        return self

    def __exit__(self, *_):
        self.process.stdin.close()
        try:
            self.process.wait(SECONDS)
        finally:
            self.process.kill()
            self.process.wait()
            self.process.stdout.close()

    def said(self):
        """What the client has logged."""
        return self.log.read_text(encoding="utf-8", errors="replace")

    def do(self, do, **more):
        """Tells the driver what to do, and returns what came of it."""
        self.process.stdin.write(json.dumps({"do": do, **more}).encode() + b"\n")
        self.process.stdin.flush()
        answer = self.process.stdout.readline()
        if not answer:
            raise OSError(f"the driver in {self.name} has ended: {self.said()[-2000:]}")
        return json.loads(answer)

    def open(self, *addresses, **settings):
        """Makes a client of these addresses, and of the settings of the driver if they aren't given here."""
        return self.do("open", addresses=[str(one) for one in addresses], **{**self.settings, **settings})

    def call(self, function, **arguments):
        """Calls the method of a function."""
        return self.do("call", function=function, arguments=arguments)

    def answer(self, function, **arguments):
        """The outcome of a call, as the text of the answer that it corresponds to, or its reason if there is none."""
        outcome = self.call(function, **arguments)
        if "value" in outcome:
            answer = {"ok": True} if outcome["value"] is None else {"ok": True, "value": outcome["value"]}
        else:
            answer = outcome.get("refusal", outcome["reason"])
        return json.dumps(answer, ensure_ascii=False, separators=(",", ":"), sort_keys=True)

    def check(self, session="s1", operation="open", object="safe"):
        """The reason of a decision. That it allows only for that of an allowed one is checked here."""
        decision = self.do("check", session=session, operation=operation, object=object)
        if decision["allowed"] is not (decision["reason"] == "allowed"):
            raise ValueError(f"{decision}")
        return decision["reason"]
