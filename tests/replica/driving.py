"""Drivers: a program in each language that does with a replica what its input says.

Each line of its input is an object with the key `do`, and each line of its output says what came of it:

    open     makes a client and a replica of `addresses`, `token`, `oldest`, `otherwise`, `limit` and `silence`
    ready    whether the copy decides within `seconds`: `ready`
    check    a decision about `session`, `operation` and `object`, by `at_least` a revision: `allowed`, `reason`, `code`, `age`, `number`
    user     a decision about `user`, `operation` and `object`: `allowed`, `reason`, and the `number` of the copy
    guarded  the statuses of requests over ASGI, with this replica behind a guard, each for `session`, `operation` and `object` of
             `asked`; by `user` instead of the session if they are `by_user`. In Python alone
    status   the `number` and the `revision` of the copy, its `age`, the `reason` why it isn't followed, or nothing, and the newest
             revision that the client has `seen`
    call     adds a `user` by the client: the `revision` of the policy that the client has seen then
    login    opens a session of `user` with `roles`, which `renews` or doesn't, whose decisions are the replica's: its `name`
    ask      a decision of that session about `operation` and `object`: its `reason`, and the session's `name`
    decide   decides about all `questions` in turn in two threads for `seconds`, and writes each decision as a line to `file`: when it
             began, its age, its number, its reason, and the number of the question. How many there were: `count`
    close    closes the replica, and says what its status is then
"""

import json
import os
import shutil
import subprocess
import sys
from pathlib import Path

import pytest

from front.running import FORM
from library import building
from program.bench import SECONDS, TESTS

DRIVERS = TESTS / "replica/drivers"


def go_environment():
    """The environment of Go: it fetches nothing, and calls C for the library alone, so that Go's own packages are those of the front."""
    return {**building.environment(), "GOFLAGS": " ".join(["-mod=mod", *FORM])}


def build(folder):
    """Builds the library, the module in Python and the driver in Go into a folder."""
    os.environ["RBAC_BUILT"] = str(folder)
    building.run([building.TOP / "bin/library", folder])
    if building.is_there("Python"):
        building.build_python()
        shutil.copytree(building.TOP / "clients/python/rbac_client", Path(folder) / "python/rbac_client")
    building.run(["go", "build", "-o", Path(folder) / "driver", "."], cwd=DRIVERS / "go", env=go_environment())


# The languages of the replicas.
LANGUAGES = ["go", pytest.param("python", marks=pytest.mark.needs("python-headers"))]


class Driven:
    """A driver as it runs. What it logs is kept."""

    def __init__(self, bench, language):
        self.log = bench.path(f"{language}.log")
        command = [sys.executable, DRIVERS / "driver.py"] if language == "python" else [building.built() / "driver"]
        where = {"LD_LIBRARY_PATH": str(building.built()), "PYTHONPATH": str(building.built() / "python")}
        with open(self.log, "ab") as log:
            self.process = subprocess.Popen(
                [str(word) for word in command],
                stdin=subprocess.PIPE,
                stdout=subprocess.PIPE,
                stderr=log,
                env={**os.environ, **where, "PYTHONDONTWRITEBYTECODE": "1"},
            )

    def __enter__(self):
        return self

    def __exit__(self, *_):
        self.process.stdin.close()
        try:
            self.process.wait(SECONDS)
        finally:
            self.process.kill()
            self.process.wait()
            self.process.stdout.close()

    def said(self):
        """What the driver has logged."""
        with open(self.log, encoding="utf-8", errors="replace") as file:
            return file.read()

    def tell(self, do, **more):
        """Tells the driver what to do."""
        self.process.stdin.write(json.dumps({"do": do, **more}).encode() + b"\n")
        self.process.stdin.flush()

    def hear(self):
        """What came of it."""
        answer = self.process.stdout.readline()
        if not answer:
            raise OSError(f"the driver has ended: {self.said()[-2000:]}")
        return json.loads(answer)

    def do(self, do, **more):
        self.tell(do, **more)
        return self.hear()

    def open(self, address, **more):
        """Makes a replica."""
        settings = {"token": "", "oldest": 5.0, "otherwise": "deny", "limit": 2.0, "silence": 5.0, "ca": "", **more}
        addresses = [address] if isinstance(address, str) else address
        return self.do("open", addresses=addresses, **settings)

    def check(self, session, operation, object, at_least=0):
        """A decision. That it allows only for that of an allowed one is checked here."""
        found = self.do("check", session=session, operation=operation, object=object, at_least=at_least)
        if found["allowed"] is not (found["reason"] == "allowed"):
            raise ValueError(f"{found}")
        return found

    def reason(self, *words, **more):
        return self.check(*words, **more)["reason"]
