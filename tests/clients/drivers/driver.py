"""Does with the client in Python what each line of its input says, and prints what came of it.

    driver.py sync|async

The drivers of the other languages do the same. tests/clients/driving.py has what the lines say.
"""

import asyncio
import inspect
import json
import logging
import re
import sys
from concurrent.futures import ThreadPoolExecutor

import rbac_client


class Driver:
    """The client that is driven, and its last session."""

    def __init__(self, kind):
        self.kind, self.client, self.session = kind, None, None

    async def do(self, do, **given):
        """Does what a line says, and returns what came of it."""
        if do == "open":
            return self.open(**given)
        if do == "call":
            return await self.call(**given)
        if do == "check":
            return shown(await awaited(self.client.check(**given)))
        if do == "decide":
            return shown(await awaited(self.client.decide_by_user(**given)))
        if do == "login":
            return await self.result(self.login, given)
        if do == "logout":
            return await self.result(self.session.close, {})
        if do == "opened":
            left = [[one.role, one.code, *one.details.values()] for one in self.session.left]
            return {"roles": self.session.roles, "left": left}
        if do == "end":
            digest = given.get("digest") or rbac_client.session_digest(self.session.name)
            return await self.result(self.client.end_session, {"digest": digest})
        if do == "ask":
            return {**shown(await awaited(self.session.check(**given))), "name": self.session.name}
        if do == "asks":
            return {"reasons": await self.asks(**given)}
        return {reason.value: count for reason, count in self.client.counts.items()}

    def open(self, addresses, **settings):
        """Makes the client."""
        try:
            self.client = self.kind(addresses, **settings)
        except ValueError as error:
            return {"refused": str(error)}
        return {}

    async def login(self, **given):
        self.session = await awaited(self.client.open_session(**given))
        return self.session.name

    async def asks(self, times, **given):
        """The reasons of decisions of the session at once: in threads, or in tasks."""
        if self.kind is rbac_client.AsyncClient:
            found = await asyncio.gather(*(self.session.check(**given) for _ in range(times)))
        else:
            with ThreadPoolExecutor(times) as threads:
                found = list(threads.map(lambda _: self.session.check(**given), range(times)))
        return [one.reason.value for one in found]

    async def call(self, function, arguments):
        """Calls the method of a function."""
        return await self.result(getattr(self.client, re.sub("([A-Z])", r"_\1", function).lower()), arguments)

    async def result(self, method, arguments):
        """The value of a call, or why it has none."""
        try:
            return {"value": plain(await awaited(method(**arguments)))}
        except rbac_client.Refused as error:
            more = {"code": error.code, "error": error.name, **error.details}
            return {"reason": error.reason.value, "may_be_done": error.may_be_done, "refusal": more}
        except rbac_client.Error as error:
            return {"reason": error.reason.value, "may_be_done": error.may_be_done}
        except ValueError:
            return {"reason": "invalid_request", "may_be_done": False}


async def awaited(value):
    """The value, or what comes of it if it can be awaited."""
    return await value if inspect.isawaitable(value) else value


def plain(value):
    """A value as `rbac` has it."""
    if isinstance(value, rbac_client.ImportReport):
        refused = [{"code": one.code, "record": one.record} for one in value.refused]
        return {"already": value.already, "assigned": value.assigned, "refused": refused}
    return value


def shown(decision):
    """A decision."""
    return {"allowed": bool(decision), "reason": decision.reason.value, "code": decision.code or 0}


async def main():
    driver = Driver({"sync": rbac_client.Client, "async": rbac_client.AsyncClient}[sys.argv[1]])
    for line in sys.stdin:
        print(json.dumps(await driver.do(**json.loads(line))), flush=True)


logging.basicConfig(format="%(message)s")
asyncio.run(main())
