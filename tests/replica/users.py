"""Decisions about users by a replica, and a replica behind a guard of ASGI, over a front with the policy of the bank."""

import pytest

from clients.users import ASKED, BANK
from front.program import Front
from front.sessions import made
from program.offices import Office

from .driving import LANGUAGES, Driven


@pytest.mark.parametrize("language", LANGUAGES)
def check_users(bench, language):
    """The copy decides about users as the front does."""
    Office(bench).replay(BANK)
    with Front(bench) as front, Driven(bench, language) as driver:
        driver.open(f"http://127.0.0.1:{front.port}", oldest=60)
        bench.same("it is ready", driver.do("ready", seconds=60), {"ready": True})
        for user, operation, what, wanted in ASKED:
            found = driver.do("user", user=user, operation=operation, object=what)
            bench.same(f"{user} {operation} {what}", (found["reason"], found["allowed"]), (wanted, wanted == "allowed"))
            bench.same("by the copy", found["number"] > 0, True)
        driver.do("close")
        bench.same("after its end", driver.do("user", user="ann", operation="open", object="vault")["reason"], "unavailable")
        driver.open(f"http://127.0.0.1:{front.port}", oldest=1e-9, otherwise="ask")
        for user, operation, what, wanted in ASKED:
            found = driver.do("user", user=user, operation=operation, object=what)
            bench.same(f"{user} {operation} {what}, by the front", (found["reason"], found["number"]), (wanted, 0))


@pytest.mark.needs("python-headers")
@pytest.mark.parametrize("oldest, otherwise", [(60, "deny"), (60, "ask"), (1e-9, "ask"), (1e-9, "wait"), (1e-9, "deny")])
def check_guards(bench, oldest, otherwise):
    """A guard of ASGI passes what the replica allows, whether the copy decides, or the front is asked, or nobody decides."""
    Office(bench).replay(BANK)
    with Front(bench) as front, Driven(bench, "python") as driver:
        driver.open(f"http://127.0.0.1:{front.port}", oldest=oldest, otherwise=otherwise, limit=0.1)
        session = made(front, {"user": "erin"})[1]["value"]["session"]
        asked = [(session, "count", "vault"), (session, "open", "vault"), ("nobody's", "open", "vault"), ("", "open", "vault")]
        decides = otherwise == "ask" or oldest > 1
        wanted = [200, 403, 401] if decides else [503] * 3
        bench.same("by sessions", driver.do("guarded", asked=asked, by_user=False)["statuses"], [*wanted, 401, 3])
        asked = [("erin", "count", "vault"), ("erin", "open", "vault"), ("nobody", "open", "vault"), ("", "open", "vault")]
        wanted = [200, 403, 503] if decides else [503] * 3
        bench.same("by users", driver.do("guarded", asked=asked, by_user=True)["statuses"], [*wanted, 401, 3])
