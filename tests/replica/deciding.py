"""What a replica does if its copy may not decide: revisions, sessions, rights, silence, another address, and its end."""

import http.client
import ssl
import time

import pytest

from front.identities import CERTIFICATES, bearer, openssl, reload, rules, secured, tls_words
from front.program import Front, until
from front.sessions import digest_of
from front.watching import snapshot
from program.bench import SECONDS, TESTS
from program.offices import Office

from .driving import LANGUAGES, Driven
from .proxies import Proxy

BANK = (TESTS.parent / "examples/bank.jsonl").read_bytes().splitlines(keepends=True)

# What a caller with a replica may do.
RIGHTS = {
    "token:admin": [(function, "office") for function in ("addUser", "assignUser", "snapshot", "watch", "checkAccess")],
    "token:desk": [("snapshot", "office"), ("watch", "office"), ("checkAccess", "office")],
}


def ready(bench, driver):
    bench.same("it is ready", driver.do("ready", seconds=60), {"ready": True})


@pytest.mark.parametrize("language", LANGUAGES)
def check_revisions(bench, language):
    """A decision by at least a revision: it waits, asks the front, or denies, as the caller chose."""
    Office(bench).replay(BANK)
    asked = ("ann 1", "open", "vault")
    with Front(bench) as front, Proxy(front.port) as proxy:
        for otherwise, reason in (("deny", "unavailable"), ("wait", "unavailable"), ("ask", "allowed")):
            with Driven(bench, language) as driver:
                driver.open(proxy.address, otherwise=otherwise, oldest=600, silence=600, limit=0.5)
                ready(bench, driver)
                revision = driver.do("status")["revision"]
                bench.same("a revision that is there", driver.reason(*asked, revision), "allowed")
                start = time.monotonic()
                bench.same(f"one that is not, {otherwise}", driver.reason(*asked, revision + 1), reason)
                if otherwise == "wait":
                    bench.same("it waited", time.monotonic() - start >= 0.5, True)
                seen = driver.do("call", user=f"new {otherwise}")["revision"]
                bench.same("the revision after a command", seen, revision + 1)
                if otherwise == "wait":
                    until(lambda: driver.do("status")["revision"] >= seen, "the copy has it")
                    found = driver.check(*asked, seen)
                    bench.same("after it came", (found["reason"], found["number"] > 0), ("allowed", True))
                if otherwise == "ask":
                    found = driver.check(*asked, seen + 1)
                    bench.same(
                        "the front was asked", (found["reason"], found["number"], found["age"] < 60), ("allowed", 0, True)
                    )


@pytest.mark.parametrize("language", LANGUAGES)
def check_sessions(bench, language):
    """A session decides at once by a replica that asks, and is made again; names are digested, whatever is in them."""
    Office(bench).replay(BANK)
    with Front(bench) as front, Driven(bench, language) as driver:
        driver.open(f"http://127.0.0.1:{front.port}", otherwise="ask")
        ready(bench, driver)
        for number in range(20):
            name = driver.do("login", user="ann", roles=["branch manager"], renews=True)["name"]
            bench.same(
                f"decision {number} after a login", driver.do("ask", operation="open", object="vault")["reason"], "allowed"
            )
        until(lambda: driver.check(name, "open", "vault")["number"] > 0, "the copy has the session")
        bench.same("an unknown name", driver.reason(name, "open", "nothing"), "unknown_name")
        bench.same("an unknown session", driver.reason("ann 3", "open", "vault"), "ended_session")
        bench.same("a digest isn't a name", driver.reason(digest_of(name), "open", "vault"), "ended_session")
        front.ask("deleteSession", {"user": "ann", "session": name})
        until(lambda: driver.reason(name, "open", "vault") == "ended_session", "the copy has its end")
        found = driver.do("ask", operation="open", object="vault")
        bench.same("a session that was made again", (found["reason"], found["name"] != name), ("allowed", True))
        odd = "é" * 20 + '"\\'
        status = front.ask("createSession", {"user": "ann", "roles": ["branch manager"], "session": odd})[0]
        bench.same("a session with another name", status, 200)
        until(lambda: driver.check(odd, "open", "vault")["number"] > 0, "the copy has it")
        bench.same("its decision", driver.reason(odd, "open", "vault"), "allowed")


@pytest.mark.parametrize("language", LANGUAGES)
def check_rights(bench, language):
    """Over TLS with a token: without its rights a replica denies, also if it may ask, and follows again when it has them back."""
    Office(bench).replay(BANK)
    asked = ("ann 1", "open", "vault")
    openssl(bench, CERTIFICATES)
    with secured(bench, *tls_words(bench)[:4], rights=RIGHTS) as front:
        for otherwise in ("ask", "deny"):
            with Driven(bench, language) as driver:
                driver.open(
                    f"https://127.0.0.1:{front.port}", token="secret", ca=bench.path("ca.crt"), otherwise=otherwise, oldest=600
                )
                ready(bench, driver)
                bench.same("with its rights", driver.reason(*asked), "allowed")
                bench.write("callers.jsonl", rules({**RIGHTS, "token:desk": [("checkAccess", "office")]}).encode())
                reload(front, "the callers are in force")
                context = ssl.create_default_context(cafile=bench.path("ca.crt"))
                other = http.client.HTTPSConnection("127.0.0.1", front.port, context=context, timeout=SECONDS)
                status = front.ask("addUser", {"user": f"new {otherwise}"}, other, **bearer("another"))[0]
                other.close()
                bench.same("a command of another caller", status, 200)
                until(lambda: driver.reason(*asked) == "forbidden", "it has lost its rights")
                bench.same("its copy", driver.do("status")["number"], 0)
                time.sleep(1)
                bench.same("later", driver.reason(*asked), "forbidden")
                bench.write("callers.jsonl", rules(RIGHTS).encode())
                reload(front, "the callers are in force")
                until(lambda: driver.reason(*asked) == "allowed", "it has its rights back")
        with Driven(bench, language) as driver:
            driver.open(f"https://127.0.0.1:{front.port}", token="wrong", ca=bench.path("ca.crt"), otherwise="ask")
            until(lambda: driver.reason(*asked) == "unauthenticated", "its token is wrong")
            bench.same("it isn't ready", driver.do("ready", seconds=0.5), {"ready": False})


@pytest.mark.parametrize("language", LANGUAGES)
def check_silence(bench, language):
    """A connection that says nothing is cut off; the copy decides until it is too old, and then only the front, if it is asked."""
    Office(bench).replay(BANK)
    asked = ("ann 1", "open", "vault")
    with Front(bench) as front, Proxy(front.port) as proxy, Driven(bench, language) as driver:
        driver.open(proxy.address, oldest=3.0, silence=1.5)
        ready(bench, driver)
        proxy.passes.clear()
        before = proxy.count
        start, age, last = time.monotonic(), driver.do("status")["age"], 0.0
        while (found := driver.check(*asked))["reason"] == "allowed" and time.monotonic() < start + 60:
            last = max(last, found["age"])
            time.sleep(0.01)
        # The copy may have been old at the start already, on a busy machine.
        bench.same("it decided until the copy was too old", (last <= 3.0, time.monotonic() - start > 3.0 - age), (True, True))
        bench.same("why it doesn't", found["reason"] in ("unavailable", "unanswered"), True)
        until(lambda: proxy.count > before, "it has connected again")
        bench.same("its age", driver.do("status")["age"] > 3.0, True)
        proxy.passes.set()
        until(lambda: driver.reason(*asked) == "allowed", "it follows again")
        bench.same("after its end", (driver.do("close")["number"], driver.reason(*asked)), (0, "unavailable"))


@pytest.mark.parametrize("language", LANGUAGES)
def check_addresses(bench, language):
    """If its front is gone, a replica makes its copy anew by another one, whose numbers are other ones."""
    Office(bench).replay(BANK)
    Office(bench, "other").replay(BANK)
    asked = ("ann 1", "open", "vault")
    with Front(bench) as front, Front(bench, name="other") as other, Driven(bench, language) as driver:
        for number in range(5):
            other.ask("addUser", {"user": f"new {number}"})
        driver.open([f"http://127.0.0.1:{one.port}" for one in (front, other)], oldest=600)
        ready(bench, driver)
        wanted = snapshot(other)[1]
        bench.same("another number before", driver.do("status")["number"] != wanted, True)
        front.kill()
        until(lambda: driver.do("status")["number"] == wanted, "it follows the other one")
        until(lambda: driver.do("status")["reason"] == "", "it is fresh")
        bench.same("a decision", driver.reason(*asked), "allowed")
