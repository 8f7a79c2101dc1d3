"""A page shows one revision of the policy, also while somebody else changes it; what is refused is shown as it is now."""

import re
import threading

from front.batches import batch

from .answers import console, pressed
from .between import Between
from .browser import Browser, bank
from .many import THROUGH, shown
from .pages import value

MIXED = "The policy changes while this is read, so parts of it may not fit together. Refresh the page."
STALE = "somebody has changed the policy since this page was read, and it is shown again as it is now."


def in_order(between, first, change, *later):
    """Has a change made after the first request is answered, and later ones answered after it, whenever they were sent."""
    changed = threading.Event()

    def act(request):
        answer = between.followed(change)(request)
        changed.set()
        return answer

    def wait(request):
        changed.wait(60)
        return between.passed_on(request)

    between.when("POST", "/lists", act, first)
    for method, path, part in later:
        between.when(method, path, wait, part)


def check_role(bench):
    """A user who is assigned while the page of a role is read isn't said to be authorized through a senior role."""
    with bank(bench) as front, Between(front) as between, console(bench, front, between) as page:
        page.open("users")
        # Together with others or alone: whichever the page asks.
        asked = (("POST", "/v1/authorizedUsers", ""), ("POST", "/v1/batch", '"authorizedUsers"'))
        in_order(between, '{"list":"roles","limit":1000,"role":"auditor"', ("assignUser", {"user": "frank", "role": "auditor"}), *asked)
        page.go("roles", "auditor")
        page.until(lambda: page.find("frank"), "the new user")
        bench.same("no senior role", ("No role inherits from this one." in page.text(), THROUGH in page.text()), (True, False))
        bench.same("assigned", shown(page, "Assigned users"), ["Assigned users: 2", ["erin", "frank"]])
        bench.same("it is of one revision", MIXED in page.text(), False)


def check_user(bench):
    """A role that is assigned while the page of a user is read isn't said to come by inheritance."""
    with bank(bench) as front, Between(front) as between, console(bench, front, between) as page:
        page.open("users")
        asked = (("POST", "/v1/authorizedRoles", ""), ("POST", "/v1/batch", '"authorizedRoles"'))
        in_order(between, '{"list":"users","limit":1000,"user":"frank"', ("assignUser", {"user": "frank", "role": "cashier"}), *asked)
        page.go("users", "frank")
        page.until(lambda: "cashier" in page.text(), "the new role")
        found = ("Also authorized, by inheritance" in page.text(), page.find("Remove the assignment to cashier") is not None)
        bench.same("not by inheritance", found, (False, True))


def check_picture(bench):
    """A role that comes while the picture of its neighbour is drawn is in the list beside the picture too."""
    with bank(bench) as front, Between(front) as between, console(bench, front, between) as page:
        page.open("users")
        change = ("addAscendant", {"asc": "chief", "desc": "auditor"})
        in_order(between, '{"list":"roles","limit":1000,"role":"auditor"', change, ("GET", "/picture", ""))
        page.go("roles", "auditor")
        page.until(lambda: page.elements(".picture img"), "a picture")
        text = page.run("return document.querySelector('.picture img').alt")
        bench.same("in the text of the picture", text.startswith("The role with 1 senior role and 0 junior roles"), True)
        bench.same("in the list", page.find("Remove the inheritance from chief") is not None, True)


def check_late(bench):
    """What is read later, when it is opened, shows the whole page as it is then; it stays open, and what is typed stays."""
    with bank(bench) as front, Browser(bench, front) as page:
        page.open("objects", "vault")
        page.fill("Grant to the role", "tell", "Grant open")
        front.ask("grantPermission", {"object": "vault", "operation": "open", "role": "cashier"})
        page.click("Who may do it, and why", "section:nth-of-type(2)")
        page.until(lambda: "ann\tauthorized for branch manager" in page.text(), "who may do it")
        found = (page.find("Revoke open from cashier") is not None, "dave\tlocked" in page.text())
        bench.same("the page is as it is now", found, (True, True))
        typed = page.run("return document.querySelector('form[aria-label=\"Grant open\"] input').value")
        bench.same("what was typed", typed, "tell")
        page.until(lambda: page.run("return document.activeElement.tagName") == "SUMMARY", "the focus is where it was")


def check_explained(bench):
    """A reason that is read after the answer fits it: who has got the permission meanwhile isn't said to lack the role."""
    with bank(bench) as front, Between(front) as between, console(bench, front, between) as page:
        page.open("explain")
        change = ("grantPermission", {"object": "drawer", "operation": "open", "role": "auditor"})
        between.when("POST", "/explain", between.followed(change))
        form = "Ask whether something is allowed"
        for label, text in (("Name", "erin"), ("do the operation", "open"), ("on the object", "drawer")):
            page.fill(label, text, form)
        page.click("Explain", f'form[aria-label="{form}"]')
        page.until(lambda: page.text("#answer"), "an answer")
        found = [one in page.text("#answer") for one in ("Yes. erin may do open on drawer.", "is not authorized")]
        bench.same("the answer", found, [True, False])


def check_long_lists(bench):
    """A list that is longer than one answer is of one moment: what comes and what goes between its parts."""
    with bank(bench) as front, Between(front) as between, console(bench, front, between) as page:
        for first in range(0, 1_100, 100):
            lines = [{"fn": "addUser", "user": f"u{number:04}"} for number in range(first, first + 100)]
            bench.same("the office", {*batch(front, lines)[1]}, {'{"ok":true}'})
        page.open("roles")
        changes = [("addUser", {"user": "aaa"}), ("deleteUser", {"user": "u1099"})]
        between.when("POST", "/lists", between.followed(*changes), '"list":"users"')
        page.go("users")
        wanted = "Users in the order of their names: 1 to 100 of 1,107"
        bench.same("all of one moment", (wanted in page.text(), page.find("aaa") is not None), (True, True))


def check_changing(bench):
    """While the policy changes all the time, a page is read again some times, and then says so; nothing is deleted from it."""
    with bank(bench) as front, Between(front) as between, console(bench, front, between) as page:
        page.open("roles")
        changed = threading.Semaphore(0)

        def change(request):
            answer = between.followed(("addRole", {"role": f"r{len(between.seen)}"}))(request)
            changed.release()
            return answer

        def wait(request):
            changed.acquire(timeout=60)
            return between.passed_on(request)

        between.when("POST", "/lists", change, '{"list":"users","limit":1000,"user":"frank"', times=1_000)
        between.when("POST", "/v1/batch", wait, '"authorizedRoles"', times=1_000)
        page.go("users", "frank")
        bench.same("it says so", MIXED in page.text(), True)
        bench.same("some times", 1 < between.count("/lists") < 30, True)
        bench.same("nothing is deleted", pressed(page, "Delete frank", "Delete frank: yes"), f"frank can't be deleted: {STALE}")
        bench.same("frank is there", value(front, "assignedRoles", user="frank"), [])
        between.rules.clear()
        page.follow("Refresh the page")
        bench.same("a page of one revision", MIXED in page.text(), False)
        bench.same("it can be deleted", pressed(page, "Delete frank", "Delete frank: yes"), "frank is deleted.")


def check_refused(bench):
    """After a refusal the page is shown as it is now, with the notice, the focus and what was typed."""
    with bank(bench) as front, Browser(bench, front) as page:
        page.open("users", "frank")
        front.ask("assignUser", {"user": "frank", "role": "auditor"})
        said = page.submit("Assign", "Assign a role", Role="teller")
        bench.same("refused", said, "frank can't become teller: frank is auditor, and audit allows one of auditor, teller.")
        page.until(lambda: page.find("Remove the assignment to auditor"), "the page as it is now")
        bench.same("the notice is there", page.said(), said)
        bench.same("nearness", "has auditor. Can't become teller or branch manager." in page.text(), True)
        page.until(lambda: page.run("return document.activeElement.dataset.key") == "role", "the focus")
        bench.same("what was typed", page.run("return document.activeElement.value"), "teller")
        front.ask("deassignUser", {"user": "frank", "role": "auditor"})
        said = pressed(page, "Remove the assignment to auditor")
        so = "It is so now: frank is no longer assigned to auditor. It may have been done by this click or by somebody else."
        bench.same("removed by somebody else", said, so)
        page.until(lambda: not page.find("Remove the assignment to auditor"), "the row is gone")
        bench.same("one by one", page.submit("Assign", "Assign a role", Role="cashier"), "frank is assigned to cashier.")
        page.until(lambda: page.find("Remove the assignment to cashier"), "the new role")
        bench.same("nothing is typed now", page.run("return document.querySelector('[data-key=role]').value"), "")


def check_deleted(bench):
    """`Delete` deletes only what the page has shown: not a user, a role, an object or a set that somebody else has made meanwhile."""
    with bank(bench) as front, Browser(bench, front) as page:
        front.ask("addRole", {"role": "clerk"})
        front.ask("addPermObj", {"object": "safe"})
        front.ask("createSsdSet", {"set": "two", "roles": ["auditor", "cashier"], "cardinality": 2})
        for segments, name, sentence, again in (
            (("users", "frank"), "Delete frank", "frank can't be deleted",
             [("deleteUser", {"user": "frank"}), ("addUser", {"user": "frank"})]),
            (("roles", "clerk"), "Delete the role clerk", "The role clerk can't be deleted",
             [("deleteRole", {"role": "clerk"}), ("addRole", {"role": "clerk"}), ("assignUser", {"user": "erin", "role": "clerk"})]),
            (("objects", "safe"), "Delete the object safe", "safe can't be deleted",
             [("deletePermObj", {"object": "safe"}), ("addPermObj", {"object": "safe"})]),
            (("objects", "drawer"), "Delete the permission for open", "The permission for open on drawer can't be deleted",
             [("grantPermission", {"object": "drawer", "operation": "open", "role": "auditor"})]),
            (("separation", "static", "two"), "Delete the set two", "the static set two can't be deleted",
             [("addSsdRoleMember", {"set": "two", "role": "teller"})]),
        ):  # fmt: skip
            page.open(*segments)
            for function, values in again:
                bench.same(f"{function} {values}", front.ask(function, values)[0], 200)
            bench.same(name, pressed(page, name, f"{name}: yes"), f"{sentence}: {STALE}")
            page.settle()
            bench.same(f"{name}, seen now", pressed(page, name, f"{name}: yes").endswith(" deleted."), True)


def check_without_revisions(bench):
    """Behind a proxy that takes the revision out of the answers, pages are shown and users deleted all the same."""
    with bank(bench) as front, Between(front) as between, console(bench, front, between) as page:

        def without(request):
            return re.sub(rb"(?i)\r\nPolicy-Revision: \d+", b"", between.passed_on(request))

        for path in ("/lists", "/v1/batch", "/explain"):
            between.when("POST", path, without, times=1_000)
        page.open("users", "frank")
        bench.same("shown", (MIXED in page.text(), between.count("/lists")), (False, 1))
        bench.same("deleted", pressed(page, "Delete frank", "Delete frank: yes"), "frank is deleted.")
