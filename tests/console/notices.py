"""Notices: they go with the next action and with the page, can be dismissed, and cover nothing. Refresh, Back, the focus."""

from selenium.webdriver.common.keys import Keys

from .browser import SECONDS, Browser, bank
from .lost import LOST, UNREAD, start_again
from .reviews import begin, decide
from .trying import line

TAKEN = "erin can't become teller: erin is auditor, and audit allows one of auditor, teller."

# What can be pressed in the window and isn't at its place when somebody looks there.
COVERED = """
return [...document.querySelectorAll("a[href], button, input, select, summary")].filter(one => {
    const box = one.getBoundingClientRect();
    const [x, y] = [box.left + box.width / 2, box.top + box.height / 2];
    const page = document.getElementById("page")?.getBoundingClientRect() ?? { top: 0, bottom: innerHeight };
    const isShown = one.checkVisibility() && box.width > 0 && x >= 0 && x < innerWidth && y >= Math.max(0, page.top) && y < page.bottom;
    return isShown && !one.closest("#notice") && document.elementFromPoint(x, y)?.closest("#notice");
}).map(one => one.textContent || one.outerHTML);
"""


def refused(page):
    """A notice that something is refused."""
    return page.submit("Assign", "Assign a role", Role="teller")


def check_gone(bench):
    """A notice goes with the next action, with another page by a link or by its address, by a press and by a key."""
    with bank(bench) as front, Browser(bench, front) as page:
        page.open("users", "erin")
        for what, leave in [
            ("a link", lambda: page.follow("ann")),
            ("an address", lambda: page.run("location.hash = '#/users/ann'")),
            ("the way back", lambda: page.driver.back()),
            ("the same link", lambda: page.click("Users", "nav") or page.go("users", "erin")),
            ("the key", lambda: page.keys(Keys.ESCAPE)),
            ("a press", lambda: page.click("Dismiss the notice")),
            ("the next action", lambda: page.click("Delete erin")),
        ]:
            page.go("users")
            page.go("users", "erin")
            bench.same("a refusal", refused(page), TAKEN)
            page.settle()
            if what == "a link":
                page.run("document.querySelector('main').insertAdjacentHTML('beforeend', '<a href=\"#/users/ann\">ann</a>')")
            leave()
            page.until(lambda: not page.said(), f"the notice is gone by {what}", SECONDS / 10)
            bench.same(f"gone by {what}", page.said(), "")
        page.go("what-if")
        page.run("document.getElementById('commands').value = 'nothing'")
        page.click("Try")
        bench.same("a complaint", page.notice().startswith("Line 1 is no command"), True)
        page.run("document.getElementById('commands').value = arguments[0]", line("addUser", user="zoe"))
        page.click("Try")
        page.until(lambda: "zoe is a user now." in page.text("#answer"), "an answer")
        bench.same("nothing is left of the complaint", page.said(), "")


def check_kept(bench):
    """What was done is said on the page that it leads to."""
    with bank(bench) as front, Browser(bench, front) as page:
        page.open("users", "frank")
        page.click("Delete frank")
        page.click("Delete frank: yes")
        page.until(lambda: page.find("carol"), "the users")
        bench.same("it is said", page.notice(), "frank is deleted.")
        page.follow("carol")
        bench.same("and not on the next page", page.said(), "")


def check_covers(bench):
    """No notice is above anything that can be pressed, wherever the page is scrolled to."""
    with bank(bench) as front, Browser(bench, front) as page:
        page.open("users", "erin")
        for width, height in ((1440, 900), (390, 700)):
            page.resize(width, height)
            page.go("users", "erin")
            bench.same("a refusal", refused(page), TAKEN)
            for part in (0, 0.3, 0.7, 1):
                page.run(
                    "const one = document.getElementById('page') ?? document.documentElement;"
                    "one.scrollTop = arguments[0] * (one.scrollHeight - one.clientHeight)",
                    part,
                )
                bench.same(f"covered at {width}, {part}", page.run(COVERED), [])
                bench.same("the notice is there", page.said(), TAKEN)


def check_lost(bench):
    """What could not be read is said to be so; only of a change it is said that it may have been done."""
    with bank(bench) as front, Browser(bench, front) as page:
        page.open("users", "frank")
        page.go("objects", "drawer")
        front.kill()
        page.click("Who may do it, and why")
        page.until(lambda: "Users\n" in page.text() and "front doesn't answer" in page.text(), "the lost answer")
        bench.same("a part of a page", (UNREAD in page.text(), "may or may not" in page.text()), (True, False))
        for segments in (
            ("users",),
            ("users", "erin"),
            ("roles", "teller"),
            ("separation", "static", "audit"),
            ("record",),
            ("reports", "room"),
            ("",),
        ):
            page.go(*segments)
            bench.same(f"{segments}", (UNREAD in page.text(), "may or may not" in page.text()), (True, False))
        start_again(front)
        page.go("reports", "permissions")
        front.kill()
        page.click("Download CSV")
        bench.same("a file", page.notice(), UNREAD)
        start_again(front)
        page.go("explain")
        front.kill()
        form = "Ask whether something is allowed"
        bench.same(
            "a question", page.submit("Explain", form, Name="ann", do_the_operation="open", on_the_object="vault"), UNREAD
        )
        start_again(front)
        page.go("users", "ann")
        front.kill()
        digest = page.run("return document.querySelector('.mono').textContent")[:8]
        page.click(f"End the session {digest}")
        bench.same("the end of a session", page.notice(), LOST)


def check_again(bench):
    """The same link and Refresh show what is new; Back leads to where the page was; a review isn't lost without a question."""
    with bank(bench) as front, Browser(bench, front) as page:
        page.open("users")
        for user, name, within in (("new 1", "Users", "nav"), ("new 2", "Refresh the page", None)):
            front.ask("addUser", {"user": user})
            page.follow(name, within)
            page.until(lambda user=user: page.find(user), f"{user} after {name}")
            bench.same(f"{user} after {name}", page.find(user) is not None, True)
        page.resize(700, 300)
        page.go("users")
        place = "return (document.getElementById('page') ?? document.documentElement).scrollTop"
        page.run("(document.getElementById('page') ?? document.documentElement).scrollTop = 150")
        page.go("users", "erin")
        bench.same("a new page begins at its top", page.run(place), 0)
        page.mark()
        page.driver.back()
        page.settle()
        page.until(lambda: page.run(place) == 150, "where the page was")
        bench.same("where the page was", page.run(place), 150)
        asks = "const event = new Event('beforeunload', { cancelable: true }); dispatchEvent(event); return event.defaultPrevented;"
        page.go("review")
        begin(page, "Q4")
        bench.same("nothing is to be lost yet", page.run(asks), False)
        decide(page, "cashier of dave", "keep")
        bench.same("a decision would be lost", page.run(asks), True)
        page.click("Save the review to a file")
        page.notice()
        bench.same("it is saved", page.run(asks), False)


NAMED = "const one = document.activeElement; return one.getAttribute('aria-label') ?? one.dataset.key ?? one.tagName"


def check_focus(bench):
    """After a change the focus is on the next row, or in the form again."""
    with bank(bench) as front, Browser(bench, front) as page:
        for role in ("cashier", "cash supervisor", "teller"):
            front.ask("assignUser", {"user": "frank", "role": role})
        page.open("users", "frank")
        for role, after in (("cash supervisor", "cashier"), ("teller", "cashier")):
            page.run("document.getElementById('notice').replaceChildren()")
            page.click(f"Remove the assignment to {role}")
            page.notice()
            page.until(lambda role=role: not page.find(f"Remove the assignment to {role}"), "it is removed")
            page.until(lambda: page.run(NAMED) != "H1", "the focus")
            bench.same(f"after {role}", page.run(NAMED), f"Remove the assignment to {after}")
        page.submit("Assign", "Assign a role", Role="teller")
        page.until(lambda: page.find("Remove the assignment to teller"), "it is assigned")
        page.until(lambda: page.run(NAMED) != "H1", "the focus")
        bench.same("in the form", (page.run(NAMED), page.run("return document.activeElement.value")), ("role", ""))
        page.run("document.getElementById('notice').replaceChildren()")
        page.click("Remove the assignment to teller")
        page.notice()
        page.click("Dismiss the notice")
        bench.same("after a notice", page.run("return document.activeElement !== document.body"), True)
