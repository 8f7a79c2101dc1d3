"""A front that goes away and comes back while somebody uses the console."""

from front.program import until

from .browser import Browser, bank
from .pages import value_rows

LOST = "The front doesn't answer. What you asked for may or may not have been done: look again when it answers."
UNREAD = "This could not be read, since the front doesn't answer."


def start_again(front):
    """Starts a front that was killed, and waits until its office answers: it listens earlier."""
    front.start()
    until(lambda: front.exchange("GET", "/healthz")[0] == 200, "the office answers")


def check_lost(bench):
    """An action and a page say that nothing answers; when the front is back, both can be tried again without a new page."""
    with bank(bench) as front, Browser(bench, front) as page:
        page.open("users", "frank")
        front.kill()
        bench.same("an action", page.submit("Assign", "Assign a role", Role="cashier"), LOST)
        page.go("roles")
        bench.same("a page", (UNREAD in page.text(), LOST in page.text()), (True, False))
        start_again(front)
        page.follow("Try again")
        bench.same("the page again", "Hierarchy" in page.text(), True)
        page.go("users", "frank")
        bench.same("the action again", page.submit("Assign", "Assign a role", Role="cashier"), "frank is assigned to cashier.")
        bench.same("the office", {"user": "frank", "role": "cashier"} in value_rows(front, "assignments"), True)
