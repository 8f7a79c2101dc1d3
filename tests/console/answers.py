"""Only what the front has answered counts: answers of something in between, lost ones, and commands that the browser sends again."""

import json

from .between import FOREIGN, Between, answered
from .browser import Browser, bank
from .lost import LOST, UNREAD
from .pages import AGAIN, value, value_rows
from .reviews import begin, decide
from .trying import attempt, line

UNSAID = "The front hasn't said whether this is done."
NOT_YET = f"{UNSAID} It isn't so now, but may still be done: look again in two minutes, before you repeat it."
# What something in between answers to a command: before the front has got it, and afterwards. Chromium sends it again at 408.
STATUSES = (502, 504, 408, 500, 429, 403, 200)
# Answers in JSON that the front doesn't write.
OTHERS = (
    b'{"status":502,"error":"Bad Gateway"}', b'{"code":502,"error":"Unavailable"}', b'{"code":14,"error":"no upstream"}', b"null", b'"ok"', b"[]",
)  # fmt: skip


def console(bench, front, between):
    """A browser at the console behind a proxy."""
    page = Browser(bench, front)
    page.url = f"http://127.0.0.1:{between.port}/console/"
    return page


def pressed(page, *names):
    """What is said when buttons were pressed one after the other."""
    page.run("document.getElementById('notice').replaceChildren()")
    for name in names:
        page.click(name)
    return page.notice()


def judge_so(bench, what, said, sentence):
    bench.same(what, said.removeprefix(f"{UNSAID} "), f"It is so now: {sentence} {AGAIN}")


def check_done(bench):
    """A command whose answer is replaced is never said to be refused: the page says that it is so now, and shows it."""
    with bank(bench) as front, Between(front) as between, console(bench, front, between) as page:
        page.open("users", "frank")
        for status in STATUSES:
            between.when("POST", "/v1/assignUser", between.replaced(answered(status)))
            judge_so(bench, f"{status}", page.submit("Assign", "Assign a role", Role="cashier"), "frank is assigned to cashier.")
            page.until(lambda: page.find("Remove the assignment to cashier"), "the page as it is now")
            bench.same("nothing is typed any more", page.run("return document.querySelector('[data-key=role]').value"), "")
            bench.same("it is done", value(front, "assignedRoles", user="frank"), ["cashier"])
            between.when("POST", "/v1/deassignUser", between.replaced(answered(status)))
            said = pressed(page, "Remove the assignment to cashier")
            judge_so(bench, f"removed, and {status}", said, "frank is no longer assigned to cashier.")
            page.until(lambda: not page.find("Remove the assignment to cashier"), "the page as it is now")
        page.go("users", "carol")
        between.when("POST", "/v1/lockUserAccount", between.replaced(answered(504)))
        said = pressed(page, "Lock carol", "Lock carol: yes")
        bench.same("locked", said, f"{UNSAID} It is so now: carol is locked, without sessions. {AGAIN}")
        bench.same("carol is locked", value_rows(front, "locked"), ["carol", "dave"])
        page.until(lambda: page.find("Unlock carol"), "the page as it is now")


def check_not_done(bench):
    """A command that never came to the front is never said to be done, nor to be refused."""
    with bank(bench) as front, Between(front) as between, console(bench, front, between) as page:
        page.open("users")
        answers = [answered(status) for status in STATUSES]
        answers += [answered(status, body, "application/json") for body in OTHERS for status in (200, 502)]
        for number, answer in enumerate(answers):
            between.when("POST", "/v1/addUser", lambda _, answer=answer: answer, times=9)
            bench.same(f"{answer[:40]}, {answer[-40:]}", page.submit("Add", "Add a user", Name=f"ghost {number}"), NOT_YET)
            between.rules.clear()
            typed = page.run("return document.querySelector('form[aria-label=\"Add a user\"] input').value")
            bench.same("what was typed is there still", typed, f"ghost {number}")
        bench.same("nobody was added", [one for one in value_rows(front, "users") if one.startswith("ghost")], [])
        between.when("POST", "/v1/addUser", lambda _: answered(503, b'{"code":60,"error":"Unavailable"}', "application/json"))
        bench.same("the front doesn't know", page.submit("Add", "Add a user", Name="ghost"), NOT_YET)
        between.when("POST", "/v1/addUser", lambda _: answered(502))
        between.when("POST", "/lists", lambda _: answered(502), '"user":"ghost"', times=9)
        bench.same("nor can the page look", page.submit("Add", "Add a user", Name="ghost"), LOST)


def check_reading(bench):
    """What something in between answers to a question is no answer, and no refusal."""
    with bank(bench) as front, Between(front) as between, console(bench, front, between) as page:
        page.open("explain")
        form = "Ask whether something is allowed"
        for answer in (answered(200), answered(502), answered(404), answered(200, b"{}", "application/json")):
            between.when("POST", "/explain", lambda _, answer=answer: answer)
            said = page.submit("Explain", form, Name="ann", do_the_operation="open", on_the_object="vault")
            bench.same(f"explain: {answer[:20]}", (said, page.text("#answer")), (UNREAD, ""))
            between.when("POST", "/lists", lambda _, answer=answer: answer, '{"list":"users","limit":1000')
            page.go("users")
            bench.same(f"users: {answer[:20]}", UNREAD in page.text(), True)
            page.go("explain")
        for method, path, segments in (
            ("GET", "/healthz", ("",)),
            ("GET", "/room", ("",)),
            ("GET", "/record", ("record",)),
            ("POST", "/reports/room", ("reports", "room")),
        ):
            for status in (200, 502):
                between.when(method, path, lambda _, status=status: answered(status), times=2)
                page.go(*segments)
                bench.same(f"{path}: {status}", (UNREAD in page.text(), "Sorry" in page.text()), (True, False))
                between.rules.clear()
        between.when("GET", "/picture", lambda _: answered(200))
        page.go("roles", "teller")
        bench.same("no picture", ("The picture couldn't be drawn" in page.text(), page.elements(".picture img")), (True, []))
        between.when("GET", "/caller", lambda _: answered(502))
        page.driver.get(page.url)
        page.until(lambda: "The front doesn't answer." in page.text(), "no form to log in")
        bench.same("no form to log in", page.elements("input[type=password]"), [])


def lose(between, *ways):
    """Loses the answer to the next request for each path: the browser sends it again if the connection was used before."""
    for method, path in ways:
        between.when(method, path, between.lost)


def check_again(bench):
    """One click whose answer is lost, and that the browser sends again by itself, is never said to be refused."""
    with bank(bench) as front, Between(front) as between, console(bench, front, between) as page:
        page.open("users")
        lose(between, ("POST", "/v1/addUser"))
        judge_so(bench, "a user", page.submit("Add", "Add a user", Name="once"), "once is a user now.")
        page.go("users", "once")
        lose(between, ("POST", "/v1/assignUser"))
        judge_so(bench, "a role", page.submit("Assign", "Assign a role", Role="cashier"), "once is assigned to cashier.")
        lose(between, ("POST", "/v1/deassignUser"), ("POST", "/v1/deleteUser"))
        judge_so(bench, "no role", pressed(page, "Remove the assignment to cashier"), "once is no longer assigned to cashier.")
        judge_so(bench, "no user", pressed(page, "Delete once", "Delete once: yes"), "once is deleted.")
        page.until(lambda: page.find("erin"), "the users")
        bench.same("the user is gone", page.find("once"), None)
        page.go("users", "ann")
        (session,) = value_rows(front, "sessions", user="ann")
        lose(between, ("DELETE", f"/sessions/{session['session']}"))
        judge_so(bench, "no session", pressed(page, f"End the session {session['session'][:8]}"), "A session of ann has ended.")
        page.go("separation")
        form = "Add a static set of two roles, of which one is allowed"
        lose(between, ("POST", "/v1/createSsdSet"))
        given = page.submit("Add a static set", form, Name="two", First_member="cashier", Second_member="auditor")
        judge_so(bench, "a set", given, "There is the static set two: at most one of cashier and auditor.")
        given = page.submit("Add a static set", form, Name="two", First_member="cashier", Second_member="teller")
        bench.same("another set", given, "The static set two can't be made: there already is a set of this kind with this name.")
        return {"requests of one click": between.count("/v1/addUser")}


def check_review(bench):
    """The end of a review whose answer is lost is found in the record, so that nobody records it once more."""
    with bank(bench) as front, Between(front) as between, console(bench, front, between) as page:
        page.open("review")
        begin(page, "Q4", choice="those who are assigned to the role", which="auditor")
        decide(page, "auditor of erin", "keep")
        between.when("POST", "/reviews", between.replaced(answered(504)))
        said = pressed(page, "End the review", "End the review: yes")
        bench.same("it has ended", said.startswith("The review has ended: entry "), True)
        ended = [one["number"] for one in entries_of(front) if one["request"].get("record") == "reviewed"]
        bench.same("the number of its entry", [f"entry {one} of the record" in said for one in ended], [True])


def entries_of(front):
    return json.loads(front.exchange("GET", "/record?limit=50")[1])["value"]["entries"]


def check_batch(bench):
    """Several commands whose answers are lost, or that the browser sends again: the page says which of them are so now."""
    with bank(bench) as front, Between(front) as between, console(bench, front, between) as page:
        page.open("what-if")
        lines = [line("assignUser", user="frank", role="auditor"), line("addUser", user="zoe")]
        for what, act in (
            ("502", between.replaced(answered(502))),
            ("200", between.replaced(answered(200, b'{"ok":true}\n', "application/jsonl"))),
            ("sent again", between.lost),
        ):
            attempt(page, *lines)
            between.when("POST", "/v1/batch", act, "assignUser")
            given = pressed(page, "Do 2 commands in the office", "Do 2 commands in the office: yes")
            wanted = " Of 2 commands, 2 are so now, done by this click or by somebody else."
            bench.same(what, given[given.index(".") + 1 :], wanted)
            shown = [f"is so now\t{one}" in page.text("#answer") for one in ("frank is assigned to auditor.", "zoe is a user now.")]
            bench.same(f"{what}: each of them", shown, [True, True])
            bench.same(f"{what}: they are done", value(front, "assignedRoles", user="frank"), ["auditor"])
            front.ask("deassignUser", {"user": "frank", "role": "auditor"})
            front.ask("deleteUser", {"user": "zoe"})
        attempt(page, *lines)
        between.when("POST", "/v1/batch", lambda _: answered(200, FOREIGN), "assignUser")
        bench.same("a portal", pressed(page, "Do 2 commands in the office", "Do 2 commands in the office: yes"), NOT_YET)
        bench.same("nothing is done", value(front, "assignedRoles", user="frank"), [])
