"""Separation of duty through the hierarchy: sets that a role meets by inheritance, roles that nobody can have, and barred seniors."""

from front.batches import batch

from .browser import Browser, bank

# chief inherits from both roles of the dynamic set cash, and double from both of the static set audit; board inherits from chief.
LINES = [
    {"fn": "addRole", "role": "chief"},
    {"fn": "addInheritance", "asc": "chief", "desc": "cashier"},
    {"fn": "addInheritance", "asc": "chief", "desc": "cash supervisor"},
    {"fn": "addAscendant", "asc": "board", "desc": "chief"},
    {"fn": "addRole", "role": "double"},
    {"fn": "addInheritance", "asc": "double", "desc": "auditor"},
    {"fn": "addInheritance", "asc": "double", "desc": "branch manager"},
    {"fn": "assignUser", "user": "frank", "role": "chief"},
    {"fn": "addPermission", "object": "vault", "operation": "paint"},
    {"fn": "grantPermission", "object": "vault", "operation": "paint", "role": "chief"},
    {"fn": "grantPermission", "object": "vault", "operation": "paint", "role": "cashier"},
]


def filled(bench, front):
    bench.same("the office", {*batch(front, LINES)[1]}, {'{"ok":true}'})


def judge(bench, what, text, *wanted):
    bench.judge(what, [f"{one} isn't in {text}" for one in wanted if one not in text])


def check_roles(bench):
    """The page of a role names the sets that it meets by inheritance, and says whether anybody can have it."""
    with bank(bench) as front, Browser(bench, front) as page:
        filled(bench, front)
        page.open("roles", "chief")
        judge(
            bench,
            "a role that no session can have",
            page.text(),
            "No session can have this role: it includes cash supervisor and cashier, and cash (dynamic) allows one of cash supervisor and cashier.",
            "cash (dynamic): at most one of cash supervisor and cashier. By inheritance the role includes cash supervisor and cashier. It can never be activated.",
        )
        page.go("roles", "board")
        judge(bench, "its senior role", page.text(), "No session can have this role: it includes cash supervisor and cashier")
        page.go("roles", "double")
        judge(
            bench,
            "a role that nobody can be authorized for",
            page.text(),
            "Nobody can be authorized for this role: it includes auditor and teller, and audit (static) allows one of auditor and teller.",
            "Nobody can be authorized for it.",
        )
        page.go("roles", "branch manager")
        judge(
            bench,
            "a set that is met through one role",
            page.text(),
            "audit (static): at most one of auditor and teller. By inheritance the role includes teller. Who has the role can't become auditor or double.",
        )
        bench.same("anybody can have it", "can never be activated" in page.text() or "Nobody can be" in page.text(), False)
        page.go("roles", "cashier")
        judge(bench, "a member itself", page.text(), "A session with the role can't have cash supervisor, board or chief.")
        front.ask("addRole", {"role": "free"})
        page.go("roles", "free")
        judge(bench, "no set", page.text(), "Neither the role nor one from which it inherits is in a set.")


def check_users(bench):
    """The page of a user names the senior roles that a set bars too, and marks a role that can never be activated."""
    with bank(bench) as front, Browser(bench, front) as page:
        filled(bench, front)
        page.open("users", "erin")
        judge(bench, "barred", page.text(), "audit (static): has auditor. Can't become teller, branch manager or double.")
        bench.same(
            "so it is",
            page.submit("Assign", "Assign a role", Role="branch manager"),
            "erin can't become branch manager: erin is auditor, and audit allows one of auditor, teller.",
        )
        page.go("users", "frank")
        judge(
            bench,
            "a role without use",
            page.text(),
            "chief can never be activated",
            "cash (dynamic): has cash supervisor and cashier. No session may have both.",
        )
        page.go("users", "dave")
        bench.same("roles of use", "can never be activated" in page.text(), False)


def check_sets(bench):
    """The page of a set names the roles that include too many of its members, and the users whom it bars from a senior role."""
    with bank(bench) as front, Browser(bench, front) as page:
        filled(bench, front)
        page.open("separation", "static", "audit")
        judge(
            bench,
            "static",
            page.text(),
            "Nobody can be authorized for a role that includes too many of them: double.",
            "erin\tauditor\tcan't become teller or branch manager",
            "ann\tteller\tcan't become auditor",
        )
        page.go("separation", "dynamic", "cash")
        judge(
            bench,
            "dynamic",
            page.text(),
            "A role that includes too many of them can never be activated: board and chief.",
            "frank\tcash supervisor and cashier\tnot all in one session",
        )
        lines = [{"fn": "addRole", "role": one} for one in ("a", "b", "c", "ab")]
        lines += [{"fn": "addInheritance", "asc": "ab", "desc": one} for one in ("a", "b")]
        lines += [
            {"fn": "createSsdSet", "set": "three", "roles": ["a", "b", "c"], "cardinality": 3},
            {"fn": "assignUser", "user": "frank", "role": "c"},
        ]
        bench.same("a larger set", {*batch(front, lines)[1]}, {'{"ok":true}'})
        page.go("separation", "static", "three")
        judge(bench, "one role away by a senior role", page.text(), "frank\tc\tcan't become ab")
        page.go("users", "frank")
        judge(bench, "the user", page.text(), "three (static): has c. May have 1 more of a and b. Can't become ab.")


def check_objects(bench):
    """Who may do something: only those who may are counted; the locked one and the one whose role can't be activated are named apart."""
    with bank(bench) as front, Browser(bench, front) as page:
        filled(bench, front)
        front.ask("assignUser", {"user": "grace", "role": "chief"})
        front.ask("assignUser", {"user": "ann", "role": "cashier"})
        page.open("objects", "vault")
        section = page.run(
            "return [...document.querySelectorAll('section')].findIndex(one => one.textContent.startsWith('Operation paint')) + 1"
        )
        page.click("Who may do it, and why", f"section:nth-of-type({section})")
        page.until(lambda: "Users who may do it" in page.text(), "who may do it")
        text = page.text()
        judge(
            bench,
            "who may",
            text,
            "chief can never be activated",
            "Users who may do it: 3\nUser\tBecause\t\nann\tauthorized for cashier\tWhy\nfrank\tauthorized for cashier\tWhy\ngrace\tauthorized for cashier\tWhy",
            "Users with such a role who may not do it: 1\nUser\tBecause\t\ndave\tlocked\tWhy",
        )
        front.ask("revokePermission", {"object": "vault", "operation": "paint", "role": "cashier"})
        page.go("objects", "vault")
        page.click("Who may do it, and why", f"section:nth-of-type({section})")
        page.until(lambda: "who may not do it" in page.text(), "who may not do it")
        judge(
            bench,
            "who may not",
            page.text(),
            "Nobody may do it.",
            "Users with such a role who may not do it: 2",
            "frank\tno session can have chief, which cash forbids\tWhy",
        )
        for user, allowed in (("frank", "frank may not do paint on vault."), ("grace", "grace may not do paint on vault.")):
            page.go("explain", user, "paint", "vault")
            judge(bench, f"as Explain decides about {user}", page.text(), f"No. {allowed}")


def check_locked(bench):
    """A locked user is marked, and not counted among those who may do something."""
    with bank(bench) as front, Browser(bench, front) as page:
        page.open("objects", "drawer")
        page.click("Who may do it, and why")
        page.until(lambda: "dave" in page.text(), "who may do it")
        judge(bench, "dave", page.text(), "Nobody may do it.", "who may not do it: 1", "dave\tlocked")
