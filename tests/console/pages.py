"""Each page with its actions and its refusals, on the bank. What the office has afterwards is asked of the front."""

import json
import subprocess
import os

from front.batches import batch
from front.lists import listed
from front.recorded import digest
from front.running import PROGRAM
from machine.state import MOST

from .browser import Browser, bank


# What is said of a command that is refused as one that was done before.
AGAIN = "It may have been done by this click or by somebody else."


def value(front, function, **values):
    """What the office answers to a question."""
    return json.loads(front.ask(function, values)[1]).get("value")


def check_users(bench):
    """The users and one user: search, assign with a refusal in words, remove, lock, unlock, sessions, add and delete."""
    with bank(bench) as front, Browser(bench, front) as page:
        page.open("users")
        bench.same("the title", page.driver.title, "Users – Office console")
        bench.same(
            "the users", [page.find(name) is not None for name in ("ann", "carol", "dave", "erin", 'hall, "peg"')], [True] * 5
        )
        bench.same("dave is locked", "dave\tlocked" in page.text().replace("\n", "\t").replace("\t\t", "\t"), True)
        page.fill("Name contains", "an")
        page.follow("Search", 'form[aria-label="Search users"]')
        bench.same("found", [page.find(name) is not None for name in ("ann", "frank", "carol")], [True, True, False])
        page.go("users", "erin")
        bench.same("nearness", "audit (static): has auditor. Can't become teller or branch manager." in page.text(), True)
        bench.same("given by", "vault\tcount\tauditor" in page.text(), True)
        bench.same("the refusal", page.submit("Assign", "Assign a role", Role="teller"),
                   "erin can't become teller: erin is auditor, and audit allows one of auditor, teller.")  # fmt: skip
        bench.same("nothing was done", value(front, "assignedRoles", user="erin"), ["auditor"])
        page.go("users", "ann")
        bench.same("through a senior role", page.submit("Assign", "Assign a role", Role="auditor"),
                   "ann can't become auditor: ann is teller through branch manager, and audit allows one of auditor, teller.")  # fmt: skip
        bench.same(
            "no role",
            page.submit("Assign", "Assign a role", Role="queen"),
            "ann can't become queen: there is no such role as queen.",
        )
        bench.same("again", page.submit("Assign", "Assign a role", Role="branch manager"),
                   f"It is so now: ann is assigned to branch manager. {AGAIN}")  # fmt: skip
        bench.same("done", page.submit("Assign", "Assign a role", Role="cashier"), "ann is assigned to cashier.")
        page.settle()
        bench.same("it is done", value(front, "assignedRoles", user="ann"), ["branch manager", "cashier"])
        bench.same("it is shown", page.find("Remove the assignment to cashier") is not None, True)
        act(bench, page, "Remove the assignment to cashier", None, "ann is no longer assigned to cashier.")
        bench.same("a session", len(value_rows(front, "sessions", user="ann")), 1)
        digest = value_rows(front, "sessions", user="ann")[0]["session"]
        act(bench, page, f"End the session {digest[:8]}", None, "A session of ann has ended.")
        bench.same("no session", value_rows(front, "sessions", user="ann"), [])
        act(bench, page, "Lock ann", "Lock ann: yes", "ann is locked, without sessions.")
        bench.same("locked", value_rows(front, "locked"), ["ann", "dave"])
        act(bench, page, "Unlock ann", None, "ann is unlocked.")
        act(bench, page, "Delete ann", "Delete ann: yes", "ann is deleted.")
        page.until(lambda: page.find("carol"), "the users again")
        bench.same("the user exists", page.submit("Add", "Add a user", Name="carol"), f"It is so now: carol is a user now. {AGAIN}")
        bench.same("a name without letters", page.submit("Add", "Add a user", Name="x" * 65).endswith(
            "a name has 1 to 64 bytes and no control characters."), True)  # fmt: skip
        bench.same("a new user", page.submit("Add", "Add a user", Name="zoe"), "zoe is a user now.")
        bench.same("the users now", [name in value_rows(front, "users") for name in ("ann", "zoe")], [False, True])
        page.go("users", "nobody")
        bench.same("nobody", "There is no such user." in page.text(), True)
        bench.same("complaints", [one for one in page.complaints() if "409" not in one and "400" not in one], [])


def value_rows(front, name, **query):
    return listed(front, name, **query)[1]["value"]


def act(bench, page, name, confirmed, notice):
    """Presses a button, and the one that says that it is meant, and compares what is said."""
    page.run("document.getElementById('notice').replaceChildren()")
    page.click(name)
    if confirmed:
        page.click(confirmed)
    bench.same(name, page.notice(), notice)
    page.settle()


def check_first_of_many(bench):
    """Of many roles, permissions and members the first are shown, with a way to the others."""
    roles, operations = [f"r{number:02}" for number in range(13)], [f"o{number:02}" for number in range(25)]
    with bank(bench) as front, Browser(bench, front) as page:
        lines = [{"fn": "addRole", "role": one} for one in ("boss", *roles)]
        lines += [{"fn": "addInheritance", "asc": "boss", "desc": one} for one in roles] + [
            {"fn": "assignUser", "user": "frank", "role": "boss"}
        ]
        more = [{"fn": "addPermission", "object": "vault", "operation": one} for one in operations]
        more += [{"fn": "grantPermission", "object": "vault", "operation": one, "role": "r00"} for one in operations]
        sets = [{"fn": "createDsdSet", "set": f"s{number}", "roles": roles, "cardinality": 13 - number} for number in range(7)]
        bench.same("the office", {*batch(front, lines)[1], *batch(front, more)[1], *batch(front, sets)[1]}, {'{"ok":true}'})
        page.open("users", "frank")
        bench.same("ten roles", ("r09, and 3 more. Show all" in page.text(), "r10" in page.text()), (True, False))
        page.click("Show all roles of frank")
        bench.same("all roles", "r00, r01, r02, r03, r04, r05, r06, r07, r08, r09, r10, r11 and r12." in page.text(), True)
        bench.same("the focus is at them", page.run("return document.activeElement.textContent.startsWith('r00, ')"), True)
        bench.same(
            "five sets",
            ("s6 (dynamic)" in page.text(), "s1 (dynamic)" in page.text(), "These are the nearest 5 of 7 sets." in page.text()),
            (True, False, True),
        )
        bench.same("20 permissions", ("vault\to19\tr00" in page.text(), "o20" in page.text()), (True, False))
        page.click("Next: Permissions through all roles")
        page.until(lambda: "vault\to20" in page.text(), "the next ones")
        bench.same("the next ones", ("vault\to20\tr00" in page.text(), "vault\to19\tr00" in page.text()), (True, False))
        page.go("users", "frank")
        page.follow("All in a report")
        bench.same("all sets", all(f"s{number}" in page.text() for number in range(7)), True)
        page.go("separation")
        bench.same("five members", "s0\tat most 12 of 13\tr00, r01, r02, r03, r04, and 8 more" in page.text(), True)
        page.go("roles", "r00")
        bench.same("its sets", "These are the first 5 of 7 sets. All sets" in page.text(), True)


def check_roles(bench):
    """The hierarchy and one role: inherit, grant, revoke, assign, add and delete, each with refusals in words."""
    with bank(bench) as front, Browser(bench, front) as page:
        page.open("roles")
        tree = page.text().split("inherits from.")[1].split("Add a role")[0].split("\n")
        bench.same("the tree", [line for line in tree if line],
                   ["auditor", "branch manager (1)", "teller", "cash supervisor", "cashier"])  # fmt: skip
        bench.same("a role", page.submit("Add", "Add a role", Name="chief"), "chief is a role now.")
        page.go("roles", "chief")
        inherit = "Add an inheritance"
        bench.same("inherit", page.submit("Add", inherit, Role="branch manager"), "chief inherits from branch manager.")
        page.settle()
        bench.same(
            "again",
            page.submit("Add", inherit, Role="branch manager"),
            f"It is so now: chief inherits from branch manager. {AGAIN}",
        )
        bench.same("itself", page.submit("Add", inherit, Role="chief"), "chief can't inherit from chief: chief is the same role.")
        page.fill("Add a", "senior role", inherit)
        bench.same(
            "a cycle",
            page.submit("Add", inherit, Role="teller"),
            "teller can't inherit from chief: chief already inherits from teller.",
        )
        bench.same(
            "the edge",
            value_rows(front, "inheritances"),
            [{"asc": "branch manager", "desc": "teller"}, {"asc": "chief", "desc": "branch manager"}],
        )
        bench.same("a user", page.submit("Assign", "Assign a user", User="erin"),
                   "erin can't become chief: erin is auditor, and audit allows one of auditor, teller.")  # fmt: skip
        bench.same("another", page.submit("Assign", "Assign a user", User="frank"), "frank is assigned to chief.")
        page.settle()
        bench.same(
            "a grant",
            page.submit("Grant", "Grant a permission", Operation="open", Object="vault"),
            "open on vault is granted to chief.",
        )
        page.settle()
        bench.same("no operation", page.submit("Grant", "Grant a permission", Operation="burn", Object="vault"),
                   "burn on vault can't be granted to chief: no permission allows burn on vault.")  # fmt: skip
        page.settle()
        bench.same("the neighbours", page.run("return document.querySelector('.picture img')?.naturalWidth > 0"), True)
        bench.same("inherited", "account 17\tpost" in page.text(), True)
        act(bench, page, "Revoke open on vault", None, "open on vault is no longer granted to chief.")
        act(bench, page, "Delete the role chief", "Delete the role chief: yes",
            "The role chief can't be deleted: it has an inheritance or is in a separation of duty set; remove that first.")  # fmt: skip
        act(bench, page, "Remove the inheritance from branch manager", None, "chief no longer inherits from branch manager.")
        act(bench, page, "Remove the assignment of frank", None, "frank is no longer assigned to chief.")
        act(bench, page, "Delete the role chief", "Delete the role chief: yes", "The role chief is deleted.")
        bench.same("the roles", value_rows(front, "roles"), ["auditor", "branch manager", "cash supervisor", "cashier", "teller"])
        page.go("roles", "branch manager")
        page.fill("Add a", "junior role", inherit)
        bench.same("a user would have both", page.submit("Add", inherit, Role="auditor"),
                   "branch manager can't inherit from auditor: ann would be auditor and teller, carol would be auditor and teller, and audit allows one of auditor, teller.")  # fmt: skip


def check_objects(bench):
    """The objects and one object: who may do it and why; operations, grants."""
    with bank(bench) as front, Browser(bench, front) as page:
        page.open("objects")
        bench.same(
            "the objects", [page.find(name) is not None for name in ("account 17", "account 42", "drawer", "vault")], [True] * 4
        )
        bench.same("an object", page.submit("Add", "Add an object", Name="safe"), "safe is an object now.")
        page.go("objects", "safe")
        bench.same(
            "an operation", page.submit("Add", "Add an operation", Operation="open"), "There is a permission for open on safe."
        )
        page.settle()
        bench.same("again", page.submit("Add", "Add an operation", Operation="open"),
                   f"It is so now: There is a permission for open on safe. {AGAIN}")  # fmt: skip
        bench.same(
            "a grant", page.submit("Grant", "Grant open", Grant_to_the_role="auditor"), "open on safe is granted to auditor."
        )
        page.settle()
        page.click("Who may do it, and why")
        page.until(lambda: "erin\tauthorized for auditor" in page.text(), "who may do it")
        act(
            bench,
            page,
            "Delete the object safe",
            "Delete the object safe: yes",
            "safe can't be deleted: it has permissions; delete them first.",
        )
        act(bench, page, "Revoke open from auditor", None, "open on safe is no longer granted to auditor.")
        act(
            bench,
            page,
            "Delete the permission for open",
            "Delete the permission for open: yes",
            "The permission for open on safe is deleted.",
        )
        act(bench, page, "Delete the object safe", "Delete the object safe: yes", "The object safe is deleted.")
        bench.same("the objects now", value_rows(front, "objects"), ["account 17", "account 42", "drawer", "vault"])


def check_separation(bench):
    """The sets and one set: members, cardinality, who is near, and refusals."""
    with bank(bench) as front, Browser(bench, front) as page:
        page.open("separation")
        bench.same("static", "audit\tat most one of 2\tauditor and teller" in page.text(), True)
        form = "Add a static set of two roles, of which one is allowed"
        bench.same("a violated set", page.submit("Add a static set", form, Name="both", First_member="cashier", Second_member="cash supervisor"),
                   "The static set both can't be made: dave would be cash supervisor and cashier, and both allows one of cash supervisor, cashier.")  # fmt: skip
        bench.same("a set", page.submit("Add a static set", form, Name="two", First_member="auditor", Second_member="cashier"),
                   "There is the static set two: at most one of auditor and cashier.")  # fmt: skip
        page.go("separation", "static", "two")
        bench.same("near", "erin\tauditor\tcan't become cashier" in page.text(), True)
        bench.same("a member", page.submit("Add", "Add a member", Role="cash supervisor"),
                   "cash supervisor can't become a member of the static set two: dave would be cash supervisor and cashier, and two allows one of auditor, cash supervisor, cashier.")  # fmt: skip
        bench.same("another", page.submit("Add", "Add a member", Role="teller"), "teller is a member of the static set two.")
        page.settle()
        bench.same(
            "the cardinality",
            page.submit("Change", "Change the cardinality", Cardinality="3"),
            "The cardinality of the static set two is 3.",
        )
        page.settle()
        bench.same("too many", page.submit("Change", "Change the cardinality", Cardinality="9"),
                   "The cardinality of the static set two can't become 9: a cardinality is from 2 to the number of members.")  # fmt: skip
        act(bench, page, "Remove the member teller", None,
            "teller can't leave the static set two: a cardinality is from 2 to the number of members.")  # fmt: skip
        act(bench, page, "Delete the set two", "Delete the set two: yes", "The static set two is deleted.")
        page.go("separation", "dynamic", "cash")
        bench.same("by activation", "dave\tcash supervisor and cashier\tnot all in one session" in page.text(), True)


def check_explain(bench):
    """Yes and no, each with its reason in a sentence, for users and sessions."""
    with bank(bench) as front, Browser(bench, front) as page:
        for line in [("addRole", {"role": "all cash"}), ("addInheritance", {"asc": "all cash", "desc": "cashier"}),
                     ("addInheritance", {"asc": "all cash", "desc": "cash supervisor"}), ("assignUser", {"user": "grace", "role": "all cash"}),
                     ("grantPermission", {"object": "vault", "operation": "open", "role": "all cash"})]:  # fmt: skip
            bench.same(f"{line}", front.ask(*line)[0], 200)
        page.open("explain")
        form = "Ask whether something is allowed"
        for kind, who, operation, on, wanted in [
            ("a user", "ann", "open", "vault", ["Yes. ann may do open on vault.", "ann is assigned to branch manager, to which it is granted."]),
            ("a user", "ann", "post", "account 17", ["Yes. ann may do post on account 17.",
             "ann is assigned to branch manager, which inherits from teller, to which it is granted."]),
            ("a user", "erin", "open", "vault", ["No. erin may not do open on vault.",
             "It is granted to all cash and branch manager, and erin is authorized for none of these roles."]),
            ("a user", "erin", "open", "drawer", ["No. erin may not do open on drawer.",
             "It is granted to cashier, and erin is not authorized for that role."]),
            ("a user", "dave", "open", "drawer", ["No. dave may not do open on drawer.", "dave is locked, and may do nothing. Without the lock:",
             "dave is assigned to cashier, to which it is granted."]),
            ("a user", "grace", "open", "vault", ["No. grace may not do open on vault.",
             "The permission is granted to all cash, but no session can have that role: it includes cash supervisor and cashier, too many roles of cash."]),
            ("a user", "nobody", "open", "vault", ["No answer: there is no user nobody."]),
            ("a user", "ann", "burn", "vault", ["No answer: no permission has the operation burn."]),
            ("a session", "ann 1", "open", "vault", ["Yes. The session may do open on vault.",
             "The session has activated branch manager, to which it is granted."]),
            ("a session", "ann 9", "open", "vault", ["No answer: there is no such session; it may have ended."]),
        ]:  # fmt: skip
            page.fill("May", kind, form)
            for label, text in (("Name", who), ("do the operation", operation), ("on the object", on)):
                page.fill(label, text, form)
            page.run("document.getElementById('answer').replaceChildren()")
            page.click("Explain", f'form[aria-label="{form}"]')
            page.until(lambda: page.text("#answer"), "an answer")
            page.settle()
            bench.judge(
                f"{who}: {operation} on {on}",
                [f"{line} isn't in {page.text('#answer')}" for line in wanted if line not in page.text("#answer")],
            )
        bench.same("the way", page.run("document.getElementById('answer').replaceChildren()"), None)
        page.go("explain", "ann", "post", "account 17")
        bench.same("a picture of it", page.run("return document.querySelector('#answer .picture img')?.naturalWidth > 0"), True)


def check_record(bench):
    """The record in words: who, what, why, refusals, filters, and the head that the command line prints."""
    with bank(bench) as front, Browser(bench, front) as page:
        page.open("users", "carol")
        page.run("document.getElementById('reason').focus()")
        page.keys("Grüße, Ticket 4711")
        bench.same("assign", page.submit("Assign", "Assign a role", Role="cashier"), "carol is assigned to cashier.")
        page.settle()
        page.submit("Assign", "Assign a role", Role="auditor")
        page.follow("Record")
        rows = page.text().split("\n")
        bench.judge("what is there", [f"{wanted} isn't in {rows}" for wanted in (
            "carol is assigned to cashier.\tGrüße, Ticket 4711", "refused carol can't become auditor: the set audit forbids it.\tGrüße, Ticket 4711",
            "The record adopts the office as it is, by tests.") if wanted not in page.text()])  # fmt: skip
        done = subprocess.run(
            [os.environ[PROGRAM], "record", "head", "--office", front.office], capture_output=True, text=True, check=True
        )
        bench.same("the head", page.text("#head"), done.stdout.strip())
        page.fill("User", "carol", "Filter the record")
        page.run("document.querySelector('[data-key=refused]').click()")
        page.follow("Filter", 'form[aria-label="Filter the record"]')
        bench.same(
            "only refused ones of carol",
            [one in page.text() for one in ("can't become auditor", "carol is assigned to cashier.")],
            [True, False],
        )
        for number in range(60):
            front.ask("addUser", {"user": f"u{number}"})
        page.go("record")
        page.follow("Older entries")
        bench.same("older ones", [one in page.text() for one in ("u0 is a user now.", "u59 is a user now.")], [True, False])
        page.follow("Newest entries")
        bench.same("newest ones", "u59 is a user now." in page.text(), True)


def check_filters(bench):
    """The record is filtered by days and by functions that are chosen; a filter that chooses nothing as it is written is said to."""
    with bank(bench) as front, Browser(bench, front) as page:
        front.ask("assignUser", {"user": "frank", "role": "teller"})
        front.ask("addUser", {"user": "zoe"}, Office_Reason="ticket 4711")
        front.ask("grantPermission", {"operation": "count", "object": "vault", "role": "teller"})
        front.ask("deleteSsdSet", {"set": "audit"})
        front.ask("createSession", {"user": "frank", "roles": ["teller"], "session": "frank 1"})
        page.open("record")
        form = "Filter the record"
        types = page.run(
            "return [...document.querySelectorAll('form [data-key]')].filter(one => ['since', 'until', 'function'].includes(one.dataset.key))"
            ".map(one => one.type)"
        )
        bench.same("the fields", types, ["select-one", "date", "date"])
        page.fill("Function", "assignUser", form)
        page.follow("Filter", f'form[aria-label="{form}"]')
        bench.same("one function", ("frank is assigned to teller." in page.text(), "zoe is a user now." in page.text()), (True, False))
        bench.same("it is chosen still", page.run("return document.getElementById('function').value"), "assignUser")
        sentences = ("frank is assigned to teller.", "zoe is a user now.", "count on vault is granted to teller.", "audit", "frank with teller has begun")
        for label, text, wanted in (
            ("Why contains", "4711", 1), ("Operation", "count", 2), ("Separation of duty set", "audit", 3),
            ("Session (digest)", digest("frank 1"), 4), ("Session (digest)", "frank 1", None),
        ):  # fmt: skip
            page.go("record")
            page.fill(label, text, form)
            page.follow("Filter", f'form[aria-label="{form}"]')
            shown = page.text("main table") if wanted is not None else page.text()
            bench.same(f"{label}: {text}", [i for i, one in enumerate(sentences) if one in shown], [] if wanted is None else [wanted])
            bench.same(f"{label} is kept", page.run("return [...document.querySelectorAll('form [data-key]')].map(one => one.value).includes(arguments[0])", text), True)
        for key, day, found in (("since", "2999-01-01", False), ("until", "2999-01-01", True)):
            page.go("record")
            page.run(f"document.querySelector('[data-key={key}]').value = arguments[0]", day)
            page.follow("Filter", f'form[aria-label="{form}"]')
            bench.same(f"{key} {day}", ("zoe is a user now." in page.text(), "There is no such entry." in page.text()), (found, not found))
        for query in ("since=21.11.2026", "until=yesterday", "since=2026-13-45"):
            page.go("record", query=f"?{query}")
            key, _, text = query.partition("=")
            said = f"The record was not searched: {key}: a time is written as in 2026-11-27 or 2026-11-27T09:30, in UTC."
            bench.same(query, (said in page.text(), "There is no such entry." in page.text()), (True, False))
            bench.same("it can be mended", page.run(f"return document.querySelector('[data-key={key}]').value"), text)
        page.go("record", query="?function=assign")
        bench.same("no such function", 'there is no function "assign"' in page.text(), True)


def check_overview(bench):
    """The overview: whether the office answers, its room, the last changes, and the picture."""
    with bank(bench) as front, Browser(bench, front) as page:
        page.open("")
        text, users, roles = page.text(), MOST["user"], MOST["role"]
        bench.judge("the overview", [f"{wanted} isn't in {text}" for wanted in (
            "The office answers.", "The front is open: everybody", f"Users\t7\t{users:,}\t{users - 7:,}", f"Roles\t5\t{roles:,}\t{roles - 5:,}", "The record adopts the office as it is, by tests.")
            if wanted not in text])  # fmt: skip
        bench.same("the picture", page.run("return document.querySelector('.picture img')?.naturalWidth > 0"), True)
        bench.same("complaints", page.complaints(), [])
        page.go("nothing")
        bench.same("no such page", "There is no such page" in page.text(), True)
