"""Lists that are longer than one answer of the front: counts are right, and every row can be reached."""

import json
import subprocess

from front.batches import batch
from front.program import Front
from program.bench import PROGRAM as RBAC

from .browser import Browser, bank

USERS, GRANTS, OBJECTS = 1_300, 1_200, 1_100
# The captions of the tables.
ASSIGNED, THROUGH = "Assigned users", "Authorized through a senior role"
GRANTED, INHERITED = "Granted to this role itself", "Inherited from junior roles"
ALL_USERS, ALL_OBJECTS = "Users in the order of their names", "Objects in the order of their names"


def lines():
    """The role clerk with its users and grants; head, which inherits from it, with two users; and office, from which it inherits."""
    for role in ("clerk", "head", "office"):
        yield {"fn": "addRole", "role": role}
    for number in range(USERS):
        yield {"fn": "addUser", "user": f"u{number:04}"}
        yield {"fn": "assignUser", "user": f"u{number:04}", "role": "clerk"}
    for number in range(OBJECTS):
        yield {"fn": "addPermObj", "object": f"o{number:04}"}
    for number in range(GRANTS):
        permission = {"object": f"o{number % 300:04}", "operation": f"do {number // 300}"}
        yield {"fn": "addPermission", **permission}
        yield {"fn": "grantPermission", **permission, "role": "clerk"}
    yield {"fn": "addPermission", "object": "o0000", "operation": "enter"}
    yield {"fn": "grantPermission", "object": "o0000", "operation": "enter", "role": "office"}
    yield {"fn": "lockUserAccount", "user": f"u{USERS - 1:04}"}


def more():
    """A senior role with two users, and a junior one."""
    yield {"fn": "addInheritance", "asc": "head", "desc": "clerk"}
    yield {"fn": "addInheritance", "asc": "clerk", "desc": "office"}
    for user in ("zoe", "zuse"):
        yield {"fn": "addUser", "user": user}
        yield {"fn": "assignUser", "user": user, "role": "head"}


def office_of(bench, *parts):
    """A front, not yet started, over an office of these lines."""
    front = Front(bench, "--no-record", name="many")
    subprocess.run([RBAC, "init", front.office], capture_output=True, check=True)
    text = "".join(json.dumps(line) + "\n" for part in parts for line in part).encode()
    done = subprocess.run([RBAC, "replay", front.office], input=text, capture_output=True, check=True)
    bench.same("the office", {*done.stdout.split()}, {b'{"ok":true}'})
    return front


def shown(page, caption):
    """The caption of a table and the first cell of its rows, or nothing if it isn't there."""
    return page.run(
        "const one = [...document.querySelectorAll('main table')].find(one => one.caption.textContent.startsWith(arguments[0]));"
        "return one ? [one.caption.textContent, [...one.tBodies[0].rows].map(row => row.cells[0].textContent)] : []",
        f"{caption}: ",
    )


def judge_turning(bench, page, caption, names, size=100):
    """The buttons below a table lead forward and back, to the end and to the beginning."""
    last = (len(names) - 1) // size * size
    for button, first in [
        ("", 0),
        ("Next", size),
        ("Next", 2 * size),
        ("Previous", size),
        ("Last", last),
        ("Previous", last - size),
        ("First", 0),
    ]:
        if button:
            page.click(f"{button}: {caption}")
        part = names[first : first + size]
        wanted = [f"{caption}: {first + 1:,} to {first + len(part):,} of {len(names):,}", part]
        page.until(lambda wanted=wanted: shown(page, caption)[0] == wanted[0], f"{wanted[0]} after {shown(page, caption)[0]}")
        bench.same(f"{caption} after {button}", shown(page, caption), wanted)
    bench.same("nothing is before the first", (page.find(f"Previous: {caption}"), page.find(f"First: {caption}")), (None, None))


def check_role(bench):
    """A role with 1,300 users and 1,200 grants, and no neighbours: nothing is said to be inherited, and all can be reached."""
    users = [f"u{number:04}" for number in range(USERS)]
    grants = sorted(f"o{number % 300:04}" for number in range(GRANTS))
    with office_of(bench, lines()) as front, Browser(bench, front) as page:
        page.open("roles", "clerk")
        text = page.text()
        bench.same("no senior role", ("No role inherits from this one." in text, THROUGH in text), (True, False))
        bench.same("no junior role", ("It inherits from no role." in text, INHERITED in text), (True, False))
        judge_turning(bench, page, ASSIGNED, users, 25)
        judge_turning(bench, page, GRANTED, grants)
        page.run("arguments[0].scrollIntoView()", page.elements("label.choose input")[0])
        page.elements("label.choose input")[0].send_keys("U12")
        found = [f"{ASSIGNED}: 1 to 25 of 100, chosen from 1,300", users[1200:1225]]
        page.until(lambda: shown(page, ASSIGNED) == found, "what the field chooses")
        bench.same("what the field chooses", shown(page, ASSIGNED), found)
        page.click("Remove the assignment of u1200")
        page.until(lambda: shown(page, ASSIGNED)[0] == f"{ASSIGNED}: 1 to 25 of 99, chosen from 1,299", "one less, chosen as before")
        bench.same("the text is there still", page.run("return document.querySelector('label.choose input').value"), "U12")


def check_inherited(bench):
    """With a senior and a junior role only what they give is said to be inherited."""
    with office_of(bench, lines(), more()) as front, Browser(bench, front) as page:
        page.open("roles", "clerk")
        bench.same("assigned", shown(page, ASSIGNED)[0], f"{ASSIGNED}: 1 to 25 of 1,300")
        bench.same("through the senior role", shown(page, THROUGH), [f"{THROUGH}: 2", ["zoe", "zuse"]])
        bench.same("through the junior role", shown(page, INHERITED), [f"{INHERITED}: 1", ["o0000"]])
        page.go("roles", "office")
        bench.same("all through senior roles", shown(page, THROUGH)[0], f"{THROUGH}: 1 to 25 of 1,302")
        page.go("users", "zoe")
        permissions = "Permissions through all roles"
        bench.same("the permissions of a user", shown(page, permissions)[0], f"{permissions}: 1 to 20 of 1,201")
        page.click(f"Last: {permissions}")
        page.until(lambda: shown(page, permissions)[0] == f"{permissions}: 1,201 to 1,201 of 1,201", "the last permission")


def check_lists(bench):
    """The users and the objects of an office: their counts, forward and back, and the same part after another page."""
    users = [f"u{number:04}" for number in range(USERS)]
    with office_of(bench, lines()) as front, Browser(bench, front) as page:
        page.open("users")
        judge_turning(bench, page, ALL_USERS, users)
        page.click(f"Last: {ALL_USERS}")
        page.until(lambda: f"u{USERS - 1:04}\tlocked" in page.text(), "the locked user")
        page.click(f"Previous: {ALL_USERS}")
        before = shown(page, ALL_USERS)
        bench.same("a part", before[0], f"{ALL_USERS}: 1,101 to 1,200 of 1,300")
        page.follow("u1150")
        page.mark()
        page.driver.back()
        page.settle()
        bench.same("the same part after another page", shown(page, ALL_USERS), before)
        page.go("objects")
        judge_turning(bench, page, ALL_OBJECTS, [f"o{number:04}" for number in range(OBJECTS)])


def check_who(bench):
    """Who may do something that 1,300 users may: their count is right, the locked one isn't counted, and all can be reached."""
    caption = "Users who may do it"
    with office_of(bench, lines()) as front, Browser(bench, front) as page:
        page.open("objects", "o0000")
        page.click("Who may do it, and why")
        page.until(lambda: shown(page, caption), "who may do it")
        bench.same("those who may", shown(page, caption)[0], f"{caption}: 1 to 100 of 1,299")
        bench.same("the locked one", f"u{USERS - 1:04}\tlocked" in page.text(), True)
        page.click(f"Last: {caption}")
        page.until(lambda: shown(page, caption)[0] == f"{caption}: 1,201 to 1,299 of 1,299", "the last ones")
        page.until(lambda: len(shown(page, caption)[1]) == 99, "the last users")


def check_operations(bench):
    """An object with more operations than a page has: all are in a list, each with a page of its own."""
    with bank(bench) as front, Browser(bench, front) as page:
        operations = [f"do {number:02}" for number in range(60)]
        permissions = [{"object": "vault", "operation": operation} for operation in operations]
        lines = [{"fn": "addPermission", **one} for one in permissions]
        bench.same("the office", {*batch(front, lines)[1]}, {'{"ok":true}'})
        page.open("objects", "vault")
        bench.same("the list", shown(page, "Operations"), ["Operations: 62", ["count", *operations, "open"]])
        page.follow("open")
        bench.same("one of them", ("Operation open" in page.text(), "branch manager" in page.text()), (True, True))
        bench.same("and no other", "Operation count" in page.text(), False)
        page.submit("Grant", "Grant open", Grant_to_the_role="auditor")
        page.until(lambda: page.find("Revoke open from auditor"), "it is granted")
        page.follow("vault", "main h1")
        bench.same("the list again", shown(page, "Operations")[0], "Operations: 62")
        page.go("objects", "vault", "burn")
        bench.same("no such operation", "There is no such operation." in page.text(), True)
