"""The page Reports: each report to read, print and download; the difference of two copies; callers without the right; odd names."""

import json
import os

from front.batches import batch
from front.identities import bearer
from front.program import Front
from machine.state import MOST

from .browser import Browser, bank, text_of_pdf
from .downloads import escaped, report, rows_of
from .hostile import MARKUP, NAMES
from .lost import UNREAD, start_again
from .rights import AUDITOR, DESK, front_of_bank

# The rows of the table as they are shown.
ROWS = "return [...document.querySelectorAll('main tbody tr')].map(row => [...row.cells].map(cell => cell.textContent))"

MOST_CLICKS = 5


def allow_downloads(bench, page):
    """Lets the browser keep files in a folder, and returns it."""
    folder = bench.folder / "downloads"
    folder.mkdir(exist_ok=True)
    page.driver.execute_cdp_cmd("Browser.setDownloadBehavior", {"behavior": "allow", "downloadPath": str(folder)})
    return folder


def downloaded(page, folder):
    """Waits for the one file that the browser has got, and returns its name and its text."""

    def whole():
        names = os.listdir(folder)
        return names[0] if len(names) == 1 and not names[0].endswith(".crdownload") else None

    name = page.until(whole, "the file is there")
    text = (folder / name).read_text(encoding="utf-8")
    (folder / name).unlink()
    return name, text


def check_pages(bench):
    """Each report shows what its file has; filters choose lines; a file comes by one press, and its name says its revision."""
    with bank(bench) as front, Browser(bench, front) as page:
        folder = allow_downloads(bench, page)
        page.open("reports")
        for title, name in [("Who may do what", "permissions"), ("Who is near to a set", "near"), ("Sessions", "sessions")]:
            page.go("reports")
            page.follow(title, "main ul")
            wanted = rows_of(report(front, name)[0])[1:]
            bench.same(f"the rows of {name}", page.run(ROWS), wanted)
            page.click("Download CSV")
            found, text = downloaded(page, folder)
            bench.same(f"the file of {name}", rows_of(text)[1:], wanted)
            bench.same(
                f"its name {found}",
                found.startswith(f"{name}-2") and found.endswith(f"-revision-{told_revision(page)}.csv"),
                True,
            )
            bench.same("what is said", page.notice(), f"A file of {len(wanted)} lines is being downloaded.")
        page.go("reports", "room")
        bench.same("room", page.run(ROWS)[0], ["Users", "7", str(MOST["user"]), str(MOST["user"] - 7)])
        page.go("reports", "dump")
        wanted = report(front, "dump")[0]
        bench.same("the lines", [row[0] for row in page.run(ROWS)], wanted.splitlines())
        page.click("Download lines")
        bench.same("the file of the lines", downloaded(page, folder)[1], wanted)
        page.go("reports", "permissions")
        form = "Choose lines: Who may do what"
        page.fill("Role", "teller", form)
        page.fill("Operation", "post", form)
        page.follow("Show", f'form[aria-label="{form}"]')
        rows = page.run(ROWS)
        bench.same(
            "chosen", rows, [[user, "no", "account 17", "post", "branch manager", "teller", ""] for user in ("ann", "carol")]
        )
        bench.same("it is said", ", role teller, operation post" in page.text("#about"), True)
        page.click("Download CSV")
        bench.same("the chosen file", rows_of(downloaded(page, folder)[1])[1:], rows)
        page.go("reports", "near", query="?left=1&user=erin")
        bench.same("near", page.run(ROWS), [["1", "static", "audit", "2", "user", "erin", "1", "auditor", "auditor"]])
        page.go("reports", "permissions", query="?user=nobody")
        bench.same("nobody", "There is no such line." in page.text(), True)
        page.go("reports", "planets")
        bench.same("no such report", "There is no such report." in page.text(), True)
        bench.same(
            "no ticket is left in an address", "reports/" in page.run("return location.href").partition("#/reports")[2], False
        )
        bench.same("complaints", page.complaints(), [])


def told_revision(page):
    return page.text("#about").partition("revision ")[2].partition(" ")[0]


def check_task(bench):
    """A list of who has what for the quarterly review, to sign: few clicks lead to a print with the line for the signature."""
    with bank(bench) as front, Browser(bench, front) as page:
        page.open("")
        page.clicks = 0
        page.follow("Reports")
        page.follow("Who may do what", "main ul")
        page.run("window.print = () => { window.isPrinted = true; }")
        page.click("Print")
        bench.same("it is printed", page.run("return window.isPrinted"), True)
        bench.judge("clicks", [f"{page.clicks}"] if page.clicks > MOST_CLICKS else [])
        bench.same("on the screen nothing is to be signed", "signature" in page.text(), False)
        pdf = page.pdf()
        bench.same("a PDF", (pdf[:5], len(pdf) > 5_000), (b"%PDF-", True))
        text = text_of_pdf(pdf)
        words = ["Who may do what", "15 lines of", "revision", "carol", "cash supervisor", "Date, name and signature"]
        bench.judge("its text", [word for word in words if word not in text])
        bench.judge("what can be pressed", [word for word in ("Download CSV", "Overview", "Show") if word in text])
        return {"clicks: a list of who has what, to sign": page.clicks}


def choose(page, label, path):
    """Chooses a file for a field."""
    place = page.until(lambda: page.run(
        "return [...document.querySelectorAll('label')].find(one => one.querySelector('span')?.textContent === arguments[0])?.querySelector('input')",
        label), label)  # fmt: skip
    place.send_keys(str(path))


SECOND = "Second copy; without one, the office as it is now"


def check_difference(bench):
    """What has changed between two copies, or since one; files that are none, or that have names of sessions, are refused."""
    with bank(bench) as front, Browser(bench, front) as page:
        folder = allow_downloads(bench, page)
        before = bench.path("before.jsonl")
        with open(before, "w", encoding="utf-8") as file:
            file.write(report(front, "dump")[0])
        for function, values in [("assignUser", {"user": "frank", "role": "teller"}), ("deassignUser", {"user": "erin", "role": "auditor"}),
                                 ("addUser", {"user": "=1+1"}), ("addRole", {"role": "<b>x</b>"}), ("setSsdSetCardinality", {"set": "audit", "cardinality": 2})]:  # fmt: skip
            bench.same(function, front.ask(function, values)[0], 200)
        after = bench.path("after.jsonl")
        with open(after, "w", encoding="utf-8") as file:
            file.write(report(front, "dump")[0])
        wanted = [["only in the second", "user =1+1"], ["only in the second", "role <b>x</b>"],
                  ["only in the first", "assignment: the user erin to the role auditor"],
                  ["only in the second", "assignment: the user frank to the role teller"]]  # fmt: skip
        for second in (None, after):
            page.open("reports", "difference")
            choose(page, "First copy", before)
            if second:
                choose(page, SECOND, second)
            page.click("Compare")
            page.until(lambda: page.text("#about"), "the difference")
            bench.same(f"the difference with {second}", page.run(ROWS), wanted)
            bench.same("its count", "1 line only in the first, 3 only in the second." in page.text("#about"), True)
            bench.same("markup", page.run(MARKUP), 0)
        page.click("Download CSV")
        name, text = downloaded(page, folder)
        bench.same("the file", (name, rows_of(text)), ("difference.csv", [["where", "what"], *wanted]))
        page.open("reports", "difference")
        choose(page, "First copy", after)
        choose(page, SECOND, after)
        page.click("Compare")
        page.until(lambda: "Nothing has changed." in page.text(), "no difference")
        with_name = '{"fn":"createSession","user":"ann","roles":[],"session":"ann 1"}\n'
        for text, says in [("user,role\n", "Line 1 of the first copy is none of a copy of the policy."), ('{"fn":"constructor"}\n', "is none of a copy"),
                           ("null\n", "is none of a copy"), ('{"fn":"assignUser","user":"ann"}\n', "Line 1 of the first copy lacks a part."),
                           ('{"fn":"addUser","user":"ann"}\n' + with_name, "Line 2 of the first copy has the name of a session, which nobody should see")]:  # fmt: skip
            path = bench.write("bad.jsonl", text.encode())
            page.open("reports", "difference")
            choose(page, "First copy", path)
            page.click("Compare")
            bench.same(f"{text[:20]}", says in page.notice(), True)
            bench.same("nothing is compared", page.text("#answer"), "")


def check_rights(bench):
    """Who has no right to reports sees neither the page nor an action, and gets no ticket; who has it sees that it is asked for as that caller."""
    with front_of_bank(bench) as front, Browser(bench, front) as page:
        page.driver.get(page.url)
        page.login(DESK)
        page.settle()
        bench.same("no link", page.find("Reports", "nav"), None)
        for segments in (("reports",), ("reports", "permissions"), ("reports", "difference")):
            page.go(*segments)
            bench.same(f"{segments}", ("you have no right to it" in page.text(), page.elements("main button")), (True, []))
        asked = "const done = arguments[0]; import('/console/api.js').then(api => api.report('dump')).then(() => done('done'), error => done(error.message));"
        bench.same("no ticket", page.driver.execute_async_script(asked), "Forbidden")
        page.driver.get(page.url)
        page.driver.refresh()
        page.login(AUDITOR)
        page.go("reports", "permissions")
        bench.same("who", ", asked by token:admin." in page.text("#about"), True)
        folder = allow_downloads(bench, page)
        page.click("Download CSV")
        bench.same("the file", len(rows_of(downloaded(page, folder)[1])), 16)
        bench.same("by hand", front.exchange("POST", "/reports/dump", "{}", **bearer(DESK))[0], 403)


def check_names(bench):
    """Names that are markup, formulas or can't be seen are text on each report, and no formula in a file."""
    formulas = ['=HYPERLINK("x")', "+1", "-2+3", "@SUM(1)", "'=1", "a;=1;'+2"]
    names = [*NAMES, *formulas]
    with Front(bench, "--no-record") as front, Browser(bench, front) as page:
        lines = [
            {"fn": function, key: name}
            for function, key in (("addUser", "user"), ("addRole", "role"), ("addPermObj", "object"))
            for name in names
        ]
        for name in names:
            permission = {"object": name, "operation": name}
            lines += [
                {"fn": "addPermission", **permission},
                {"fn": "grantPermission", **permission, "role": name},
                {"fn": "assignUser", "user": name, "role": name},
            ]
        lines.append({"fn": "createSsdSet", "set": names[0], "roles": names[:9], "cardinality": 9})
        for i in range(0, len(lines), 90):
            bench.same("the office", {*batch(front, lines[i : i + 90])[1]}, {'{"ok":true}'})
        page.open("reports", "permissions")
        shown = {NAMES.get(name) or name for name in names}
        bench.same("on the page", ({row[0] for row in page.run(ROWS)}, page.run(MARKUP)), (shown, 0))
        for name in ("near", "dump"):
            page.go("reports", name)
            bench.same(f"markup on {name}", page.run(MARKUP), 0)
        page.go("reports", "permissions", query="?user=%3DHYPERLINK(%22x%22)")
        bench.same("chosen", [row[0] for row in page.run(ROWS)], ['=HYPERLINK("x")'])
        rows = rows_of(report(front, "permissions")[0])[1:]
        parts = [part for row in rows for cell in row for part in cell.split(";")]
        bench.judge("formulas in the file", [part for part in parts if part and part[:1] in tuple("=+-@")])
        bench.same("names in the file", {row[0] for row in rows}, {*map(escaped, names)})


def check_lost(bench):
    """A front that goes away: the page says so, and can be tried again."""
    with bank(bench) as front, Browser(bench, front) as page:
        page.open("reports", "permissions")
        front.kill()
        page.click("Download CSV")
        bench.same("a download", page.notice(), UNREAD)
        page.go("reports", "near")
        bench.same("a page", UNREAD in page.text(), True)
        start_again(front)
        page.follow("Try again")
        bench.same("the page again", len(page.run(ROWS)), 5)
