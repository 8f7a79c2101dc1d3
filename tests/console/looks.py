"""How the pages look and are used: the keyboard alone, widths, light and dark, print, rules of accessibility, pictures."""

import os

from selenium.webdriver.common.keys import Keys

from .browser import Browser, bank, text_of_pdf
from .pages import value
from .rights import EVERYWHERE
from .running import PICTURES

# Rules of accessibility, each of which returns what violates it.
RULES = r"""
const faults = [];
const say = (rule, element) => faults.push(`${rule}: ${element?.outerHTML?.slice(0, 120) ?? element}`);
const nameOf = one => (one.getAttribute("aria-label") ?? one.textContent).trim();
if (!document.documentElement.lang) say("no language", document.documentElement);
if (!document.title.trim()) say("no title", document.head);
if (document.querySelectorAll("h1").length !== 1) say("not one h1", document.body);
if (document.querySelectorAll("main").length !== 1) say("not one main", document.body);
if (!document.querySelector("nav[aria-label]")) say("no name of the navigation", document.body);
if (!document.querySelector("nav [aria-current=page]")) say("no page is current", document.querySelector("nav"));
let level = 1;
for (const one of document.querySelectorAll("main h1, main h2, main h3, main h4")) {
    const own = Number(one.tagName[1]);
    if (own > level + 1) say("a level of headings is left out", one);
    if (!one.textContent.trim()) say("an empty heading", one);
    level = own;
}
const ids = [...document.querySelectorAll("[id]")].map(one => one.id);
for (const id of ids) if (ids.indexOf(id) !== ids.lastIndexOf(id)) say("an id twice", id);
for (const one of document.querySelectorAll("input, select")) {
    if (!one.labels?.length || !one.labels[0].textContent.trim()) say("a field without a label", one);
}
for (const one of document.querySelectorAll("button, a[href], summary")) if (!nameOf(one)) say("no name", one);
const names = [...document.querySelectorAll("main button")].map(nameOf);
for (const one of document.querySelectorAll("form")) if (!one.getAttribute("aria-label")) say("a form without a name", one);
for (const one of document.querySelectorAll("img")) if (!one.alt.trim()) say("a picture without a text", one);
for (const one of document.querySelectorAll("table")) {
    if (!one.caption?.textContent.trim()) say("a table without a caption", one);
    for (const head of one.querySelectorAll("th")) if (!head.scope) say("a head without a scope", head);
}
for (const one of document.querySelectorAll("[tabindex]")) if (one.tabIndex > 0) say("an order of focus of its own", one);
if (!document.querySelector("[role=status][aria-live]")) say("no place for notices", document.body);

const parse = text => text.match(/[\d.]+/g).map(Number);
const luminance = ([r, g, b]) => [r, g, b].map(v => v / 255).map(v => v <= 0.03928 ? v / 12.92 : ((v + 0.055) / 1.055) ** 2.4)
    .reduce((sum, v, i) => sum + v * [0.2126, 0.7152, 0.0722][i], 0);
const ground = one => {
    for (; one; one = one.parentElement) {
        const color = parse(getComputedStyle(one).backgroundColor);
        if (color.length < 4 || color[3] > 0.99) return color;
    }
    return [255, 255, 255];
};
const contrast = (a, b) => { const [x, y] = [luminance(a), luminance(b)].sort((p, q) => q - p); return (x + 0.05) / (y + 0.05); };
const walker = document.createTreeWalker(document.body, NodeFilter.SHOW_TEXT);
for (let text; (text = walker.nextNode()); ) {
    const one = text.parentElement;
    if (!text.textContent.trim() || !one.checkVisibility() || one.closest("noscript, datalist, button:disabled")) continue;
    const ratio = contrast(parse(getComputedStyle(one).color), ground(one));
    if (ratio < 4.5) say(`a contrast of ${ratio.toFixed(1)}`, one);
}
for (const one of document.querySelectorAll("input, select, button")) {
    const ratio = contrast(parse(getComputedStyle(one).borderTopColor), ground(one.parentElement));
    if (one.checkVisibility() && !["checkbox", "radio"].includes(one.type) && ratio < 3) say(`a border of ${ratio.toFixed(1)}`, one);
}
for (const one of document.querySelectorAll("button, main a, nav a, input, select")) {
    const box = one.getBoundingClientRect();
    if (one.tagName !== "A" && one.checkVisibility() && !["checkbox", "radio"].includes(one.type) && box.height < 24) say("too low to press", one);
}
if (document.documentElement.scrollWidth > innerWidth) say(`wider than the window of ${innerWidth}`, document.documentElement.scrollWidth);
const page = document.getElementById("page");
if (page.scrollWidth > page.clientWidth) say(`wider than the page of ${page.clientWidth}`, page.scrollWidth);
return faults;
"""


def check_rules(bench):
    """Each page keeps the rules at both widths, in light and in dark."""
    with bank(bench) as front, Browser(bench, front) as page:
        page.open("")
        for width, dark in ((320, False), (320, True), (1920, True), (1920, False)):
            page.resize(width, dark=dark)
            for segments in (
                *EVERYWHERE,
                ("explain", "ann", "post", "account 17"),
                ("users", "dave"),
                ("separation", "dynamic", "cash"),
            ):
                page.go(*segments)
                bench.judge(f"{'/'.join(segments)} at {width}, {'dark' if dark else 'light'}", page.run(RULES)[:5])
        page.resize(1920)
        page.go("users", "erin")
        page.submit("Assign", "Assign a role", Role="teller")
        bench.judge("a refusal", page.run(RULES)[:5])
        light = page.run("return getComputedStyle(document.body).backgroundColor")
        page.resize(1920, dark=True)
        bench.judge("a refusal in dark", page.run(RULES)[:5])
        bench.same("dark is dark", page.run("return getComputedStyle(document.body).backgroundColor") != light, True)


# What has the focus: its name, and whether that can be seen.
FOCUS = """
const one = document.activeElement, style = getComputedStyle(one);
if (one === document.body) return ["", true];
const box = one.getBoundingClientRect();
return [one.labels?.[0]?.querySelector("span")?.textContent ?? one.getAttribute("aria-label") ?? one.textContent.trim(),
    style.outlineStyle !== "none" && parseFloat(style.outlineWidth) >= 2 && box.width > 0];
"""


def tab_to(page, name, faults, most=60):
    """Presses the tab key until something has the focus, and notes what has it and can't be seen."""
    for _ in range(most):
        page.keys(Keys.TAB)
        found, is_seen = page.run(FOCUS)
        if not is_seen:
            faults.append(f"no focus can be seen at {found[:40]}")
        if found == name:
            return
    faults.append(f"the tab key doesn't lead to {name}")


def check_keyboard(bench):
    """Without a mouse: from the first page to a user, a role is assigned and removed again, and a question is explained."""
    with bank(bench) as front, Browser(bench, front) as page:
        page.open("")
        faults = []
        for step, keys in (("Users", Keys.ENTER), ("frank", Keys.ENTER)):
            tab_to(page, step, faults)
            page.mark()
            page.keys(keys)
            page.settle()
        tab_to(page, "Role", faults)
        page.keys("teller", Keys.ENTER)
        bench.same("assigned", page.notice(), "frank is assigned to teller.")
        page.settle()
        tab_to(page, "Remove the assignment to teller", faults)
        page.run("document.getElementById('notice').replaceChildren()")
        page.keys(Keys.SPACE)
        bench.same("removed", page.notice(), "frank is no longer assigned to teller.")
        page.settle()
        tab_to(page, "Delete frank", faults)
        page.keys(Keys.ENTER)
        bench.same("asked whether it is meant, with the focus on no", page.run(FOCUS)[0], "Delete frank: no")
        page.keys(Keys.ENTER)
        bench.same("frank is still there", value(front, "assignedRoles", user="frank"), [])
        order = page.run(
            "return [...document.querySelectorAll('a[href], button, input, select, summary')].filter(one => one.checkVisibility())"
            ".every((one, i, all) => i === 0 || (all[i - 1].compareDocumentPosition(one) & Node.DOCUMENT_POSITION_FOLLOWING))"
        )
        bench.same("the order", order, True)
        page.open("users")
        page.keys(Keys.TAB)
        bench.same("the first stop", page.run(FOCUS)[0], "Skip to the content")
        page.keys(Keys.ENTER)
        bench.same("the content", page.run("return document.activeElement.tagName"), "H1")
        bench.judge("the focus", faults)


def check_long_names(bench):
    """Names of 64 letters make no table wider than the page: nothing that can be pressed is out of sight."""
    long = {one: one * 64 for one in "uro"}
    with bank(bench) as front, Browser(bench, front) as page:
        for function, values in (
            ("addUser", {"user": long["u"]}),
            ("addRole", {"role": long["r"]}),
            ("assignUser", {"user": long["u"], "role": long["r"]}),
            ("addPermObj", {"object": long["o"]}),
            ("addPermission", {"object": long["o"], "operation": "open"}),
            ("grantPermission", {"object": long["o"], "operation": "open", "role": long["r"]}),
        ):
            bench.same(function, front.ask(function, values)[0], 200)
        page.open("")
        for width in (390, 768):
            page.resize(width)
            for segments in (("users",), ("users", long["u"]), ("roles", long["r"]), ("objects",), ("objects", long["o"])):
                page.go(*segments)
                wide = "return [...document.querySelectorAll('.scroll')].map(one => one.scrollWidth - one.clientWidth).filter(one => one > 0)"
                bench.same(f"{segments[0]} at {width}", page.run(wide), [])


def check_print(bench):
    """A page is printed to PDF: what is on it, without what can be pressed."""
    with bank(bench) as front, Browser(bench, front) as page:
        page.open("users", "erin")
        pdf = page.pdf()
        bench.same("a PDF", (pdf[:5], len(pdf) > 5_000), (b"%PDF-", True))
        page.resize(1000, media="print")
        shown = page.run(
            "return [...document.querySelectorAll('header, form, button, #notice')].filter(one => one.checkVisibility()).length"
        )
        bench.same("what can be pressed", shown, 0)
        bench.same("what is on it", "auditor" in page.text() and "account 17" in page.text(), True)
        text = text_of_pdf(pdf)
        bench.judge("its text", [word for word in ("User erin", "auditor", "account 17") if word not in text])
        bench.judge("its buttons", [word for word in ("Assign a role", "Remove", "Overview", "Delete") if word in text])


# The pages whose pictures are in docs/howto/console.md.
SHOTS = {
    "overview": ("",), "users": ("users",), "user": ("users", "erin"), "roles": ("roles",), "role": ("roles", "teller"), "object": ("objects", "vault"),
    "separation": ("separation", "static", "audit"), "explain": ("explain", "ann", "post", "account 17"), "record": ("record",), "reports": ("reports", "permissions"),
}  # fmt: skip


def check_pictures(bench):
    """Each page has a picture, which shows something; with --pictures it is kept."""
    folder = os.environ.get(PICTURES) or bench.path("pictures")
    os.makedirs(folder, exist_ok=True)
    with bank(bench) as front, Browser(bench, front) as page:
        for user, role in (("frank", "teller"), ("grace", "cashier"), ("erin", "teller")):
            front.ask("assignUser", {"user": user, "role": role}, Office_Reason="ticket 4711")
        page.open("")
        page.resize(1000, 700)
        for name, segments in SHOTS.items():
            page.go(*segments, query="?role=teller" if name == "reports" else "")
            if name == "user":
                page.submit("Assign", "Assign a role", Role="teller")
            path = f"{folder}/console-{name}.png"
            page.picture(path)
            bench.same(f"the picture of {name}", os.path.getsize(path) > 5_000, True)
