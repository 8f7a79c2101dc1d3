"""Names that are markup or can't be seen are shown as text; a page of another origin can't make the browser send a command."""

import http.server
import threading

from front.batches import batch
from front.browsers import Site
from front.program import HOST, Front

from .browser import Browser
from .pages import value_rows

# Names, and what is to be shown of each if it isn't the name itself.
NAMES = {
    "<img src=x onerror=alert(1)>": None, "\"><script>alert(1)</script>": None, "javascript:alert(1)": None, "'onmouseover='alert(1)": None,
    "a\\nb&amp;\\\"c": None, "../../v1/addUser?x=1#/y": None, "100%": None, "%3Cb%3E": None, "__proto__": None,
    "\u202egnirob": "U+202Egnirob", "zero\u200bwidth": "zeroU+200Bwidth", "\u0085next": "U+0085next", "soft\u00adhyphen": "softU+00ADhyphen",
    "no\u00a0break": "noU+00A0break", " ends ": "U+0020endsU+0020", "two  spaces": "two U+0020spaces", "\u05d0\u05d1\u05d2": None,
    "\U0001f600" * 16: None, "\u3164": "U+3164", "tag\U000e0041": "tagU+E0041",
}  # fmt: skip

# What no name may have become: markup, or a listener.
MARKUP = """
return [...document.querySelectorAll("main script, main iframe, main [onerror], main [onmouseover], main img:not(.picture img)"),
    ...[...document.querySelectorAll("main a")].filter(one => !one.getAttribute("href").startsWith("#/"))].length;
"""


def check_names(bench):
    """Users, roles, objects, operations and sets with such names: each page shows them as text, and its links lead to them."""
    names = list(NAMES)
    with Front(bench) as front, Browser(bench, front) as page:
        lines = [{"fn": "addUser", "user": name} for name in names]
        lines += [{"fn": "addRole", "role": name} for name in names]
        lines += [{"fn": "addPermObj", "object": name} for name in names]
        for i in range(0, len(lines), 90):
            bench.same("the office", {*batch(front, lines[i : i + 90])[1]}, {'{"ok":true}'})
        lines = []
        for name, other in zip(names, names[1:] + names[:1]):
            lines += [{"fn": "addPermission", "object": name, "operation": other},
                      {"fn": "grantPermission", "object": name, "operation": other, "role": name},
                      {"fn": "assignUser", "user": name, "role": name}]  # fmt: skip
        lines += [
            {"fn": "createDsdSet", "set": name, "roles": [name, other], "cardinality": 2}
            for name, other in zip(names[::2], names[1::2])
        ]
        bench.same("the rest", {*batch(front, lines)[1]}, {'{"ok":true}'})
        page.open("")
        for segments in (("users",), ("roles",), ("objects",), ("separation",), ("record",)):
            page.go(*segments)
            text = page.run("return document.querySelector('main').textContent")
            missing = [name for name, shown in NAMES.items() if (shown or name) not in text]
            bench.judge(
                f"names on {segments}", [f"{missing[:3]}"] if missing and segments[0] in ("users", "roles", "objects") else []
            )
            bench.same(f"markup on {segments}", page.run(MARKUP), 0)
        for name, shown in NAMES.items():
            for place in ("users", "roles", "objects"):
                page.go(place, name)
                heading = page.run("return document.querySelector('main h1 bdi').textContent")
                bench.same(f"{name!r} of {place}", (heading, page.run(MARKUP)), (shown or name, 0))
                bench.same(f"{name!r} of {place} is there", "There is no such" in page.text(), False)
        page.go("explain", names[0], names[1], names[0])
        bench.same("explained", "Yes. <img src=x onerror=alert(1)> may do" in page.text("#answer"), True)
        page.go("users", names[0])
        page.follow(names[0], "section")
        bench.same("a link", page.run("return decodeURIComponent(location.hash)"), f"#/roles/{names[0]}")
        bench.same("isolated", page.run("return getComputedStyle(document.querySelector('h1 bdi')).unicodeBidi"), "isolate")
        bench.same("complaints", page.complaints(), [])


PAGE = """<!doctype html><title>foreign</title>
<form id="plain" method="POST" enctype="text/plain" action="{front}/v1/addUser" target="frame">
<input name='{{"user":"form","x":"' value='"}}'></form><iframe name="frame"></iframe>
<iframe id="console" src="{front}/console/#/users"></iframe>
<script>
const body = JSON.stringify({{user: "fetched"}});
const report = (name, text) => fetch("/said?" + name + "=" + encodeURIComponent(text));
const all = [
    fetch("{front}/v1/addUser", {{method: "POST", body}}),
    fetch("{front}/v1/addUser", {{method: "POST", body, mode: "no-cors"}}),
    fetch("{front}/v1/addUser", {{method: "POST", body, headers: {{Authorization: "Bearer x"}}}}),
    fetch("{front}/lists/users"), import("{front}/console/api.js").then(api => api.ask("addUser", {{user: "imported"}})),
].map(one => one.then(reply => reply?.text?.() ?? "").then(text => report("read", text), () => report("read", "-")));
navigator.sendBeacon("{front}/v1/addUser", JSON.stringify({{user: "beacon"}}));
document.getElementById("plain").submit();
const opened = window.open("{front}/console/#/users", "opened");
setTimeout(async () => {{
    await Promise.all(all);
    let seen = "nothing";
    try {{ seen = opened.document.title; }} catch {{ seen = "nothing"; }}
    await report("opened", opened && !opened.closed ? seen : "nothing");
    let framed = "nothing";
    try {{ framed = document.getElementById("console").contentDocument?.title ?? "nothing"; }} catch {{ framed = "nothing"; }}
    await report("framed", framed || "nothing");
    await report("done", "yes");
}}, 2500);
</script>
"""


def check_foreign_page(bench):
    """A page of another origin, in a browser that has the console open, changes nothing and reads nothing."""
    with Front(bench) as front, Browser(bench, front) as page, http.server.ThreadingHTTPServer((HOST, 0), Site) as site:
        site.said, site.page = [], PAGE.format(front=f"http://{HOST}:{front.port}")
        threading.Thread(target=site.serve_forever, daemon=True).start()
        page.open("users")
        bench.same("the console itself", page.submit("Add", "Add a user", Name="own"), "own is a user now.")
        page.driver.switch_to.new_window("tab")
        page.driver.get(f"http://localhost:{site.server_port}/")
        page.until(lambda: "done=yes" in site.said, "the foreign page has ended")
        bench.same("what it read", sorted({one for one in site.said if one.startswith("read=")} - {"read="}), ["read=-"])
        bench.same(
            "windows", [one for one in site.said if one.startswith(("opened", "framed"))], ["opened=nothing", "framed=nothing"]
        )
        bench.same("the users", value_rows(front, "users"), ["own"])
        site.shutdown()
