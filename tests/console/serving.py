"""The files of the console without a browser: their headers and their size; GET /record, /room and /picture, and who may ask."""

import http.client
import json
import os
import shutil
import sqlite3
import subprocess
import urllib.parse
from xml.etree import ElementTree

from front.batches import batch
from front.identities import bearer, secured
from front.program import HOST, Front
from front.recorded import digest
from front.running import PROGRAM
from machine.state import MOST

from .sources import SITE

FIELDS = {
    "Content-Security-Policy": "default-src 'self'; frame-ancestors 'none'; base-uri 'none'; form-action 'self'; img-src 'self' blob:",
    "X-Content-Type-Options": "nosniff", "Cache-Control": "no-store", "Referrer-Policy": "no-referrer",
}  # fmt: skip
TYPES = {".html": "text/html", ".css": "text/css", ".js": "text/javascript", ".svg": "image/svg+xml"}


def get(front, path, method="GET", **fields):
    """The status, the fields and the body of an answer."""
    client = http.client.HTTPConnection(HOST, front.port, timeout=60)
    client.request(method, path, headers={name.replace("_", "-"): value for name, value in fields.items()})
    reply = client.getresponse()
    found = reply.status, reply.headers, reply.read()
    client.close()
    return found


def value_of(front, path, **fields):
    """The status and the value of an answer, or its refusal."""
    status, _, body = get(front, path, **fields)
    answer = json.loads(body)
    return status, answer.get("value", answer)


def check_files(bench):
    """Each file is served with its type and the fields that protect it, to everybody, and nothing else is."""
    with secured(bench) as front:
        for path in sorted(SITE.iterdir()):
            status, fields, body = get(front, f"/console/{path.name}")
            bench.same(f"{path.name}", (status, body == path.read_bytes()), (200, True))
            bench.same(f"the fields of {path.name}", {name: fields[name] for name in FIELDS}, FIELDS)
            bench.same(f"the type of {path.name}", fields["Content-Type"].split(";")[0], TYPES[path.suffix])
        bench.same("the document", get(front, "/console/")[2], (SITE / "index.html").read_bytes())
        bench.same("without the slash", (get(front, "/console")[0], get(front, "/console")[1]["Location"]), (301, "/console/"))
        for path in (
            "/console/x",
            "/console/../console.go",
            "/console/%2e%2e/console.go",
            "/console/site",
            "/console//index.html",
        ):
            bench.same(path, get(front, path)[0] in (400, 404), True)
        for method in ("POST", "PUT", "DELETE"):
            bench.same(method, get(front, "/console/", method)[0], 405)
        bench.same("a page of elsewhere", get(front, "/console/", Origin="https://elsewhere.example")[0], 403)


RIGHTS = {
    "token:desk": [("addUser", "office"), ("lists", "office")],
    "token:admin": [("record", "office"), ("addUser", "office"), ("assignUser", "office"), ("addRole", "office")],
}


def check_record(bench):
    """GET /record has the entries that SQL reads from the record, the newest first, by filters and part by part."""
    with secured(bench, rights=RIGHTS) as front:
        admin = bearer("another")
        for number in range(25):
            front.ask("addUser", {"user": f"u{number}"}, Office_Reason=f"joins {number}", **admin)
        front.ask("addUser", {"user": "u3"}, **admin)
        front.ask("addRole", {"role": "clerk"}, **admin)
        front.ask("assignUser", {"user": "u3", "role": "clerk"}, **bearer("another"))
        front.ask("addUser", {"user": "v"}, **bearer("secret"))
        bench.same("without the right", value_of(front, "/record", **bearer("secret"))[0], 403)
        bench.same("without a token", get(front, "/record")[0], 401)
        db = sqlite3.connect(f"file:{front.office}.record/record.db?mode=ro", uri=True)
        rows = db.execute("SELECT n, at, caller, reason, request, answer FROM entry ORDER BY n DESC").fetchall()
        chain = db.execute("SELECT chain FROM entry ORDER BY n DESC LIMIT 1").fetchone()[0]
        db.close()

        def wanted(chosen):
            return [
                {"answer": json.loads(answer), "at": at, "caller": caller, "number": n, "request": json.loads(request),
                 **({"reason": reason} if reason else {})}
                for n, at, caller, reason, request, answer in chosen
            ]  # fmt: skip

        status, value = value_of(front, "/record?limit=1000", **admin)
        bench.same("all", (status, value), (200, {"entries": wanted(rows), "head": f"{rows[0][0]}:{chain}"}))
        found, before = [], ""
        while True:
            part = value_of(front, f"/record?limit=7{before}", **admin)[1]
            found += part["entries"]
            if "next" not in part:
                break
            before = f"&before={part['next']}"
        bench.same("part by part", found, wanted(rows))
        for query, has in [
            ({"user": "u3"}, lambda row: json.loads(row[4]).get("user") == "u3"),
            ({"role": "clerk"}, lambda row: json.loads(row[4]).get("role") == "clerk"),
            ({"function": "assignUser"}, lambda row: json.loads(row[4]).get("fn") == "assignUser"),
            ({"caller": "token:desk"}, lambda row: row[2] == "token:desk"),
            ({"refused": "true"}, lambda row: "error" in json.loads(row[5])),
            ({"since": "2999"}, lambda row: False),
            ({"until": "2999", "user": "u1"}, lambda row: json.loads(row[4]).get("user") == "u1"),
        ]:
            given = value_of(front, f"/record?limit=1000&{urllib.parse.urlencode(query)}", **admin)[1]["entries"]
            bench.same(f"{query}", given, wanted(filter(has, rows)))
            bench.same(f"{query}: some", bool(given), query != {"since": "2999"})
        for query in ("limit=0", "limit=1001", "limit=x", "before=0", "refused=1", "user=a&user=b", "x=y", "user=%zz"):
            bench.same(query, get(front, f"/record?{query}", **admin)[0], 400)
        bench.same("another method", front.exchange("POST", "/record", "{}", **admin)[0], 405)
    with Front(bench, "--no-record", name="other") as front:
        bench.same("without a record", get(front, "/record")[0], 404)


def check_room(bench):
    """GET /room counts what is in the office; it needs the right to the lists."""
    with secured(bench, rights=RIGHTS) as front:
        front.ask("addUser", {"user": "ann"}, **bearer("another"))
        status, value = value_of(front, "/room", **bearer("secret"))
        bench.same("the status", status, 200)
        counted = {one["kind"]: (one["count"], one["limit"]) for one in value["room"]}
        bench.same("users and roles", (counted["user"], counted["role"]), ((1, MOST["user"]), (0, MOST["role"])))
        bench.same("without the right", get(front, "/room", **bearer("another"))[0], 403)


def check_picture(bench):
    """GET /picture draws the whole, a role's neighbours, and ways; whatever is in a name is in the picture as it is."""
    if not shutil.which("dot"):
        print("left out: pictures, since there is no dot")
        return
    odd = ["a\\nb", 'x"y', "<b>", "&lt;", "&amp;\\l", "\u202eevil"]
    with Front(bench, "--no-record") as front:
        lines = [{"fn": "addRole", "role": role} for role in ("boss", "clerk", *odd)]
        lines += [{"fn": "addInheritance", "asc": "boss", "desc": "clerk"}, {"fn": "addInheritance", "asc": "clerk", "desc": odd[0]},
                  {"fn": "createSsdSet", "set": "a&b", "roles": [odd[1], odd[2]], "cardinality": 2}]  # fmt: skip
        bench.same("the office", {*batch(front, lines)[1]}, {'{"ok":true}'})
        status, fields, body = get(front, "/picture")
        bench.same("the whole", (status, fields["Content-Type"], b"<script" in body), (200, "image/svg+xml", False))
        texts = [text.replace("\u00a0", " ") for text in texts_of(body)]
        bench.judge(
            "names in it", [f"{name} isn't in {texts}" for name in ["boss", *odd[:5], "[U+202E]evil", "a&b"] if name not in texts]
        )
        bench.same("around clerk", sorted(texts_of(get(front, "/picture?role=clerk")[2])), sorted(["boss", "clerk", odd[0]]))
        bench.same("its revision", fields["Policy-Revision"], get(front, "/room")[1]["Policy-Revision"])
        way = urllib.parse.urlencode({"role": odd[0], "from": "boss", "user": "ann", "operation": "o", "object": "x"})
        bench.same(
            "a way", sorted(texts_of(get(front, f"/picture?{way}")[2])), sorted(["boss", "clerk", odd[0], "ann", "o", "x"])
        )
        bench.same("no role", value_of(front, "/picture?role=nobody"), (409, {"code": 4, "error": "NoRole"}))
        for query in ("x=y", "role=a&role=b", "role=%zz"):
            bench.same(query, get(front, f"/picture?{query}")[0], 400)
        lines = [{"fn": "addRole", "role": f"r{i}"} for i in range(150)]
        lines += [{"fn": "addInheritance", "asc": f"r{i}", "desc": "clerk"} for i in range(148)]
        for i in range(0, len(lines), 100):
            batch(front, lines[i : i + 100])
        bench.same("too many for the whole", get(front, "/picture")[0], 413)
        texts = texts_of(get(front, "/picture?role=clerk")[2])
        bench.same("too many neighbours", (len(texts), [one for one in texts if "more" in one]), (151, ["and 1 more"]))
    with secured(bench, rights=RIGHTS, name="other") as front:
        bench.same("without the right", get(front, "/picture", **bearer("another"))[0], 403)
        bench.same("with the right", get(front, "/picture", **bearer("secret"))[0], 200)


def texts_of(svg):
    """The texts of a picture."""
    return [one.text for one in ElementTree.fromstring(svg).iter("{http://www.w3.org/2000/svg}text")]


def check_origins(bench):
    """A page of the front itself may ask: its origin is where it asks, and no other site can have made the name mean this machine."""
    with Front(bench, "--no-record") as front:
        own = f"http://{HOST}:{front.port}"
        for origin, host, status in [
            (own, f"{HOST}:{front.port}", 200), (f"http://localhost:{front.port}", f"localhost:{front.port}", 200),
            (own, f"localhost:{front.port}", 403), (f"https://{HOST}:{front.port}", f"{HOST}:{front.port}", 403),
            (f"http://{HOST}", f"{HOST}:{front.port}", 403), ("null", f"{HOST}:{front.port}", 403), ("", f"{HOST}:{front.port}", 403),
            ("http://evil.example", "evil.example", 403), ("http://evil.example:80", f"{HOST}:{front.port}", 403),
        ]:  # fmt: skip
            given = front.ask("ssdRoleSets", {}, Origin=origin, Host=host)[0]
            bench.same(f"{origin} at {host}", given, status)
    with secured(bench, rights=RIGHTS, name="other") as front:
        name = {"Origin": "http://office.example", "Host": "office.example"}
        bench.same("a name with a token", front.ask("addUser", {"user": "a"}, **name, **bearer("secret"))[0], 200)
        bench.same("a name without a token", front.ask("addUser", {"user": "b"}, **name)[0], 403)
        bench.same(
            "another name",
            front.ask("addUser", {"user": "b"}, Origin="http://evil.example", Host="office.example", **bearer("secret"))[0],
            403,
        )


def check_filters(bench):
    """A filter of the record that is mistyped is refused, and the answer says why; a time may be written in parts."""
    with Front(bench) as front:
        front.ask("addUser", {"user": "ann"})
        front.ask("assignUser", {"user": "ann", "role": "none"})
        front.ask("createSsdSet", {"set": "audit", "roles": ["a", "b"], "cardinality": 2}, Office_Reason="ticket 4711, urgent")
        front.ask("grantPermission", {"operation": "open", "object": "vault", "role": "none"})
        front.ask("deleteSession", {"user": "ann", "session": "ann 1"})
        form = "a time is written as in 2026-11-27 or 2026-11-27T09:30, in UTC"
        for query, said in [
            ("since=21.11.2026", f"since: {form}"),
            ("until=yesterday", f"until: {form}"),
            ("since=2026-13-45", f"since: {form}"),
            ("since=2026-02-30T10", f"since: {form}"),
            ("function=assign", 'there is no function "assign"'),
            ("refused=1", "refused is true or false"),
            ("limit=1001", "limit is a number from 1 to 1000"),
            ("before=0", "before is the number of an entry"),
            ("name=ann", 'the record has no filter "name"'),
            ("user=a&user=b", '"user" is there more than once'),
        ]:
            status, fields, body = get(front, f"/record?{query}")
            bench.same(query, (status, json.loads(body), fields["Office-Why"]), (400, {"code": 34, "error": "BadRequest"}, said))
        for query, count in [
            ("since=2026", 6), ("since=2026-11", 6), ("since=2026-11-01T10:20:30.5Z", 6), ("until=2026-01-01", 0),
            ("since=2999-12-31T23:59", 0), ("until=2999", 6), ("function=assignUser", 1), ("since=", 6),
            ("set=audit", 1), ("set=audi", 0), ("reason=4711", 1), ("reason=4711&set=audit&refused=true", 1), ("reason=4712", 0),
            ("operation=open", 1), ("operation=open&object=vault", 1), ("operation=vault", 0), (f"session={digest('ann 1')}", 1),
            ("session=ann+1", 0), ("user=ann", 3), ("user=ann&refused=true", 2),
        ]:  # fmt: skip
            status, value = value_of(front, f"/record?{query}")
            bench.same(query, (status, len(value.get("entries", []))), (200, count))
        entry = value_of(front, "/record?function=addUser")[1]["entries"][0]
        at = entry["at"]
        bench.same("since its own time", len(value_of(front, f"/record?since={at}&function=addUser")[1]["entries"]), 1)
        bench.same("until its own time", len(value_of(front, f"/record?until={at}&function=addUser")[1]["entries"]), 0)
        minute = f"{at[:16]}Z"
        bench.same("since its minute", len(value_of(front, f"/record?since={minute}&function=addUser")[1]["entries"]), 1)
        for option in ("since", "until"):
            done = subprocess.run(
                [os.environ[PROGRAM], "record", "show", "--office", front.office, f"--{option}", "yesterday"],
                capture_output=True, text=True, check=False,
            )  # fmt: skip
            bench.same(f"--{option} of the command line", (done.returncode, form in done.stderr, done.stdout), (1, True, ""))
