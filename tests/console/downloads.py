"""Reports as files, without a browser: their lines beside those of the tools for auditors, tickets, rights, one report at a time."""

import csv
import http.client
import io
import json
import shutil
import signal
import socket
import subprocess
import time

import pytest

from front.identities import bearer, rules, secured, tokens
from front.program import HOST, Front, until
from program.bench import PROGRAM as RBAC
from tools.offices import Building, accepted, odd_lines
from tools.running import run_tool

OFFICES, LINES = 12, 250
# What is asked of each office: the filters of a report, with the places of the columns that they are about.
PLACES = {
    "permissions": {"user": [0], "role": [4, 5], "object": [2], "operation": [3]},
    "sessions": {"user": [1], "role": [2, 5], "object": [3], "operation": [4]},
    "near": {"set": [2]},
}
TICKET_SECONDS = 60


def ticket_for(front, name, values=None, **fields):
    """The status of a request for a report, and its value or its refusal."""
    status, body = front.exchange("POST", f"/reports/{name}", json.dumps(values or {}), **fields)
    answer = json.loads(body)
    return status, answer.get("value", answer)


def file_of(front, ticket, **fields):
    """The status and the text of what a ticket is for."""
    return front.exchange("GET", f"/reports/{ticket}", **fields)


def report(front, name, values=None, **fields):
    """The text of a report, and what was said about it."""
    status, told = ticket_for(front, name, values, **fields)
    assert status == 200, told
    status, text = file_of(front, told["ticket"])
    assert status == 200, text
    return text, told


def rows_of(text):
    return list(csv.reader(io.StringIO(text, newline="")))


def as_text(row):
    """A row of a tool as a spreadsheet may get it: what it would take for a formula has an apostrophe, numbers apart."""
    return [cell if cell.lstrip("-").isdigit() else escaped(cell) for cell in row]


def escaped(text):
    """A text of which no part, between semicolons, is a formula for a spreadsheet."""
    return ";".join("'" + part if part.lstrip("'")[:1] in tuple("=+-@＝＋－＠") else part for part in text.split(";"))


def compare(bench, what, front, copy):
    """Each report of a front is that of the tool for a copy of its office, whole and by each filter."""
    found = 0
    for name in ("permissions", "sessions", "near"):
        heading, *rows = rows_of(run_tool(name, copy).out.decode())
        text, told = report(front, name)
        bench.same(f"{name} of {what}", rows_of(text), [heading, *map(as_text, rows)])
        bench.same(f"what is said of {name} of {what}", (told["lines"], told["columns"]), (len(rows), heading))
        lines = [json.loads(line) for line in report(front, name, {"format": "lines", "limit": 10**6})[0].split("\n")[:-1]]
        bench.same(f"{name} of {what} as lines", lines, rows)
        found += len(rows)
        for row in rows[:: max(1, len(rows) // 3)]:
            for key, places in PLACES[name].items():
                values = {key: row[places[-1]]}
                if not values[key]:
                    continue
                wanted = [one for one in rows if values[key] in [one[place] for place in places]]
                text, told = report(front, name, values)
                bench.same(
                    f"{name} of {what} by {values}",
                    (rows_of(text)[1:], told["lines"]),
                    ([as_text(one) for one in wanted], len(wanted)),
                )
    heading, *rows = rows_of(run_tool("room", copy).out.decode())
    bench.same(f"room of {what}", rows_of(report(front, "room")[0]), [heading[1:], *(row[1:] for row in rows)])
    bench.same(f"dump of {what}", report(front, "dump")[0].encode() == run_tool("dump", copy).out, True)
    return found


def check_beside_tools(bench):
    """Reports of random offices, and of one with odd names, are those of the tools; no session's name is in them."""
    if not shutil.which("sqlite3"):
        print("left out: reports beside the tools, since there is no sqlite3")
        return None
    found = 0
    for seed in range(OFFICES + 1):
        lines = accepted(Building(seed), LINES) if seed < OFFICES else odd_lines()
        front = Front(bench, "--no-record", name=f"office{seed}")
        for words, given in ((["init", front.office], b""), (["replay", front.office], b"".join(lines))):
            subprocess.run([RBAC, *words], input=given, capture_output=True, check=True)
        copy = bench.path(f"copy{seed}")
        shutil.copyfile(front.office, copy)
        with front:
            found += compare(bench, f"office {seed}", front, copy)
    bench.same("some lines were compared", found > 500, True)
    return {"lines of reports beside the tools": found}


RIGHTS = {"token:desk": [("lists", "office")], "token:admin": [("reports", "office"), ("addUser", "office"), ("addRole", "office"),
          ("assignUser", "office"), ("addPermObj", "office"), ("addPermission", "office"), ("grantPermission", "office")]}  # fmt: skip
ADMIN, DESK = bearer("another"), bearer("secret")


def check_tickets(bench):
    """A ticket is of use once, for its report, without anything else; nobody gets one without the right, and none is in a log."""
    with secured(bench, "--no-record", rights=RIGHTS) as front:
        front.ask("addUser", {"user": "ann"}, **ADMIN)
        for fields, status in ((DESK, 403), ({}, 401), (bearer("wrong"), 401)):
            bench.same(f"a ticket for {fields}", ticket_for(front, "room", **fields)[0], status)
        for name, body, status in [("planets", "{}", 404), ("", "{}", 404), ("room", '{"user":"ann"}', 400), ("room", "[]", 400),
                                   ("permissions", '{"user":7}', 400), ("permissions", '{"set":"s"}', 400), ("near", '{"left":"1"}', 400),
                                   ("room", '{"limit":0}', 400), ("room", '{"format":"html"}', 400), ("room", " " * 4097, 413)]:  # fmt: skip
            bench.same(f"{name} {body[:20]}", front.exchange("POST", f"/reports/{name}", body, **ADMIN)[0], status)
        told = ticket_for(front, "dump", **ADMIN)[1]
        bench.same("what is said", (told["lines"], told["seconds"], len(told["ticket"])), (1, TICKET_SECONDS, 64))
        for method, path, status in [("GET", f"{told['ticket']}?x=1", 404), ("GET", f"dump/{told['ticket']}", 404), ("GET", told["ticket"][:-1], 404),
                                     ("GET", "", 404), ("GET", "dump", 404), ("HEAD", told["ticket"], 401), ("DELETE", told["ticket"], 401)]:  # fmt: skip
            bench.same(f"{method} {path[:9]}", front.exchange(method, f"/reports/{path}")[0], status)
        front.ask("addUser", {"user": "bob"}, **ADMIN)
        bench.same(
            "its report, of when it was asked for", file_of(front, told["ticket"]), (200, '{"fn":"addUser","user":"ann"}\n')
        )
        bench.same("twice", file_of(front, told["ticket"])[0], 404)
        bench.same("twice, with the token", file_of(front, told["ticket"], **ADMIN)[0], 404)
        first, second = (ticket_for(front, name, **ADMIN)[1]["ticket"] for name in ("room", "dump"))
        bench.same("the other report", file_of(front, second)[1].count("addUser"), 2)
        bench.same("the first one", file_of(front, first)[1].splitlines()[0], "kind,count,limit,left")
        foreign = ticket_for(front, "room", **ADMIN)[1]["ticket"]
        bench.same("a foreign page", file_of(front, foreign, Origin="https://elsewhere.example")[0], 403)
        bench.same("it is still of use", file_of(front, foreign)[0], 200)
        fields = head_of(front, ticket_for(front, "permissions", **ADMIN)[1]["ticket"])
        bench.same("the fields", (fields["Content-Type"], fields["Cache-Control"], fields["X-Content-Type-Options"], fields["Referrer-Policy"]),
                   ("text/csv; charset=utf-8", "no-store", "nosniff", "no-referrer"))  # fmt: skip
        bench.same("the name of the file", fields["Content-Disposition"].startswith('attachment; filename="permissions-2'), True)
        bench.same("its revision", f"-revision-{fields['Policy-Revision']}.csv" in fields["Content-Disposition"], True)
        unused = ticket_for(front, "room", **ADMIN)[1]["ticket"]
    for path in (front.log, front.office + ".refused", front.office + ".refused.unknown"):
        with open(path, "rb") as file:
            text = file.read()
        bench.same(f"a ticket in {path}", any(one.encode() in text for one in (unused, first, second)), False)


def head_of(front, ticket):
    """The fields of an answer."""
    client = front.connection()
    client.request("GET", f"/reports/{ticket}")
    reply = client.getresponse()
    reply.read()
    client.close()
    return reply.headers


@pytest.mark.slow
def check_time(bench):
    """A ticket is of no use after 60 seconds."""
    with Front(bench, "--no-record") as front:
        late, early = (ticket_for(front, "room")[1]["ticket"] for _ in range(2))
        time.sleep(TICKET_SECONDS - 8)
        bench.same("before", file_of(front, early)[0], 200)
        time.sleep(9)
        bench.same("after", file_of(front, late)[0], 404)


def reload(bench, front, rights, **names):
    """Puts other callers in force."""
    bench.write("callers.jsonl", rules(rights).encode())
    bench.write("tokens", tokens(**names).encode())
    before = front.said().count("callers are in force")
    front.process.send_signal(signal.SIGHUP)
    until(lambda: front.said().count("callers are in force") > before, "the callers are in force")


def check_rights(bench):
    """A ticket is of no use after its caller's right is gone, or its token."""
    for rights, names, status in [
        ({**RIGHTS, "token:admin": [("lists", "office")]}, {"admin": "another"}, 403),
        (RIGHTS, {"admin": "new"}, 401),
    ]:
        with secured(bench, "--no-record", rights=RIGHTS, name=f"office{status}") as front:
            ticket = ticket_for(front, "room", **ADMIN)[1]["ticket"]
            reload(bench, front, rights, **names)
            bench.same(f"{status}", file_of(front, ticket)[0], status)
            bench.same("it is spent", file_of(front, ticket)[0], 404)


# An office whose report of permissions is longer than what connections keep: a line for each user and each grant.
MANY_USERS, MANY_GRANTS = 400, 400


def long_office(bench, front):
    """Fills the office of a front with what makes a long report."""
    lines = [{"fn": "addRole", "role": "clerk"}]
    lines += [{"fn": "addUser", "user": f"a user with a long name {i:05}"} for i in range(MANY_USERS)]
    lines += [{"fn": "assignUser", "user": f"a user with a long name {i:05}", "role": "clerk"} for i in range(MANY_USERS)]
    for i in range(MANY_GRANTS):
        permission = {"object": f"an object with a long name {i:05}", "operation": "read"}
        lines += [
            {"fn": "addPermObj", "object": permission["object"]},
            {"fn": "addPermission", **permission},
            {"fn": "grantPermission", **permission, "role": "clerk"},
        ]
    text = "".join(json.dumps(line) + "\n" for line in lines).encode()
    for words, given in ((["init", front.office], b""), (["replay", front.office], text)):
        subprocess.run([RBAC, *words], input=given, capture_output=True, check=True)


class Slow:
    """A client that takes a report slowly: it has the head, and takes more only when it is told to."""

    def __init__(self, front, ticket):
        self.socket = socket.socket()
        self.socket.setsockopt(socket.SOL_SOCKET, socket.SO_RCVBUF, 65_536)
        self.socket.settimeout(60)
        self.socket.connect((HOST, front.port))
        self.socket.sendall(f"GET /reports/{ticket} HTTP/1.1\r\nHost: localhost\r\n\r\n".encode())
        self.text = bytearray(self.socket.recv(4096))

    def take(self, bytes_wanted=1 << 20):
        """Takes some of the rest. It returns False at the end."""
        wanted = len(self.text) + bytes_wanted
        while len(self.text) < wanted:
            try:
                piece = self.socket.recv(65_536)
            except ConnectionResetError:
                return False
            if not piece:
                return False
            self.text += piece
        return True

    def take_all(self):
        """Takes the rest, and reports whether the end is there."""
        while self.take():
            pass
        self.socket.close()
        return self.text.endswith(b"\r\n0\r\n\r\n")

    def lines(self):
        """How many lines of grants have come."""
        at, whole = self.text.index(b"\r\n\r\n") + 4, bytearray()
        while at < len(self.text):
            end = self.text.index(b"\r\n", at)
            size = int(self.text[at:end], 16)
            whole += self.text[end + 2 : end + 2 + size]
            at = end + 4 + size
        return whole.count(b",read,")


def check_one_at_a_time(bench):
    """While one report is read, another one waits and is refused after a while; its ticket is of use later. The office answers."""
    front = secured(bench, "--no-record", rights=RIGHTS)
    long_office(bench, front)
    with front:
        first = Slow(front, ticket_for(front, "permissions", **ADMIN)[1]["ticket"])
        second = ticket_for(front, "room", **ADMIN)[1]["ticket"]
        waiting = http.client.HTTPConnection(HOST, front.port, timeout=60)
        waiting.request("GET", f"/reports/{second}")
        for _ in range(4):
            time.sleep(2.8)
            bench.same("the first one goes on", first.take(1 << 20), True)
            bench.same("others are answered", front.ask("addUser", {"user": "ann"}, **ADMIN)[0] in (200, 409), True)
        reply = waiting.getresponse()
        bench.same("the second one", (reply.status, json.loads(reply.read())["error"]), (503, "Unavailable"))
        bench.same("the first one has its end", first.take_all(), True)
        bench.same("its lines", first.lines(), MANY_USERS * MANY_GRANTS)
        bench.same("the second one later", file_of(front, second)[0], 200)


def check_rights_meanwhile(bench):
    """If the right is gone while a report is read, the rest of it isn't sent, and the client sees that."""
    front = secured(bench, "--no-record", rights=RIGHTS)
    long_office(bench, front)
    with front:
        client = Slow(front, ticket_for(front, "permissions", **ADMIN)[1]["ticket"])
        reload(bench, front, {**RIGHTS, "token:admin": [("lists", "office")]}, admin="another", desk="secret")
        time.sleep(1.5)
        bench.same("the end is missing", client.take_all(), False)
        bench.same("lines are missing", client.lines() < MANY_USERS * MANY_GRANTS, True)
        rest = ticket_for(front, "room", **ADMIN)[0]
        bench.same("no other ticket", rest, 403)


def check_slow(bench):
    """A client that takes nothing for ten seconds is cut off, and the next one gets its report."""
    front = secured(bench, "--no-record", rights=RIGHTS)
    long_office(bench, front)
    with front:
        client = Slow(front, ticket_for(front, "permissions", **ADMIN)[1]["ticket"])
        time.sleep(12)
        bench.same("the next one", file_of(front, ticket_for(front, "room", **ADMIN)[1]["ticket"])[0], 200)
        bench.same("the end is missing", client.take_all(), False)


def memory_of(process):
    """How many bytes of memory a process has had at most since it was asked last."""
    with open(f"/proc/{process}/status", encoding="ascii") as file:
        (found,) = [int(line.split()[1]) for line in file if line.startswith("VmHWM")]
    with open(f"/proc/{process}/clear_refs", "w", encoding="ascii") as file:
        file.write("5")
    return found * 1024
