"""The lists are what SQL reads from the rows: after random commands, under load, after kills, and part by part."""

import json
import os
import random
import shutil
import sqlite3
import threading
import urllib.parse

import pytest

from machine.commands import COMMANDS
from machine.drawing import Draws
from program.bench import PROGRAM as RBAC

from .batches import batch
from .explained import forget
from .identities import bearer, secured
from .kills import ROLES, Client, kill_at_random
from .program import Front, children, refused_start, until
from .recorded import verified
from .sessions import digest_of
from .watching import Watch, request_of, snapshot

# How many random offices there are, how many with --gate and with --long, and how many random lines each gets before its lists are compared.
OFFICES, OFFICES_OF_GATE, MORE_OFFICES, LINES = 6, 20, 200, 150

# The query of each list of names.
QUERIES = {
    "users": "SELECT a FROM name_row WHERE kind = 1", "roles": "SELECT a FROM name_row WHERE kind = 2",
    "objects": "SELECT a FROM name_row WHERE kind = 3", "locked": "SELECT a FROM locked_row",
    "operations": "SELECT DISTINCT b FROM pair_row WHERE kind = 1", "permissions": "SELECT a, b FROM pair_row WHERE kind = 1",
    "assignments": "SELECT a, b FROM pair_row WHERE kind = 2", "inheritances": "SELECT a, b FROM pair_row WHERE kind = 3",
    "grants": "SELECT ob, op, role FROM grant_row", "sessions": "SELECT a, b FROM pair_row WHERE kind = 7",
}  # fmt: skip
COLUMNS = {
    "permissions": ["object", "operation"], "assignments": ["user", "role"], "inheritances": ["asc", "desc"],
    "grants": ["object", "operation", "role"],
}  # fmt: skip
SETS = {"staticSets": (1, 5), "dynamicSets": (2, 6)}


def order(row):
    """The order of rows is that of their bytes."""
    return tuple(name.encode() for name in ([row] if isinstance(row, str) else row))


def rows_of(bench, front):
    """What each list has to have, by SQL on a copy of the file and its log. Nobody asks meanwhile."""
    copied = bench.path("copied")
    for suffix in ("", "-wal", "-shm"):
        if os.path.exists(copied + suffix):
            os.remove(copied + suffix)
        if suffix != "-shm" and os.path.exists(front.office + suffix):
            shutil.copy(front.office + suffix, copied + suffix)
    office = sqlite3.connect(copied)
    found = {}
    for name, query in QUERIES.items():
        rows = sorted((row if len(row) > 1 else row[0] for row in office.execute(query)), key=order)
        found[name] = [dict(zip(COLUMNS[name], row)) if name in COLUMNS else row for row in rows]
    active = {}
    for session, role in office.execute("SELECT a, b FROM pair_row WHERE kind = 8"):
        active.setdefault(session, []).append(role)
    found["sessions"] = sorted(
        (
            {"roles": sorted(active.get(name, []), key=order), "session": digest_of(name), "user": user}
            for name, user in found["sessions"]
        ),
        key=lambda row: row["session"],
    )
    for name, (kind, member) in SETS.items():
        sets = office.execute("SELECT name, n FROM set_row WHERE kind = ?", (kind,)).fetchall()
        found[name] = []
        for one, count in sorted(sets, key=lambda row: order(row[0])):
            roles = [role for (role,) in office.execute("SELECT b FROM pair_row WHERE kind = ? AND a = ?", (member, one))]
            found[name].append({"cardinality": count, "roles": sorted(roles, key=order), "set": one})
    office.close()
    return found


def listed(front, name, connection=None, **query):
    """The status of the answer to a request for a list, and the answer."""
    path = f"/lists/{name}" + ("?" + urllib.parse.urlencode(query) if query else "")
    status, said = front.exchange("GET", path, None, connection)
    return status, json.loads(said)


def whole(front, name, limit, connection=None, **query):
    """All rows of a list, read part by part."""
    rows, after = [], {}
    while True:
        _, answer = listed(front, name, connection, limit=limit, **after, **query)
        rows += answer["value"]
        if "next" not in answer:
            return rows
        after = {"after": answer["next"]}


def same_lists(bench, front, what, limit=1_000, connection=None):
    """Counts whether all lists are those that SQL reads."""
    faults = []
    for name, wanted in rows_of(bench, front).items():
        given = whole(front, name, limit, connection)
        for row in given if name == "sessions" else []:
            row.pop("since"), row.pop("used")
        if given != wanted:
            faults.append(f"{name}: {given} and not {wanted}")
    bench.judge(f"the lists {what}", [fault[:400] for fault in faults])


@pytest.mark.slow
def check_random(bench):
    """After random commands the lists of random offices are what SQL reads, also when they are read again at a start."""
    seed = random.randrange(1_000_000_000)
    print(f"the seed of the offices for lists is {seed}")
    ended = {}
    with Front(bench, "--no-record") as front:
        kept = front.connection()
        for number in range(MORE_OFFICES if bench.is_long else OFFICES_OF_GATE if bench.is_gate else OFFICES):
            draws = Draws(seed + number)
            for _ in range(3):
                work(draws, front, kept, ended)
                same_lists(bench, front, f"of office {number}", draws.random.choice([1, 2, 3, 7, 1_000]), kept)
            if number % 5 == 0:
                kept.close()
                front.kill() if number % 10 else bench.same("the end", front.end(), 0)
                front.start()
                kept = front.connection()
                same_lists(bench, front, f"of office {number} after a start", connection=kept)
            forget(front, draws.state, kept)
        same_lists(bench, front, "of nothing", connection=kept)
        kept.close()
        bench.same("the end", front.end(), 0)
    # Few random offices need not have each of these commands: check_ending has.
    bench.same("other commands that have ended sessions", sorted(set(ended) - set(ENDING)), [])
    bench.same("whether sessions have ended", bool(ended), True)
    return {f"lists: sessions ended by {function}": count for function, count in ended.items()}


ENDING = ["deassignUser", "deleteInheritance", "deleteRole", "deleteSession", "deleteUser", "lockUserAccount"]


def work(draws, front, kept, ended):
    """Does random accepted commands, and counts those that end sessions."""
    lines = 0
    while lines < LINES:
        before = draws.state
        _, line, answer = draws.draw()
        if not answer.startswith(b'{"ok"') or json.loads(line)["fn"] not in COMMANDS:
            continue
        function = json.loads(line)["fn"]
        lines += 1
        if gone := len(set(before.sessions) - set(draws.state.sessions)):
            ended[function] = ended.get(function, 0) + gone
        path, body = ("batch", line) if draws.random.randrange(2) else request_of(line)
        front.ask(path, body, kept)


def check_ending(bench):
    """A session that a command has ended isn't listed any more when the command is answered."""
    with Front(bench) as front:
        kept = front.connection()
        lines = [{"fn": "addRole", "role": role} for role in ("clerk", "boss", "chief")]
        lines += [{"fn": "addInheritance", "asc": "chief", "desc": "boss"}]
        front_ask = lambda: len(whole(front, "sessions", 1_000, kept))  # noqa: E731
        bench.same("the office", {*batch(front, lines, connection=kept)[1]}, {'{"ok":true}'})
        for function, values in [
            ("deleteUser", {"user": "ann"}), ("lockUserAccount", {"user": "ann"}),
            ("deassignUser", {"user": "ann", "role": "chief"}),
            ("deleteInheritance", {"asc": "chief", "desc": "boss"}), ("deleteRole", {"role": "clerk"}),
        ]:  # fmt: skip
            start = [{"fn": "addInheritance", "asc": "chief", "desc": "boss"}, {"fn": "addUser", "user": "ann"},
                     {"fn": "assignUser", "user": "ann", "role": "chief"},
                     {"fn": "assignUser", "user": "ann", "role": "clerk"}]  # fmt: skip
            start += [{"fn": "createSession", "user": "ann", "roles": ["boss"], "session": f"s{i}"} for i in range(20)]
            start += [{"fn": "createSession", "user": "ann", "roles": ["clerk"], "session": f"t{i}"} for i in range(20)]
            batch(front, start, connection=kept)
            bench.same(f"{function}: before", front_ask(), 40)
            bench.same(f"{function}", front.ask(function, values, kept), (200, '{"ok":true}'))
            left = {"deleteUser": 0, "lockUserAccount": 0}.get(function, 20)
            bench.same(f"{function}: after", front_ask(), left)
            same_lists(bench, front, f"after {function}", connection=kept)
            front.ask("deleteUser", {"user": "ann"}, kept)
        kept.close()
        bench.same("the end", front.end(), 0)


def check_load(bench):
    """Clients find what they have done in the lists; afterwards the lists are what SQL reads, also after kills of the replay."""
    with Front(bench, "--timeout", "60s") as front:
        faults, stop = [], threading.Event()
        front.ask("addRole", {"role": "clerk"})

        def work_on(number):
            kept, mine = front.connection(), random.Random(number)
            try:
                for i in range(60):
                    user = f"u{number}.{i}"
                    ok = [
                        front.ask("addUser", {"user": user}, kept)[0] == 200,
                        user in whole(front, "users", 1_000, kept, contains=user),
                    ]
                    front.ask("assignUser", {"user": user, "role": "clerk"}, kept)
                    front.ask("createSession", {"user": user, "roles": ["clerk"], "session": f"s {user}"}, kept)
                    ok.append([row["user"] for row in whole(front, "sessions", 1_000, kept, user=user)] == [user])
                    ending = mine.choice([("deleteUser", {"user": user}), ("lockUserAccount", {"user": user}),
                                          ("deassignUser", {"user": user, "role": "clerk"})])  # fmt: skip
                    front.ask(*ending, kept)
                    ok.append(whole(front, "sessions", 1_000, kept, user=user) == [])
                    if not all(ok):
                        faults.append(f"{user} {ending}: {ok}")
            except (OSError, ValueError, KeyError) as error:
                faults.append(repr(error))
            kept.close()

        threads = [threading.Thread(target=work_on, args=(number,)) for number in range(8)]
        for thread in threads:
            thread.start()
        for thread in threads:
            thread.join()
        stop.set()
        bench.judge("what clients find", faults[:5])
        same_lists(bench, front, "after the load")
        for process in children(front.process.pid):
            os.kill(process, 9)
        until(lambda: "the replay answers again" in front.said(), "the replay answers again")
        same_lists(bench, front, "after a kill of the replay")
        front.kill()
        front.start()
        same_lists(bench, front, "after a kill of the front")
        bench.same("the end", front.end(), 0)


def check_closed(bench):
    """While the office can't be read, nothing is said about what is in it. A watch ends, and the numbers go on behind a gap."""
    with Front(bench, "--no-record") as front:
        bench.same("addUser", front.ask("addUser", {"user": "ann"})[0], 200)
        status, number, _ = snapshot(front)
        watch = Watch(front, number)
        os.rename(front.office, bench.path("away"))
        bench.write("office", b"no office")
        for process in children(front.process.pid):
            os.kill(process, 9)
        until(lambda: "doesn't start" in front.said(), "the log says why")
        bench.same("health", front.exchange("GET", "/healthz")[0], 503)
        for path in ("/lists/users", "/snapshot", f"/watch?after={number}"):
            bench.same(path, front.exchange("GET", path)[0], 503)
        asked = {"user": "ann", "operation": "open", "object": "safe"}
        for path in ("/explain", "/v1/decideByUser", "/sessions"):
            bench.same(path, front.exchange("POST", path, json.dumps(asked))[0], 503)
        os.replace(bench.path("away"), front.office)
        until(lambda: front.exchange("GET", "/healthz")[0] == 200, "the office answers again")
        bench.same("the watch has ended", [line for _, line in watch.events() if line], [])
        same_lists(bench, front, "after that")
        bench.same("later numbers are greater", (status, snapshot(front)[1] > number), (200, True))
        bench.same("the end", front.end(), 0)


def check_queries(bench):
    """Each key of a query chooses rows, and what isn't one is refused."""
    with Front(bench) as front:
        lines = [{"fn": "addUser", "user": name} for name in ("ann", "annika", "bob", "joanna", "<&>", "zoe\u00e9")]
        lines += [
            {"fn": "addRole", "role": "clerk"},
            {"fn": "addPermObj", "object": "shop:till"},
            {"fn": "addPermObj", "object": "wh:1"},
        ]
        for ob, op in (("shop:till", "open"), ("shop:till", "close"), ("wh:1", "open")):
            lines.append({"fn": "addPermission", "object": ob, "operation": op})
        lines += [{"fn": "grantPermission", "object": "shop:till", "operation": "open", "role": "clerk"},
                  {"fn": "assignUser", "user": "ann", "role": "clerk"}]  # fmt: skip
        bench.same("the office", {*batch(front, lines)[1]}, {'{"ok":true}'})
        till, close = {"object": "shop:till", "operation": "open"}, {"object": "shop:till", "operation": "close"}
        house = {"object": "wh:1", "operation": "open"}
        for name, query, wanted in [
            ("users", {}, ["<&>", "ann", "annika", "bob", "joanna", "zoe\u00e9"]), ("users", {"contains": "an"}, ["ann",
            "annika", "joanna"]),
            ("users", {"prefix": "ann"}, ["ann", "annika"]), ("users", {"user": "ann"}, ["ann"]), ("users", {"after": "bob"},
            ["joanna", "zoe\u00e9"]),
            ("users", {"contains": "an", "after": "ann", "limit": 1}, ["annika"]), ("users", {"prefix": "x"}, []),
            ("users", {"prefix": "ann", "after": "a"}, ["ann", "annika"]), ("users", {"prefix": "b", "after": "z"}, []),
            ("permissions", {}, [close, till, house]), ("permissions", {"operation": "open"}, [till, house]),
            ("permissions", {"prefix": "shop:"}, [close, till]), ("permissions", {"user": "ann"}, [till]), ("permissions",
            {"role": "clerk"}, [till]),
            ("permissions", {"user": "ann", "operation": "close"}, []), ("permissions", {"user": "bob"}, []),
            ("permissions", {"after": "shop:till\tclose"}, [till, house]), ("permissions", {"after": "shop:till"},
            [close, till, house]),
            ("permissions", {"contains": "till"}, [close, till]), ("grants", {"role": "clerk"}, [{**till, "role": "clerk"}]),
            ("assignments", {"role": "clerk"}, [{"role": "clerk", "user": "ann"}]), ("assignments", {"user": "bob"}, []),
        ]:  # fmt: skip
            status, answer = listed(front, name, **query)
            bench.same(f"{name} {query}", (status, answer.get("value")), (200, wanted))
        bench.same("the next part", listed(front, "users", limit=2)[1]["next"], "ann")
        bench.same("none", "next" in listed(front, "users", limit=6)[1], False)
        bench.same("of permissions", listed(front, "permissions", limit=1)[1]["next"], "shop:till\tclose")
        bench.same("nobody's", listed(front, "permissions", user="nobody"), (409, {"code": 2, "error": "NoUser"}))
        for name, query, status in [
            ("users", {"limit": 0}, 400), ("users", {"limit": 1_001}, 400), ("users", {"limit": "x"}, 400), ("users",
            {"role": "clerk"}, 400),
            ("users", {"x": "y"}, 400), ("permissions", {"user": "ann", "role": "clerk"}, 400), ("planets", {}, 404), ("",
            {}, 404),
        ]:  # fmt: skip
            bench.same(f"{name} {query}", listed(front, name, **query)[0], status)
        bench.same("a key twice", front.exchange("GET", "/lists/users?limit=1&limit=2")[0], 400)
        bench.same("POST", front.exchange("POST", "/lists/users", "{}")[0], 405)
        bench.same("the end", front.end(), 0)


def check_several(bench):
    """Parts of several lists are those that each list has by itself, in the order of the lines; what can't be read is refused."""
    with Front(bench) as front:
        lines = [{"fn": "addUser", "user": name} for name in ("ann", "bob", "joanna", '"a\\')] + [
            {"fn": "addRole", "role": "clerk"}
        ]
        lines += [{"fn": "assignUser", "user": "ann", "role": "clerk"}, {"fn": "lockUserAccount", "user": "bob"}]
        bench.same("the office", {*batch(front, lines)[1]}, {'{"ok":true}'})
        queries = [
            ("users", {"contains": "an", "limit": 1}), ("users", {"after": "bob"}), ("locked", {}), ("assignments", {"user": "ann"}), ("assignments", {"user": "bob"}),
            ("permissions", {"user": "ann"}), ("permissions", {"user": "nobody"}), ("permissions", {"role": "nobody"}), ("staticSets", {}), ("sessions", {}),
            ("users", {"user": '"a\\'}),
        ]  # fmt: skip
        text = "\r\n\n".join(json.dumps({"list": name, **query}) for name, query in queries)
        status, body = front.exchange("POST", "/lists", text)
        bench.same(
            "each",
            (status, [json.loads(line) for line in body.splitlines()]),
            (200, [listed(front, name, **query)[1] for name, query in queries]),
        )
        one = '{"list":"users"}'
        for what, text, status, line in [
            ("nothing", "", 400, None), ("an unknown list", f'{one}\n{{"list":"planets"}}', 404, "2"), ("no list", '{"user":"ann"}', 404, "1"),
            ("an unknown key", f'{one}\n\n{{"list":"users","role":"clerk"}}', 400, "3"), ("a text as the limit", '{"list":"users","limit":"1"}', 400, "1"),
            ("a limit of 0", '{"list":"users","limit":0}', 400, "1"), ("a number as a name", '{"list":"users","user":1}', 400, "1"), ("no object", "[]", 400, "1"),
            ("20 lists", "\n".join([one] * 20), 200, None),
            ("21 lists", "\n".join([one] * 21), 400, "21"), ("a long body", " " * 65_537, 413, None),
        ]:  # fmt: skip
            own = front.connection()
            own.request("POST", "/lists", text)
            reply = own.getresponse()
            reply.read()
            bench.same(what, (reply.status, reply.headers["Office-Line"]), (status, line))
            bench.same(f"the revision of {what}", reply.headers["Policy-Revision"] is not None, status == 200)
            own.close()
        bench.same("GET", front.exchange("GET", "/lists")[0], 405)
        bench.same("the end", front.end(), 0)


def check_rights(bench):
    """Every list needs the right to `lists` on the office; who may ask each function learns nothing."""
    questions = [
        (function, "office") for function in ("assignedRoles", "userPermissions", "checkAccess", "sessionRoles", "ssdRoleSets")
    ]
    rights = {"token:desk": questions, "token:admin": [("lists", "office"), ("addUser", "office")]}
    with secured(bench, rights=rights) as front:
        bench.same("addUser", front.ask("addUser", {"user": "ann"}, **bearer("another"))[0], 200)
        for name in (*QUERIES, *SETS, "planets"):
            for query in ("", "?user=ann", "?contains=x"):
                given = front.exchange("GET", f"/lists/{name}{query}", **bearer("secret"))
                bench.same(f"{name}{query}", given, (403, '{"code":63,"error":"Forbidden"}'))
            bench.same(f"{name} of nobody", front.exchange("GET", f"/lists/{name}")[0], 401)
            given = front.exchange("POST", "/lists", json.dumps({"list": name}), **bearer("secret"))
            bench.same(f"several lists: {name}", given, (403, '{"code":63,"error":"Forbidden"}'))
        bench.same(
            "with the right", front.exchange("GET", "/lists/users", **bearer("another")), (200, '{"ok":true,"value":["ann"]}')
        )
    bad = '{"fn":"addPermObj","object":"role clerk"}\n{"fn":"addPermission","object":"role clerk","operation":"lists"}\n'
    path = bench.write("bad.jsonl", bad.encode())
    status, _, said = refused_start("callers", "--program", RBAC, path)
    bench.same("no other scope covers lists", (status, "no scope of this kind covers lists" in said), (1, True))


# How many kills there are.
KILLS = 12


def check_kills(bench):
    """After kills of the front and of its replay under load the lists are what SQL reads."""
    draws, counts = random.Random(os.urandom(8)), {}
    with Front(bench) as front:
        for role in ROLES:
            bench.same(f"addRole {role}", front.ask("addRole", {"role": role})[0], 200)
        for number in range(KILLS):
            stop = threading.Event()
            clients = [Client(front, f"{number}.{client}", stop) for client in range(4)]
            for client in clients:
                client.start()
            kill_at_random(front, draws, counts)
            until(lambda: front.exchange("GET", "/lists/users")[0] == 200, "the front answers again")
            stop.set()
            for client in clients:
                client.join()
                bench.judge("the answers of a client", client.faults)
            # What was kept and not answered may still be done.
            until(lambda: front.ask("addRole", {"role": "clerk"})[0] == 409, "commands are done")
            same_lists(bench, front, f"after kill {number}")
        bench.same("the end", front.end(), 0)
    return {f"lists: {name}": count for name, count in counts.items()}


def check_recorded(bench):
    """Commands of batches, with questions among them and behind them, and those of new sessions are in the record: it verifies."""
    draws = Draws(random.randrange(1_000_000_000))
    with Front(bench) as front:
        kept, lines = front.connection(), []
        while len(lines) < 600:
            _, line, answer = draws.draw()
            if answer.startswith(b'{"ok"'):
                lines.append((line, answer.decode()))
        for start in range(0, len(lines), 60):
            some = lines[start : start + 60]
            given = batch(front, b"\n".join(line for line, _ in some), draws.random.choice(["", "?stop=first"]), kept)
            bench.same(f"the batch at {start}", given, (200, [answer for _, answer in some]))
        for user in sorted(draws.state.users):
            front.exchange("POST", "/sessions", json.dumps({"user": user}), kept)
        same_lists(bench, front, "after the batches", connection=kept)
        kept.close()
        bench.same("the end", front.end(), 0)
    verified(bench, "after the batches", front.office)
