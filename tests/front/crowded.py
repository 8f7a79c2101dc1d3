"""Long answers and those who leave before them: bounds of a batch, slots, and others who are served meanwhile."""

import itertools
import json
import os
import re
import socket
import threading
import time

import pytest

from program.bench import PROGRAM as RBAC

from .batches import BAD, batch, line, text_of
from .identities import bearer, secured
from .limited import head, status_of
from .program import Front, until

# A role with so many permissions of names of 64 bytes has an answer of so many bytes, at least.
PERMISSIONS, BYTES = 2_000, 270_000
MOST_BYTES, MOST_LONG, SLOTS = 2_097_152, 20, 16
LONG = line("rolePermissions", role="keeper")

OK = '{"ok":true}'


def make(bench, more=()):
    """Makes an office with a role that has many permissions."""
    lines = [line("addRole", role="keeper"), line("addUser", user="ann"), line("assignUser", user="ann", role="keeper")]
    for number in range(PERMISSIONS):
        door = {"object": f"{number // 5:064}", "operation": f"{number % 5:064}"}
        lines += [line("addPermObj", object=door["object"])] * (number % 5 == 0)
        lines += [line("addPermission", **door), line("grantPermission", **door, role="keeper")]
    bench.run(["init", "office"])
    done = bench.run(["replay", "office"], text_of([*lines, *more]).encode())
    bench.same("the office", ({*done.out.splitlines()}, done.status), ({OK.encode()}, 0))


def check_bounds(bench):
    """The answers to the questions of a batch have at most 2,097,152 bytes, and a batch with commands has few long questions."""
    make(bench)
    with Front(bench, "--no-record") as front:
        status, (long,) = batch(front, [LONG])
        bench.same("one answer", (status, len(long) > BYTES), (200, True))
        most = MOST_BYTES // len(long)
        bench.same("as many as may be", batch(front, [LONG] * most), (200, [long] * most))
        own = front.connection()
        own.request("POST", "/v1/batch", text_of([LONG] * (most + 1)))
        reply = own.getresponse()
        why = f"the answers to questions have more than {MOST_BYTES} bytes: ask less at once"
        bench.same("one more", (reply.status, reply.headers["Office-Why"], reply.read().decode()), (413, why, BAD))
        own.close()
        bench.same("stop=first", batch(front, [LONG] * (most + 1), "?stop=first"), (413, [BAD]))
        users = [line("addUser", user=f"u{number}") for number in range(3)]
        mixed = [users[0], *[LONG] * (most + 1), users[1], LONG]
        wanted = [OK, *[long] * most, BAD, OK, BAD]
        bench.same("with commands", batch(front, mixed), (200, wanted))
        bench.same("they are done", batch(front, users), (200, ['{"code":3,"error":"UserExists"}'] * 2 + [OK]))
        undone = [line("deleteUser", user=f"u{number}") for number in range(2)]
        mixed = [undone[0], *[LONG] * (most + 1), undone[1]]
        bench.same("with commands and stop=first", batch(front, mixed, "?stop=first"), (200, [OK, *[long] * most, BAD, OK]))
        own.request("POST", "/v1/batch", text_of([line("deleteUser", user="u2"), *[LONG] * (MOST_LONG + 1)]))
        reply = own.getresponse()
        why = f"a batch with commands has at most {MOST_LONG} questions that may take long"
        given = reply.status, reply.headers["Office-Why"], reply.headers["Office-Line"], reply.read().decode()
        bench.same("too many long questions", given, (413, why, str(MOST_LONG + 2), BAD))
        own.close()
        bench.same("nothing was done", front.ask("deleteUser", {"user": "u2"}), (200, OK))
        bench.same("the end", front.end(), 0)


def send(front, path, body, token="secret"):
    """Sends a request, and returns its connection without waiting for an answer."""
    client = socket.create_connection(("127.0.0.1", front.port), 60)
    client.sendall(head(path, len(body), f"Authorization: Bearer {token}") + body)
    return client


RIGHTS = {
    "token:desk": [(name, "office") for name in ("rolePermissions", "lists", "reports", "userPermissions", "decideByUser", "addInheritance")],
    "token:admin": [(name, "office") for name in ("addUser", "addRole", "checkAccess", "metrics", "userPermissions")],
}


def batches_of(front):
    """How often a batch was answered, by its status."""
    text = front.exchange("GET", "/metrics", None, **bearer("another"))[1]
    return {status: int(float(count)) for status, count in re.findall(r'rbac_node_answers_total\{kind="batch",status="(\d+)"\} (\S+)', text)}


def check_leaving(bench):
    """Batches whose clients leave end, and commands are done meanwhile: no other waits for them."""
    make(bench)
    # Each line takes long, and its answer is short: there are no such bytes that end a batch.
    body = text_of([{"fn": "userOperationsOnObject", "user": "ann", "object": f"{1:064}"}, LONG] * 3 + [line("sessionRoles", session="x")] * 900).encode()
    rights = {**RIGHTS, "token:desk": [*RIGHTS["token:desk"], ("userOperationsOnObject", "office"), ("sessionRoles", "office")]}
    with secured(bench, "--no-record", "--timeout", "5s", rights=rights) as front:
        # A caller may have no more than 64, and what is refused for that isn't counted as a batch.
        clients = [send(front, "/v1/batch", text_of([LONG] * 1_000).encode()) for _ in range(63)]
        clients += [send(front, "/v1/batch", body)]
        time.sleep(0.3)
        for client in clients:
            client.close()
        for number in range(5):
            bench.same(f"command {number}", front.ask("addUser", {"user": f"u{number}"}, **bearer("another")), (200, OK))
            bench.same(f"health {number}", front.exchange("GET", "/healthz", None, **bearer("another"))[1], '{"ready":true}\n')
        bench.same("the replay", len(front.replays()), 1)
        until(lambda: sum(batches_of(front).values()) >= len(clients), "all batches are ended", lambda: str(batches_of(front)))
        bench.same("none of the long ones was answered", batches_of(front).get("200", 0) <= 1, True)
        bench.same("the end", front.end(), 0)


def check_crowd(bench):
    """64 connections of one caller that ask for long answers keep nobody from decisions and commands, and the front ends in order."""
    make(bench)
    with secured(bench, "--no-record", "--timeout", "5s", rights=RIGHTS) as front:
        kept = front.connection()
        bodies = itertools.cycle([("/v1/batch", text_of([LONG] * 1_000)), ("/v1/rolePermissions", '{"role":"keeper"}'), ("/reports/permissions", "{}"),
                                  ("/v1/batch", text_of([line("userPermissions", user="ann")] * 999))])  # fmt: skip
        clients = [send(front, path, body.encode()) for path, body in itertools.islice(bodies, 64)]
        for number in range(20):
            bench.same("a command", front.ask("addUser", {"user": f"u{number}"}, kept, **bearer("another")), (200, OK))
            given = front.ask("userPermissions", {"user": f"u{number}"}, kept, **bearer("another"))
            bench.same("a question of another caller", given, (200, '{"ok":true,"value":[]}'))
        kept.close()
        bench.same("ready", front.exchange("GET", "/healthz", None, **bearer("another"))[0], 200)
        bench.same("the end", front.end(), 0)
        for client in clients:
            client.close()


USERS, LISTS = 1_000, "\n".join(['{"list":"users","limit":1000}'] * 20)


@pytest.mark.parametrize(
    "path, body",
    [
        ("/reports/near", "{}"),
        ("/explain", json.dumps({"user": "ann", "object": f"{0:064}", "operation": f"{0:064}"})),
        ("/explain", json.dumps({"command": line("addInheritance", asc="keeper", desc="clerk")})),
        ("/v1/batch", text_of([LONG])),
    ],
)
def check_turns(bench, path, body):
    """Reports, explanations and batches with long questions need one of the 16 slots of a caller, and wait for one; nothing else does."""
    make(bench, [line("addRole", role="clerk"), *[line("addUser", user=f"{number:064}") for number in range(USERS)]])
    unix = bench.path("socket")
    front = secured(bench, "--no-record", rights=RIGHTS)
    front.listen += f",unix:{unix}"
    with front:
        request = head("/lists", len(LISTS), "Authorization: Bearer secret") + LISTS.encode()
        slow = [socket.socket(socket.AF_UNIX) for _ in range(SLOTS)]
        for client in slow:
            client.connect(unix)
            client.sendall(request)
        begun = [client.recv(1) for client in slow]
        waiting, given = send(front, path, body.encode()), []
        reader = threading.Thread(target=lambda: given.append(waiting.recv(100)))
        reader.start()
        reader.join(1)
        bench.same("an answer without a slot", given, [])
        asked = {"user": "ann", "object": f"{0:064}", "operation": f"{0:064}"}
        status, text = front.ask("rolePermissions", {"role": "keeper"}, **bearer("secret"))
        bench.same("a long question by itself", (status, len(text) > BYTES), (200, True))
        bench.same("a decision", front.ask("decideByUser", asked, **bearer("secret")), (200, '{"ok":true,"value":true}'))
        lines = [{"fn": "decideByUser", **asked}] * 3
        bench.same("a batch of decisions", batch(front, lines, **bearer("secret")), (200, ['{"ok":true,"value":true}'] * 3))
        for client in slow:
            while client.recv(1 << 20):
                pass
            client.close()
        reader.join(60)
        bench.same("an answer with one", (begun.count(b"H"), [status_of(one) for one in given]), (SLOTS, [200]))
        waiting.close()
        bench.same("the end", front.end(), 0)


def check_revisions(bench):
    """A batch of long questions names a revision only if all of its answers are from that, and `If-Policy-Revision` makes sure of it."""
    make(bench, [line("addPermission", object=f"{0:064}", operation="lock")])
    with Front(bench, "--no-record") as front:
        stop, lock, seen = threading.Event(), {"object": f"{0:064}", "operation": "lock", "role": "keeper"}, []

        def change():
            kept = front.connection()
            for name in itertools.cycle(["grantPermission", "revokePermission"]):
                if stop.is_set():
                    break
                seen.append(front.ask(name, lock, kept)[0])
            kept.close()

        thread = threading.Thread(target=change)
        thread.start()
        kept = front.connection()
        for _ in range(30):
            kept.request("POST", "/v1/batch", text_of([LONG] * 5))
            reply = kept.getresponse()
            revision, answers = reply.headers["Policy-Revision"], reply.read().decode().splitlines()
            bench.same("answers of one revision", (reply.status, len(answers), revision is None or len({*answers}) == 1), (200, 5, True))
            given = front.exchange("POST", "/v1/batch", text_of([LONG] * 5), kept, If_Policy_Revision=revision or "1")
            bench.same("answers of a revision that was named", given[0] == 412 or len({*given[1].splitlines()}) == 1, True)
        stop.set()
        thread.join()
        kept.close()
        bench.same("the office has changed meanwhile", {*seen}, {200})
        bench.same("the end", front.end(), 0)


def check_base_at_the_end(bench):
    """A base copy that takes long at the end is left out: the front ends with status 0, and the next one begins where it ended."""
    slow = bench.path("slow")
    bench.write("program", f'#!/bin/sh\n[ "$1" = check ] && [ -e {slow} ] && exec sleep 100000\nexec {RBAC} "$@"\n'.encode())
    os.chmod(bench.path("program"), 0o700)
    front = Front(bench, "--program", bench.path("program"))
    with front:
        bench.same("a command", front.ask("addUser", {"user": "ann"}), (200, OK))
        bench.write("slow", b"")
        bench.same("the end", front.end(), 0)
        bench.same("why", "there was no time for a base copy of the office" in front.said(), True)
        os.remove(slow)
        front.start()
        bench.same("the next start", front.ask("assignedRoles", {"user": "ann"}), (200, '{"ok":true,"value":[]}'))
        bench.same("its end", front.end(), 0)
