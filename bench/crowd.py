#!/usr/bin/env python3
"""Measures what 64 connections of one caller do to others, at each costly request, over an office at the limits.

    bench/crowd.py [--front PROGRAM]... [--seconds S] [--folder FOLDER] [PART..]

For each part and each front (default: one of these sources; several are measured in turn) the front is started, another caller asks
decisions and sends commands beside the 64 connections for S seconds, these are closed, and SIGTERM is sent once a command is done
again. A row has the median and the 99th percentile of the decisions and of the commands in milliseconds, how many commands weren't
done, the memory of the front before and at most, the statuses that the crowd got, how long it took until a command was done again,
and the time and the status of the end.

On 2026-11-30, for 5 seconds each, with files in memory, beside other work (load averages above 20). All commands were done, and the
front ended with status 0 within 1.3 seconds of SIGTERM:

| The crowd asks | decisions | commands | memory |
|---|---|---|---|
| nothing | 0.9, 11 | 1.3, 16 | 109, 113 |
| batches of 1,000 rolePermissions | 9.0, 61 | 9.1, 64 | 109, 215 |
| batches of a command and 999 rolePermissions, which get 413 | 8.9, 86 | 14.9, 114 | 109, 253 |
| explanations of decisions | 0.8, 20 | 4.1, 49 | 111, 150 |
| explanations of addInheritance | 0.8, 15 | 1.2, 32 | 109, 492 |
| tickets for permissions | 1.2, 31 | 2.2, 68 | 113, 309 |
| tickets for near | 0.6, 7 | 0.9, 17 | 109, 183 |
| tickets for dump | 0.9, 29 | 5.5, 49 | 111, 277 |
| tickets for dump, and reads them | 1.2, 62 | 12.6, 182 | 111, 364 |
| 20 lists | 2.0, 24 | 4.4, 42 | 110, 165 |
| authorizedUsers | 9.2, 46 | 9.3, 49 | 110, 147 |
| userPermissions | 7.4, 58 | 8.4, 51 | 110, 139 |
| snapshots | 1.2, 15 | 2.0, 41 | 110, 246 |

Goals: decisions below 20 ms in the median (met), and memory below twice that before. That isn't met by batches that are
refused, by reports, whose tickets keep offices of their own, by snapshots, and by explanations of commands, which make a copy of
the office as a start does.
"""

import argparse
import collections
import http.client
import json
import multiprocessing
import os
import shutil
import signal
import socket
import subprocess
import sys
import tempfile
import threading
import time
from pathlib import Path

ROOT = Path(__file__).resolve().parent.parent
sys.path[:0] = [str(ROOT / "bench"), str(ROOT / "tests")]

from front import until_open, until_ready  # noqa: E402
from operating import put_rows  # noqa: E402
from program.bench import PROGRAM  # noqa: E402
from program.web import free_port  # noqa: E402

CROWD, SESSIONS = 64, 1_000
TOKENS = {"crowd": "secret", "desk": "another"}


def lines(*all_lines):
    return "".join(json.dumps(one) + "\n" for one in all_lines)


SAFE = {"operation": "operation0", "object": "object0000"}
# What the crowd asks: the method, the path and the body. Ten of a chain of 1,024 roles have all grants and all users.
PARTS = {
    "nothing": None,
    "batch": ("POST", "/v1/batch", lines(*[{"fn": "rolePermissions", "role": "role0127"}] * 1_000)),
    "batch of users": ("POST", "/v1/batch", lines(*[{"fn": "decideByUser", "user": "user00007", **SAFE}] * 1_000)),
    "batch with a command": ("POST", "/v1/batch", lines({"fn": "deleteUser", "user": "x"}, *[{"fn": "rolePermissions", "role": "role0127"}] * 999)),
    "explain": ("POST", "/explain", json.dumps({"user": "user00007", **SAFE})),
    "explain a command": ("POST", "/explain", json.dumps({"command": {"fn": "addInheritance", "asc": "role0100", "desc": "role1000"}})),
    "permissions": ("POST", "/reports/permissions", '{"object":"object0001"}'),
    "near": ("POST", "/reports/near", "{}"),
    "dump": ("POST", "/reports/dump", "{}"),
    "ticket": ("POST", "/reports/dump", "{}"),
    "lists": ("POST", "/lists", lines(*[{"list": "grants", "limit": 1000, "contains": "role"}] * 20)),
    "authorizedUsers": ("POST", "/v1/authorizedUsers", '{"role":"role1000"}'),
    "userPermissions": ("POST", "/v1/userPermissions", '{"user":"user00000"}'),
    "snapshot": ("GET", "/snapshot", None),
}  # fmt: skip


def rights():
    """The callers: the crowd may ask everything, and the desk may do what is measured."""
    asked = ["rolePermissions", "userPermissions", "authorizedUsers", "decideByUser", "lists", "snapshot", "reports", "addInheritance", "deleteUser", "permissionRoles",
             "authorizedRoles", "assignedRoles", "dsdRoleSetRoles", "ssdRoleSetRoles", "ssdRoleSetCardinality", "dsdRoleSetCardinality", "assignedUsers"]  # fmt: skip
    done = ["checkAccess", "addRole", "deleteUser", "lockUserAccount", "unlockUserAccount"]
    made = [{"fn": "addPermObj", "object": "office"}]
    made += [{"fn": "addPermission", "object": "office", "operation": one} for one in sorted({*asked, *done})]
    for caller, operations in ("crowd", asked), ("desk", done):
        made += [{"fn": "addUser", "user": f"token:{caller}"}, {"fn": "addRole", "role": caller}]
        made += [{"fn": "assignUser", "user": f"token:{caller}", "role": caller}]
        made += [{"fn": "grantPermission", "object": "office", "operation": one, "role": caller} for one in operations]
    return lines(*made)


def ask(port, caller, method, path, body=None, connection=None):
    """The status of an answer, and its body."""
    own = connection or http.client.HTTPConnection("127.0.0.1", port, timeout=120)
    own.request(method, path, body, {"Authorization": f"Bearer {TOKENS[caller]}"})
    reply = own.getresponse()
    return reply.status, reply.read()


def probe(port, kind, end, results):
    """Sends requests of the desk one after another, and puts how long each took and its status."""
    connection, found = http.client.HTTPConnection("127.0.0.1", port, timeout=120), []
    number = 0
    while time.monotonic() < end:
        path, body = "/v1/checkAccess", json.dumps({"session": "t1", **SAFE})
        if kind == "command":
            path, body = "/v1/" + ("lockUserAccount", "unlockUserAccount")[number % 2], '{"user":"user19999"}'
        start, number = time.monotonic(), number + 1
        try:
            status, _ = ask(port, "desk", "POST", path, body, connection)
        except OSError as error:
            status = type(error).__name__
            connection = http.client.HTTPConnection("127.0.0.1", port, timeout=120)
        found.append((time.monotonic() - start, status))
        time.sleep(0.005)
    results.put((kind, found))


def crowd(port, part, end, results):
    """64 connections that send the same again and again, and are closed at the end without a word."""
    method, path, body = PARTS[part]
    text = (body or "").encode()
    head = f"{method} {path} HTTP/1.1\r\nHost: localhost\r\nAuthorization: Bearer {TOKENS['crowd']}\r\n"
    head += f"Content-Length: {len(text)}\r\n\r\n" if method == "POST" else "\r\n"
    counts, all_sockets = collections.Counter(), []

    def work():
        client = None
        while time.monotonic() < end:
            try:
                if client is None:
                    client = socket.create_connection(("127.0.0.1", port), 60)
                    all_sockets.append(client)
                client.sendall(head.encode() + text)
                reply = http.client.HTTPResponse(client)
                reply.begin()
                answer = b""
                while piece := reply.read(1 << 16):
                    answer = piece if part == "ticket" else b""
                counts[reply.status] += 1
                time.sleep(0.01 if reply.status == 429 else 0)
                if part == "ticket" and reply.status == 200:
                    name = json.loads(answer)["value"]["ticket"]
                    status, _ = ask(port, "crowd", "GET", f"/reports/{name}")
                    counts[f"read {status}"] += 1
            except (OSError, http.client.HTTPException, ValueError):
                client = None

    threads = [threading.Thread(target=work, daemon=True) for _ in range(CROWD)]
    for thread in threads:
        thread.start()
    time.sleep(max(0, end - time.monotonic()))
    for client in all_sockets:
        client.close()
    results.put(("crowd", dict(counts)))
    results.close()
    results.join_thread()
    os._exit(0)


def memory(process, name):
    text = Path(f"/proc/{process.pid}/status").read_text(encoding="ascii")
    return next(int(line.split()[1]) / 1000 for line in text.splitlines() if line.startswith(f"{name}:"))


def start(front, folder, office, log):
    port = free_port()
    words = [front, "serve", "--office", office, "--program", PROGRAM, "--listen", f"127.0.0.1:{port}", "--no-record"]
    words += ["--callers", folder / "callers", "--tokens", folder / "tokens"]
    process = subprocess.Popen([str(word) for word in words], stdin=subprocess.DEVNULL, stdout=log, stderr=log)
    until_ready(until_open(port))
    return process, port


def measure(front, folder, part, seconds, log):
    """Prints the row of a part and a front."""
    office = folder / "office"
    shutil.copy(folder / "base", office)
    process, port = start(front, folder, office, log)
    try:
        ask(port, "desk", "POST", "/v1/checkAccess", json.dumps({"session": "t1", **SAFE}))
        Path(f"/proc/{process.pid}/clear_refs").write_text("5", encoding="ascii")  # The most memory is that from now on.
        before, end, results = memory(process, "VmRSS"), time.monotonic() + seconds, multiprocessing.Queue()
        workers = [multiprocessing.Process(target=probe, args=(port, kind, end, results)) for kind in ("decision", "command")]
        workers += [multiprocessing.Process(target=crowd, args=(port, part, end, results))] if PARTS[part] else []
        for worker in workers:
            worker.start()
        found = dict(results.get(timeout=600) for _ in workers)
        for worker in workers:
            worker.join()
        begun = time.monotonic()
        while ask(port, "desk", "POST", "/v1/lockUserAccount", '{"user":"user19998"}')[0] == 503 and time.monotonic() - begun < 30:
            pass
        again, most = time.monotonic() - begun, memory(process, "VmHWM")
        begun = time.monotonic()
        process.send_signal(signal.SIGTERM)
        try:
            ended = f"{process.wait(45)} in {time.monotonic() - begun:.1f} s"
        except subprocess.TimeoutExpired:
            ended = "not in 45 s"
        print(f"| {part} | {Path(front).name} | {times(found['decision'])} | {times(found['command'])} | "
              f"{sum(status != 200 for _, status in found['command'])} of {len(found['command'])} | {before:.0f} to {most:.0f} | "
              f"{' '.join(f'{count}x{status}' for status, count in found.get('crowd', {}).items())} | {again:.1f} | {ended} |", flush=True)  # fmt: skip
    finally:
        process.kill()
        process.wait()


def times(found):
    took = sorted(one for one, _ in found)
    return f"{1000 * took[len(took) // 2]:.1f} | {1000 * took[int(0.99 * (len(took) - 1))]:.0f}"


def make(front, folder, log):
    """Makes the office at the limits, with sessions, and the callers."""
    import hashlib

    (folder / "callers").write_text(rights(), encoding="ascii")
    sums = (f"{hashlib.sha256(token.encode()).hexdigest()} {name}\n" for name, token in TOKENS.items())
    (folder / "tokens").write_text("".join(sums), encoding="ascii")
    put_rows(folder / "base", "limits-sets")
    port = free_port()
    words = [front, "serve", "--office", folder / "base", "--program", PROGRAM, "--listen", f"127.0.0.1:{port}", "--no-record"]
    process = subprocess.Popen([str(word) for word in words], stdin=subprocess.DEVNULL, stdout=log, stderr=log)
    until_ready(until_open(port))
    for first in range(0, SESSIONS, 100):
        made = [{"fn": "createSession", "user": f"user{it:05}", "roles": [f"role{2 + 7 * it % 1022:04}"], "session": f"t{it}"} for it in range(first, first + 100)]
        status, text = ask(port, "desk", "POST", "/v1/batch", lines(*made))
        if status != 200 or text.count(b'{"ok":true}') != 100:
            sys.exit(f"{status} {text[:300]!r}")
    process.terminate()
    process.wait()


def main():
    parser = argparse.ArgumentParser(description=__doc__, formatter_class=argparse.RawDescriptionHelpFormatter)
    parser.add_argument("--front", action="append")
    parser.add_argument("--seconds", type=float, default=6)
    parser.add_argument("--folder", default="/dev/shm" if os.access("/dev/shm", os.W_OK) else None)
    parser.add_argument("parts", nargs="*", default=list(PARTS), help=f"what the crowd asks: {', '.join(PARTS)}")
    given = parser.parse_args()
    if unknown := set(given.parts) - set(PARTS):
        parser.error(f"there is no part {' '.join(sorted(unknown))}")
    with tempfile.TemporaryDirectory(dir=given.folder) as name, open(Path(name) / "log", "ab") as log:
        folder = Path(name)
        fronts = given.front or [str(folder / "rbac-node")]
        if not given.front:
            subprocess.run([ROOT / "bin/node", "--build", fronts[0]], check=True)
        make(fronts[-1], folder, log)
        print("| Crowd | Front | decisions, median | 99 of 100 | commands, median | 99 of 100 | not done | memory, MB | the crowd got | again after, s | the end |\n"
              "|---|---|---|---|---|---|---|---|---|---|---|", flush=True)  # fmt: skip
        for part in given.parts:
            for front in fronts:
                measure(front, folder, part, given.seconds, log)


if __name__ == "__main__":
    main()
