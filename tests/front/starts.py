"""Command lines that are refused with one line, addresses, how the front ends, and what it does if its replay ends or hangs."""

import http.client
import json
import os
import re
import shutil
import signal
import socket
import sqlite3
import subprocess
import threading
import time
from contextlib import closing

import pytest

from program.bench import PROGRAM as RBAC
from program.bench import TESTS
from program.web import listening

from .identities import CERTIFICATES, openssl, rules, secured, tls_words
from .program import HOST, Front, Unix, refused_start, until
from .recorded import entries, link, path_of

OK = '{"ok":true}'

# How many commands a start does again while it is looked at.
AGAIN = 100_000

# What a front leaves in the folder of its office, with the log of the test.
LEFT = ["office", "office.lock", "office.log", "office.numbers", "office.record", "office.run"]


def check_refused(bench):
    """What can't work ends with status 1 and one line, and makes nothing."""
    openssl(bench, CERTIFICATES)
    office = bench.path("office")
    bench.write("callers", rules({"token:a": [("addUser", "office")]}).encode())
    bench.write("bad", b'{"fn":"fly"}\n')
    bench.write("empty", b"")
    serve = ["serve", "--program", RBAC]
    one = [*serve, "--office", office]
    tls = tls_words(bench)
    for what, words, says in [
        ("neither an office nor etcd", serve, "give --office FILE"),
        ("an office and etcd", [*one, "--etcd", "http://127.0.0.1:1"], "give --office FILE"),
        ("the name of a node", [*one, "--name", "a"], "--name is for an office on several machines"),
        ("snapshots of a node", [*one, "--every", "10"], "--every is for an office on several machines"),
        ("a word more", [*one, "word"], "usage"),
        ("an address that others can reach", [*one, "--listen", "0.0.0.0:0"], "needs --tls-cert and --callers"),
        ("one with TLS alone", [*one, "--listen", "0.0.0.0:0", *tls], "needs --tls-cert and --callers"),
        (
            "one with callers alone",
            [*one, "--listen", ":0", "--callers", bench.path("callers")],
            "needs --tls-cert and --callers",
        ),
        ("one beside a local one", [*one, "--listen", "127.0.0.1:0,0.0.0.0:0"], "needs --tls-cert and --callers"),
        ("no port", [*one, "--listen", "127.0.0.1"], "listen"),
        ("tokens without callers", [*one, "--tokens", bench.path("empty")], "need --callers"),
        ("an authority without a certificate", [*one, "--tls-ca", bench.path("ca.crt")], "needs --tls-cert"),
        ("a certificate without its key", [*one, *tls[:2]], "certificate"),
        ("a key of another certificate", [*one, *tls[:2], "--tls-key", bench.path("shop.key")], "certificate"),
        ("an authority that is none", [*one, *tls[:4], "--tls-ca", bench.path("empty")], "authority"),
        ("callers with a bad line", [*one, "--callers", bench.path("bad")], "bad:1: UnknownFunction"),
        ("no file of callers", [*one, "--callers", bench.path("none")], "callers"),
        ("no program", ["serve", "--office", office, "--program", bench.path("none")], "none"),
        ("an empty file", ["serve", "--program", RBAC, "--office", bench.path("empty")], "empty is no office"),
        ("another file", ["serve", "--program", RBAC, "--office", bench.path("callers")], "callers is no office"),
        ("a folder that doesn't exist", ["serve", "--program", RBAC, "--office", bench.path("none/office")], "lock"),
        ("no connections", [*one, "--connections", "0"], "--connections"),
        ("more than there can be", [*one, "--connections", "100000000"], "--connections"),
        ("a timeout of nothing", [*one, "--timeout", "0s"], "--timeout"),
        ("callers without a file", ["callers"], "usage"),
        ("a check of nothing", ["callers", "--check"], "--callers is missing"),
    ]:
        status, out, said = refused_start(*words)
        bench.same(f"{what}: status and output", (status, out), (1, ""))
        bench.judge(f"{what}: one line", [] if says in said and said.count("\n") == 1 else [said])
    bench.same("no office was made", os.path.exists(office), False)
    status, said, _ = refused_start("serve", "--help")
    bench.same("help", (status, "--office" in said), (0, True))


def check_no_office(bench):
    """What is no office is named, and nothing is made beside it, with callers and without a record too."""
    bench.write("callers.jsonl", rules({"token:a": [("addUser", "office")]}).encode())
    bench.write("text", b"user,role\n")
    with sqlite3.connect(bench.path("database")) as other:
        other.execute("CREATE TABLE x (a)")
    other.close()
    os.mkdir(bench.path("folder"))
    os.mkfifo(bench.path("pipe"))
    before = bench.contents()
    for name, says in [("text", "it isn't a file of SQLite"), ("database", '"error":"NotAnOffice"'), ("folder", "it isn't a file"), ("pipe", "it isn't a file")]:
        for more in ([], ["--no-record"], ["--callers", bench.path("callers.jsonl")]):
            status, out, said = refused_start("serve", "--program", RBAC, "--office", bench.path(name), *more)
            bench.same(f"{name} {more}", (status, out, f"{bench.path(name)} is no office" in said, says in said), (1, "", True, True))
            bench.same(f"{name} {more}: what is left", bench.contents(), before)


def check_version(bench):
    """The version is that of the repository, in a line of its own and as a metric, beside what is known of the process."""
    version = (TESTS.parent / "VERSION").read_text(encoding="ascii").strip()
    status, out, said = refused_start("--version")
    first, *others = out.splitlines()
    program = re.search(r"^program (\w+)$", (TESTS.parent / "release/manifest").read_text(encoding="ascii"), re.M)[1]
    bench.same("--version", (status, first, said), (0, f"rbac-node {version}", ""))
    bench.same("the proved program", f"proved program: {program}" in others, True)
    bench.same("the sources and Go", [bool(re.search(text, out, re.M)) for text in (r"^sources: [0-9a-f]{64}$", r"^built with: go1\.")], [True, True])
    status, out, said = refused_start("--help")
    bench.same("--help", (status, all(f"  rbac-node {word} " in out for word in ("serve", "callers", "record", "backup")), said), (0, True, ""))
    with Front(bench) as front:
        lines = front.exchange("GET", "/metrics")[1].splitlines()
        built = [line for line in lines if line.startswith("rbac_node_build_info{")]
        bench.same("the metric", [f'version="{version}"' in line and line.endswith(" 1") for line in built], [True])
        found = {line.split()[0]: float(line.split()[1]) for line in lines if line.startswith("process_")}
        memory = ["resident_memory_bytes", "virtual_memory_bytes", "virtual_memory_max_bytes"]
        names = sorted(["cpu_seconds_total", "max_fds", "open_fds", "start_time_seconds", *memory])
        bench.same("of the process", sorted(found), [f"process_{name}" for name in names])
        bench.same("all are known", [name for name, value in found.items() if value <= 0 and "cpu" not in name], [])


def check_decisions(bench):
    """Decisions are counted by what they say, whichever way they are asked for."""
    with Front(bench) as front:
        for function, values in [("addUser", {"user": "ann"}), ("addRole", {"role": "clerk"}), ("assignUser", {"user": "ann", "role": "clerk"}),
                                 ("addPermObj", {"object": "till"}), ("addPermission", {"object": "till", "operation": "open"}),
                                 ("grantPermission", {"object": "till", "operation": "open", "role": "clerk"}),
                                 ("createSession", {"user": "ann", "roles": ["clerk"], "session": "s"})]:  # fmt: skip
            bench.same(function, front.ask(function, values)[0], 200)
        asked = {"session": "s", "operation": "open", "object": "till"}
        by_user = {"user": "ann", "operation": "open", "object": "till"}
        subject = {"subject": {"type": "session", "id": "s"}, "resource": {"type": "object", "id": "till"}}

        def counted():
            text = front.exchange("GET", "/metrics")[1]
            return tuple(int((re.findall(rf'^rbac_node_decisions_total{{decision="{word}"}} (\d+)$', text, re.M) or ["0"])[0]) for word in ("allowed", "denied"))

        bench.same("none", counted(), (0, 0))
        for what, ask, wanted in [
            ("allowed", lambda: front.ask("checkAccess", asked), (1, 0)),
            ("refused", lambda: front.ask("checkAccess", {**asked, "session": "x"}), (1, 1)),
            ("no request", lambda: front.ask("checkAccess", {}), (1, 1)),
            ("another function", lambda: front.ask("assignedRoles", {"user": "ann"}), (1, 1)),
            ("a user", lambda: front.ask("decideByUser", by_user), (2, 1)),
            ("a batch", lambda: front.ask("batch", "".join(json.dumps({"fn": name, **values}) + "\n" for name, values in
                                                           [("checkAccess", asked), ("decideByUser", by_user), ("assignedRoles", {"user": "ann"}),
                                                            ("checkAccess", {**asked, "object": "x"})])), (4, 2)),
            ("a gateway", lambda: front.exchange("GET", "/decide", None, Office_Session="s", Office_Operation="open", Office_Object="till"), (5, 2)),
            ("evaluations", lambda: front.exchange("POST", "/access/v1/evaluations", json.dumps({**subject, "evaluations": [
                {"action": {"name": "open"}}, {"action": {"name": "close"}}]})), (6, 3)),
        ]:  # fmt: skip
            ask()
            bench.same(what, counted(), wanted)

def check_first_start(bench):
    """Without --listen the front makes the office and a socket for its user and group alone, and says that it is open."""
    front = Front(bench, listen="unix:" + bench.path("office.run/socket"))
    words = front.words()
    at = words.index("--listen")
    front.words = lambda: words[:at] + words[at + 2 :]
    with front:
        bench.same("a command", front.ask("addUser", {"user": "ann"}), (200, OK))
        bench.same("health", front.exchange("GET", "/healthz"), (200, '{"ready":true,"open":true}\n'))
        bench.same("the log", "open: everybody who can connect" in front.said(), True)
        bench.same("the ports", listening(front.process.pid), [])
        modes = {
            name: oct(os.lstat(bench.path(name)).st_mode & 0o777)
            for name in ("office", "office.lock", "office.run", "office.run/socket")
        }
        wanted = {"office": "0o600", "office.lock": "0o600", "office.run": "0o750", "office.run/socket": "0o660"}
        bench.same("the modes", modes, wanted)
        status, _, said = refused_start(*words)
        bench.same("a second front", (status, said.count("\n"), "another front" in said), (1, 1, True))
        bench.same("the first one answers", front.ask("assignedRoles", {"user": "ann"}), (200, '{"ok":true,"value":[]}'))
        bench.same("the end", front.end(), 0)
    bench.same("what is left", sorted(os.listdir(bench.folder)), LEFT)
    done = subprocess.run([RBAC, "check", front.office], capture_output=True, text=True, check=False)
    bench.same("rbac check", done.stdout, "good\n")


def lengthen(office):
    """Adds commands to a record that were refused, so that a start has to do many again."""
    last = entries(office)[-1]
    added, request, answer = [], '{"fn":"addUser","user":"u0"}', '{"code":3,"error":"UserExists"}'
    for n in range(last.n + 1, last.n + 1 + AGAIN):
        entry = last._replace(n=n, request=request, answer=answer)
        last = entry._replace(chain=link(last.chain, entry))
        added.append(last)
    with closing(sqlite3.connect(path_of(office))) as opened:
        opened.executemany("INSERT INTO entry VALUES (?, ?, ?, ?, ?, ?, ?, ?)", added)
        opened.commit()


def check_starting(bench):
    """While a start does commands again, /healthz says how many, and all else gets 503. Then the front answers."""
    with Front(bench) as front:
        for number in range(3):
            bench.same("a command", front.ask("addUser", {"user": f"u{number}"}), (200, OK))
        front.kill()
        lengthen(front.office)
        front.process = front.start_without_waiting()
        seen = []

        def is_done_again():
            """Whether the question was answered, so that the front listened then, and commands were done again even later."""
            seen[:] = at_start(front, "POST", "/v1/assignedRoles", '{"user":"u1"}'), at_start(front, "GET", "/healthz")
            return seen[0][0] and "is done again" in seen[1][1]

        until(is_done_again, "/healthz says what is done")
        asked, (status, text) = seen
        said = json.loads(text)
        why = f"^starting: command (0|[0-9]+00) of {AGAIN + 3} since the last copy of the office is done again$"
        bench.same("health", (status, said["ready"], bool(re.match(why, said["why"]))), (503, False, True))
        bench.same("a question", asked, (503, '{"code":60,"error":"Unavailable"}'))
        until(front.is_listening, "the front listens")
        bench.same("a question", front.ask("assignedRoles", {"user": "u1"}), (200, '{"ok":true,"value":[]}'))
        bench.same("the end", front.end(), 0)


def at_start(front, *words):
    """What a front answers that may not listen yet."""
    try:
        return front.exchange(*words)
    except OSError:
        return 0, ""


def check_runtime_directory(bench):
    """In the folder that systemd makes for it the socket is found, and systemd is told that the front is ready."""
    front = Front(
        bench, listen="unix:" + bench.path("run/socket"), environment={**os.environ, "RUNTIME_DIRECTORY": bench.path("run")}
    )
    words = front.words()
    at = words.index("--listen")
    front.words = lambda: words[:at] + words[at + 2 :]
    with front:
        bench.same("a command", front.ask("addUser", {"user": "ann"}), (200, OK))


def check_hosts(bench):
    """Without callers only hosts and origins of this machine are answered."""
    with Front(bench, "--origin", "https://console.example") as front:
        for what, fields, status in [
            ("this machine", {"Host": "localhost"}, 200),
            ("a foreign host", {"Host": "evil.example"}, 421),
            ("a foreign origin", {"Host": "localhost", "Origin": "https://evil.example"}, 403),
            ("an own origin", {"Host": "localhost", "Origin": "https://console.example"}, 200),
        ]:
            bench.same(what, front.ask("ssdRoleSets", **fields)[0], status)
        # Nothing of the body is read: the answer comes before it.
        text = b"POST /v1/addUser HTTP/1.1\r\nHost: localhost\r\nOrigin: https://evil.example\r\nContent-Length: 1000\r\n\r\n"
        with socket.create_connection((HOST, front.port), 20) as client:
            client.sendall(text)
            said = client.recv(65_536)
        bench.same("before the body", (said[:12], b"Connection: close" in said), (b"HTTP/1.1 403", True))


def check_end(bench):
    """SIGTERM answers the requests at hand, and then the front ends with 0. What was answered is in the office."""
    for _ in range(3):
        with Front(bench) as front:
            answers, done = [], threading.Event()
            clients = [threading.Thread(target=ask_until_refused, args=(front, number, answers, done)) for number in range(8)]
            for client in clients:
                client.start()
            time.sleep(0.3)
            bench.same("the end", front.end(), 0)
            done.set()
            for client in clients:
                client.join()
            lost = [what for what, answer in answers if answer not in (200, "refused", "closed before")]
            bench.judge("requests at the end", lost)
            front.start()
            missing = [what for what, answer in answers if answer == 200 and front.ask("assignedRoles", {"user": what})[0] != 200]
            bench.judge("what was answered is there", missing)
            bench.same("the end", front.end(), 0)
        os.remove(front.office)
        shutil.rmtree(f"{front.office}.record")
    return {"requests until the end": len(answers)}


def ask_until_refused(front, number, answers, done):
    """Adds users, one after another, until the front has ended. A kept connection may be closed before a request is sent."""
    connection = front.connection()
    for turn in range(1_000_000):
        name = f"{number}.{turn}"
        try:
            if connection.sock is None:
                connection.connect()
        except OSError:
            answers.append((name, "refused"))
            return
        try:
            answers.append((name, front.ask("addUser", {"user": name}, connection)[0]))
        except (http.client.RemoteDisconnected, ConnectionResetError, BrokenPipeError):
            answers.append((name, "closed before"))
            connection.close()
        if done.is_set():
            return


def check_lost_replay(bench):
    """If the replay ends, commands get 503 only until a new one has opened the office; one that hangs is killed. Questions are answered."""
    ann = {"user": "ann"}
    with Front(bench, "--hang-timeout", "1s", "--timeout", "5s") as front:
        front.ask("addUser", ann)
        for number in (signal.SIGKILL, signal.SIGSEGV):
            os.kill(front.replays()[0], number)
            bench.same("a question meanwhile", front.ask("assignedRoles", ann)[0], 200)
            until(lambda: front.ask("addUser", ann)[0] == 409, "it answers again")
        os.kill(front.replays()[0], signal.SIGSTOP)
        bench.same("while the replay hangs", (front.ask("addUser", ann)[0], front.ask("assignedRoles", ann)[0]), (503, 200))
        until(lambda: front.ask("addUser", ann)[0] == 409, "it answers again")
        bench.same("the log", "it answered nothing for too long" in front.said(), True)
        # While the office doesn't open, there is no answer from memory.
        os.rename(front.office, bench.path("away"))
        os.rename(bench.path("office-wal"), bench.path("away-wal"))
        bench.write("office", b"")
        os.kill(front.replays()[0], signal.SIGKILL)
        until(lambda: "doesn't start" in front.said(), "the log says why")
        bench.same("a question", front.ask("assignedRoles", {"user": "ann"}), (503, '{"code":60,"error":"Unavailable"}'))
        status, text = front.exchange("GET", "/healthz")
        health = json.loads(text)
        bench.same("health", (status, health["ready"], "NotAnOffice" in health["why"]), (503, False, True))
        time.sleep(2.2)
        bench.same("one line says why", front.said().count("doesn't start"), 1)
        os.rename(bench.path("away"), front.office)
        os.rename(bench.path("away-wal"), bench.path("office-wal"))
        until(lambda: front.ask("assignedRoles", {"user": "ann"})[0] == 200, "it answers again")
        bench.same("the end", front.end(), 0)


def check_callers_without_replay(bench):
    """While the office has no replay, callers are judged as before: the front has their office itself."""
    with secured(bench) as front:
        ask = lambda: front.ask("assignUser", {"user": "ann", "role": "clerk"}, Authorization="Bearer secret")[0]  # noqa: E731
        forbidden = lambda: front.ask("addUser", {"user": "ann"}, Authorization="Bearer secret")[0]  # noqa: E731
        bench.same("before", (ask(), forbidden()), (409, 403))
        for _ in range(3):
            for replay in front.replays():
                os.kill(replay, signal.SIGKILL)
            while (given := ask()) == 503:
                bench.same("meanwhile", forbidden(), 403)
            bench.same("after", (given, forbidden()), (409, 403))


def check_no_memory_of_old_replay(bench):
    """A front that starts while an earlier one's replay still runs waits: the two never have the office open together."""
    with Front(bench) as front:
        front.ask("addUser", {"user": "ann"})
        replay = front.replays()[0]
        os.kill(replay, signal.SIGSTOP)
        front.process.send_signal(signal.SIGSTOP)
        words = front.words()
        second = subprocess.Popen(
            [os.environ["RBAC_FRONT"], *words], stderr=subprocess.PIPE, stdout=subprocess.DEVNULL, text=True
        )
        time.sleep(0.3)
        bench.same("it waits", second.poll(), None)
        second.kill()
        second.communicate()
        os.kill(replay, signal.SIGCONT)
        front.process.send_signal(signal.SIGCONT)
        bench.same("the first one answers", front.ask("assignedRoles", {"user": "ann"})[0], 200)


@pytest.mark.needs("curl")
def check_socket_is_asked(bench):
    """curl can ask over the socket, as the page says."""
    path = bench.path("run/socket")
    with Front(bench, listen=f"unix:{path}") as front:
        words = ["curl", "-s", "--unix-socket", path, "-d", '{"user":"ann"}', "http://localhost/v1/addUser"]
        bench.same("curl", subprocess.run(words, capture_output=True, text=True, check=False).stdout, OK)
        connection = Unix(path)
        bench.same("a kept connection", [front.ask("ssdRoleSets", {}, connection)[0] for _ in range(3)], [200, 200, 200])
        connection.close()
