#!/usr/bin/env python3
"""Measures the front of one machine beside `rbac serve`, nginx in front of it, and OpenLDAP's compare operation.

    bench/front.py [--rounds N] [--seconds S] [--folder FOLDER] [PART..]

The parts are decisions, commands, memory and slow; without any, all run. In each round each server is measured for S seconds with 1, 16 and
128 clients, one server right after the other; the medians of the rounds are printed, and the ratios are medians of the ratios of
each round. Clients keep their connections, but `rbac serve` closes each after its answer. The office is that of bench/lines.py,
and the files are below FOLDER (default: /dev/shm, so a sync costs nothing). It needs Debian's packages nginx-light, slapd,
ldap-utils, libldap-dev and gcc besides those of `bin/setup`. bench/README.md has the figures.
"""

import argparse
import hashlib
import json
import os
import re
import shutil
import socket
import statistics
import subprocess
import sys
import tempfile
import time
from pathlib import Path

ROOT = Path(__file__).resolve().parent.parent
sys.path[:0] = [str(ROOT / "tests"), str(ROOT / "bench")]

from operating import put_rows  # noqa: E402
from program.bench import PROGRAM  # noqa: E402
from program.web import free_port  # noqa: E402

CLIENTS = (1, 16, 128)
MEMBERS = 1_000
# A caller may have 64 requests at hand at once.
TOKENS = [f"secret{number}" for number in range(4)]
WAYS = ("idle", "half", "slow", "idle,half,slow")
HELD = 10_000

# The question of the load program: may the session s1 open the safe?
SAFE = (
    ("addUser", {"user": "ann"}), ("addRole", {"role": "clerk"}), ("addPermObj", {"object": "safe"}),
    ("addPermission", {"object": "safe", "operation": "open"}),
    ("grantPermission", {"object": "safe", "operation": "open", "role": "clerk"}),
    ("assignUser", {"user": "ann", "role": "clerk"}), ("createSession", {"user": "ann", "roles": ["clerk"], "session": "s1"}),
)  # fmt: skip

CALLERS = (
    ("addRole", {"role": "application"}), ("addPermObj", {"object": "office"}), ("addPermObj", {"object": "object safe"}),
    ("addPermission", {"object": "object safe", "operation": "checkAccess"}),
    ("grantPermission", {"object": "object safe", "operation": "checkAccess", "role": "application"}),
    *(("addUser", {"user": f"token:{token}"}) for token in TOKENS),
    *(("assignUser", {"user": f"token:{token}", "role": "application"}) for token in TOKENS),
)  # fmt: skip

SLAPD = """include /etc/ldap/schema/core.schema
modulepath /usr/lib/ldap
moduleload back_mdb
pidfile {folder}/slapd.pid
argsfile {folder}/slapd.args
sortvals member
database mdb
maxsize 1073741824
suffix "dc=bench"
directory {folder}/ldap
index objectClass,member eq
access to * by * read
"""

NGINX = """daemon off;
worker_processes auto;
pid {folder}/nginx.pid;
error_log {folder}/nginx.error crit;
events {{ worker_connections 4096; }}
http {{
    access_log off;
    client_body_temp_path {folder}/body;
    proxy_temp_path {folder}/proxy;
    fastcgi_temp_path {folder}/fastcgi;
    uwsgi_temp_path {folder}/uwsgi;
    scgi_temp_path {folder}/scgi;
    upstream rbac {{ server 127.0.0.1:{serve}; }}
    server {{
        listen 127.0.0.1:{port} backlog=1024;
        keepalive_requests 100000000;
        location / {{ proxy_pass http://rbac; }}
    }}
}}
"""


def lines_of(pairs):
    return "".join(json.dumps({"fn": function, **keys}) + "\n" for function, keys in pairs).encode()


class Bench:
    """Servers of one office, each over its own copy."""

    def __init__(self, folder, rounds, seconds):
        self.folder, self.rounds, self.seconds = folder, rounds, seconds
        self.node, self.load_program, self.compare = (str(folder / name) for name in ("rbac-node", "load", "compare"))
        for option, path in (("--build", self.node), ("--build-load", self.load_program)):
            subprocess.run([ROOT / "bin/node", option, path], check=True)
        self.processes = []
        (folder / "callers").write_bytes(lines_of(CALLERS))
        sums = (f"{hashlib.sha256(token.encode()).hexdigest()} {token}\n" for token in TOKENS)
        (folder / "tokens").write_text("".join(sums), encoding="ascii")
        setup = subprocess.run([sys.executable, ROOT / "bench/lines.py", "setup", "0"], capture_output=True, check=True).stdout
        self.office = folder / "base"
        self.make(self.office, setup + lines_of(SAFE))

    def make(self, path, lines):
        """Makes an office that has accepted some lines."""
        subprocess.run([PROGRAM, "init", path], check=True)
        done = subprocess.run([PROGRAM, "replay", path], input=lines, stdout=subprocess.PIPE, check=True)
        if not done.stdout.rstrip().rsplit(b"\n", 1)[-1].startswith(b'{"ok":true'):
            sys.exit(f"the office refuses {done.stdout.splitlines()[-1]!r}")

    def start(self, *words):
        """Starts a server, and returns its process."""
        with open(self.folder / f"log{len(self.processes)}", "wb") as log:
            process = subprocess.Popen([str(word) for word in words], stdin=subprocess.DEVNULL, stdout=log, stderr=log)
        self.processes.append(process)
        return process

    def copy(self, name, office=None):
        path = self.folder / name
        shutil.copy(office or self.office, path)
        return path

    def serve(self, name):
        port = free_port()
        self.start(PROGRAM, "serve", self.copy(name), "--port", port, "--limit", 1_000_000)
        return until_open(port)

    def front(self, name, *more, office=None):
        """The process of a front and its port."""
        port, path = free_port(), self.copy(name, office)
        if "--no-record" not in more:
            adopt = [self.node, "record", "adopt", "--office", path, "--program", PROGRAM, "--by", "bench", "--reason", "new"]
            subprocess.run(adopt, check=True, stdout=subprocess.DEVNULL)
        words = ("--office", path, "--program", PROGRAM, "--listen", f"127.0.0.1:{port}")
        process = self.start(self.node, "serve", *words, *more)
        return process, until_open(port)

    def callers(self):
        return ("--callers", self.folder / "callers", "--tokens", self.folder / "tokens")

    def nginx(self, serve):
        port = free_port()
        (self.folder / "nginx.conf").write_text(NGINX.format(folder=self.folder, port=port, serve=serve), encoding="ascii")
        self.start("/usr/sbin/nginx", "-c", self.folder / "nginx.conf", "-e", self.folder / "nginx.start")
        return until_open(port)

    def slapd(self):
        """OpenLDAP with a group of members, of whom the question names one."""
        (self.folder / "ldap").mkdir()
        (self.folder / "slapd.conf").write_text(SLAPD.format(folder=self.folder), encoding="ascii")
        people = "".join(f"member: uid=user{number:04},dc=bench\n" for number in range(MEMBERS))
        entries = f"dn: dc=bench\nobjectClass: dcObject\nobjectClass: organization\no: bench\ndc: bench\n\n" \
                  f"dn: cn=clerk,dc=bench\nobjectClass: groupOfNames\ncn: clerk\n{people}"  # fmt: skip
        add = ["/usr/sbin/slapadd", "-f", str(self.folder / "slapd.conf")]
        subprocess.run(add, input=entries.encode(), check=True, capture_output=True)
        compiler = ["gcc", "-O2", "-o", self.compare, str(ROOT / "bench/compare.c"), "-lldap", "-lpthread"]
        subprocess.run(compiler, check=True)
        port = free_port()
        self.start("/usr/sbin/slapd", "-h", f"ldap://127.0.0.1:{port}", "-f", self.folder / "slapd.conf", "-d", "0")
        return until_open(port)

    def close(self):
        for process in self.processes:
            process.terminate()
        for process in self.processes:
            try:
                process.wait(20)
            except subprocess.TimeoutExpired:
                process.kill()

    def measured(self, words):
        """The rate and the latencies that a program of clients prints."""
        done = subprocess.run([str(word) for word in words], capture_output=True, text=True, timeout=300, check=False)
        found = re.fullmatch(r"(\d+) a second, (\S+) (\S+) (\S+) ms .*\n", done.stdout)
        if not found:
            sys.exit(f"{words}: {done.stdout}{done.stderr}")
        return [float(one) for one in found.groups()]

    def load(self, port, clients, *more, ask="question"):
        words = ("http", "--targets", f"127.0.0.1:{port}", "--clients", clients, "--seconds", self.seconds, "--ask", ask)
        return self.measured([self.load_program, *words, *more])

    def decisions(self):
        """Single decisions a second, with the medians of the latencies."""
        serve, behind = self.serve("serve"), self.nginx(self.serve("behind"))
        _, plain = self.front("plain")
        _, checked = self.front("checked", *self.callers())
        directory, tokens = self.slapd(), ("--tokens", ",".join(TOKENS))
        person = f"uid=user{MEMBERS // 2:04},dc=bench"
        ask = {
            "rbac serve": lambda clients: self.load(serve, clients, "--close"),
            "nginx before rbac serve": lambda clients: self.load(behind, clients),
            "front": lambda clients: self.load(plain, clients),
            "front, callers checked": lambda clients: self.load(checked, clients, *tokens),
            "OpenLDAP, compare": lambda clients: self.measured(
                (self.compare, f"ldap://127.0.0.1:{directory}", "cn=clerk,dc=bench", "member", person, clients, self.seconds)
            ),
        }
        for clients in CLIENTS:
            found = {name: [] for name in ask}
            for _ in range(self.rounds):
                for name, measure in ask.items():
                    found[name].append(measure(clients))
            for name, rounds in found.items():
                ratios = [one[0] / base[0] for one, base in zip(rounds, found["rbac serve"])]
                rate, *latencies = map(statistics.median, zip(*rounds))
                print(f"{clients:4} clients  {name:24} {rate:9,.0f} a second ({', '.join(f'{one:.2f}' for one in latencies)} ms), "
                      f"{statistics.median(ratios):.2f} times rbac serve ({min(ratios):.2f} to {max(ratios):.2f})", flush=True)  # fmt: skip

    def commands(self):
        """Commands a second with a record and without one."""
        ports = {name: self.front(f"commands {name}", *more)[1] for name, more in (("without", ["--no-record"]), ("with", []))}
        for port in ports.values():
            until_ready(port)
        for clients in CLIENTS:
            found = {name: [] for name in ports}
            for _ in range(self.rounds):
                for name, port in ports.items():
                    found[name].append(self.load(port, clients, ask="command")[0])
            ratios = [recorded / plain for recorded, plain in zip(found["with"], found["without"])]
            rates = ", ".join(f"{statistics.median(rates):,.0f} {name} a record" for name, rates in found.items())
            print(f"{clients:4} clients  {rates} a second, {statistics.median(ratios):.2f} ({min(ratios):.2f} to {max(ratios):.2f})", flush=True)

    def memory(self):
        """The memory of fronts and of their replays: with 5,000 users, and at the limits."""
        (self.folder / "limits").touch()
        os.remove(self.folder / "limits")
        put_rows(self.folder / "limits", "limits-sets")
        for name, office, clients in (("5,000 users", None, 128), ("the limits", self.folder / "limits", 0)):
            process, port = self.front(f"of {name}", *self.callers(), office=office)
            until_ready(port)
            print(f"{name:12} at the start: {memory_of(process.pid)}", flush=True)
            if clients:
                self.load(port, clients, "--tokens", ",".join(TOKENS))
                print(f"{name:12} after {clients} clients: {memory_of(process.pid)}", flush=True)

    def slow(self):
        """The latency of others while many connections are idle, half open or slow, beside that without them."""
        process, port = self.front("held", *self.callers())
        tokens = ("--tokens", ",".join(TOKENS))
        for ways in WAYS:
            with_none, with_them = [], []
            for _ in range(self.rounds):
                with_none.append(self.load(port, 16, *tokens))
                time_held = self.seconds + 9
                holding = subprocess.Popen(
                    [self.load_program, "hold", "--targets", f"127.0.0.1:{port}", "--clients", str(HELD), "--seconds", str(time_held),
                     "--ways", ways], stdout=subprocess.PIPE, text=True)  # fmt: skip
                time.sleep(7)
                with_them.append(self.load(port, 16, *tokens))
                memory = memory_of(process.pid)
                said, _ = holding.communicate()
            before, after = (list(map(statistics.median, zip(*one))) for one in (with_none, with_them))
            ratios = [one[2] / base[2] for one, base in zip(with_them, with_none)]
            print(f"{ways:16} {after[0]:,.0f} a second beside {before[0]:,.0f} without, 99th percentile {after[2]:.2f} ms beside "
                  f"{before[2]:.2f}, {statistics.median(ratios):.2f} times ({min(ratios):.2f} to {max(ratios):.2f}); "
                  f"{said.strip()}; {memory}", flush=True)  # fmt: skip


def until_open(port):
    """Waits until somebody listens at a port, and returns it."""
    deadline = time.monotonic() + 60
    while True:
        try:
            socket.create_connection(("127.0.0.1", port), 1).close()
            return port
        except OSError:
            if time.monotonic() > deadline:
                raise
            time.sleep(0.01)


def until_ready(port):
    """Waits until a front answers that it is ready."""
    deadline = time.monotonic() + 60
    while True:
        done = subprocess.run(["curl", "-s", f"http://127.0.0.1:{port}/healthz"], capture_output=True, check=False)
        if b'"ready":true' in done.stdout:
            return
        if time.monotonic() > deadline:
            raise TimeoutError(f"the front at {port} isn't ready: {done.stdout!r}")
        time.sleep(0.05)


def memory_of(process):
    """The resident memory of a process and of those that it has started, now and at most."""
    children = [
        int(child)
        for task in os.listdir(f"/proc/{process}/task")
        for child in Path(f"/proc/{process}/task/{task}/children").read_text(encoding="ascii").split()
    ]
    found = []
    for one in (process, *children):
        status = Path(f"/proc/{one}/status").read_text(encoding="ascii")
        words = Path(f"/proc/{one}/cmdline").read_text(encoding="utf-8").split("\0")
        now, most = (int(re.search(rf"{name}:\s+(\d+) kB", status)[1]) / 1000 for name in ("VmRSS", "VmHWM"))
        what = "front" if one == process else "callers" if "--memory" in words else "replay"
        found.append(f"{what} {now:.0f} MB (at most {most:.0f})")
    return ", ".join(found)


def main():
    parser = argparse.ArgumentParser(description=__doc__, formatter_class=argparse.RawDescriptionHelpFormatter)
    parser.add_argument("--rounds", type=int, default=5)
    parser.add_argument("--seconds", type=float, default=1.5)
    parser.add_argument("--folder", default="/dev/shm" if os.access("/dev/shm", os.W_OK) else None)
    parser.add_argument("parts", nargs="*", default=["decisions", "commands", "memory", "slow"])
    arguments = parser.parse_args()
    with tempfile.TemporaryDirectory(dir=arguments.folder) as folder:
        os.chmod(folder, 0o755)
        bench = Bench(Path(folder), arguments.rounds, arguments.seconds)
        try:
            for part in arguments.parts:
                print(f"== {part}, load averages {' '.join(f'{one:.1f}' for one in os.getloadavg())}", flush=True)
                getattr(bench, part)()
        finally:
            bench.close()


if __name__ == "__main__":
    main()
