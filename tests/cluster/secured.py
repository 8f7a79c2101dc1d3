"""Certificates for clients, for other nodes and for etcd, and a user of etcd with a password."""

import http.client
import json
import os
import ssl
import subprocess
import time

from program.bench import PROGRAM, SECONDS
from program.web import free_port

from .machines import Process
from .running import build

# Makes an authority, and a certificate of it for each name.
CERTIFICATES = """
set -e
openssl req -x509 -newkey ec -pkeyopt ec_paramgen_curve:P-256 -nodes -keyout ca.key -out ca.crt -subj /CN=ca -days 2 2> /dev/null
openssl req -x509 -newkey ec -pkeyopt ec_paramgen_curve:P-256 -nodes -keyout other.key -out other.crt -subj /CN=other -days 2 2> /dev/null
printf 'subjectAltName=IP:127.0.0.1\\nextendedKeyUsage=serverAuth,clientAuth\\n' > ext
for name in etcd node client; do
    openssl req -newkey ec -pkeyopt ec_paramgen_curve:P-256 -nodes -keyout $name.key -out $name.csr -subj /CN=$name 2> /dev/null
    openssl x509 -req -in $name.csr -CA ca.crt -CAkey ca.key -CAcreateserial -out $name.crt -days 2 -extfile ext 2> /dev/null
done
printf 'secret\\n' > password
"""


class Secured:
    """One member of etcd and two nodes, each connection with certificates."""

    def __init__(self, bench):
        self.bench = bench
        subprocess.run(["sh", "-c", CERTIFICATES], cwd=bench.folder, check=True)
        self.etcd, peer = (f"https://127.0.0.1:{free_port()}" for _ in range(2))
        self.ports = [(free_port(), free_port()) for _ in range(2)]
        words = [
            "etcd", "--data-dir", bench.path("etcd"), "--listen-client-urls", self.etcd, "--advertise-client-urls", self.etcd,
            "--listen-peer-urls", peer, "--initial-advertise-peer-urls", peer, "--initial-cluster", f"default={peer}",
            "--cert-file", bench.path("etcd.crt"), "--key-file", bench.path("etcd.key"), "--client-cert-auth",
            "--trusted-ca-file", bench.path("ca.crt"), "--peer-cert-file", bench.path("etcd.crt"),
            "--peer-key-file", bench.path("etcd.key"), "--peer-trusted-ca-file", bench.path("ca.crt"), "--peer-client-cert-auth",
            "--bcrypt-cost", "4",  # A check of a password takes a millisecond, and not a fifteenth of a second.
        ]  # fmt: skip
        self.processes = [Process(words, bench.path("etcd.log"))]

    def ctl(self, *words, typed=""):
        """Runs etcdctl with an input, and returns whether it succeeded."""
        command = ["etcdctl", "--endpoints", self.etcd, "--cacert", "ca.crt", "--cert", "client.crt", "--key", "client.key", *words]
        done = subprocess.run(
            command, cwd=self.bench.folder, env={**os.environ, "ETCDCTL_API": "3"}, input=typed.encode(), capture_output=True,
            timeout=SECONDS, check=False,
        )  # fmt: skip
        return done.returncode == 0

    def node(self, i, program):
        here, peer = self.ports[i]
        files = [
            word
            for side, name in (("tls", "node"), ("peer", "node"), ("etcd", "node"))
            for word in (f"--{side}-cert", f"{name}.crt", f"--{side}-key", f"{name}.key", f"--{side}-ca", "ca.crt")
        ]
        files = [self.bench.path(word) if "." in word else word for word in files]
        words = [
            program, "serve", "--name", f"n{i}", "--etcd", self.etcd, "--data", self.bench.path(f"node{i}"), "--program", PROGRAM,
            "--listen", f"127.0.0.1:{here}", "--peer", f"127.0.0.1:{peer}", "--etcd-user", "node",
            "--etcd-password-file", self.bench.path("password"), "--every", "2", *files,
        ]  # fmt: skip
        self.processes.append(Process(words, self.bench.path(f"node{i}.log")))
        self.processes[-1].start()

    def ask(self, port, method, path, body="", name="client"):
        """The status and body of an answer to a client with this certificate, or None and why there is none."""
        context = ssl.create_default_context(cafile=self.bench.path("ca.crt"))
        if name:
            context.load_cert_chain(self.bench.path(f"{name}.crt"), self.bench.path(f"{name}.key"))
        connection = http.client.HTTPSConnection("127.0.0.1", port, timeout=10, context=context)
        try:
            connection.request(method, path, body)
            reply = connection.getresponse()
            return reply.status, reply.read()
        except OSError as fault:
            return None, str(fault)
        finally:
            connection.close()

    def trims(self, port, log):
        """Sends a command to a node, and returns whether the node has trimmed the log."""
        self.ask(port, "POST", "/v1/addUser", json.dumps({"user": f"t{time.monotonic_ns()}"}))
        with open(log, encoding="utf-8") as file:
            return "trimmed the log" in file.read()


def http_2(bench, port):
    """The version of HTTP and the status by which a command is answered to a client that offers HTTP/2."""
    words = ["-s", "-o", "/dev/null", "-w", "%{http_version} %{http_code}", "--http2", "-d", '{"user":"h2"}']
    files = ["--cert", "client.crt", "--key", "client.key", "--cacert", "ca.crt"]
    command = ["curl", *words, *files, f"https://127.0.0.1:{port}/v1/addUser"]
    return subprocess.run(command, cwd=bench.folder, capture_output=True, text=True, timeout=SECONDS, check=False).stdout


def wait(holds, what):
    """Waits until something holds."""
    deadline = time.monotonic() + SECONDS
    while not holds():
        if time.monotonic() > deadline:
            raise TimeoutError(what)
        time.sleep(0.1)


def judge_password(bench, secured):
    """Nodes go on after the password of their user in etcd has changed, once the file has the new one."""
    words = "--user root:secret user passwd node --interactive=false".split()
    bench.same("the password is changed", secured.ctl(*words, typed="another\n"), True)
    (bench.folder / "password").write_text("another\n", encoding="utf-8")
    for i, (here, _) in enumerate(secured.ports):
        command = json.dumps({"user": f"changed{i}"})
        wait(lambda: secured.ask(here, "POST", "/v1/addUser", command)[0] in (200, 409), f"node {i} does commands")  # noqa: B023
        bench.same(f"node {i} has not ended", secured.processes[1 + i].process.poll(), None)


def check_secured(bench):
    """Only clients with a certificate of the authority get answers, at both ports; a new node fetches a snapshot."""
    secured = Secured(bench)
    try:
        secured.processes[0].start()
        wait(lambda: secured.ctl("endpoint", "health"), "etcd answers")
        for words in (
            "user add root:secret", "user grant-role root root", "role add node", "user add node:secret",
            "role grant-permission node readwrite --prefix=true rbac/", "user grant-role node node", "auth enable",
        ):  # fmt: skip
            bench.same(f"etcdctl {words}", secured.ctl(*words.split()), True)
        program = build(bench.shared)
        secured.node(0, program)
        here, peer = secured.ports[0]
        wait(lambda: secured.ask(here, "GET", "/healthz")[0] == 200, "the node is ready")
        for user in "abcdefgh":
            given = secured.ask(here, "POST", "/v1/addUser", json.dumps({"user": user}))
            bench.same("a command", given, (200, b'{"ok":true}'))
        bench.same("the version of HTTP", http_2(bench, here), "1.1 200")
        for name in ("", "other"):
            for port, method, path in ((here, "POST", "/v1/addUser"), (peer, "GET", "/snapshot"), (peer, "GET", "/metrics")):
                given = secured.ask(port, method, path, '{"user":"mallory"}', name)
                bench.same(f"{path} for a client with the certificate {name!r}", given[0], None)
        wait(lambda: secured.ask(peer, "GET", "/snapshot")[0] == 200, "the node has a snapshot")
        bench.same("the snapshot", secured.ask(peer, "GET", "/snapshot")[1][:15], b"SQLite format 3")
        bench.same("no user is added", secured.ask(here, "POST", "/v1/assignedRoles", '{"user":"mallory"}')[0], 409)
        wait(lambda: secured.trims(here, bench.path("node0.log")), "the log is trimmed")
        secured.node(1, program)
        wait(lambda: secured.ask(secured.ports[1][0], "GET", "/healthz")[0] == 200, "the new node is ready")
        said = open(bench.path("node1.log"), encoding="utf-8").read()
        bench.same("it has fetched a snapshot", "fetched a snapshot" in said, True)
        given = secured.ask(secured.ports[1][0], "POST", "/v1/assignedRoles", '{"user":"a"}')
        bench.same("a question to the new node", given, (200, b'{"ok":true,"value":[]}'))
        judge_password(bench, secured)
    finally:
        for process in reversed(secured.processes):
            process.stop()
