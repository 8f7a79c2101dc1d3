"""Three machines, each with a member of etcd and a node, which can be killed, paused, and started again."""

import base64
import http.client
import json
import os
import shutil
import signal
import subprocess
import threading
import time

from program.bench import PROGRAM

from .networks import MACHINES, network

PREFIX = "rbac"
SECONDS = 180

# How long after its end a process that ended by itself is started again.
RESTART = 0.2


class Process:
    """A program that is started again if it ends, unless it is meant to."""

    def __init__(self, words, log):
        self.words, self.log = words, log
        self.process, self.wanted, self.lock = None, False, threading.Lock()
        self.ends = 0

    def start(self):
        """Starts the program, unless it runs."""
        with self.lock:
            self.wanted = True
            self.run()

    def run(self):
        """Starts the program, unless it runs. The caller has the lock."""
        if self.process is None or self.process.poll() is not None:
            with open(self.log, "ab") as log:
                self.process = subprocess.Popen(self.words, stdin=subprocess.DEVNULL, stdout=log, stderr=log)

    def send(self, number):
        """Sends a signal, if the program runs."""
        with self.lock:
            if self.process is not None and self.process.poll() is None:
                self.process.send_signal(number)

    def stop(self, number=signal.SIGKILL):
        """Ends the program for good, and returns its status."""
        with self.lock:
            self.wanted = False
            if self.process is None:
                return None
            if self.process.poll() is None:
                self.process.send_signal(signal.SIGCONT)
                self.process.send_signal(number)
        try:
            return self.process.wait(SECONDS)
        except subprocess.TimeoutExpired:
            self.process.kill()
            return self.process.wait()

    def supervise(self):
        """Starts the program again if it has ended by itself, and is not stopped meanwhile."""
        with self.lock:
            ended = self.wanted and self.process is not None and self.process.poll() is not None
        if ended:
            self.ends += 1
            time.sleep(RESTART)
            with self.lock:
                if self.wanted:
                    self.run()


class Cluster:
    """The machines of one test, in a folder."""

    def __init__(self, folder, node, every=500, timeout="4s", more=(), of_etcd=(), patience=SECONDS):
        self.folder, self.node = folder, node
        # How many seconds is waited for what has to happen, if nothing else is said.
        self.patience = patience
        self.network = network()
        self.every, self.timeout, self.more, self.of_etcd = every, timeout, more, of_etcd
        # Folders with earlier copies of records.
        self.copies = []
        self.members = [self.member(i) for i in range(MACHINES)]
        self.nodes = [self.node_of(i) for i in range(MACHINES)]
        self.done = threading.Event()
        self.supervisor = threading.Thread(target=self.supervise, daemon=True)

    def __enter__(self):
        try:
            self.begin()
        except Exception:
            self.__exit__()
            raise
        return self

    def begin(self):
        """Starts everything, and waits until all nodes are ready."""
        for member in self.members:
            member.start()
        self.until(lambda: self.read_log() is not None, "etcd answers")
        for node in self.nodes:
            node.start()
        self.supervisor.start()
        self.until(self.ready, "the nodes are ready")

    def __exit__(self, *_):
        self.done.set()
        if self.supervisor.is_alive():
            self.supervisor.join()
        for process in (*self.nodes, *self.members):
            process.stop()
        self.network.close()

    # What runs.

    def url(self, machine, port):
        return "http://" + self.network.address(machine, port)

    def etcd(self):
        """The URLs of all members."""
        return ",".join(self.url(i, 2379) for i in range(MACHINES))

    def data(self, name):
        return str(self.folder / name)

    def member(self, i, state="new"):
        peers = ",".join(f"m{j}={self.url(j, 2380)}" for j in range(MACHINES))
        words = [
            *self.network.prefix(i), "etcd", "--name", f"m{i}", "--data-dir", self.data(f"member{i}"),
            "--listen-client-urls", self.url(i, 2379), "--advertise-client-urls", self.url(i, 2379),
            "--listen-peer-urls", self.url(i, 2380), "--initial-advertise-peer-urls", self.url(i, 2380),
            "--initial-cluster", peers, "--initial-cluster-state", state, "--logger", "zap", "--log-level", "error",
            *self.of_etcd,
        ]  # fmt: skip
        return Process(words, self.data(f"member{i}.log"))

    def node_of(self, i):
        words = [
            *self.network.prefix(i), self.node, "serve", "--name", f"n{i}", "--data", self.data(f"node{i}"),
            "--etcd", self.etcd(), "--listen", self.network.address(i, 8080), "--peer", self.network.address(i, 8081),
            "--program", PROGRAM, "--every", str(self.every), "--timeout", self.timeout, "--prefix", PREFIX, *self.more,
        ]  # fmt: skip
        return Process(words, self.data(f"node{i}.log"))

    def supervise(self):
        while not self.done.wait(0.05):
            for process in (*self.nodes, *self.members):
                process.supervise()

    # What it reports.

    def until(self, holds, what, seconds=None):
        """Waits until something holds."""
        seconds = seconds or self.patience
        deadline = time.monotonic() + seconds
        while not holds():
            if time.monotonic() > deadline:
                raise TimeoutError(f"not in {seconds} seconds: {what}")
            time.sleep(0.05)

    def get(self, machine, path, port=8080):
        """The status and the body of what a node answers to GET, None and nothing if it doesn't."""
        connection = http.client.HTTPConnection(self.network.address(machine, port), timeout=30)
        try:
            connection.request("GET", path)
            reply = connection.getresponse()
            return reply.status, reply.read()
        except (OSError, http.client.HTTPException):
            return None, b""
        finally:
            connection.close()

    def status(self, machine):
        """Returns what a node reports about itself. It gives strangers no reason, but other nodes and monitoring."""
        status, body = self.get(machine, "/healthz")
        if status == 503:
            body = self.get(machine, "/healthz", 8081)[1] or body
        try:
            return json.loads(body)
        except ValueError:
            return {}

    def ready(self):
        """Whether all nodes are ready."""
        return all(self.status(i).get("ready") for i in range(MACHINES))

    def etcd_call(self, path, body, machine=None):
        """What etcd answers over its JSON gateway, None if no member does."""
        for i in range(MACHINES) if machine is None else [machine]:
            connection = http.client.HTTPConnection(self.network.address(i, 2379), timeout=2)
            try:
                connection.request("POST", path, json.dumps(body))
                reply = connection.getresponse()
                text = reply.read()
                if reply.status == 200:
                    return json.loads(text)
            except (OSError, http.client.HTTPException, ValueError):
                pass
            finally:
                connection.close()
        return None

    def read_log(self, after=0):
        """The entries of the log after a revision, each as its revision, its requests and the number of the node that has
        written it, and the floor of the log."""
        at, end = encoded(f"{PREFIX}/log/"), encoded(f"{PREFIX}/log0")
        reply = self.etcd_call("/v3/kv/txn", {"success": [
            {"requestRange": {"key": encoded(f"{PREFIX}/floor")}},
            {"requestRange": {"key": at, "range_end": end, "min_create_revision": after + 1,
                              "sort_target": "CREATE", "sort_order": "ASCEND"}},
        ]})  # fmt: skip
        if reply is None:
            return None
        floors, entries = (one["response_range"].get("kvs", []) for one in reply["responses"])
        return (
            [(int(kv["create_revision"]), lines_of(base64.b64decode(kv["value"])), writer_of(kv["key"])) for kv in entries],
            max((int(base64.b64decode(kv["value"])) for kv in floors), default=0),
        )

    def ctl(self, *words):
        """Runs etcdctl, and returns what it prints."""
        done = subprocess.run(
            [*self.network.prefix(0), "etcdctl", "--endpoints", self.etcd(), *words],
            env={**os.environ, "ETCDCTL_API": "3"}, capture_output=True, timeout=SECONDS, check=True,
        )  # fmt: skip
        return done.stdout.decode()

    def does(self, *words):
        """Whether etcdctl succeeds."""
        try:
            self.ctl(*words)
        except subprocess.SubprocessError:
            return False
        return True

    def lists(self, i, other=""):
        """Whether etcd lists a member at a machine that has another number than this, None if it doesn't answer."""
        try:
            members = [line.split(", ") for line in self.ctl("member", "list").splitlines()]
        except subprocess.SubprocessError:
            return None
        return any(one[3] == self.url(i, 2380) and one[0] != other for one in members)

    # What is done to it.

    def lose_member(self, i):
        """A member loses its folder: it is removed from etcd, and another one comes in its place."""
        self.members[i].stop()
        shutil.rmtree(self.data(f"member{i}"))
        numbers = {line.split(", ")[2]: line.split(", ")[0] for line in self.ctl("member", "list").splitlines()}
        known, added = numbers[f"m{i}"], ("member", "add", f"m{i}", "--peer-urls", self.url(i, 2380))
        # Until the two others agree again etcd refuses to change its members. It makes a change only once, also if its answer is lost.
        self.until(lambda: self.does("member", "remove", known) or self.lists(i) is False, "the member is removed")
        self.until(lambda: self.does(*added) or self.lists(i, known), "the member is added")
        self.members[i] = self.member(i, "existing")
        self.members[i].start()

    def lose_node(self, i):
        """A node loses its folder, and starts with an empty one."""
        self.nodes[i].stop()
        shutil.rmtree(self.data(f"node{i}"))
        self.nodes[i].start()

    def resume(self):
        """Lets everything run."""
        for process in (*self.members, *self.nodes):
            process.start()
            process.send(signal.SIGCONT)

    def heal(self, seconds=None):
        """Lets everything run, and waits until all nodes have applied the whole log."""
        self.resume()
        self.until(self.ready, "all nodes are ready again", seconds)
        same = lambda: len({self.status(i).get("revision") for i in range(MACHINES)}) == 1  # noqa: E731
        self.until(same, "all nodes have the same", seconds)


def writer_of(key):
    """The number of the node that has written an entry, from its key."""
    name = base64.b64decode(key).rpartition(b"/")[2].partition(b"-")[0]
    return int(name[1:])


def lines_of(value):
    """The requests of an entry. A line that says who asks for the next ones, when and why, is none."""
    return [line for line in value.split(b"\n") if not line.startswith(b'{"by":')]


def encoded(text):
    return base64.b64encode(text.encode()).decode()
