"""etcd that is restored from its backup under running nodes: each ends, and none answers from what was taken back."""

import os
import shutil
import subprocess
from contextlib import suppress

from .answers import exchange, post
from .keeping import add_users, log_of
from .machines import SECONDS, Cluster
from .networks import MACHINES
from .running import build


def of_files(cluster, *words):
    """Runs etcdctl for one member, or for a file."""
    subprocess.run(
        [*cluster.network.prefix(0), "etcdctl", "--endpoints", cluster.url(0, 2379), "snapshot", *words],
        env={**os.environ, "ETCDCTL_API": "3"}, capture_output=True, timeout=SECONDS, check=True,
    )  # fmt: skip


def restore(cluster, backup):
    """Each member gets the folder that a backup of etcd gives."""
    for member in cluster.members:
        member.stop()
    for i, member in enumerate(cluster.members):
        shutil.rmtree(cluster.data(f"member{i}"))
        peers = member.words[member.words.index("--initial-cluster") + 1]
        of_files(cluster, "restore", backup, "--name", f"m{i}", "--data-dir", cluster.data(f"member{i}"),
                 "--initial-cluster", peers, "--initial-advertise-peer-urls", cluster.url(i, 2380))  # fmt: skip
    for member in cluster.members:
        member.start()


def check_went_back(bench, patience=SECONDS):
    """Nodes that have done commands that etcd has lost end, and say why. Without their folders they do what etcd has."""
    with Cluster(bench.folder, build(bench.shared), timeout="2s", patience=patience) as cluster:
        add_users(cluster, "kept", 3)
        of_files(cluster, "save", bench.path("backup"))
        add_users(cluster, "lost", 3)
        ends = [node.ends for node in cluster.nodes]
        restore(cluster, bench.path("backup"))
        cluster.until(lambda: cluster.read_log() is not None, "etcd answers")
        question = post("assignedRoles", b'{"user":"lost1"}')
        answers = set()

        def has_ended(i):
            with suppress(OSError):  # It may have ended.
                answers.add(exchange(cluster, question, i)[0])
            return cluster.nodes[i].ends > ends[i]

        for i in range(MACHINES):
            cluster.until(lambda i=i: has_ended(i), f"node {i} ends")
            bench.judge(f"node {i} says why", [] if "it was restored to an earlier time" in log_of(cluster, i) else [log_of(cluster, i)])
        bench.judge("nobody answers from what was taken back", [] if 200 not in answers else [str(answers)])
        for i in range(MACHINES):
            cluster.lose_node(i)
        cluster.until(cluster.ready, "all nodes are ready")
        for i in range(MACHINES):
            bench.same(f"a user whom etcd has, at node {i}", exchange(cluster, post("assignedRoles", b'{"user":"kept1"}'), i)[0], 200)
            bench.same(f"a user whom it has lost, at node {i}", exchange(cluster, question, i)[0], 409)
