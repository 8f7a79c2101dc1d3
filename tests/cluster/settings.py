"""Nodes that have one name, or take snapshots at different places: neither goes unnoticed."""

import signal

from .answers import exchange, post
from .keeping import EVERY, add_users, log_of
from .machines import Cluster, Process
from .outvoting import DIVERGED
from .running import build


def start_with(cluster, i, option, value):
    """Starts a node with another value of an option."""
    cluster.nodes[i].stop(signal.SIGTERM)
    words = list(cluster.nodes[i].words)
    words[words.index(option) + 1] = value
    cluster.nodes[i] = Process(words, cluster.nodes[i].log)
    cluster.nodes[i].start()


def check_settings(bench):
    """A node that takes snapshots at other places than most that run takes no part, and the others go on. If all of them are started anew
    one after another, they serve with other settings. A node whose name another one has ends before it takes part."""
    with Cluster(bench.folder, build(bench.shared), every=EVERY) as cluster:
        add_users(cluster, "a", 3)
        start_with(cluster, 2, "--every", "7")
        cluster.until(lambda: "start all nodes with the same" in cluster.status(2).get("why", ""), "the node says what to do")
        bench.same("a command to it", exchange(cluster, post("addUser", b'{"user":"z"}'), 2)[0], 503)
        bench.same("the others are ready", [cluster.status(i).get("ready") for i in range(2)], [True, True])
        start_with(cluster, 1, "--every", "7")
        cluster.until(lambda: all(cluster.status(i).get("ready") for i in (1, 2)), "now most have its settings")
        start_with(cluster, 0, "--every", "7")
        cluster.until(cluster.ready, "all nodes are ready")
        ends = cluster.nodes[0].ends
        start_with(cluster, 2, "--name", "n0")
        cluster.until(lambda: cluster.nodes[2].ends, "the node whose name is taken ends")
        bench.same("it says what to do", "give each node another --name" in log_of(cluster, 2), True)
        bench.same("it has not taken part", "recovered" in log_of(cluster, 2).rpartition('"started"')[2], False)
        bench.same("the other one goes on", (cluster.nodes[0].ends, cluster.status(0).get("ready")), (ends, True))
        start_with(cluster, 2, "--name", "n2")
        cluster.heal()
        add_users(cluster, "b", 3)
