"""What is full: etcd, and the disk of a node."""

import signal
from pathlib import Path

import pytest

from front.recordfaults import RESERVE

from .answers import exchange, post
from .keeping import add_users
from .machines import Cluster
from .networks import MACHINES
from .records import entries_of, same_head, tool
from .running import build
from .soak import Disks

# The room of etcd, and of a larger one.
QUOTA, LARGER = 6_000_000, 60_000_000
REFUSED = (503, b'{"code":60,"error":"Unavailable"}')


def import_of(number):
    """An import in which each record is refused. Its line has some 47 kB."""
    return post("importAssignments", f"user,role\n{number},r\n".encode() + b"u,r\n" * 9_400)


def is_full(cluster):
    """Whether etcd says so. A busy machine may have refused a command before."""
    return "NOSPACE" in cluster.ctl("alarm", "list")


def check_full(bench):
    """A full etcd refuses commands. Questions are answered, and nodes start. With more room everything goes on."""
    with Cluster(bench.folder, build(bench.shared), timeout="5s", of_etcd=["--quota-backend-bytes", str(QUOTA)]) as cluster:
        bench.same("a command", exchange(cluster, post("addUser", b'{"user":"ann"}'))[0], 200)
        sent = next(number for number in range(400) if exchange(cluster, import_of(number))[0] != 200 and is_full(cluster))
        bench.judge("it gets full", [] if sent > 40 else [f"after {sent} imports"])
        bench.same("a command", exchange(cluster, post("addUser", b'{"user":"bob"}')), REFUSED)
        question = post("assignedRoles", b'{"user":"ann"}')
        cluster.nodes[1].send(signal.SIGKILL)
        cluster.nodes[1].stop()
        cluster.nodes[1].start()
        cluster.until(cluster.ready, "all nodes are ready")
        for i in range(3):
            bench.same(f"a question to node {i}", exchange(cluster, question, i), (200, b'{"ok":true,"value":[]}'))
        # As the page says: members with more room, one after another, and the alarm is disarmed.
        for member in cluster.members:
            member.stop(signal.SIGTERM)
            member.words += ["--quota-backend-bytes", str(LARGER)]
            member.start()
            cluster.until(lambda: cluster.does("endpoint", "health"), "all members answer")
        cluster.ctl("alarm", "disarm")
        cluster.until(lambda: exchange(cluster, post("addUser", b'{"user":"bob"}'))[0] in (200, 409), "commands are done again")
        cluster.until(cluster.ready, "all nodes are ready")


@pytest.mark.gate
def check_bytes(bench):
    """Snapshots and trims by bytes keep the log of long commands small: twice as many are done as etcd has room for."""
    room = QUOTA // 3
    of_node, of_etcd = ["--every-bytes", "90000"], ["--quota-backend-bytes", str(room)]
    with Cluster(bench.folder, build(bench.shared), more=of_node, of_etcd=of_etcd) as cluster:
        statuses = set()
        for number in range(0, 2 * room // 47_000, 2):
            statuses |= {exchange(cluster, import_of(number + i), i)[0] for i in range(2)}
            revision = cluster.status(0)["revision"]
            cluster.until(lambda least=revision: all(cluster.status(i)["snapshot"] >= least for i in range(3)), "there is a snapshot")
        bench.same("the statuses", statuses, {200})
        cluster.heal()


# Commands from one snapshot to the next, and how many come while the disk is full.
EVERY, MEANWHILE = 50, 300


def fill(disk):
    """Writes until there is no room left, and returns what has to be deleted."""
    filler = disk / "filler"
    for size in (1 << 16, 1 << 10, 1):
        try:
            with open(filler, "ab", buffering=0) as file:
                while file.write(bytes(size)) == size:
                    pass
        except OSError:
            pass
    return filler


@pytest.mark.needs("mounts")
def check_full_disk(bench):
    """A node whose disk is full starts, answers questions, and does what is asked of others, also if there is no room at all. Its entries
    wait until there is room, and none is lost."""
    with Disks(bench.folder, build(bench.shared), every=EVERY) as cluster:
        data = Path(cluster.data("node1"))
        add_users(cluster, "before", EVERY + 10)
        cluster.until(lambda: same_head(cluster), "all have the same head")
        reserve = data / "record/reserve"
        bench.same("the room that is kept", reserve.stat().st_size, RESERVE * 1024)
        filler = fill(cluster.disk("node", 1))
        for turn in (1, 2):
            cluster.nodes[1].send(signal.SIGKILL)
            cluster.nodes[1].process.wait()
            cluster.until(lambda: cluster.status(1).get("ready"), f"the node starts, turn {turn}")
            bench.same(f"turn {turn}: what was kept is free", reserve.exists(), False)
            ended = cluster.nodes[1].ends
            add_users(cluster, f"turn{turn}-", MEANWHILE)
            bench.same(f"turn {turn}: the node goes on", cluster.nodes[1].ends, ended)
            judge_answers(bench, cluster, f"turn{turn}-{MEANWHILE - 1}")
        bench.same("entries wait", len(entries_of(data)) < len(entries_of(cluster.data("node0"))) - MEANWHILE, True)
        bench.same("it says why", "full" in cluster.status(1).get("record", ""), True)
        metrics = cluster.get(1, "/metrics", 8081)[1].decode().splitlines()
        bench.judge("metrics", [one for one in ("rbac_node_record_failing 1", "rbac_node_snapshot_failing 1") if one not in metrics])
        ended = cluster.nodes[1].ends
        fill(cluster.disk("node", 1))
        add_users(cluster, "without room", MEANWHILE)
        judge_answers(bench, cluster, f"without room{MEANWHILE - 1}")
        bench.same("without any room: the node goes on", cluster.nodes[1].ends, ended)
        filler.unlink()
        cluster.until(lambda: same_head(cluster), "all have the same head")
        add_users(cluster, "after", EVERY)
        cluster.until(lambda: same_head(cluster), "all have the same head again")
        for i in range(MACHINES):
            bench.same(f"the entries of node {i}", entries_of(cluster.data(f"node{i}")), entries_of(data))
            bench.same(f"verify of node {i}", tool(cluster.node, "verify", "--data", cluster.data(f"node{i}"))[::2], (0, ""))
        bench.same("the room is kept again", reserve.stat().st_size, RESERVE * 1024)
        bench.same("nothing waits", cluster.status(1).get("record"), None)
        cluster.until(lambda: "rbac_node_snapshot_failing 0" in cluster.get(1, "/metrics", 8081)[1].decode(), "there is a snapshot again")


def judge_answers(bench, cluster, user):
    """A question is answered by the node with the full disk as by another one, linearizable and local, and so is a command."""
    question = b'{"user":"%s"}' % user.encode()
    for what, fields in (("a question", []), ("a local question", ["Consistency: local"])):
        asked = post("assignedRoles", question, *fields)
        cluster.until(lambda asked=asked: exchange(cluster, asked, 1) == (200, b'{"ok":true,"value":[]}'), f"{what} about {user}", 10)
    bench.same(f"a command after {user}", exchange(cluster, post("addRole", b'{"role":"%s"}' % user.encode()), 1)[0], 200)
