"""What operators do after a disaster: etcd is restored while a machine is away, a node gets a folder of another time, the office of a backup
is adopted, and all machines are replaced in turn. No node answers from what was taken back, and no part of the record is lost."""

import json
import os
import shutil
import subprocess
from pathlib import Path

import pytest

from program.bench import PROGRAM

from .answers import exchange, post
from .keeping import add_users, floor, log_of
from .machines import PREFIX, SECONDS, Cluster
from .networks import MACHINES
from .records import entries_of
from .rows import snapshots_of
from .running import NODE, build
from .wentback import of_files, restore

# Commands from one snapshot to the next.
EVERY = 10

# How many users are added at most.
MOST_USERS = 5000

OTHER_LOG = "is of a log that etcd no longer has"


def do(cluster, function, machine=0, **arguments):
    """Does a command, which has to be accepted."""
    status, body = exchange(cluster, post(function, json.dumps(arguments).encode()), machine)
    if status != 200:
        raise ValueError(f"{function} {arguments}: {status} {body}")


def roles_of(cluster, user, machine):
    """The status and the body of what a node answers about the roles of a user."""
    return exchange(cluster, post("assignedRoles", json.dumps({"user": user}).encode()), machine)


def tool(*words):
    """The status and the outputs of a command of rbac-node."""
    program = ["--program", PROGRAM] if words[:2] not in (("record", "show"), ("record", "head")) else []
    names = words[:2] if words[0] == "record" else words[:1]
    done = subprocess.run(
        [os.environ[NODE], *names, *program, *words[len(names) :]], capture_output=True, text=True, timeout=SECONDS, check=False
    )
    return done.returncode, done.stdout, done.stderr


def backed_up(bench, cluster, i):
    """The folder of a backup of a node."""
    folder = bench.path("backups")
    os.makedirs(folder, exist_ok=True)
    status, out, said = tool("backup", "--data", cluster.data(f"node{i}"), folder)
    bench.same("a backup", (status, said), (0, ""))
    return out.strip()


def end_nodes(cluster, which=range(MACHINES)):
    for i in which:
        cluster.nodes[i].stop()


def restore_etcd(cluster, backup):
    """etcd is restored as the page says: the first number is a new one."""
    restore(cluster, backup)
    cluster.until(lambda: cluster.read_log() is not None, "etcd answers")
    cluster.until(lambda: cluster.does("del", f"{PREFIX}/first"), "the first number is deleted")


def judge_going_on(bench, cluster, what, count=50):
    """All nodes are ready, do more commands, and answer the same; none differs from another."""
    cluster.until(cluster.ready, f"{what}: all nodes are ready")
    add_users(cluster, f"more-{what}-".replace(" ", "-"), count)
    cluster.until(cluster.ready, f"{what}: all nodes are ready after more commands")
    logs = "".join(log_of(cluster, i) for i in range(MACHINES))
    bench.same(f"{what}: no node differs", "differs from" in logs or "refuses until" in logs, False)


def check_away(bench):
    """A machine that was away while etcd was restored, and the others went on, doesn't answer from what was taken back."""
    with Cluster(bench.folder, build(bench.shared), every=EVERY, timeout="2s") as cluster:
        do(cluster, "addRole", role="clerk")
        add_users(cluster, "kept", 21)
        of_files(cluster, "save", bench.path("backup"))
        do(cluster, "assignUser", user="kept1", role="clerk")
        taken = cluster.status(0)["revision"]
        while any(max(snapshots_of(cluster, i), default=0) < taken for i in (1, 2)):
            add_users(cluster, f"lost{cluster.status(0)['revision']}-", EVERY)  # A node that is busy with a snapshot takes no other one.
        end_nodes(cluster)
        shutil.copytree(cluster.data("node1"), bench.path("kept-by-b"))
        for i in (0, 1):
            shutil.rmtree(cluster.data(f"node{i}"))
        restore_etcd(cluster, bench.path("backup"))
        for i in (0, 1):
            cluster.nodes[i].start()
        both = lambda: all(cluster.status(i).get("ready") for i in (0, 1))  # noqa: E731
        cluster.until(both, "two nodes are ready")
        newest = max(snapshots_of(cluster, 2))
        while cluster.status(0)["revision"] <= newest:
            add_users(cluster, f"on{cluster.status(0)['revision']}-", 20)
        for what, spoil in {
            "as it was": lambda: None,
            "without its record": lambda: shutil.rmtree(Path(cluster.data("node2"), "record")),
        }.items():
            spoil()
            before = cluster.nodes[2].ends
            cluster.nodes[2].start()
            cluster.until(lambda before=before: cluster.nodes[2].ends > before + 1, f"the folder {what}: it ends again and again")
            cluster.until(lambda: OTHER_LOG in log_of(cluster, 2), f"the folder {what}: it says why")
            bench.same(f"the folder {what}: the others are ready", both(), True)
            cluster.nodes[2].stop()
        shutil.rmtree(cluster.data("node2"))
        cluster.nodes[2].start()
        judge_going_on(bench, cluster, "with an empty folder")
        for i in range(MACHINES):
            bench.same(f"what was taken back, at node {i}", roles_of(cluster, "kept1", i), (200, b'{"ok":true,"value":[]}'))
        # A folder of another time in the place of a good one.
        cluster.nodes[1].stop()
        shutil.rmtree(cluster.data("node1"))
        shutil.copytree(bench.path("kept-by-b"), cluster.data("node1"))
        cluster.nodes[1].start()
        cluster.until(lambda: OTHER_LOG in log_of(cluster, 1), "a node with a folder of another time says why it ends")


def check_record_ahead(bench):
    """A machine that had made no snapshot after etcd's backup recovers, and ends once its record has what the log of now doesn't."""
    with Cluster(bench.folder, build(bench.shared), every=EVERY, timeout="2s") as cluster:
        do(cluster, "addRole", role="clerk")
        add_users(cluster, "kept", 21)
        cluster.until(lambda: snapshots_of(cluster, 1), "a snapshot")
        of_files(cluster, "save", bench.path("backup"))
        newest = cluster.status(0)["revision"]
        do(cluster, "assignUser", user="kept1", role="clerk")
        cluster.until(lambda: cluster.status(1).get("revision", 0) > newest, "the node has the command")
        end_nodes(cluster)
        for revision, (_, path) in snapshots_of(cluster, 1).items():
            if revision > newest:
                path.unlink()
        for i in (0, 2):
            shutil.rmtree(cluster.data(f"node{i}"))
        restore_etcd(cluster, bench.path("backup"))
        for node in cluster.nodes:
            node.start()
        cluster.until(cluster.ready, "all nodes are ready")
        for i in range(MACHINES):
            bench.same(f"what was taken back, at node {i}", roles_of(cluster, "kept1", i), (200, b'{"ok":true,"value":[]}'))
        add_users(cluster, "other", 1)
        cluster.until(lambda: "is not what the log gives" in log_of(cluster, 1), "the node says why it ends")
        cluster.nodes[1].stop()
        shutil.rmtree(Path(cluster.data("node1"), "record"))
        cluster.nodes[1].start()
        judge_going_on(bench, cluster, "without that record")


# After how many commands etcd is restored as the page says, while snapshots are ten commands apart. More than twenty places are left out.
COUNTS = [15, 25, pytest.param(45, marks=pytest.mark.gate), 90, pytest.param(200, marks=pytest.mark.gate)]


@pytest.mark.parametrize("count", COUNTS)
def check_restored(bench, count):
    """The restore of the page, with etcd's backup and that of a node, leaves three nodes that agree, whatever was done before."""
    judge_restored(bench, count, EVERY)


@pytest.mark.long
def check_restored_large(bench):
    """The same with the places of snapshots that a node has by itself."""
    judge_restored(bench, 25_000, 10_000)


def judge_restored(bench, count, every):
    with Cluster(bench.folder, build(bench.shared), every=every) as cluster:
        add_users(cluster, "kept", min(count, MOST_USERS))
        for number in range((count - MOST_USERS) // 2):  # An office has no room for so many users.
            do(cluster, "addRole", role=f"r{number % 9}")
            do(cluster, "deleteRole", role=f"r{number % 9}")
        cluster.until(lambda: snapshots_of(cluster, 0), "a snapshot")
        backup = backed_up(bench, cluster, 0)
        add_users(cluster, "later", 1)
        of_files(cluster, "save", bench.path("backup"))
        end_nodes(cluster)
        for i in range(MACHINES):
            shutil.rmtree(cluster.data(f"node{i}"))
        restore_etcd(cluster, bench.path("backup"))
        shutil.move(backup, cluster.data("node0"))
        for node in cluster.nodes:
            node.start()
        judge_going_on(bench, cluster, f"{count} commands")
        for i in range(MACHINES):
            for user in ("kept0", f"kept{min(count, MOST_USERS) - 1}", "later0"):
                bench.same(f"{user} at node {i}", roles_of(cluster, user, i)[0], 200)
        end_nodes(cluster)
        for i in range(MACHINES):
            status, out, said = tool("record", "verify", "--data", cluster.data(f"node{i}"))
            bench.judge(f"the record of node {i} is whole", [] if (status, said) == (0, "") else [f"{status} {out}{said}"])


def adopt(cluster, backup, *more):
    """The status and the outputs of adopting a backup into an empty cluster, whose first node has no folder."""
    words = ["adopt", "--etcd", cluster.etcd(), "--prefix", PREFIX, "--program", PROGRAM, "--data", cluster.data("node0"), *more, backup]
    done = subprocess.run(
        [*cluster.network.prefix(0), os.environ[NODE], *words], capture_output=True, text=True, timeout=SECONDS, check=False
    )
    return done.returncode, done.stdout, done.stderr


@pytest.mark.parametrize("is_whole", [True, False])
def check_adopted(bench, is_whole):
    """The office of a backup has all that the record of the backup has, also what came after its snapshot, or it is said how much it lacks."""
    with Cluster(bench.folder, build(bench.shared), every=EVERY) as cluster:
        do(cluster, "addRole", role="clerk")
        do(cluster, "addUser", user="bob")
        do(cluster, "assignUser", user="bob", role="clerk")
        do(cluster, "createSession", user="bob", roles=["clerk"], session="of before")
        add_users(cluster, "kept", EVERY - 4)
        cluster.until(lambda: snapshots_of(cluster, 0), "a snapshot")
        do(cluster, "deassignUser", user="bob", role="clerk")
        do(cluster, "createSession", user="bob", roles=[], session="of after")
        exchange(cluster, post("addUser", b'{"user":"bob"}'))
        do(cluster, "addUser", user="late")
        backup = backed_up(bench, cluster, 0)
        end_nodes(cluster)
        for member in cluster.members:
            member.stop()
        for i in range(MACHINES):
            shutil.rmtree(cluster.data(f"node{i}"))
            shutil.rmtree(cluster.data(f"member{i}"))
        for member in cluster.members:
            member.start()
        cluster.until(lambda: cluster.read_log() is not None, "etcd answers")
        status, out, said = adopt(cluster, backup, *([] if is_whole else ["--without-later-commands"]))
        bench.same("adopt", (status, said, "has the digest" in out), (0, "", True))
        says = "were done again: 3; all sessions were ended" if is_whole else "that are lost: 3"
        bench.judge("it says what became of the later commands", [] if says in out else [out])
        for node in cluster.nodes:
            node.start()
        cluster.until(cluster.ready, "all nodes are ready")
        for i in range(MACHINES):
            wanted = b'{"ok":true,"value":[]}' if is_whole else b'{"ok":true,"value":["clerk"]}'
            bench.same(f"what was revoked, at node {i}", roles_of(cluster, "bob", i), (200, wanted))
            bench.same(f"who came later, at node {i}", roles_of(cluster, "late", i)[0], 200 if is_whole else 409)
        judge_going_on(bench, cluster, "adopted", 20)
        end_nodes(cluster)
        status, out, said = tool("record", "verify", "--data", cluster.data("node0"))
        bench.judge("the record that was carried on", [] if (status, said) == (0, "") else [out + said])


def check_replaced(bench):
    """When all machines have been replaced in turn, each has the whole record, and the metric says so."""
    with Cluster(bench.folder, build(bench.shared), every=EVERY) as cluster:
        turn = 0
        while floor(cluster) == 0 or turn < 5:
            add_users(cluster, f"a{turn}-", EVERY)
            cluster.until(cluster.ready, "all nodes are ready")
            turn += 1
        for i in range(MACHINES):
            cluster.lose_node(i)
            cluster.until(cluster.ready, f"node {i} is replaced")
            add_users(cluster, f"b{i}-", 3 * EVERY)
        for i in range(MACHINES):
            metrics = cluster.get(i, "/metrics", 8081)[1].decode()
            bench.same(f"the first entry at node {i}", "rbac_node_record_first 1" in metrics.splitlines(), True)
        cluster.heal()
        end_nodes(cluster)
        heads = set()
        for i in range(MACHINES):
            data = cluster.data(f"node{i}")
            bench.same(f"the first entry that node {i} has", entries_of(data)[0].n, 1)
            status, out, said = tool("record", "verify", "--data", data)
            bench.judge(f"the record of node {i} is whole", [] if (status, said) == (0, "") else [f"{status} {out}{said}"])
            heads.add(tool("record", "head", "--data", data)[1])
        bench.same("the heads", len(heads), 1)
