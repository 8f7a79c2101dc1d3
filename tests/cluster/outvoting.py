"""A node with other rows than the two others, while clients ask and machines fail: it is outvoted for good, the others don't refuse
because of it, and nobody takes its snapshot."""

import json
import shutil
import signal
import time

import pytest

from .answers import exchange, post
from .faults import OFTEN
from .keeping import EVERY, add_users, evens, floor, log_of, make_wrong, registered, tamper_from
from .machines import PREFIX, Cluster, Process
from .networks import MACHINES
from .records import tool
from .rights import token
from .rows import snapshots_of
from .running import build

DIVERGED = (503, b'{"code":61,"error":"Diverged"}')

# The client whose questions are asked here; no rights of it are limited.
ASKER = 1


def others_of(i):
    return [j for j in range(MACHINES) if j != i]


def refuses(cluster, i):
    return "differs" in cluster.status(i).get("why", "")


def outvote(bench, cluster, faults):
    """Makes a node wrong, lets machines fail, and takes another node's folder. At the end all is well again."""
    wrong = faults.random.randrange(MACHINES)
    right, lost = faults.random.sample(others_of(wrong), 2)
    make_wrong(cluster, wrong)
    cluster.until(lambda: refuses(cluster, wrong), "the wrong node refuses")
    faults.run(OFTEN, 6, 0.4)
    cluster.resume()
    cluster.until(lambda: "empty folder" in cluster.status(wrong).get("why", ""), "it is outvoted", 3 * cluster.patience)
    for fields in ((), ("Consistency: local",)):
        asked = post("assignedRoles", b'{"user":"a"}', f"Authorization: Bearer {token(ASKER)}", *fields)
        bench.same(f"what the wrong node answers {fields}", exchange(cluster, asked, wrong), DIVERGED)
    cluster.until(lambda: all(cluster.status(i).get("ready") for i in others_of(wrong)), "the others go on")
    judge_lost(bench, cluster, wrong, right, lost)
    cluster.nodes[wrong].start()
    cluster.until(cluster.ready, "all are ready again")
    faults.did("nodes with wrong rows")


def judge_lost(bench, cluster, wrong, right, lost):
    """A node without its folder gets ready by the right node's snapshot, also while the wrong node runs. That one gets another folder."""
    begin = len(log_of(cluster, lost))
    cluster.lose_node(lost)
    cluster.until(lambda: all(cluster.status(i).get("ready") for i in (right, lost)), "the node is ready")
    said = log_of(cluster, lost)[begin:].splitlines()
    fetched = [json.loads(line)["from"] for line in said if '"fetched a snapshot"' in line]
    bench.same("from whom it has fetched", set(fetched), {f"n{right}"})
    cluster.nodes[wrong].stop()
    shutil.rmtree(cluster.data(f"node{wrong}"))


def contest(cluster, faults):
    """Makes a node wrong at a place of which another one has a copy alone, so that nobody has a majority. All refuse, unless a later place
    decides, until the other one has an empty folder. At the end all is well again."""
    wrong, copy, right = faults.random.sample(range(MACHINES), MACHINES)

    def is_copied():
        """Whether the wrong node, which is stopped then, has a snapshot of such a place."""
        cluster.lose_node(copy)
        cluster.until(cluster.ready, "all are ready")
        time.sleep(2)  # It is registered soon.
        made, known = registered(cluster, made=True), registered(cluster)
        places = (known.get(copy, set()) - made.get(copy, set())) & made.get(wrong, set()) & made.get(right, set())
        if places:
            cluster.nodes[wrong].stop()
            tamper_from(cluster, wrong, max(places))
            cluster.nodes[wrong].start()
        return places

    is_outvoted = lambda: "empty folder" in cluster.status(wrong).get("why", "")  # noqa: E731
    cluster.until(is_copied, "a node has a copy alone")
    cluster.until(lambda: is_outvoted() or all(refuses(cluster, i) for i in range(MACHINES)), "all refuse, or the wrong node is outvoted")
    if not is_outvoted():
        cluster.lose_node(copy)
        faults.did("differences without a majority")
    cluster.until(is_outvoted, "the wrong node is outvoted")
    cluster.until(lambda: all(cluster.status(i).get("ready") for i in others_of(wrong)), "the others go on")
    cluster.lose_node(wrong)
    cluster.until(cluster.ready, "all are ready again")


def snapshot_of_all(cluster, machines):
    """Adds commands until these nodes have registered a snapshot of one place."""
    wanted = set().union(*(registered(cluster).get(i, set()) for i in machines))
    add_users(cluster, f"u{time.monotonic_ns()}-", EVERY)
    same = lambda: set.intersection(*(registered(cluster).get(i, set()) for i in machines)) - wanted  # noqa: E731
    cluster.until(same, f"a snapshot of {machines}")


@pytest.mark.gate
def check_outvoted(bench, faulty):
    """A node that leaves out commands is outvoted, and stays so when it has the rows of the others again, and with another program. The
    right nodes answer, also while one of them is slow, so that the other one has only the wrong node to compare with."""
    with Cluster(bench.folder, faulty("LeavesOut"), every=EVERY, more=["--no-record"]) as cluster:
        snapshot_of_all(cluster, range(MACHINES))
        bench.same("a user", exchange(cluster, post("addUser", b'{"user":"lost1"}'))[0], 200)
        snapshot_of_all(cluster, range(MACHINES))
        cluster.until(lambda: "empty folder" in cluster.status(2).get("why", ""), "the wrong node is outvoted")
        cluster.until(lambda: all(cluster.status(i).get("ready") for i in range(2)), "the others are ready")
        cluster.nodes[1].send(signal.SIGSTOP)
        snapshot_of_all(cluster, (0, 2))
        time.sleep(3)  # As long as it takes to look at what others report.
        bench.same("the right node answers", exchange(cluster, post("addUser", b'{"user":"while one is slow"}'))[0], 200)
        bench.same("it is ready", cluster.status(0).get("ready"), True)
        cluster.nodes[1].send(signal.SIGCONT)
        bench.same("the user is removed", exchange(cluster, post("deleteUser", b'{"user":"lost1"}'))[0], 200)
        for _ in range(3):
            snapshot_of_all(cluster, range(MACHINES))
        snapshots = [{(s["revision"], s["digest"]) for s, _ in snapshots_of(cluster, i).values()} for i in (0, 2)]
        bench.same("the wrong node has the rows of the others", snapshots[1], snapshots[0])
        question = post("assignedRoles", b'{"user":"a"}')
        bench.same("it refuses", exchange(cluster, question, 2), DIVERGED)
        cluster.nodes[2].stop(signal.SIGTERM)
        cluster.nodes[2] = Process([build(bench.shared) if word == cluster.node else word for word in cluster.nodes[2].words], cluster.nodes[2].log)
        cluster.nodes[2].start()
        cluster.until(lambda: "empty folder" in cluster.status(2).get("why", ""), "the right program refuses too")
        cluster.nodes[2].stop(signal.SIGTERM)
        shutil.move(cluster.data("node2"), cluster.data("evidence"))
        cluster.nodes[2].start()
        cluster.until(cluster.ready, "with an empty folder it is ready")
        add_users(cluster, "after", 3)


def makes_wrong(cluster, i):
    """Makes the newest snapshot of a node wrong of which all have registered one of that place."""
    cluster.nodes[i].stop(signal.SIGTERM)
    tamper_from(cluster, i, max(set.intersection(*registered(cluster).values())))
    cluster.nodes[i].start()


def outvotes(cluster, wrong):
    """Waits until a node is outvoted, and the others go on. Then it gets another folder."""
    cluster.until(lambda: "empty folder" in cluster.status(wrong).get("why", ""), "the wrong node is outvoted")
    cluster.until(lambda: all(cluster.status(i).get("ready") for i in others_of(wrong)), "the others go on")
    cluster.lose_node(wrong)
    cluster.until(cluster.ready, "all are ready")
    snapshot_of_all(cluster, range(MACHINES))


def check_no_majority(bench):
    """A node has fetched its snapshot of a place, and another one gets a wrong one of that place: nobody knows which of two is right, so all
    refuse. `record verify` finds the wrong one. If the first has an empty folder, it fetches one of an earlier place, of which both have the
    same, and comes to the last one by itself: then the wrong one is outvoted. So it is with a node that comes when two others differ."""
    with Cluster(bench.folder, build(bench.shared), every=EVERY) as cluster:
        cluster.until(lambda: evens(cluster) and floor(cluster), "the log is trimmed, and the newest snapshots are of one place")
        cluster.lose_node(1)
        cluster.until(cluster.ready, "it has fetched a snapshot")
        makes_wrong(cluster, 2)
        cluster.until(lambda: all(refuses(cluster, i) for i in range(MACHINES)), "all refuse")
        for i in range(MACHINES):
            bench.same(f"a command to node {i}", exchange(cluster, post("addUser", b'{"user":"nobody"}'), i), DIVERGED)
        whys = [cluster.status(i).get("why") for i in range(MACHINES)]
        bench.same("nobody is outvoted", [why for why in whys if why is None or "empty folder" in why], [])
        found = {i: tool(cluster.node, "verify", "--data", cluster.data(f"node{i}")) for i in range(MACHINES)}
        bench.same("verify of node 0", found[0][::2], (0, ""))
        bench.same("verify of node 1, which has fetched the record too", found[1][::2], (0, ""))
        bench.judge("verify of node 2", [] if "the newest snapshot is not what the record gives" in found[2][2] else [str(found[2])])
        cluster.lose_node(1)
        outvotes(cluster, 2)
        cluster.until(lambda: evens(cluster), "the newest snapshots are of one place")
        cluster.nodes[1].stop()
        cluster.ctl("del", f"{PREFIX}/nodes/n1")
        makes_wrong(cluster, 2)
        cluster.until(lambda: all(refuses(cluster, i) for i in (0, 2)), "both refuse")
        cluster.lose_node(1)
        outvotes(cluster, 2)
