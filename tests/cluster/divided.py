"""Nodes that divide their records by themselves, each at other entries, while they are killed and their records are read; and a cut that
is killed at each system call."""

import shutil
import signal
import threading
from collections import Counter
from pathlib import Path

import pytest

from front.callkills import is_killed, places_of
from front.identities import rules, tokens
from program.bench import PROGRAM

from .keeping import log_of
from .machines import Cluster
from .networks import MACHINES
from .records import ALLOWED, CALLERS, EVERY, Asker, entries_of, files_of, joined, lacking, parts_of, same_head, tool
from .running import build

# From how many entries on each node divides its record. The last one doesn't.
PARTS = (EVERY, 3 * EVERY, 0)

# How often a node is killed, and after how many commands each time.
KILLS, COMMANDS = 12, EVERY // 2


class Reader(threading.Thread):
    """Shows the record of a node again and again, and notes what is wrong with it."""

    def __init__(self, cluster, i):
        super().__init__(daemon=True)
        self.cluster, self.data, self.done = cluster, cluster.data(f"node{i}"), threading.Event()
        self.faults, self.times, self.last = [], 0, 0

    def run(self):
        while not self.done.wait(0.05):
            status, out, said = tool(self.cluster.node, "show", "--data", self.data)
            numbers = [int(line.split("\t")[0]) for line in out.splitlines()]
            if (status, said) != (0, "") or numbers != list(range(1, len(numbers) + 1)) or len(numbers) < self.last:
                self.faults.append(f"{status} {said}, {len(numbers)} entries, the last one {numbers[-1:]}, after {self.last}")
            self.times, self.last = self.times + 1, len(numbers)


def dividing(cluster, i):
    """How often a node has divided its record."""
    return log_of(cluster, i).count('"the record was divided"')


def cluster_of(bench):
    """A cluster with callers."""
    bench.write("callers.jsonl", rules({f"token:{name}": [(one, "office") for one in ALLOWED] for name in CALLERS}).encode())
    bench.write("tokens", tokens(**CALLERS).encode())
    words = ("--callers", bench.path("callers.jsonl"), "--tokens", bench.path("tokens"), "--etcd-open")
    return Cluster(bench.folder, build(bench.shared), every=EVERY, more=words)


@pytest.mark.seeds()
def check_divided(bench, seed):
    """Nodes divide their records while commands are done, and are killed while they do so. All have all entries, each once, and so
    does whoever reads them meanwhile."""
    cluster = cluster_of(bench)
    for node, entries in zip(cluster.nodes, PARTS):
        node.words += ["--record-part", str(entries)]
    with cluster:
        asker = Asker(cluster, seed)
        asker.ask(1)
        cluster.until(lambda: same_head(cluster), "all have a record")
        readers = [Reader(cluster, i) for i in range(MACHINES)]
        for reader in readers:
            reader.start()
        for _ in range(KILLS):
            asker.ask(COMMANDS)
            i = asker.random.randrange(2)
            if asker.random.random() < 0.5:
                # It divides its record as soon as it has a snapshot.
                snapshots = log_of(cluster, i).count('"snapshot"')
                asker.ask(EVERY)
                cluster.until(lambda i=i, had=snapshots: log_of(cluster, i).count('"snapshot"') > had, "it has another snapshot")
            cluster.nodes[i].send(signal.SIGKILL)
        asker.ask(2 * EVERY)
        cluster.until(lambda: same_head(cluster), "all have the same head")
        for reader in readers:
            reader.done.set()
            reader.join()
            bench.judge(f"what was read {reader.times} times", reader.faults[:3])
        bench.judge("how often each has divided its record", judged_times([dividing(cluster, i) for i in range(MACHINES)]))
        judge_parts(bench, cluster)


def judged_times(times):
    """Each node divides its record as often as its option says, or nearly so."""
    print(f"divided {times} times", flush=True)
    return [] if times[0] > times[1] > 0 == times[2] else [str(times)]


def judge_parts(bench, cluster):
    """The entries of all nodes are the same, in several files or in one. The files are read here without regard to a node that divides
    them."""
    bench.same("the ends", [node.stop(signal.SIGTERM) for node in cluster.nodes], [0] * MACHINES)
    records = [entries_of(cluster.data(f"node{i}")) for i in range(MACHINES)]
    bench.same("the record of node 1", records[1], records[0])
    bench.same("the record of node 2", records[2], records[0])
    bench.judge("the records", joined(records)[1])
    bench.same("the files of node 2", len(files_of(cluster.data("node2"))), 1)
    for i in range(MACHINES):
        data = cluster.data(f"node{i}")
        bench.judge(f"what node {i} lacks", lacking(parts_of(data), log_of(cluster, i)))
        bench.same(f"verify of node {i}", tool(cluster.node, "verify", "--data", data)[::2], (0, ""))


@pytest.mark.needs("strace")
def check_killed_cut(bench):
    """A cut of the record of a node that is shut down is killed at any place. The next cut completes it, or does it: no entry is missing or
    there twice, and verify finds nothing. After the last kill the node starts."""
    with cluster_of(bench) as cluster:
        asker = Asker(cluster, 1)
        asker.ask(EVERY + EVERY // 2)
        cluster.until(lambda: same_head(cluster), "all have the same head")
        cluster.nodes[0].stop(signal.SIGTERM)
        data, kept, counts = Path(cluster.data("node0")), bench.folder / "kept", Counter()
        shutil.copytree(data, kept)
        before = entries_of(data)
        words = [cluster.node, "record", "cut", "--program", PROGRAM, "--data", str(data)]
        for call, number in places_of(words, bench.path("trace")):
            shutil.rmtree(data)
            shutil.copytree(kept, data)
            what = f"killed at {call} {number}"
            counts["kills" if is_killed(words, call, number) else "ends"] += 1
            status, _, said = tool(cluster.node, *words[2:])
            bench.judge(f"{what}: the next cut", [] if status == 0 or "there is nothing to cut" in said else [said])
            bench.same(f"{what}: the files", len(files_of(data)), 2)
            bench.same(f"{what}: the entries", entries_of(data), before)
            bench.same(f"{what}: verify", tool(cluster.node, "verify", "--data", str(data))[::2], (0, ""))
        shutil.rmtree(data)
        shutil.copytree(kept, data)
        bench.same("the last one is killed", is_killed(words, "rename", 1) or is_killed(words, "renameat", 1), True)
        cluster.nodes[0].start()
        asker.ask(EVERY)
        cluster.until(lambda: same_head(cluster), "all have the same head")
        bench.same("the entries", entries_of(data), entries_of(cluster.data("node1")))
    bench.same("some were killed", counts["kills"] > 0, True)
    return {f"record: {what} of cut --data at system calls": count for what, count in counts.items()}
