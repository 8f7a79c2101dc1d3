"""Faults of every kind for hours, with `--long`: nothing is lost, done twice, answered wrongly or answered from an old state."""

import json
import os
import pickle
import random
import shutil
import signal
import subprocess
import time
import traceback
from collections import Counter
from pathlib import Path

import pytest

from program.bench import PROGRAM, Bench

from . import disasters, wentback
from .faults import OFTEN, Faults
from .histories import COMMAND, LINEARIZABLE, Client
from .judged import CLIENTS, EVERY, Trial
from .linear import ADD, ASK, DELETE, judged
from .machines import Cluster
from .networks import MACHINES, quietly
from .outvoting import contest, outvote
from .records import MISSING, tool
from .rights import options, token
from .running import build

# How long it lasts, in seconds, and where the result of each round is written.
SECONDS, RESULTS = int(os.environ.get("SOAK_SECONDS", "7200")), os.environ.get("SOAK_RESULTS")

# Clients that contend for the same users, each of which is one for a few seconds, and how the names of these begin.
CONTENDERS, PREFIX, PERIOD = 4, "contended", 3

# The room of the disks of a node and of a member.
ROOM = {"node": "200m", "member": "500m"}

# How many faults come between two rare ones.
BETWEEN = 5

# From how many entries on each node divides its record.
PART = 2 * EVERY

# How many seconds is waited for what has to happen: other work may keep the machine busy for hours.
PATIENCE = 300


class Contender(Client):
    """Adds, deletes and asks for users for which others contend as well."""

    def prepare(self):
        """It needs nothing."""

    def drawn(self):
        function = self.random.choice([ADD, DELETE, ASK])
        user = f"{PREFIX}{int(time.monotonic() / PERIOD)}-{self.random.randrange(3)}"
        return LINEARIZABLE if function == ASK else COMMAND, {"fn": function, "user": user}

    def revoke(self):
        self.ask(*self.drawn())

    def ask(self, kind, line, node=None):
        return super().ask(kind, line, self.random.randrange(MACHINES) if node is None else node)


class Disks(Cluster):
    """A cluster in which each node and each member has a disk of its own that can be full, if this system allows it."""

    def __init__(self, folder, *words, **more):
        self.folder, self.mounted = folder, []
        for kind, room in ROOM.items():
            for i in range(MACHINES):
                disk = self.disk(kind, i)
                disk.mkdir()
                if quietly("mount", "-t", "tmpfs", "-o", f"size={room}", "tmpfs", disk):
                    self.mounted.append(disk)
        super().__init__(folder, *words, patience=PATIENCE, **more)

    def disk(self, kind, i):
        return self.folder / f"disk-{kind}{i}"

    def data(self, name):
        folder, _, rest = name.partition("/")
        kind = folder.rstrip("0123456789")
        if kind not in ROOM or kind == folder:
            return super().data(name)
        return str(self.disk(kind, int(folder[len(kind) :])) / "data" / rest)

    def __exit__(self, *words):
        super().__exit__(*words)
        for disk in self.mounted:
            quietly("umount", "-l", disk)


class AllFaults(Faults):
    """Also the faults that are rare or take long."""

    def __init__(self, cluster, seed):
        super().__init__(cluster, seed)
        self.kept = {}

    def run_some(self, kinds):
        """All kinds once, in a random order, with others between them."""
        for kind in self.random.sample(kinds, len(kinds)):
            self.run(OFTEN, BETWEEN, 0.5)
            self.cluster.heal()
            kind(self, self.random.randrange(MACHINES))

    # Links.

    def link(self, what, begin, end):
        if not self.cluster.network.can_cut:
            return
        begin()
        time.sleep(self.random.uniform(2, 7))
        end()
        self.did(what)

    def mute(self, i):
        network = self.cluster.network
        self.link("one-way links", lambda: network.mute(i), lambda: network.mute(i, "del"))

    def slow(self, i):
        network = self.cluster.network
        self.link("slow links", lambda: network.slow(i), lambda: network.slow(i, "del"))

    def lossy(self, i):
        network = self.cluster.network
        self.link("lossy links", lambda: network.lose(i), lambda: network.lose(i, "-D"))

    def flap(self, i):
        if not self.cluster.network.can_cut:
            return
        for _ in range(self.random.randrange(5, 12)):
            self.cluster.network.cut(i)
            time.sleep(self.random.uniform(0.1, 0.6))
            self.cluster.network.join(i)
            time.sleep(self.random.uniform(0.1, 0.6))
        self.did("flapping links")

    # Disks.

    def fill(self, kind, i):
        """A disk is full for some seconds."""
        disk = self.cluster.disk(kind, i)
        if disk not in self.cluster.mounted:
            return
        filler = disk / "filler"
        try:
            with open(filler, "wb", buffering=0) as file:
                while True:
                    file.write(bytes(1 << 20))
        except OSError:
            pass
        time.sleep(self.random.uniform(1, 4))
        filler.unlink()
        self.did(f"disks of a {kind} full")

    def fill_node(self, i):
        self.fill("node", i)

    def fill_nodes(self, _):
        """All nodes have the same record, so equal disks are full together."""
        for i in range(MACHINES):
            self.fill("node", i)

    def fill_member(self, i):
        self.fill("member", i)

    # Folders, nodes and members.

    def old_folder(self, i):
        """A node gets an earlier state of its folder."""
        node, data = self.cluster.nodes[i], Path(self.cluster.data(f"node{i}"))
        node.stop(signal.SIGTERM)
        if i in self.kept:
            shutil.rmtree(data)
            shutil.copytree(self.kept.pop(i), data)
            self.did("nodes with an earlier folder")
        else:
            self.kept[i] = self.cluster.folder / f"kept{i}-{time.monotonic_ns()}"
            shutil.copytree(data, self.kept[i])
        node.start()

    def old_folder_again(self, i):
        self.old_folder(next(iter(self.kept), i))

    def old_snapshots(self, i):
        """A node loses its newer snapshots."""
        self.cluster.nodes[i].stop(signal.SIGTERM)
        found = sorted(Path(self.cluster.data(f"node{i}")).glob("snapshots/[0-9]*"), key=lambda path: int(path.name.split("-")[0]))
        for path in found[1:]:
            path.unlink()
        self.cluster.nodes[i].start()
        self.did("nodes without their newer snapshots")

    def remove_node(self, i):
        """A node is removed, and added again with its folder."""
        self.cluster.nodes[i].stop(signal.SIGTERM)
        self.cluster.until(lambda: self.cluster.does("del", f"rbac/nodes/n{i}"), "the node is removed")
        time.sleep(self.random.uniform(1, 4))
        self.cluster.nodes[i].start()
        self.did("nodes removed and added")

    def compact(self, _):
        """Somebody makes etcd forget its history."""
        reply = self.cluster.etcd_call("/v3/kv/range", {"key": "AA=="})
        if reply and self.cluster.does("compact", reply["header"]["revision"]):
            self.did("compactions by others")

    def kill_leader(self, _):
        for i in range(MACHINES):
            status = self.cluster.etcd_call("/v3/maintenance/status", {}, i)
            if status and status.get("leader") == status["header"]["member_id"]:
                self.kill_member(i)
                self.did("leaders of etcd killed")
                return

    def replace_all(self, _):
        """All nodes are replaced in turn, as all machines of a cluster are in some years."""
        for i in self.random.sample(range(MACHINES), MACHINES):
            self.lose_node(i)
            self.cluster.heal()
        self.did("all nodes replaced in turn")

    # The record.

    def cut_record(self, i):
        self.cluster.nodes[i].stop(signal.SIGTERM)
        status, _, said = tool(self.cluster.node, "cut", "--data", self.cluster.data(f"node{i}"), "--program", PROGRAM)
        if status == 0:
            self.did("records divided")
        elif "nothing to cut" not in said and "there is no snapshot" not in said:
            self.faults.append(f"record cut of node {i}: {status} {said}")
        self.cluster.nodes[i].start()

    def back_up(self, i):
        """A backup of a node that runs is complete."""
        to = self.cluster.folder / "backups"
        to.mkdir(exist_ok=True)
        words = [self.cluster.node, "backup", "--data", self.cluster.data(f"node{i}"), "--program", PROGRAM, to]
        done = subprocess.run(words, capture_output=True, text=True, check=False)
        if done.returncode != 0:
            if "there is no snapshot" not in done.stderr:
                self.faults.append(f"backup of node {i}: {done.stderr}")
            return
        status, out, said = tool(self.cluster.node, "verify", "--data", done.stdout.strip())
        if (status, said) not in ((0, ""), (2, MISSING)):
            self.faults.append(f"the backup of node {i}: {out}{said}")
        self.did("backups of nodes that run")


RARE = [
    Faults.cut, Faults.lose_node, Faults.lose_member, AllFaults.mute, AllFaults.slow, AllFaults.lossy, AllFaults.flap,
    AllFaults.fill_node, AllFaults.fill_nodes, AllFaults.fill_member, AllFaults.old_folder, AllFaults.old_snapshots, AllFaults.remove_node,
    AllFaults.compact, AllFaults.kill_leader, AllFaults.cut_record, AllFaults.back_up, AllFaults.old_folder_again,
    AllFaults.replace_all,
]  # fmt: skip


def soaked(bench, folder, node, seed):
    """A round: what it did, and what is wrong."""
    clients = CLIENTS + CONTENDERS
    with Disks(folder, node, every=EVERY, more=(*options(folder, clients), "--record-part", str(PART))) as cluster:
        trial, faults = Trial(cluster, seed), AllFaults(cluster, seed)
        more = [Contender(cluster, number, seed, trial.done, token(number)) for number in range(CLIENTS, clients)]
        trial.clients += more
        for client in more:
            client.start()
        time.sleep(2)
        wrong, before = [], len(bench.faults)
        try:
            faults.run_some(RARE)
            cluster.heal()
            cluster.until(lambda: trial.recorder.floor, "the log is trimmed")
            copy_records(cluster)
            contest(cluster, faults)
            copy_records(cluster)
            outvote(bench, cluster, faults)
        except Exception:
            wrong.append(traceback.format_exc())
        wrong += bench.faults[before:] + faults.faults
        try:
            wrong += trial.judge()
        except Exception:
            wrong.append(traceback.format_exc())
        histories = [client.history for client in trial.clients]
        counts, unordered = judged(histories, PREFIX)
        asked = [one for history in histories for one in history]
        counts |= {"requests": len(asked), "answers": sum(one.is_answered for one in asked), "entries": len(trial.recorder.entries)}
        if wrong + unordered:
            keep(cluster, trial)
        return faults.counts, counts, wrong + unordered


def copy_records(cluster):
    """Copies the records of the nodes for the judge, since what comes next empties folders."""
    for i, node in enumerate(cluster.nodes):
        node.stop(signal.SIGTERM)
        copy = cluster.folder / f"copy{len(cluster.copies)}"
        shutil.copytree(Path(cluster.data(f"node{i}"), "record"), copy / "record")
        cluster.copies.append(copy)
        node.start()
    cluster.until(cluster.ready, "all are ready again")


def keep(cluster, trial):
    """Copies what shows later what was wrong, before the disks are gone."""
    for i in range(MACHINES):
        shutil.copytree(cluster.data(f"node{i}"), cluster.folder / f"data-node{i}", dirs_exist_ok=True)
    with open(cluster.folder / "history", "wb") as file:
        pickle.dump((trial.recorder.entries, [client.history for client in trial.clients]), file)


def tried(folder, check):
    """What is wrong with what nodes do by themselves in a folder of their own."""
    folder.mkdir()
    inner = Bench(folder)
    inner.shared, inner.is_long, inner.is_gate = folder, False, False
    try:
        check(inner)
    except Exception:
        inner.faults.append(traceback.format_exc())
    return inner.faults


# What operators do after a disaster, one of it in each round, by how it is counted.
DISASTERS = {
    "etcd restored with one machine away": lambda bench, _: disasters.check_away(bench),
    "etcd restored under a record that is ahead": lambda bench, _: disasters.check_record_ahead(bench),
    "backups of etcd and a node restored": lambda bench, drawn: disasters.judge_restored(bench, drawn.randrange(11, 300), disasters.EVERY),
    "backups of nodes adopted": lambda bench, drawn: disasters.check_adopted(bench, drawn.random() < 0.7),
    "all machines replaced": lambda bench, _: disasters.check_replaced(bench),
}


@pytest.mark.long
@pytest.mark.seeds()
def check_soak(bench, seed):
    """Rounds of faults of every kind until the time is over, each judged by the plain model and by a search of linear orders."""
    node, deadline = build(bench.shared), time.monotonic() + SECONDS
    kinds, sums, wrong, rounds = Counter(), Counter(), [], 0
    while time.monotonic() < deadline:
        folder, began = bench.folder / str(rounds), time.monotonic()
        folder.mkdir()
        done, counts, found = Counter(), {}, []
        try:
            done, counts, found = soaked(bench, folder, node, seed + rounds)
        except Exception:
            found = [traceback.format_exc()]
        found += tried(folder / "back", lambda inner: wentback.check_went_back(inner, PATIENCE))
        done["etcd restored under nodes that run"] += 1
        drawn = random.Random(seed + rounds)
        for what, check in DISASTERS.items():
            found += tried(folder / str(len(done)), lambda inner, check=check: check(inner, drawn))
            done[what] += 1
        kinds, sums, wrong, rounds = kinds + done, sums + Counter(counts), wrong + found, rounds + 1
        result = {"round": rounds, "seed": seed + rounds - 1, "seconds": round(time.monotonic() - began), "faults": done, **counts, "wrong": found[:20]}
        if RESULTS:
            with open(RESULTS, "a", encoding="utf-8") as file:
                file.write(json.dumps(result) + "\n")
        if not found:
            shutil.rmtree(folder)
    for what, count in [*sorted(kinds.items()), *sums.items(), ("rounds", rounds)]:
        print(f"{count:9,}  {what}", flush=True)
    bench.judge(f"nothing is wrong (seed {seed})", wrong[:20])
