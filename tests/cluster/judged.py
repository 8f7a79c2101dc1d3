"""Clients ask all nodes at once while machines fail, and all that was answered is judged."""

import shutil
import signal
import threading
import time

import pytest

from .faults import NAMES, OFTEN, Faults
from .histories import Client
from .judging import Judge, Recorder, counts_of
from .machines import SECONDS, Cluster
from .networks import MACHINES
from .outvoting import outvote
from .records import faults_of as recorded_wrongly
from .rights import faults_of as refused_wrongly
from .rights import options, token
from .rows import offices, rows_of, snapshots_of, sorted_rows
from .running import build

CLIENTS = 9

# How often a cluster is judged, after how many faults, and the seconds between them; with `--gate`, and with `--long`.
SHORT, GATE, LONG = (1, 20, 0.4), (1, 80, 0.4), (10, 100, 0.6)

# The commands from one snapshot to the next. What came after the last snapshot but one is kept, so the recorder, which may have to
# wait for a member that is paused, has the time of as many commands to read an entry. The second trim deletes the first entries.
EVERY = 1200


class Trial:
    """Clients at work on a cluster, until it is judged."""

    def __init__(self, cluster, seed, clients=CLIENTS):
        self.cluster, self.done = cluster, threading.Event()
        self.recorder = Recorder(cluster)
        tokens = [token(number) if cluster.more else "" for number in range(clients)]
        self.clients = [Client(cluster, number, seed, self.done, tokens[number]) for number in range(clients)]
        for thread in (self.recorder, *self.clients):
            thread.start()

    def judge(self, seconds=None):
        """Lets the clients end and everything recover, and returns what is wrong."""
        self.done.set()
        for client in self.clients:
            client.join()
        faults = [fault for client in self.clients for fault in client.faults]
        if self.cluster.more:
            faults += [fault for client in self.clients for fault in refused_wrongly(client.history, client.number)]
        try:
            self.cluster.heal(seconds)
        except TimeoutError as fault:
            faults.append(str(fault))
        self.recorder.close()
        faults += self.recorder.faults
        histories = [client.history for client in self.clients]
        for what, count in counts_of(histories).items():
            print(f"{count:9,}  {what}")
        print(f"{len(self.recorder.entries):9,}  entries of the log, trimmed up to {self.recorder.floor}", flush=True)
        for i, node in enumerate(self.cluster.nodes):
            if node.stop(signal.SIGTERM) != 0:
                faults.append(f"node {i} does not end in order")
        # A node that runs deletes its oldest snapshot when it has finished another one.
        kept = [snapshots_of(self.cluster, i) for i in range(MACHINES)]
        judge = Judge(self.recorder.entries, histories)
        faults += judge.judge({revision for one in kept for revision in one})
        wanted = sorted_rows(judge.state)
        faults += [f"the rows of node {i} differ" for i, path in enumerate(offices(self.cluster)) if rows_of(path) != wanted]
        for i, found in enumerate(kept):
            for revision, (_, path) in found.items():
                if revision not in judge.snapshots or rows_of(path) != sorted_rows(judge.snapshots[revision]):
                    faults.append(f"the snapshot of node {i} at {revision} differs from the model")
        return faults + recorded_wrongly(self.cluster, judge)


@pytest.mark.seeds()
def check_faults(bench, seed):
    """Nothing is lost, done twice, or answered from an old state, while machines are killed, paused and cut off."""
    node = build(bench.shared)
    rounds, count, between = LONG if bench.is_long else GATE if bench.is_gate else SHORT
    for number in range(rounds):
        folder = bench.folder / str(number)
        folder.mkdir()
        judge_faults(bench, folder, node, count, between, seed + number)
        shutil.rmtree(folder)


def judge_faults(bench, folder, node, count, between, seed):
    with Cluster(folder, node, every=EVERY, more=options(folder, CLIENTS)) as cluster:
        trial, faults = Trial(cluster, seed), Faults(cluster, seed)
        time.sleep(2)
        for rare in (Faults.cut, Faults.lose_node, Faults.lose_member, Faults.cut):
            faults.run(OFTEN, count // 4, between)
            faults.run([rare], 1, between)
        # Whatever failed has recovered: all is answered again, and the log is trimmed.
        cluster.heal()
        cluster.until(lambda: trial.recorder.floor, "the log is trimmed", 2 * SECONDS)
        outvote(bench, cluster, faults)
        for what, times in sorted(faults.counts.items()):
            print(f"{times:9,}  {what}")
        bench.judge(f"nothing answered wrongly (seed {seed})", (faults.faults + trial.judge())[:20])
        bench.judge("faults of each kind", [what for what in NAMES if not faults.counts[what]])
        often = sum(faults.counts[what] for what in NAMES)
        bench.judge("as many faults as wanted", [] if often >= count else [f"only {often}"])


# How often a wrong node is tried at most.
TRIES = 8

# By its fault: what reveals it.
WRONG = {
    "AppendsTwice": [Faults.pause_member],
    "AnswersByItself": [Faults.pause_node],
    "AnswersBeforeLog": [Faults.pause_member],
    "TakesAnswersForNew": [Faults.pause_node],
    "AnswersTooEarly": [Faults.pause_node],
}


def faults_of(folder, node, kinds, seed):
    """What is wrong after some faults of these kinds. A slow recovery doesn't count."""
    folder.mkdir()
    with Cluster(folder, node, every=EVERY) as cluster:
        trial, faults = Trial(cluster, seed), Faults(cluster, seed)
        time.sleep(2)
        faults.run(kinds, 8, 0.3)
        return [fault for fault in trial.judge(10) if not fault.startswith("not in 10 seconds")]


@pytest.mark.gate
@pytest.mark.parametrize("wrong", WRONG)
def check_wrong_nodes(bench, faulty, wrong):
    """The wrong node is caught, and by answers alone. On a busy machine it may show its fault at a later try only."""
    node = faulty(wrong)
    tries = (faults_of(bench.folder / str(seed), node, WRONG[wrong], seed) for seed in range(1, TRIES + 1))
    found = next((it for it in tries if it), [])
    print(f"{len(found)} faults, such as {found[0][:300] if found else None}")
    bench.judge("it is caught", [] if found else ["no fault was found"])
