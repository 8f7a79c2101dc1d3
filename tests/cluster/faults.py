"""Faults of machines, at random."""

import random
import signal
import time
from collections import Counter

from .networks import MACHINES


class Faults:
    """Causes faults in a cluster, one after another, and counts them by their kind."""

    def __init__(self, cluster, seed):
        self.cluster, self.random = cluster, random.Random(seed)
        self.counts, self.faults, self.left = Counter(), [], {}

    def run(self, kinds, count, between):
        """Causes `count` faults of these kinds, with about `between` seconds between them. Each kind comes as often as it is among them. One
        that this system doesn't allow is not counted, and another one comes in its place."""
        wanted = sum(self.counts.values()) + count
        for _ in range(3 * count):
            if sum(self.counts.values()) >= wanted:
                break
            left = self.left.setdefault(tuple(kinds), [])
            if not left:
                left.extend(self.random.sample(kinds, len(kinds)))
            left.pop()(self, self.random.randrange(MACHINES))
            time.sleep(self.random.uniform(0.3, 1.7) * between)

    def did(self, what):
        self.counts[what] += 1

    # Kills.

    def kill_node(self, i):
        self.cluster.nodes[i].send(signal.SIGKILL)
        self.did("nodes killed")

    def kill_member(self, i):
        self.cluster.members[i].send(signal.SIGKILL)
        self.did("members killed")

    def kill_machine(self, i):
        self.cluster.nodes[i].send(signal.SIGKILL)
        self.cluster.members[i].send(signal.SIGKILL)
        self.did("machines killed")

    def kill_two_members(self, i):
        for j in (i, (i + 1) % MACHINES):
            self.cluster.members[j].send(signal.SIGKILL)
        self.did("pairs of members killed")

    def end_node(self, i):
        """The node is asked to end, and has to end in order, unless it was about to start or had just failed."""
        status = self.cluster.nodes[i].stop(signal.SIGTERM)
        if status not in (0, 1, -signal.SIGTERM, -signal.SIGKILL, None):
            self.faults.append(f"node {i} has ended with {status}")
        self.cluster.nodes[i].start()
        self.did("nodes ended by SIGTERM")

    # Pauses.

    def pause(self, signals, what):
        signals(signal.SIGSTOP)
        time.sleep(self.random.uniform(0.3, 2.2))
        signals(signal.SIGCONT)
        self.did(what)

    def pause_node(self, i):
        self.pause(self.cluster.nodes[i].send, "nodes paused")

    def pause_member(self, i):
        self.pause(self.cluster.members[i].send, "members paused")

    # What happens once or twice.

    def cut(self, i):
        """A machine is cut off from the others."""
        if not self.cluster.network.can_cut:
            return
        self.cluster.network.cut(i)
        time.sleep(self.random.uniform(2, 5))
        self.cluster.network.join(i)
        self.did("machines cut off")

    def reload_callers(self, i):
        """The node reads its callers again. One that is just starting may end by the signal instead."""
        self.cluster.nodes[i].send(signal.SIGHUP)
        self.did("nodes told to read their callers again")

    def lose_node(self, i):
        self.cluster.lose_node(i)
        self.did("folders of nodes lost")

    def lose_member(self, i):
        self.cluster.heal()
        self.cluster.lose_member(i)
        self.did("folders of members lost")


KILLS = [Faults.kill_node, Faults.kill_member, Faults.kill_machine, Faults.kill_two_members]
PAUSES = [Faults.pause_node, Faults.pause_member]
# What happens often, and what each of it is called.
OFTEN = KILLS + KILLS[:2] + PAUSES + [Faults.end_node, Faults.reload_callers]
NAMES = (
    "nodes killed", "members killed", "machines killed", "pairs of members killed",
    "nodes paused", "members paused", "nodes ended by SIGTERM", "nodes told to read their callers again",
)  # fmt: skip
