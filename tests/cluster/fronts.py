"""A cluster as a front: the checks that were written for the front of one machine ask its nodes."""

import http.client
import random
import shutil
import signal

from front.program import Asking

from .machines import SECONDS
from .networks import MACHINES
from .rows import offices


class Anywhere:
    """A connection to each node, of which each request uses one at random."""

    def __init__(self, nodes):
        self.connections = [node.connection() for node in nodes]
        self.used = None

    def request(self, *words, **fields):
        """Sends a request to some node."""
        self.used = random.choice(self.connections)
        self.used.request(*words, **fields)

    def getresponse(self):
        """The answer of the node that got the last request."""
        return self.used.getresponse()

    def close(self):
        """Closes all connections."""
        for connection in self.connections:
            connection.close()


class Node(Asking):
    """One node of a cluster."""

    def __init__(self, cluster, machine):
        self.host, port = cluster.network.address(machine, 8080).split(":")
        self.port = int(port)
        # The office that a node has left: see Nodes.leave.
        self.office = cluster.data("left")

    def connection(self):
        return http.client.HTTPConnection(self.host, self.port, timeout=SECONDS)


class Nodes(Asking):
    """All nodes of a cluster. Each request goes to any of them."""

    def __init__(self, cluster):
        self.cluster = cluster
        self.each = [Node(cluster, machine) for machine in range(MACHINES)]

    def leave(self, machine):
        """One node ends in order, and starts again. All have the rows of the office that it leaves in a file, as long as nobody changes it."""
        self.cluster.heal()
        self.cluster.nodes[machine].stop(signal.SIGTERM)
        shutil.copy(offices(self.cluster)[machine], self.each[machine].office)
        self.cluster.heal()

    def connection(self):
        return Anywhere(self.each)
