"""The network of the machines of a cluster: each has a network namespace of its own, or a loopback address."""

import os
import subprocess

MACHINES = 3


def quietly(*words):
    """Runs a command, and returns whether it succeeded."""
    return subprocess.run(words, capture_output=True, check=False).returncode == 0


class Loopback:
    """Each machine has a loopback address. They can't be cut off from each other."""

    can_cut = False

    def __init__(self):
        self.net = f"127.{1 + os.getpid() // 250 % 250}.{1 + os.getpid() % 250}"

    def address(self, machine, port):
        """Returns the host and port at which a port of a machine is reached."""
        return f"{self.net}.{machine + 1}:{port}"

    def prefix(self, machine):
        """Returns the words to put before a command that is to run on a machine."""
        return []

    def close(self):
        """Leaves the system as it was."""


class Namespaces:
    """Each machine has a network namespace, and a link to a bridge, at which the clients are."""

    can_cut = True

    def __init__(self):
        self.name = f"rb{os.getpid() % 100_000}"
        self.net = f"10.{150 + os.getpid() // 256 % 100}.{os.getpid() % 256}"
        self.made = []

    def open(self):
        """Makes the namespaces, and returns whether this system allows it."""
        if os.getuid() != 0 or not quietly("ip", "link", "add", self.name, "type", "bridge"):
            return False
        self.made.append(["ip", "link", "del", self.name])
        steps = [
            ["ip", "addr", "add", f"{self.net}.254/24", "dev", self.name],
            ["ip", "link", "set", self.name, "up"],
        ]
        for machine in range(MACHINES):
            inside = f"{self.name}m{machine}"
            if not quietly("ip", "netns", "add", inside):
                self.close()
                return False
            self.made.append(["ip", "netns", "del", inside])
            within = ["ip", "-n", inside]
            steps += [
                ["ip", "link", "add", f"{inside}o", "type", "veth", "peer", "name", "eth0", "netns", inside],
                ["ip", "link", "set", f"{inside}o", "master", self.name, "up"],
                [*within, "addr", "add", f"{self.host(machine)}/24", "dev", "eth0"],
                [*within, "link", "set", "eth0", "up"],
                [*within, "link", "set", "lo", "up"],
            ]
        if not all(quietly(*step) for step in steps):
            self.close()
            return False
        return True

    def host(self, machine):
        return f"{self.net}.{machine + 1}"

    def address(self, machine, port):
        """Returns the host and port at which a port of a machine is reached."""
        return f"{self.host(machine)}:{port}"

    def prefix(self, machine):
        """Returns the words to put before a command that is to run on a machine."""
        return ["ip", "netns", "exec", f"{self.name}m{machine}"]

    def others(self, machine):
        return [other for other in range(MACHINES) if other != machine]

    def block(self, here, there, do):
        """Lets nothing through from a machine to another one, or lets it through again."""
        quietly("ip", "-n", f"{self.name}m{here}", "route", do, "blackhole", f"{self.host(there)}/32")

    def cut(self, machine, do="add"):
        """Cuts a machine off from the others, in both directions. The clients still reach all."""
        for other in self.others(machine):
            self.block(machine, other, do)
            self.block(other, machine, do)

    def join(self, machine):
        """Lets a machine reach the others again."""
        self.cut(machine, "del")

    def mute(self, machine, do="add"):
        """Lets nothing through from a machine to the others. What they send arrives."""
        for other in self.others(machine):
            self.block(machine, other, do)

    def slow(self, machine, do="add"):
        """Lets little through from a machine, also to clients, and that late."""
        rate = ["tbf", "rate", "800kbit", "burst", "8kb", "latency", "400ms"] if do == "add" else []
        return quietly("tc", "-n", f"{self.name}m{machine}", "qdisc", do, "dev", "eth0", "root", *rate)

    def lose(self, machine, do="-A"):
        """Loses a fifth of what a machine sends to the others."""
        words = ["ip", "netns", "exec", f"{self.name}m{machine}", "iptables", do, "OUTPUT"]
        at_random = ["-m", "statistic", "--mode", "random", "--probability", "0.2", "-j", "DROP"]
        return all([quietly(*words, "-d", self.host(other), *at_random) for other in self.others(machine)])

    def close(self):
        """Leaves the system as it was."""
        for words in reversed(self.made):
            quietly(*words)


def network():
    """Returns namespaces if this system allows them, and loopback addresses otherwise."""
    found = Namespaces()
    return found if found.open() else Loopback()
