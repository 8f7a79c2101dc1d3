"""Nodes with callers: each asks who is there and what the caller may do, as the front of one machine does."""

import http.client
import json
import os
import signal

from front.identities import RIGHTS, bearer, rules, tokens
from front.listed import metrics_of, metrics_on

from .machines import Cluster
from .running import build

OK = '{"ok":true}'


def ask(cluster, machine, function, arguments, **fields):
    """The status and the body of a node's answer."""
    connection = http.client.HTTPConnection(cluster.network.address(machine, 8080), timeout=20)
    try:
        connection.request("POST", f"/v1/{function}", json.dumps(arguments), fields)
        reply = connection.getresponse()
        return reply.status, reply.read().decode()
    finally:
        connection.close()


def check_callers(bench):
    """Who asks and what a caller may do is judged on each node; the files are read again on each."""
    bench.write("callers.jsonl", rules(RIGHTS).encode())
    bench.write("tokens", tokens(desk="secret", admin="another").encode())
    words = ("--callers", bench.path("callers.jsonl"), "--tokens", bench.path("tokens"), "--etcd-open")
    with Cluster(bench.folder, build(bench.shared), more=words) as cluster:
        admin, desk = bearer("another"), bearer("secret")
        for function, arguments in [("addUser", {"user": "ann"}), ("addRole", {"role": "clerk"}), ("addRole", {"role": "boss"})]:
            bench.same(f"admin: {function}", ask(cluster, 0, function, arguments, **admin), (200, OK))
        for machine in range(3):
            wanted = 200 if machine == 0 else 409
            for what, role, fields, status in [
                ("a role of the desk", "clerk", desk, wanted),
                ("another role", "boss", desk, 403),
                ("nobody", "clerk", {}, 401),
                ("a wrong token", "clerk", bearer("secre"), 401),
                ("a foreign page", "clerk", {**desk, "Origin": "http://a"}, 403),
            ]:
                given = ask(cluster, machine, "assignUser", {"user": "ann", "role": role}, **fields)
                bench.same(f"{what} at node {machine}", given[0], status)
            bench.same(f"health of node {machine}", cluster.get(machine, "/healthz")[0], 200)
            bench.same(f"metrics at the port of clients of node {machine}", cluster.get(machine, "/metrics")[0], 401)
            metrics = cluster.get(machine, "/metrics", 8081)[1].decode()
            bench.same(f"metrics of node {machine}", "rbac_node_open 0" in metrics, True)
            bench.same("metrics that no page lists", metrics_of(metrics) - metrics_on("reference/front.md", "howto/cluster.md"), set())
            bench.same("metrics of the page that are none", metrics_on("howto/cluster.md") - metrics_of(metrics), set())
        changed = {**RIGHTS, "token:desk": [("assignUser", "role boss")]}
        bench.write("callers.jsonl", rules(changed).encode())
        for node in cluster.nodes:
            node.send(signal.SIGHUP)
        for machine in range(3):
            cluster.until(lambda i=machine: "the callers are in force" in read(cluster, i), "the callers are in force")
            given = [ask(cluster, machine, "assignUser", {"user": "ann", "role": role}, **desk)[0] for role in ("clerk", "boss")]
            bench.same(f"after a reload at node {machine}", given, [403, 200 if machine == 0 else 409])
    bench.same("what is noted", os.path.exists(bench.path("node0/refused")), True)


def read(cluster, machine):
    """What a node has logged."""
    with open(cluster.data(f"node{machine}.log"), encoding="utf-8") as log:
        return log.read()
