"""The front conforms to docs/openapi.json: what it answers besides the office, and its health and metrics."""

import http.client
import json
import os
import signal

from pages.openapi import REFUSAL, SPEC, faults_of, media_of, resolved, response_of, schema_of

from .identities import bearer, secured
from .program import HOST, Front, until

PLAIN = {"user": "ann"}


def conforms(bench, what, described, reply, body):
    """Counts whether an answer has the fields, the code and the form that its description has."""
    faults = []
    answer = json.loads(body)
    if "x-codes" in described:
        faults += faults_of(schema_of(described), answer)
        faults += [] if answer["code"] in described["x-codes"] else [f"{answer['code']} is none of {described['x-codes']}"]
    for key, header in described.get("headers", {}).items():
        faults += faults_of(header["schema"], reply.headers[key]) if key in reply.headers else [f"{key} is missing"]
    if reply.headers["Content-Type"] not in described["content"]:
        faults.append(f"the content is {reply.headers['Content-Type']}")
    bench.judge(what, faults)
    bench.same(f"the schema of {what}", schema_of(described), REFUSAL)


def refused(bench, front, status, name, what, **fields):
    """Asks, and checks that the answer is a refusal with this status and name, which conforms to its description."""
    client = http.client.HTTPConnection(HOST, front.port, timeout=20)
    client.request("POST", "/v1/addUser", json.dumps(PLAIN), {key.replace("_", "-"): value for key, value in fields.items()})
    reply = client.getresponse()
    body = reply.read()
    client.close()
    bench.same(what, (reply.status, json.loads(body)["error"]), (status, name))
    conforms(bench, what, response_of("addUser", reply.status), reply, body)


def get(front, path, **fields):
    """The status, the sort of content and the body of what is at a path."""
    client = http.client.HTTPConnection(HOST, front.port, timeout=20)
    client.request("GET", path, headers=fields)
    reply = client.getresponse()
    found = reply.status, reply.headers["Content-Type"].split(";")[0], reply.read().decode()
    client.close()
    return found


def compare_with_state(path, status):
    """The description of an answer at a path of no function."""
    return resolved(SPEC["paths"][path]["get"]["responses"][str(status)])


def same_health(bench, front, status):
    """The health has a status, and the form that is described for it."""
    given, sort, body = get(front, "/healthz")
    bench.same("the status of the health", given, status)
    bench.judge(f"the health {body}", faults_of(media_of(compare_with_state("/healthz", status), sort)["schema"], json.loads(body)))


def check_callers(bench):
    """With callers: no identity, no right and a foreign page are answered as described."""
    with secured(bench) as front:
        refused(bench, front, 401, "Unauthorized", "no token")
        refused(bench, front, 403, "Forbidden", "no right", **bearer("secret"))
        refused(bench, front, 403, "ForeignOrigin", "a foreign page", Origin="https://elsewhere.example")
        same_health(bench, front, 200)
        status, sort, body = get(front, "/metrics", Authorization="Bearer wrong")
        bench.same("metrics for nobody", status, 401)
        bench.judge("the answer", faults_of(media_of(compare_with_state("/metrics", 401), sort)["schema"], json.loads(body)))


def check_open(bench):
    """Without callers: a foreign host, a replay that hangs, health and metrics are answered as described."""
    with Front(bench, "--timeout", "1s") as front:
        until(lambda: get(front, "/healthz")[0] == 200, "the office answers")
        refused(bench, front, 421, "ForeignHost", "a foreign host", Host="elsewhere.example")
        same_health(bench, front, 200)
        status, sort, body = get(front, "/metrics")
        bench.same("the metrics", (status, [sort], "rbac_node_ready 1" in body), (200, list(compare_with_state("/metrics", 200)["content"]), True))
        (replay,) = front.replays()
        os.kill(replay, signal.SIGSTOP)
        refused(bench, front, 503, "Unavailable", "a replay that hangs")
        os.kill(replay, signal.SIGCONT)
        bench.same("the end", front.end(), 0)


def check_closed(bench):
    """The file becomes one that is no office, and the replay ends: the health is that of an office that doesn't answer."""
    with Front(bench) as front:
        until(lambda: get(front, "/healthz")[0] == 200, "the office answers")
        (replay,) = front.replays()
        os.rename(front.office, bench.path("away"))
        bench.write("office", b"no office")
        os.kill(replay, signal.SIGKILL)
        until(lambda: get(front, "/healthz")[0] == 503, "the office doesn't answer")
        same_health(bench, front, 503)
