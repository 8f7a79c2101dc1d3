"""A node answers over HTTP as `rbac serve` does."""

import json
import re
import socket

from pages.api import all_pairs
from program.heads import REFUSED

from .heads import judge_differences
from .machines import SECONDS, Cluster
from .running import build

DONE = b'{"ok":true}'

# What the HTTP library refuses by itself has the same status, and a text instead of JSON, as docs/howto/cluster.md describes.
# What it judges differently from `rbac serve`: the status, by the name of the request in program/heads.
DIFFERENT = {
    "a body that is far too long": 400,
    "a head without an end": 400,
    "an empty length": 411,
    "another version of HTTP": 505,
}

BODY = re.compile(rb"\{.*\}")


def exchange(cluster, request, machine=0):
    """The status and the body of a node's first answer to some bytes, None if there is none."""
    status, body, _ = exchange_all(cluster, request, machine)
    return status, body


def exchange_all(cluster, request, machine):
    """As exchange, and the fields of the head."""
    host, port = cluster.network.address(machine, 8080).split(":")
    with socket.create_connection((host, int(port)), SECONDS) as client:
        client.sendall(request)
        client.shutdown(socket.SHUT_WR)
        said = b""
        while piece := client.recv(65_536):
            said += piece
    head, _, body = said.partition(b"\r\n\r\n")
    fields = dict(line.lower().split(": ", 1) for line in head.decode("latin-1").split("\r\n")[1:])
    return int(head.split()[1]) if head else None, body, fields


def of_line(line):
    """Returns the HTTP request for what a line asks."""
    value = json.loads(line)
    function = value.pop("fn")
    body = value["csv"] if function == "importAssignments" else json.dumps(value, ensure_ascii=False)
    return post(function, body.encode())


def post(function, body, *fields):
    lines = [f"POST /v1/{function} HTTP/1.1", "Host: a", f"Content-Length: {len(body)}", "Connection: close", *fields, "", ""]
    return "\r\n".join(lines).encode() + body


def check_page(bench):
    """Each request of docs/reference/api.md gets its answer there, and the status of its code."""
    with Cluster(bench.folder, build(bench.shared)) as cluster:
        judge_heads(bench, cluster)
        judge_differences(bench, lambda request: exchange(cluster, request)[0])
        for line, answer in all_pairs():
            try:
                value = json.loads(line)
            except ValueError:
                continue
            if not isinstance(value, dict) or not isinstance(value.get("fn"), str):
                continue
            status, body = exchange(cluster, of_line(line))
            bench.same(f"the answer to {line}", body.decode(), answer)
            bench.same(f"the status of {answer}", status, status_of(json.loads(answer).get("code")))
        judge_bodies(bench, cluster)


def status_of(code):
    """The status of docs/reference/api.md, section 5."""
    return {None: 200, 1: 400, 34: 400, 36: 400, 35: 404}.get(code, 409)


def judge_heads(bench, cluster):
    """What `rbac serve` refuses is refused with the same status, and with the same body unless the library refuses it."""
    own = 0
    for name, (request, status, body) in REFUSED.items():
        if len(request) > 65_536 and b"importAssignments" in request:
            continue  # A line of the log has no room for it: see judge_bodies.
        given = exchange(cluster, request)
        if name in DIFFERENT:
            bench.same(f"request with {name}", given[0], DIFFERENT[name])
            continue
        if given != (status, body) and given[0] == status and not BODY.fullmatch(given[1]):
            own += 1
            continue
        bench.same(f"request with {name}", given, (status, body))
    print(f"{own:9,}  requests are refused by the library of HTTP itself")


def judge_bodies(bench, cluster):
    """Checks bodies that can't be used as a line unchanged."""
    for what, function, body, wanted in [
        ("ends of lines", "addUser", b'\n{\r\n"user"\n:\t"lf"\n}\n', (200, DONE)),
        ("an end of a line in a text", "addUser", b'{"user":"a\nb"}', (400, b'{"code":34,"error":"BadRequest"}')),
        ("a key fn", "addUser", b'{"fn":"deleteUser","user":"fn"}', (200, DONE)),
        ("a key twice", "addUser", b'{"user":"x","user":"twice"}', (200, DONE)),
        ("only an object", "ssdRoleSets", b" { } ", (200, None)),
        ("two objects", "addUser", b'{"user":"y"}{"user":"z"}', (400, b'{"code":34,"error":"BadRequest"}')),
        ("a number that is too great", "addUser", b'{"user":"y","n":1e999}', (400, b'{"code":34,"error":"BadRequest"}')),
        ("half of a pair", "addUser", b'{"user":"\\ud800"}', (400, b'{"code":34,"error":"BadRequest"}')),
        ("bytes that are no UTF-8", "addUser", b'{"user":"\xff"}', (400, b'{"code":34,"error":"BadRequest"}')),
        ("a deep list", "addUser", b'{"user":"y","n":' + b"[" * 127 + b"]" * 127 + b"}", (400, None)),
        ("an import with quotes", "importAssignments", b'user,role\r\n"x ""y"" <&>",clerk\n', (200, None)),
        ("an import that is no UTF-8", "importAssignments", b"user,role\n\xff,clerk\n", (400, b'{"code":34,"error":"BadRequest"}')),
        ("an import that is a long line", "importAssignments", b"user,role\n" + b"a,b\n" * 14_000, (413, b'{"code":34,"error":"BadRequest"}')),
        ("an import that just fits", "importAssignments", b"user,role\n" + b"a,b\n" * 9_999, (200, None)),
    ]:  # fmt: skip
        status, text = exchange(cluster, post(function, body))
        bench.same(f"a body with {what}", (status, text if wanted[1] else None), wanted)
    for value, status in [("local", 200), ("linearizable", 200), ("eventual", 400)]:
        given, _ = exchange(cluster, post("ssdRoleSets", b"{}", f"Consistency: {value}"))
        bench.same(f"Consistency: {value}", given, status)
