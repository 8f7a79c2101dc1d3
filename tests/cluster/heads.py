"""Heads of requests that a node answers with another status than `rbac serve`, as in the table of docs/howto/callers.md."""

from pages import markdown
from program.offices import Office
from program.web import Server

LINE = "POST /v1/ssdRoleSets HTTP/1.1"


def request(*fields, line=LINE, host="Host: a", length="Content-Length: 2"):
    """A question whose head has these lines."""
    lines = [line, *([host] if host else []), *fields, length, "", ""]
    return "\r\n".join(lines).encode("latin-1") + b"{}"


def long_head(length):
    """Returns a question whose head has `length` bytes."""
    start = request("X: ")
    return request("X: " + "y" * (length + len("{}") - len(start)))


# By the texts of the page: the statuses of `rbac serve` and of a node, and requests. No status means no answer.
HEADS = {
    "no `Host`, two of them, or one that is not a host name": (200, 400, [request(host=""), request("Host: b"), request(host="Host: a b")]),
    "`Expect` with a value other than `100-continue`": (200, 417, [request("Expect: x")]),
    "HTTP/1.2 to HTTP/1.9": (400, 200, [request(line=LINE[:-1] + "2"), request(line=LINE[:-1] + "9")]),
    "HTTP/0.9, or HTTP/2.0 in the line": (400, 505, [request(line=LINE[:-3] + "0.9"), request(line=LINE[:-3] + "2.0")]),
    "a field without a name, or one that begins with a space": (400, 200, [request("X: y", ": y"), request("X: y", " z")]),
    "a length without a digit": (400, 411, [request(length="Content-Length: ")]),
    "a length of 20 digits or more": (413, 400, [request(length="Content-Length: " + "9" * 20)]),
    "8,193 to 12,000 bytes": (431, 200, [long_head(8_193), long_head(12_000)]),
    "8,193 to 12,000 bytes without an end": (431, 400, [long_head(8_300)[:8_193], long_head(12_100)[:12_000]]),
    "a path with bytes that are not ASCII": (400, 404, [request(line=LINE.replace("Role", "\xff"))]),
    "a path without `/`, or with `%` and no digits": (
        404, 400, [request(line=LINE.replace("/v1", "v1")), request(line=LINE.replace("ssd", "%zz"))],
    ),
    "`OPTIONS *`, and `/healthz`": (404, 200, [request(line="OPTIONS * HTTP/1.1"), request(line="GET /healthz HTTP/1.1")]),
    "no byte": (400, None, [b""]),
}  # fmt: skip


def judge_differences(bench, ask):
    """Each request gets its statuses, which are those of the page. `ask` returns the status of a node."""
    listed = next(table for table in markdown.tables(markdown.page("howto/callers.md")) if table[0][0] == next(iter(HEADS)))
    wanted = [[what, str(served), str(given or "no answer")] for what, (served, given, _) in HEADS.items()]
    bench.same("heads of the page", listed, wanted)
    office = Office(bench)
    with Server(bench, office.path, sum(len(requests) for _, _, requests in HEADS.values())) as server:
        for what, (served, given, requests) in HEADS.items():
            for one in requests:
                bench.same(f"what serve answers to {what}", int(server.ask(one, cut=True).split()[1]), served)
                bench.same(f"what a node answers to {what}", ask(one), given)
