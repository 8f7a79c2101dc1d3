"""Requests over HTTP that are refused: each status, byte for byte."""

from .offices import Office, small_office
from .web import BAD_REQUEST, NO_FUNCTION, Server, head, post, reply

ADD = "POST /v1/addUser HTTP/1.1"
ANN = b'{"user":"ann"}'
LENGTH = "Content-Length: 14"

# A request as a client writes it.
CURL = b"".join(
    line + b"\r\n"
    for line in [
        b"POST /v1/addUser HTTP/1.1",
        b"Host: 127.0.0.1:8080",
        b"User-Agent: curl/8.5.0",
        b"Accept: */*",
        b"Content-Length: 14",
        b"Content-Type: application/x-www-form-urlencoded",
        b"",
    ]
) + ANN

# Requests by which nothing is done, with the status and the body of their answers.
REFUSED = {
    "a method other than POST": (head("GET /v1/addUser HTTP/1.1"), 405, BAD_REQUEST),
    "another method with a body": (head("PUT /v1/addUser HTTP/1.1", LENGTH) + ANN, 405, BAD_REQUEST),
    "a function that is not there": (post("fly", b""), 404, NO_FUNCTION),
    "a function with a query": (post("addUser?x=1", b""), 404, NO_FUNCTION),
    "a function with escapes": (post("add%55ser", b""), 404, NO_FUNCTION),
    "a function and more": (post("addUser/", b""), 404, NO_FUNCTION),
    "another case": (post("adduser", b""), 404, NO_FUNCTION),
    "no function": (post("", b""), 404, NO_FUNCTION),
    "another version of the route": (head("POST /v2/addUser HTTP/1.1", LENGTH) + ANN, 404, NO_FUNCTION),
    "the root": (head("POST / HTTP/1.1", LENGTH) + ANN, 404, NO_FUNCTION),
    "an unknown function and another method": (head("GET /v1/fly HTTP/1.1"), 404, NO_FUNCTION),
    "no length": (head(ADD), 411, BAD_REQUEST),
    "no length in HTTP/1.0": (head("POST /v1/addUser HTTP/1.0"), 411, BAD_REQUEST),
    "a body in pieces": (head(ADD, "Transfer-Encoding: chunked"), 501, BAD_REQUEST),
    "a body in pieces with a length": (head(ADD, "transfer-encoding: x", LENGTH) + ANN, 501, BAD_REQUEST),
    "pieces and a bad length": (head(ADD, "Transfer-Encoding: chunked", "Content-Length: x"), 501, BAD_REQUEST),
    "a body that is too long": (head(ADD, "Content-Length: 65537"), 413, BAD_REQUEST),
    "a body that is far too long": (head(ADD, f"Content-Length: {'9' * 40}"), 413, BAD_REQUEST),
    "an import that is too long": (
        head("POST /v1/importAssignments HTTP/1.1", "Content-Length: 2097153"),
        413,
        BAD_REQUEST,
    ),
    "65 fields": (head(ADD, LENGTH, *["X: y"] * 63) + ANN, 431, BAD_REQUEST),
    "a head without an end": ((head(ADD)[:-2] + b"X: ").ljust(8_192, b"y"), 431, BAD_REQUEST),
    "a sign in the length": (head(ADD, "Content-Length: +14") + ANN, 400, BAD_REQUEST),
    "an empty length": (head(ADD, "Content-Length: "), 400, BAD_REQUEST),
    "two lengths": (head(ADD, LENGTH, "Content-Length: 15") + ANN, 400, BAD_REQUEST),
    "two ways to write a length": (head(ADD, LENGTH, "Content-Length: 014") + ANN, 400, BAD_REQUEST),
    "a bad length and no function": (head("POST /v1/fly HTTP/1.1", "Content-Length: x"), 400, BAD_REQUEST),
    "no field": (head(ADD, "no field"), 400, BAD_REQUEST),
    "no request line": (head("fly"), 400, BAD_REQUEST),
    "a control character": (b"\x00" + CURL, 400, BAD_REQUEST),
    "another version of HTTP": (head("POST /v1/addUser HTTP/2.0", LENGTH) + ANN, 400, BAD_REQUEST),
    "an empty body": (post("addUser", b""), 400, BAD_REQUEST),
    "a body that is no JSON": (post("addUser", b"user=ann"), 400, BAD_REQUEST),
    "a body that is a list": (post("addUser", b"[]"), 400, BAD_REQUEST),
    "a value of another type": (post("addUser", b'{"user":7}'), 400, BAD_REQUEST),
    "no name": (post("addUser", b'{"user":""}'), 400, b'{"code":1,"error":"BadName"}'),
    "an import without a header": (
        post("importAssignments", b"ann,clerk\n"),
        400,
        b'{"code":36,"error":"BadCsv","record":0}',
    ),
    "an import with a record too many": (
        post("importAssignments", b"user,role\n" + b"a,b\n" * 10_001),
        409,
        b'{"code":32,"error":"TooMany","kind":"record"}',
    ),
    "a user who is not there": (post("deleteUser", ANN), 409, b'{"code":2,"error":"NoUser"}'),
    "a question about nobody": (post("assignedRoles", ANN), 409, b'{"code":2,"error":"NoUser"}'),
    "the lock of nobody": (post("lockUserAccount", ANN), 409, b'{"code":2,"error":"NoUser"}'),
}


def check_refused(bench):
    """Each of these requests gets its status and its body, and nothing is done by it."""
    office = Office(bench)
    with Server(bench, office.path, len(REFUSED)) as server:
        for name, (request, status, body) in REFUSED.items():
            bench.same(f"request with {name}", server.ask(request), reply(status, body))
        server.ends()
    office.compare_with_model()


def check_cut(bench):
    """A request that ends after any of its bytes but the last is a bad one, and nobody is added."""
    office = Office(bench)
    with Server(bench, office.path, len(CURL) + 1) as server:
        for count in range(len(CURL)):
            answer = server.ask(CURL[:count], cut=True)
            bench.same(f"a request of {count} bytes", answer, reply(400, BAD_REQUEST))
        bench.same("the whole request", server.ask(CURL, cut=True), reply(200, b'{"ok":true}'))
        server.ends()
    office.model.answer(b'{"fn":"addUser","user":"ann"}')
    office.compare_with_model()


def check_locked(bench):
    """A locked user gets no session, and in version 1 there are no locks: both are conflicts."""
    office = small_office(bench)
    session = post("createSession", b'{"user":"ann","roles":[],"session":"s2"}')
    with Server(bench, office.path, 2) as server:
        bench.same("a lock", server.ask(post("lockUserAccount", ANN)), reply(200, b'{"ok":true}'))
        answer = reply(409, b'{"code":37,"error":"UserLocked"}')
        bench.same("a session of the locked user", server.ask(session), answer)
        server.ends()
    office.model.answer(b'{"fn":"lockUserAccount","user":"ann"}')
    office.compare_with_model()
    office.replay([b'{"fn":"unlockUserAccount","user":"ann"}\n'])
    office.become_version_1()
    with Server(bench, office.path, 1) as server:
        answer = reply(409, b'{"code":51,"error":"Version","version":1}')
        bench.same("a lock in version 1", server.ask(post("lockUserAccount", ANN)), answer)
        server.ends()
    office.compare_with_model()
