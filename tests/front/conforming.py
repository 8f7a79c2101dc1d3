"""What the front's own requests answer has the status, the sort of content and the form that docs/openapi.json says."""

import json
from shutil import which

from pages.openapi import PATHS_OF_FRONT, SPEC, faults_of, media_of, resolved

from .identities import bearer, secured
from .program import Front
from .sessions import digest_of

OFFICE = [
    {"fn": "addUser", "user": "ann"}, {"fn": "addRole", "role": "clerk"}, {"fn": "addRole", "role": "boss"},
    {"fn": "addInheritance", "asc": "boss", "desc": "clerk"}, {"fn": "addPermObj", "object": "safe"},
    {"fn": "addPermission", "object": "safe", "operation": "open"},
    {"fn": "grantPermission", "object": "safe", "operation": "open", "role": "clerk"}, {"fn": "assignUser", "user": "ann",
    "role": "boss"},
    {"fn": "addRole", "role": "cook"},
    {"fn": "createDsdSet", "set": "till", "roles": ["clerk", "cook"], "cardinality": 2}, {"fn": "assignUser", "user": "ann",
    "role": "cook"},
    {"fn": "createSession", "user": "ann", "roles": ["boss"], "session": "s1"},
]  # fmt: skip

EVALUATION = {
    "subject": {"type": "session", "id": "s1"},
    "action": {"name": "open"},
    "resource": {"type": "object", "id": "safe"},
}
ASKED = {"user": "ann", "operation": "open", "object": "safe"}
FIELDS = {"Office-Session": "s1", "Office-Operation": "open", "Office-Object": "safe"}

REVIEW = {"review": "Q4 2026", "sha256": "0" * 64, "kept": 1, "removed": 0, "open": 0}

# Requests with the statuses that they get: method, path of the description, target, body, fields and status.
REQUESTS = [
    ("post", "/v1/batch", "/v1/batch", '{"fn":"ssdRoleSets"}\n{"fn":"dsdRoleSets"}', {}, 200),
    ("post", "/v1/batch", "/v1/batch?stop=last", "", {}, 400), ("post", "/v1/batch", "/v1/batch", '{"fn":"fly"}', {}, 404),
    ("post", "/v1/batch", "/v1/batch", " " * 2_097_153, {}, 413),
    ("post", "/v1/batch", "/v1/batch", '{"fn":"ssdRoleSets"}', {"If-Policy-Revision": "1"}, 412),
    ("post", "/v1/decideByUser", "/v1/decideByUser", ASKED, {}, 200), ("post", "/v1/decideByUser", "/v1/decideByUser", {},
    {}, 400),
    ("post", "/v1/decideByUser", "/v1/decideByUser", {**ASKED, "user": "bob"}, {}, 409),
    ("get", "/decide", "/decide", None, FIELDS, 204), ("post", "/decide", "/decide", None, FIELDS, 204),
    ("post", "/decide", "/decide", None, {**FIELDS, "Office-Session": "s2"}, 403), ("get", "/decide", "/decide", None, {}, 400),
    ("post", "/access/v1/evaluation", "/access/v1/evaluation", EVALUATION, {}, 200),
    ("post", "/access/v1/evaluation", "/access/v1/evaluation", {**EVALUATION, "action": {"name": "fly"}}, {}, 200),
    ("post", "/access/v1/evaluation", "/access/v1/evaluation", {}, {}, 400),
    ("post", "/access/v1/evaluations", "/access/v1/evaluations", {**EVALUATION, "evaluations": [{}, {}]}, {}, 200),
    ("get", "/.well-known/authzen-configuration", "/.well-known/authzen-configuration", None, {}, 200),
    ("post", "/explain", "/explain", ASKED, {}, 200), ("post", "/explain", "/explain", {**ASKED, "object": "x"}, {}, 409),
    ("post", "/explain", "/explain", {"session": "s1", "operation": "open", "object": "safe"}, {}, 200),
    ("post", "/explain", "/explain", {"command": {"fn": "createSession", "user": "ann", "roles": ["cook", "boss"],
    "session": "s"}}, {}, 200),
    ("get", "/caller", "/caller", None, {}, 200), ("post", "/sessions", "/sessions", {"user": "ann"}, {}, 200),
    ("post", "/sessions", "/sessions", {"user": "bob"}, {}, 409), ("post", "/sessions", "/sessions", {}, {}, 400),
    ("post", "/sessions", "/sessions", {"user": "ann"}, {"If-Policy-Revision": "1"}, 412),
    ("post", "/lists", "/lists", '{"list":"users","limit":1}\n{"list":"permissions","user":"nobody"}', {}, 200),
    ("post", "/lists", "/lists", '{"list":"users","limit":0}', {}, 400), ("post", "/lists", "/lists", '{"list":"planets"}', {}, 404),
    ("post", "/lists", "/lists", " " * 65_537, {}, 413),
    *(("get", "/lists/{list}", f"/lists/{name}?limit=1", None, {}, 200)
      for name in SPEC["paths"]["/lists/{list}"]["get"]["parameters"][0]["schema"]["enum"]),
    ("get", "/lists/{list}", "/lists/planets", None, {}, 404), ("get", "/lists/{list}", "/lists/users?limit=0", None, {}, 400),
    ("get", "/lists/{list}", "/lists/permissions?role=x", None, {}, 409), ("get", "/snapshot", "/snapshot", None, {}, 200),
    ("get", "/watch", "/watch?after=0", None, {}, 410), ("get", "/watch", "/watch", None, {}, 400),
    ("get", "/record", "/record?limit=2", None, {}, 200), ("get", "/record", "/record?limit=0", None, {}, 400),
    ("get", "/record/links", "/record/links?after=1", None, {}, 200), ("get", "/record/links", "/record/links", None, {}, 400),
    ("get", "/room", "/room", None, {}, 200), ("get", "/picture", "/picture", None, {}, 200 if which("dot") else 404),
    ("get", "/picture", "/picture?role=x", None, {}, 409 if which("dot") else 404),
    ("post", "/what-if", "/what-if", '{"fn":"deleteUser","user":"ann"}\n{"fn":"addUser","user":"ann"}', {}, 200),
    ("post", "/what-if", "/what-if", '{"fn":"ssdRoleSets"}', {}, 400), ("post", "/what-if", "/what-if", '{"fn":"fly"}', {}, 404),
    ("post", "/what-if", "/what-if", " " * 262_145, {}, 413), ("post", "/reviews", "/reviews", REVIEW, {}, 200),
    ("post", "/reviews", "/reviews", {**REVIEW, "sha256": "x"}, {}, 400), ("post", "/reviews", "/reviews", " " * 4_097, {}, 413),
    ("post", "/reports/{report}", "/reports/permissions", {"user": "ann"}, {}, 200), ("post", "/reports/{report}", "/reports/dump", "", {}, 200),
    ("post", "/reports/{report}", "/reports/near", {"user": 1}, {}, 400), ("post", "/reports/{report}", "/reports/x", {}, {}, 404),
    ("post", "/reports/{report}", "/reports/room", " " * 4097, {}, 413), ("get", "/reports/{report}", f"/reports/{'0' * 64}", None, {}, 404),
    ("delete", "/sessions/{digest}", f"/sessions/{digest_of('s1')}", None, {}, 200),
    ("delete", "/sessions/{digest}", f"/sessions/{digest_of('s1')}", None, {}, 409),
]  # fmt: skip


def exchange(front, method, target, body, fields):
    """The status of an answer, the sort of its content, and its body."""
    own = front.connection()
    own.request(method.upper(), target, body if body is None or isinstance(body, str) else json.dumps(body), fields)
    reply = own.getresponse()
    found = reply.status, (reply.headers["Content-Type"] or "").split(";")[0], reply.read().decode()
    own.close()
    return found


def conforms(bench, what, described, sort, body):
    """Counts whether a body has the form that its description has."""
    if "content" not in described or not body and "/decide" in what:
        bench.same(f"the body of {what}", body, "")
        return
    if sort != "application/json":
        bench.same(f"the sort of {what}", [sort], list(described["content"]))
        return
    value, schema = json.loads(body), media_of(described, sort)["schema"]
    faults = faults_of(schema, value)
    if "x-codes" in described and value["code"] not in described["x-codes"]:
        faults.append(f"{value['code']} is none of {described['x-codes']}")
    bench.judge(what, faults)


def check_answers(bench):
    """Each request of the front's own gets an answer of the form that is described, and each path is tried."""
    with Front(bench, "--public-url", "https://rbac.example") as front:
        for one in OFFICE:
            bench.same(f"{one}", front.ask(one["fn"], one)[0], 200)
        for method, path, target, body, fields, wanted in REQUESTS:
            status, sort, said = exchange(front, method, target, body, fields)
            what = f"{status} of {method} {target} {str(body)[:60]}"
            bench.same(f"the status of {method} {target} {str(body)[:60]}", status, wanted)
            answers = SPEC["paths"][path][method]["responses"]
            bench.same(f"{what} is described", str(status) in answers, True)
            if str(status) in answers:
                conforms(bench, what, resolved(answers[str(status)]), sort, said)
        own = {path for path in PATHS_OF_FRONT if path not in ("/healthz", "/metrics")}
        bench.same("the paths that are tried", {path for _, path, *_ in REQUESTS}, own)


def check_refused(bench):
    """Without identity and without a right each of them is refused as described, except the metadata."""
    with secured(bench, "--public-url", "https://rbac.example", rights={"token:desk": [], "token:admin": []}) as front:
        for method, path, target, body, fields, wanted in REQUESTS:
            if wanted not in (200, 204) or "authzen" in path:
                continue
            answers = SPEC["paths"][path][method]["responses"]
            for who, status in ({}, 401), (bearer("secret"), 200 if path == "/caller" else 403):
                given, sort, said = exchange(front, method, target, body, {**fields, **who})
                bench.same(f"the status of {method} {target} {str(body)[:60]} for {who}", given, status)
                conforms(bench, f"{given} of {method} {target}", resolved(answers[str(given)]), sort, said)
