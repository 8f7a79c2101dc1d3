"""Decisions for gateways and frameworks: by status alone, also by the real nginx, and by the shapes of AuthZEN."""

import http.client
import json
import os
import shutil
import subprocess
import threading
from contextlib import contextmanager
from http.server import BaseHTTPRequestHandler, ThreadingHTTPServer

import pytest

from program.bench import SECONDS
from program.web import free_port

from .identities import bearer, secured
from .program import HOST, Asking, Front, until

# An office in which the session s1 of ann may open the safe, and s2 of bob may not.
OFFICE = [
    ("addUser", {"user": "ann"}), ("addUser", {"user": "bob"}), ("addRole", {"role": "clerk"}), ("addPermObj",
    {"object": "safe"}),
    ("addPermObj", {"object": "till:7"}), ("addPermission", {"object": "safe", "operation": "open"}),
    ("addPermission", {"object": "till:7", "operation": "GET"}),
    ("grantPermission", {"object": "safe", "operation": "open", "role": "clerk"}),
    ("grantPermission", {"object": "till:7", "operation": "GET", "role": "clerk"}), ("assignUser", {"user": "ann",
    "role": "clerk"}),
    ("createSession", {"user": "ann", "roles": ["clerk"], "session": "s1"}), ("createSession", {"user": "bob", "roles": [],
    "session": "s2"}),
]  # fmt: skip

RIGHTS = {
    "token:desk": [("checkAccess", "object safe")],
    "token:admin": [(function, "office") for function in sorted({function for function, _ in OFFICE} | {"checkAccess"})],
}


def filled(bench, front, **fields):
    """Makes the office."""
    for function, values in OFFICE:
        bench.same(f"{function} {values}", front.ask(function, values, **fields), (200, '{"ok":true}'))


def decide(front, method="POST", **fields):
    """The status and the body of a decision. Names of fields have `_` for `-`."""
    return front.exchange(method, "/decide", None, **fields)


def check_decide(bench):
    """204 if it is allowed, and 403 if not: also for what doesn't exist, and if nobody has logged in."""
    with Front(bench) as front:
        filled(bench, front)
        asked = {"Office_Session": "s1", "Office_Operation": "open", "Office_Object": "safe"}
        for method in ("POST", "GET"):
            bench.same(f"{method}: allowed", decide(front, method, **asked), (204, ""))
        for name, value in [
            ("Office_Session", "s2"), ("Office_Session", "s3"), ("Office_Operation", "close"), ("Office_Object", "till:7"),
            ("Office_Object", "vault"), ("Office_Session", ""), ("Office_Session", "x" * 65), ("Office_Session", "\xff"),
            ("Office_Session", '"'),
        ]:  # fmt: skip
            bench.same(f"{name} {value}", decide(front, **{**asked, name: value}), (403, ""))
        without = {name: value for name, value in asked.items() if name != "Office_Session"}
        bench.same("no session", decide(front, **without), (403, ""))
        for name in ("Office_Operation", "Office_Object"):
            bench.same(f"without {name}", decide(front, **{**asked, name: ""})[0], 400)
        twice = b"POST /decide HTTP/1.1\r\nHost: localhost\r\nOffice-Operation: open\r\nOffice-Object: safe\r\n"
        twice += b"Office-Session: s1\r\nOffice-Session: s1\r\nConnection: close\r\n\r\n"
        bench.same("two sessions", front.raw(twice)[:12], b"HTTP/1.1 400")
        bench.same("PUT", decide(front, "PUT", **asked)[0], 405)
        bench.same("the end", front.end(), 0)


def check_rights(bench):
    """Only who has checkAccess for the object is answered."""
    with secured(bench, rights=RIGHTS) as front:
        filled(bench, front, **bearer("another"))
        asked = {"Office_Session": "s1", "Office_Operation": "open", "Office_Object": "safe"}
        bench.same("allowed", decide(front, **asked, **bearer("secret")), (204, ""))
        bench.same("another object", decide(front, **{**asked, "Office_Object": "till:7"}, **bearer("secret"))[0], 403)
        bench.same("no identity", decide(front, **asked)[0], 401)
        for path in ("evaluation", "evaluations"):
            for object_id, status in (("safe", 200), ("till:7", 403)):
                body = body_of(resource=entity("object", object_id))
                given = front.exchange("POST", f"/access/v1/{path}", body, **bearer("secret"))
                bench.same(f"{path} of {object_id}", given[0], status)
            bench.same(f"{path} of nobody", front.exchange("POST", f"/access/v1/{path}", body_of())[0], 401)
        both = [{"resource": entity("object", "safe")}, {"resource": entity("object", "till:7")}]
        given = front.exchange("POST", "/access/v1/evaluations", body_of(evaluations=both), **bearer("secret"))
        bench.same("one of two is not allowed", given, (403, '{"code":63,"error":"Forbidden"}'))


class Site(BaseHTTPRequestHandler):
    """What stands behind nginx."""

    def do_GET(self):
        self.send_response(200)
        self.send_header("Content-Length", "6")
        self.end_headers()
        self.wfile.write(b"inside")

    def log_message(self, *_):
        pass


NGINX = """
daemon off; user root; pid {folder}/nginx.pid; error_log {folder}/nginx.log; worker_processes 1;
events {{ worker_connections 64; }}
http {{
    access_log off;
    client_body_temp_path {folder}/a; proxy_temp_path {folder}/b; fastcgi_temp_path {folder}/c;
    uwsgi_temp_path {folder}/d; scgi_temp_path {folder}/e;
    proxy_cache_path {folder}/kept keys_zone=all:1m;
    server {{
        listen {host}:{port};
        {places}
    }}
}}
"""

# What nginx does at its places: it asks before it passes a request on, or it keeps whatever it may.
ASKING = """
        location /till/ {{
            auth_request /decide;
            proxy_pass http://{host}:{site};
        }}
        location = /decide {{
            internal;
            proxy_pass http://{host}:{front};
            proxy_pass_request_body off;
            proxy_pass_request_headers off;
            proxy_set_header Host localhost;
            proxy_set_header Authorization "Bearer {token}";
            proxy_set_header Office-Session $cookie_session;
            proxy_set_header Office-Operation $request_method;
            proxy_set_header Office-Object till:7;
        }}
"""
KEEPING = """
        location / {{
            proxy_pass http://{host}:{front};
            proxy_set_header Host localhost;
            proxy_cache all;
            proxy_cache_valid any 1h;
        }}
"""


@contextmanager
def nginx(bench, places, **values):
    """The port of an nginx with some places."""
    values |= {"folder": bench.folder, "host": HOST, "port": free_port()}
    path = bench.write("nginx.conf", NGINX.format(places=places.format(**values), **values).encode())
    words = [shutil.which("nginx"), "-c", path, "-e", bench.path("nginx.log")]
    process = subprocess.Popen(words, stdin=subprocess.DEVNULL)
    try:
        until(lambda: is_open(values["port"]), "nginx listens")
        yield values["port"]
    finally:
        process.terminate()
        process.wait(SECONDS)


def through(port, method="GET", **fields):
    """The status and the body of what nginx answers."""
    connection = http.client.HTTPConnection(HOST, port, timeout=SECONDS)
    connection.request(method, "/till/", headers={name.replace("_", "-"): value for name, value in fields.items()})
    reply = connection.getresponse()
    found = reply.status, reply.read().decode() if reply.status == 200 else ""
    connection.close()
    return found


@pytest.mark.needs("nginx")
def check_nginx(bench):
    """nginx asks the front by auth_request, and lets through only what it allows."""
    rights = {**RIGHTS, "token:desk": [("checkAccess", "object till:")]}
    with secured(bench, rights=rights) as front, ThreadingHTTPServer((HOST, 0), Site) as site:
        filled(bench, front, **bearer("another"))
        threading.Thread(target=site.serve_forever, daemon=True).start()
        with nginx(bench, ASKING, site=site.server_port, front=front.port, token="secret") as port:
            bench.same("a session that may", through(port, Cookie="session=s1"), (200, "inside"))
            bench.same("one that may not", through(port, Cookie="session=s2"), (403, ""))
            bench.same("one that doesn't exist", through(port, Cookie="session=s9"), (403, ""))
            bench.same("no session", through(port), (403, ""))
            bench.same("a session in a field", through(port, Office_Session="s1"), (403, ""))
            bench.same("an object in a field", through(port, Cookie="session=s2", Office_Object="safe"), (403, ""))
            bench.same("another operation", through(port, "DELETE", Cookie="session=s1"), (403, ""))
            bench.same("a page of another site", through(port, Cookie="session=s1", Origin="https://x.example"), (200, "inside"))
            bench.same("the session ends", front.ask("deleteUser", {"user": "ann"}, **bearer("another"))[0], 403)
            front.kill()
            bench.same("no front", through(port, Cookie="session=s1")[0], 500)
        site.shutdown()


@pytest.mark.needs("nginx")
def check_caches(bench):
    """A cache before the front keeps no answer: neither a decision for another session, nor a list for somebody without identity."""
    rights = {**RIGHTS, "token:admin": [*RIGHTS["token:admin"], ("lists", "office")]}
    with secured(bench, rights=rights) as front:
        filled(bench, front, **bearer("another"))
        asked = {"Office_Operation": "open", "Office_Object": "safe"}
        with nginx(bench, KEEPING, front=front.port) as port:
            cache = Port(port)
            for session, status in (("s1", 204), ("s2", 403), ("s1", 204)):
                found = decide(cache, "GET", Office_Session=session, **asked, **bearer("secret"))
                bench.same(f"the decision for {session}", found[0], status)
            for path in ("/lists/users", "/caller", "/nothing"):
                known, stranger = cache.exchange("GET", path, **bearer("another")), cache.exchange("GET", path)
                bench.same(f"{path} for a caller, and for nobody", (known[0] == 401, stranger[0]), (False, 401))


class Port(Asking):
    """What listens at a port of this machine."""

    def __init__(self, port):
        self.port = port

    def connection(self):
        return http.client.HTTPConnection(HOST, self.port, timeout=SECONDS)


def is_open(port):
    """Whether somebody listens at a port."""
    try:
        connection = http.client.HTTPConnection(HOST, port, timeout=SECONDS)
        connection.connect()
        connection.close()
        return True
    except OSError:
        return False


def entity(kind, name):
    return {"type": kind, "id": name}


def body_of(**parts):
    """A body of an evaluation: whether s1 may open the safe, unless these parts say otherwise. A part that is None is left out."""
    whole = {"subject": entity("session", "s1"), "action": {"name": "open"}, "resource": entity("object", "safe"), **parts}
    return json.dumps({name: part for name, part in whole.items() if part is not None})


def evaluated(front, path, body):
    """The status of the answer to an evaluation, and what was answered."""
    status, said = front.exchange("POST", f"/access/v1/{path}", body)
    return status, json.loads(said)


def refused_by(code, name, status=409):
    """The decision that the office refuses to make."""
    return {"context": {"code": code, "error": {"message": name, "status": status}}, "decision": False}


def check_evaluation(bench):
    """A single evaluation by AuthZEN is the decision of checkAccess; what refuses that is in its context."""
    with Front(bench) as front:
        filled(bench, front)
        for what, parts, wanted in [
            ("allowed", {}, {"decision": True}),
            ("more than is read", {"context": {"time": "now"}, "subject": {**entity("session", "s1"),
            "properties": {"a": [1]}}},
             {"decision": True}),
            ("another session", {"subject": entity("session", "s2")}, {"decision": False}),
            ("no such session", {"subject": entity("session", "s9")}, refused_by(26, "NoSession")),
            ("no such object", {"resource": entity("object", "x")}, refused_by(6, "NoObject")),
            ("no such operation", {"action": {"name": "fly"}}, refused_by(33, "NoOperation")),
            ("a type", {"resource": entity("till", "7"), "action": {"name": "GET"}}, {"decision": True}),
            ("the same object", {"resource": entity("object", "till:7"), "action": {"name": "GET"}}, {"decision": True}),
        ]:  # fmt: skip
            for path in ("evaluation", "evaluations"):
                bench.same(f"{path}: {what}", evaluated(front, path, body_of(**parts)), (200, wanted))
        for what, parts in [
            ("no subject", {"subject": None}), ("no action", {"action": None}), ("no resource", {"resource": None}),
            ("another subject", {"subject": entity("group", "s1")}), ("no id", {"subject": {"type": "session"}}),
            ("an empty id", {"resource": entity("object", "")}), ("a type with a colon", {"resource": entity("a:b", "c")}),
            ("a text", {"subject": "s1"}), ("no name", {"action": {}}), ("a number", {"action": {"name": 7}}),
        ]:  # fmt: skip
            for path in ("evaluation", "evaluations"):
                given = evaluated(front, path, body_of(**parts))
                bench.same(f"{path}: {what}", given, (400, {"code": 34, "error": "BadRequest"}))
        bench.same("GET", front.exchange("GET", "/access/v1/evaluation")[0], 405)
        bench.same("another path", front.exchange("POST", "/access/v1/search", body_of())[0], 404)
        bench.same("the end", front.end(), 0)


def check_evaluations(bench):
    """Several evaluations: what one leaves out is that of all, in three semantics, and with limits."""
    with Front(bench) as front:
        filled(bench, front)
        yes, no = {"decision": True}, {"decision": False}
        other = {"subject": entity("session", "s2")}
        gone = {"subject": entity("session", "s9")}
        refused = refused_by(26, "NoSession")
        some = [{}, other, gone, {"resource": entity("till", "7"), "action": {"name": "GET"}}, {"action": {"name": "open"}}]
        for semantic, wanted in [
            (None, [yes, no, refused, yes, yes]),
            ("execute_all", [yes, no, refused, yes, yes]),
            ("deny_on_first_deny", [yes, no]),
            ("permit_on_first_permit", [yes]),
        ]:
            options = {"options": {"evaluations_semantic": semantic}} if semantic else {}
            given = evaluated(front, "evaluations", body_of(evaluations=some, **options))
            bench.same(f"evaluations by {semantic}", given, (200, {"evaluations": wanted}))
        denied = body_of(evaluations=[other, gone, {}, {}], options={"evaluations_semantic": "permit_on_first_permit"})
        bench.same("up to the first", evaluated(front, "evaluations", denied), (200, {"evaluations": [no, refused, yes]}))
        odd = [{}, {"subject": entity("group", "s1")}, {"resource": entity("a:b", "c")}, other]
        unknown = refused_by(34, "BadRequest", 400)
        given = evaluated(front, "evaluations", body_of(evaluations=odd))
        bench.same("sorts that nobody knows", given, (200, {"evaluations": [yes, unknown, unknown, no]}))
        given = evaluated(front, "evaluations", body_of(evaluations=odd[1:3]))
        bench.same("nothing else", given, (200, {"evaluations": [unknown, unknown]}))
        whole = json.loads(body_of())
        given = evaluated(front, "evaluations", json.dumps({"evaluations": [whole, {**whole, **other}]}))
        bench.same("each is whole", given, (200, {"evaluations": [yes, no]}))
        bench.same("none", evaluated(front, "evaluations", body_of(evaluations=[])), (200, yes))
        given = evaluated(front, "evaluations", body_of(evaluations=[{}] * 1_000))
        bench.same("1,000", given, (200, {"evaluations": [yes] * 1_000}))
        bench.same("1,001", evaluated(front, "evaluations", body_of(evaluations=[{}] * 1_001))[0], 413)
        for what, parts in [
            ("another semantic", {"evaluations": [{}], "options": {"evaluations_semantic": "any"}}), ("no list",
            {"evaluations": {}}),
            ("null", {"evaluations": None, "subject": None}), ("one without an action", {"evaluations": [{}, {"action": {}}]}),
            ("a text in it", {"evaluations": ["x"]}), ("a text for options", {"evaluations": [{}], "options": "x"}),
        ]:  # fmt: skip
            bench.same(f"evaluations: {what}", evaluated(front, "evaluations", body_of(**parts))[0], 400)
        bench.same("the end", front.end(), 0)


def check_metadata(bench):
    """The metadata needs no identity, and exists only if the address of the front is known; a request's number comes back."""
    path = "/.well-known/authzen-configuration"
    with secured(bench, "--public-url", "https://rbac.example/") as front:
        at = "https://rbac.example"
        wanted = {
            "policy_decision_point": at, "access_evaluation_endpoint": f"{at}/access/v1/evaluation",
            "access_evaluations_endpoint": f"{at}/access/v1/evaluations",
        }  # fmt: skip
        status, said = front.exchange("GET", path)
        bench.same("the metadata", (status, json.loads(said)), (200, wanted))
        bench.same("POST", front.exchange("POST", path, "{}")[0], 405)
        bench.same("a foreign page", front.exchange("GET", path, Origin="https://x.example")[0], 403)
        own = front.connection()
        own.request("POST", "/access/v1/evaluation", body_of(), {"X-Request-ID": "7-b"})
        reply = own.getresponse()
        bench.same("X-Request-ID without identity", (reply.status, reply.headers["X-Request-ID"]), (401, "7-b"))
        own.close()
    with Front(bench, name="other") as front:
        bench.same("no address", front.exchange("GET", path)[0], 404)
        for number, wanted in (("7-a", "7-a"), (None, None)):
            own = front.connection()
            own.request("POST", "/access/v1/evaluation", body_of(), {"X-Request-ID": number} if number else {})
            reply = own.getresponse()
            bench.same(f"X-Request-ID {number}", (reply.status, reply.headers["X-Request-ID"]), (200, wanted))
            own.close()
