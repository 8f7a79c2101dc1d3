"""A request that can't be read is refused as before, and the field Office-Why names the key, or the limit that was met."""

import json

import pytest

from .program import Front

# Requests to paths without a body that are wrong in one way, and what is said of each.
QUERIES = [
    ("/lists/users?limit=0", "limit is a number from 1 to 1000"),
    ("/lists/users?limit=1001", "limit is a number from 1 to 1000"),
    ("/lists/users?role=a", 'the list users has no key "role"'),
    ("/lists/grants?n%C3%A4me=a", 'the list grants has no key "n\\u00e4me"'),
    ("/lists/roles?" + "k" * 200 + "=a", f'the list roles has no key "{"k" * 100}"..'),
    ("/lists/users?user=a&user=b", '"user" is there more than once'),
    ("/lists/users?user=%zz", "the query isn't written as a URL has it"),
    ("/lists/permissions?user=a&role=b", "user and role exclude each other"),
    ("/watch?from=1", 'a watch has no key "from"'),
    ("/watch?after=1&after=2", '"after" is there more than once'),
    ("/watch?after=-1", "after, or Last-Event-ID, has to be a number from 0"),
    ("/watch", "after, or Last-Event-ID, has to be a number from 0"),
    ("/picture?name=a", 'a picture has no key "name"'),
    ("/picture?role=a&role=b", '"role" is there more than once'),
    ("/picture?role=%zz", "the query isn't written as a URL has it"),
    ("/record?since=x", "since: a time is written as in 2026-11-27 or 2026-11-27T09:30, in UTC"),
    ("/record?user=%zz", "the query isn't written as a URL has it"),
    ("/record/links?after=x", "after is the number of an entry, or 0"),
]

EVALUATION = {
    "subject": {"type": "user", "id": "ann"}, "action": {"name": "open"}, "resource": {"type": "object", "id": "vault"},
}  # fmt: skip
REVIEW = {"review": "of 2026", "sha256": "0" * 64, "kept": 1, "removed": 1, "open": 1}

# Bodies that are wrong in one way.
BODIES = [
    ("/lists", "", "the body has no line with a list"),
    ("/lists", {"list": "users", "limit": "9"}, "limit is a number from 1 to 1000"),
    ("/lists", {"list": "users", "prefix": 9}, '"prefix" has to be a text'),
    ("/lists", {"list": "users", "role": "a"}, 'the list users has no key "role"'),
    ("/lists", '{"list":"users"}\n' * 21, "a request has at most 20 lists"),
    ("/lists", "[]", "this is no object of JSON"),
    ("/reports/permissions", {"name": "a"}, 'the report permissions has no key "name"'),
    ("/reports/permissions", {"left": 1}, 'the report permissions has no key "left"'),
    ("/reports/permissions", {"user": 1}, "user has to be a text"),
    ("/reports/near", {"left": "1"}, "left has to be a number"),
    ("/reports/near", {"limit": 0}, "limit is a number from 1"),
    ("/reports/room", {"format": "xml"}, "format is csv or lines"),
    ("/reviews", {**REVIEW, "review": 1}, "review has to be a text"),
    ("/reviews", {**REVIEW, "review": "r" * 257}, "review has 1 to 256 bytes, and no control character or line separator"),
    ("/reviews", {**REVIEW, "review": "a\u2028b"}, "review has 1 to 256 bytes, and no control character or line separator"),
    ("/reviews", {**REVIEW, "sha256": "A" * 64}, "sha256 has 64 digits of 0 to 9 and a to f"),
    ("/reviews", {**REVIEW, "kept": -1}, "kept is a number from 0 to 1000000"),
    ("/sessions", {"roles": []}, "user is missing, and has to be a text"),
    ("/sessions", {"user": "ann", "roles": "a"}, "roles has to be a list of texts"),
    ("/sessions", {"user": "ann", "roles": [f"r{n}" for n in range(101)]}, "roles has at most 100 roles"),
    ("/explain", {"operation": "open", "object": "vault"}, "one key has to be there: session or user"),
    ("/explain", {"user": "ann", "operation": 1, "object": "vault"}, "operation has to be a text"),
    ("/explain", {"user": "ann", "operation": "open"}, "object is missing"),
    ("/explain", {"command": {"fn": "addUser", "user": "a"}}, "command: addUser can't violate a separation of duty set"),
    ("/v1/decideByUser", {"operation": "open", "object": "vault"}, "one key has to be there: user"),
    ("/v1/decideByUser", {"user": "ann", "object": "vault"}, "operation is missing"),
    ("/v1/batch?stop=last", {"fn": "addUser", "user": "a"}, "a batch has no query but stop=first"),
    ("/v1/batch?stop=first",
     '{"fn":"addUser","user":"a"}\n{"fn":"decideByUser","user":"a","operation":"open","object":"vault"}\n',
     "with stop=first a batch of commands has no decideByUser"),
    ("/what-if", "", "the body has no command"),
    ("/what-if", {"fn": "assignedRoles", "user": "a"}, "assignedRoles is no command, and changes nothing"),
    ("/access/v1/evaluation", {**EVALUATION, "subject": "ann"}, "subject has to be an object"),
    ("/access/v1/evaluation", {**EVALUATION, "subject": {"type": "user"}}, "subject.id has to be a text"),
    ("/access/v1/evaluation", {**EVALUATION, "action": {}}, "action.name has to be a text"),
    ("/access/v1/evaluation", {**EVALUATION, "action": {"name": ""}}, "action.name is missing"),
    ("/access/v1/evaluation", {"subject": EVALUATION["subject"]}, "action.name is missing"),
    ("/access/v1/evaluation", {**EVALUATION, "subject": {"type": "x", "id": "a"}},
     "subject.type is session or user, and resource.type has no colon"),
    ("/access/v1/evaluations", {"evaluations": {}}, "evaluations has to be a list of objects"),
    ("/access/v1/evaluations", {"evaluations": [EVALUATION], "options": []}, "options has to be an object"),
    ("/access/v1/evaluations", {"evaluations": [EVALUATION], "options": {"evaluations_semantic": "x"}},
     "evaluations_semantic is execute_all, deny_on_first_deny or permit_on_first_permit"),
]  # fmt: skip

# Fields of a request for a decision that are wrong in one way. Names have `_` for `-`.
FIELDS = [
    ("/decide", {"Office_User": "ann", "Office_Object": "vault"}, "Office-Operation is missing"),
    ("/decide", {"Office_User": "ann", "Office_Operation": "open"}, "Office-Object is missing"),
    ("/decide", {"Office_User": "ann", "Office_Session": "s", "Office_Operation": "open", "Office_Object": "vault"},
     "Office-Session and Office-User exclude each other"),
    ("/lists/users", {"Consistency": "strong"}, "Consistency is linearizable or local"),
]  # fmt: skip

REFUSED = {"code": 34, "error": "BadRequest"}


def reply(front, method, path, body=None, fields=None):
    """The status, the body and the reason of an answer."""
    own = front.connection()
    text = body if body is None or isinstance(body, str) else json.dumps(body)
    own.request(method, path, text, {name.replace("_", "-"): value for name, value in (fields or {}).items()})
    answer = own.getresponse()
    try:
        return answer.status, json.loads(answer.read()), answer.getheader("Office-Why")
    finally:
        own.close()


@pytest.mark.needs("dot")
def check_reasons(bench):
    """Each wrong request has its reason; a path of nothing names it; a body that is too long names its limit."""
    with Front(bench) as front:
        for path, said in QUERIES:
            bench.same(path, reply(front, "GET", path), (400, REFUSED, said))
        for path, body, said in BODIES:
            bench.same(f"{path} {body}"[:120], reply(front, "POST", path, body), (400, REFUSED, said))
        for path, fields, said in FIELDS:
            bench.same(f"{path} {fields}", reply(front, "GET", path, fields=fields), (400, REFUSED, said))
        revision = {"If_Policy_Revision": "first"}
        said = "If-Policy-Revision has to be a number"
        bench.same(said, reply(front, "POST", "/v1/addUser", {"user": "a"}, revision), (400, REFUSED, said))
        unknown = {"code": 35, "error": "UnknownFunction"}
        for method, path, said in [
            ("GET", "/lists/user", 'there is no list "user"'),
            ("POST", "/reports/user", 'there is no report "user"'),
            ("POST", "/lists", 'there is no list "user"'),
        ]:
            bench.same(path, reply(front, method, path, {"list": "user"} if path == "/lists" else None), (404, unknown, said))
        for path, most in (("/lists", 65_536), ("/reviews", 4096), ("/reports/room", 4096), ("/sessions", 65_536), ("/what-if", 262_144)):
            wanted = (413, REFUSED, f"the body has more than {most} bytes")
            bench.same(f"{path} with a long body", reply(front, "POST", path, " " * (most + 1)), wanted)
        for number in range(151):
            front.ask("addRole", {"role": f"r{number}"})
        bench.same("a large picture", reply(front, "GET", "/picture"), (413, REFUSED, "a picture has at most 150 roles"))
        many = {"evaluations": [{}] * 1001}
        bench.same("many", reply(front, "POST", "/access/v1/evaluations", many), (413, REFUSED, "evaluations has at most 1000 of them"))
