"""The table of docs/howto/callers.md of which scopes allow which calls: each row is tried for each of its functions."""

import hashlib
import json
import re

from machine.commands import COMMANDS
from machine.questions import QUESTIONS
from pages import markdown

from .identities import bearer, rules, tokens
from .program import Front
from .sources import keys_of_functions

# The operations for other requests. Their own checks try them.
READ = ("metrics", "lists", "snapshot", "watch", "record", "whatIf", "review", "reports")

# The keys of what is asked like a function and is none.
OTHERS_KEYS = {"decideByUser": ["user", "operation", "object"]}

# What the calls of the checks are about.
VALUES = {
    "user": "ann", "role": "clerk", "asc": "boss", "desc": "clerk", "object": "shop:till", "operation": "open", "session": "s1",
    "set": "pay", "roles": ["boss", "clerk"], "cardinality": 2, "csv": "user,role\nann,clerk\n",
}  # fmt: skip

# The scopes that the words of the table stand for.
SCOPES = {
    "`user`": ["user ann"],
    "`role`": ["role clerk"],
    "`asc` and `desc`, as roles": ["role boss", "role clerk"],
    "each of `roles`; an empty list needs `office`": ["role boss", "role clerk"],
    "`object`": ["object shop:"],
    "`object` and `role`": ["object shop:till", "role clerk"],
    "nothing": [],
}

# Scopes that allow none of the calls.
OTHERS = ["user bob", "role cashier", "object wh:", "object shop"]


def rows():
    """The functions of the table, with what allows them besides `office`."""
    tables = markdown.tables(markdown.section(markdown.page("howto/callers.md"), "## 2. What a caller may do"))
    (table,) = [one for one in tables if "`addUser`" in one[0][0]]
    return {name: allowed for names, allowed in table for name in re.findall(r"`(\w+)`", names) if name not in ("GET",)}


def rights_of(function, scopes):
    """The callers for a function: with its scopes, without each of them in turn, with the office, and with other scopes."""
    callers = {f"token:{function} office": ["office"]}
    if scopes:
        callers[f"token:{function} all"] = scopes
        for i, scope in enumerate(scopes):
            callers[f"token:{function} without {i}"] = [one for one in scopes if one != scope]
    return {caller: [(function, scope) for scope in given] for caller, given in callers.items()}


def body_of(function, values):
    """The body of a call."""
    if function == "importAssignments":
        return values["csv"]
    return json.dumps({key: values[key] for key in {**keys_of_functions(), **OTHERS_KEYS}[function]})


def check_rows(bench):
    """Each function is allowed by the scopes of its row, and by no fewer."""
    listed = rows()
    functions = sorted({*COMMANDS, *QUESTIONS})
    bench.same("the functions of the table", sorted(listed), sorted([*functions, *READ, "decideByUser"]))
    rights = {}
    for function, allowed in listed.items():
        if function not in READ:
            rights.update(rights_of(function, SCOPES[allowed]))
    bench.write("callers.jsonl", rules(rights).encode())
    names = [caller.partition(":")[2] for caller in rights]
    bench.write("tokens", "".join(f"{hashlib.sha256(name.encode()).hexdigest()} {name}\n" for name in names).encode())
    with Front(bench, "--callers", bench.path("callers.jsonl"), "--tokens", bench.path("tokens")) as front:
        kept = front.connection()
        for caller in rights:
            function, _, which = caller.partition(":")[2].partition(" ")
            status, _ = front.ask(function, body_of(function, VALUES), kept, **bearer(caller.partition(":")[2]))
            bench.same(f"{function} {which}", status == 403, "without" in which)
        for function in ("createSession", "createSsdSet", "createDsdSet"):
            body = body_of(function, {**VALUES, "roles": []})
            for which, wanted in (("all", 403), ("office", None)):
                status, _ = front.ask(function, body, kept, **bearer(f"{function} {which}"))
                bench.same(f"{function} of no roles, {which}", status == 403, wanted == 403)
        kept.close()


def check_other_names(bench):
    """Each function is refused to a caller whose scopes have other names."""
    covered = {name: allowed for name, allowed in rows().items() if SCOPES[allowed]}
    kinds = {"`user`": ["user"], "`object`": ["object"], "`object` and `role`": ["object", "role"]}
    pairs = [
        (function, scope)
        for function, allowed in covered.items()
        for scope in OTHERS
        if scope.split()[0] in kinds.get(allowed, ["role"])
    ]
    bench.write("callers.jsonl", rules({"token:other": pairs}).encode())
    bench.write("tokens", tokens(other="other").encode())
    with Front(bench, "--callers", bench.path("callers.jsonl"), "--tokens", bench.path("tokens")) as front:
        kept = front.connection()
        for function in covered:
            status, _ = front.ask(function, body_of(function, VALUES), kept, **bearer("other"))
            bench.same(f"{function} by scopes of other names", status, 403)
        kept.close()
