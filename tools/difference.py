#!/usr/bin/env python3
"""Prints the differences between two dumps of offices as text.

    difference.py [--with-sessions] FIRST SECOND

FIRST and SECOND are files that tools/dump.sql has made, such as those of one office on two days. A line that begins with
`-` has what only the first office has, one that begins with `+` what only the second one has. Each name is written in
double quotes, as JSON. For a role or a user that was deleted, each grant and each assignment is listed too. The last line counts.

Whoever knows the name of a session can use it, so a session is shown by the digest of its name, without quotes. With
--with-sessions it is shown by its name; then both dumps must have the names.

The status is 0 if nothing differs, 1 if something does, and 2 if a file can't be read as such a dump.
"""

import argparse
import hashlib
import json
import re
import sys

# The digest of a session's name, as in tools/office.sql: the first 32 hexadecimal digits of its SHA3-256.
DIGITS = 32
DIGEST = re.compile(rf"[0-9a-f]{{{DIGITS}}}")

# The facts of each function of a dump, in the order in which differences are printed. {roles} is one role of the list: each
# role has a line.
FACTS = {
    "addUser": ["user {user}"],
    "addRole": ["role {role}"],
    "addInheritance": ["inheritance: {asc} is an immediate ascendant of {desc}"],
    "addPermObj": ["object {object}"],
    "addPermission": ["permission: {operation} on {object}"],
    "grantPermission": ["grant: {operation} on {object} to the role {role}"],
    "createSsdSet": [
        "static set {set} of cardinality {cardinality}",
        "member of the static set {set}: the role {roles}",
    ],
    "createDsdSet": [
        "dynamic set {set} of cardinality {cardinality}",
        "member of the dynamic set {set}: the role {roles}",
    ],
    "assignUser": ["assignment: the user {user} to the role {role}"],
    "createSession": [
        "session {session} of the user {user}",
        "activated role of the session {session}: {roles}",
    ],
    "lockUserAccount": ["lock of the user {user}"],
}


def quoted(value):
    """A name in double quotes, as JSON; a number unchanged. What a terminal obeys, or turns other letters round, is escaped."""
    text = json.dumps(value, ensure_ascii=False)
    return "".join(sign if sign.isprintable() else json.dumps(sign)[1:-1] for sign in text)


def shown(request, has_names):
    """A session as it is shown: by its name in double quotes, or by the digest of its name."""
    if has_names:
        return quoted(request["session"])
    if "digest" in request:
        if not DIGEST.fullmatch(request["digest"]):
            raise ValueError(request["digest"])
        return request["digest"]
    return hashlib.sha3_256(request["session"].encode()).hexdigest()[:DIGITS]


def facts_of(line, has_names):
    """The facts in a line of a dump: pairs of a template and its text."""
    request = json.loads(line)
    values = {key: quoted(value) for key, value in request.items()}
    if request["fn"] == "createSession":
        values["session"] = shown(request, has_names)
    for template in FACTS[request["fn"]]:
        for role in request["roles"] if "{roles}" in template else [None]:
            yield template, template.format(**{**values, "roles": quoted(role)})


def read(path, has_names):
    """All facts in a dump."""
    facts, number = set(), 0
    try:
        with open(path, "rb") as lines:
            for number, line in enumerate(lines, 1):
                facts.update(facts_of(line.decode(), has_names))
    except OSError as fault:
        raise SystemExit(stop(f"{path}: {fault.strerror}"))
    except (ValueError, KeyError, TypeError, AttributeError):
        raise SystemExit(stop(f"{path}: line {number} is not one of a dump{' with sessions' * has_names}"))
    return facts


def stop(reason):
    """Prints why nothing is compared, and returns the status."""
    print(f"difference.py: {reason}", file=sys.stderr)
    return 2


def main():
    """Prints the differences between the two dumps, and returns the status."""
    parser = argparse.ArgumentParser(description=__doc__, formatter_class=argparse.RawDescriptionHelpFormatter)
    parser.add_argument("--with-sessions", action="store_true")
    parser.add_argument("first", metavar="FIRST")
    parser.add_argument("second", metavar="SECOND")
    arguments = parser.parse_args()
    sys.stdout.reconfigure(encoding="utf-8")
    first, second = (read(path, arguments.with_sessions) for path in (arguments.first, arguments.second))
    order = [template for templates in FACTS.values() for template in templates]
    marked = [("-", fact) for fact in first - second] + [("+", fact) for fact in second - first]
    for mark, (_, text) in sorted(marked, key=lambda one: (order.index(one[1][0]), one[1][1], one[0] == "+")):
        print(mark, text)
    print(f"{len(first - second)} only in the first, {len(second - first)} only in the second")
    return 1 if marked else 0


if __name__ == "__main__":
    sys.exit(main())
