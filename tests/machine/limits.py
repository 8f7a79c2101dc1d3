"""Scripts that reach each limit and would exceed it, with the answers that are written beside them.

A line is `COMMAND = ANSWER`: a function with its arguments in order, and 0 or the number of the refusal
with the set, kind or version that comes with it; for an import `ASSIGNED/ALREADY RECORD/CODE..`. `-` is an
empty list. A command may have one number or two before it: it is then repeated, `#` and `@` are
the numbers from 1 up to them, and `&` is one more than `#`. In a list of roles `r*32` is `r1,r2`
and so on up to `r32`, and so it does on either side of a record of an import, which is then all pairs of
both; a record with `^3` after it occurs three times. No line is longer than a request may be.
"""

import json
import re
from itertools import product
from math import isqrt

from .commands import COMMANDS
from .state import ERRORS, LIMITS
from .texts import DONE, json_text


def scripts_of(version):
    """The scripts of an office of a version, by what they reach, with its limits in them."""
    most = {kind: limits[version - 1] for kind, limits in LIMITS.items()}
    users, roles, objects, sessions, records = (most[kind] for kind in ("user", "role", "object", "session", "record"))
    permissions, grants, active, members = (most[kind] for kind in ("permission", "grant", "activeRole", "member"))
    # Some of the roles, how many have all permissions, how many are above as many others, and half of the roles of 200 users.
    some, having, above, half = roles // 4, grants // permissions, isqrt(most["edge"]), most["assignment"] // 400
    return {
        "users": f"""
            {users} addUser u# = 0
            addUser ann = 32 user
            addUser u1 = 3
            deleteUser u1 = 0
            addUser ann = 0
            addUser bob = 32 user""",
        "roles": f"""
            {some} addRole r# = 0
            addRole r{some + 1} = 0
            {roles - some - 1} addRole q# = 0
            addRole clerk = 32 role
            addRole r1 = 5
            addAscendant boss r1 = 32 role
            addAscendant r1 r2 = 5
            addAscendant boss cook = 4
            addDescendant r1 aide = 32 role
            addDescendant r1 r2 = 5
            addDescendant cook aide = 4
            addInheritance r1 r2 = 0
            deleteRole r3 = 0
            addDescendant r2 aide = 0
            addRole clerk = 32 role""",
        "objects": f"""
            {objects} addPermObj o# = 0
            addPermObj safe = 32 object
            addPermObj o1 = 7
            deletePermObj o1 = 0
            addPermObj safe = 0
            addPermObj desk = 32 object""",
        "permissions and grants": f"""
            addPermObj safe = 0
            {permissions} addPermission safe p# = 0
            addPermission safe open = 32 permission
            addPermission safe p1 = 9
            addPermission desk open = 6
            {having + 1} addRole r# = 0
            {having} {permissions} grantPermission safe p@ r# = 0
            grantPermission safe p1 r{having + 1} = 32 grant
            grantPermission safe p1 r1 = 12
            grantPermission safe p1 cook = 4
            revokePermission safe p2 r1 = 0
            grantPermission safe p1 r{having + 1} = 0
            grantPermission safe p2 r1 = 32 grant
            deletePermission safe p1 = 0
            addPermission safe open = 0
            addPermission safe p1 = 32 permission
            grantPermission safe p2 r1 = 0""",
        "assignments": f"""
            100 addUser u# = 0
            100 addUser v# = 0
            addUser ann = 0
            {half} addRole r# = 0
            {half} addRole q# = 0
            addRole temp = 0
            importAssignments u*100/r*{half} = {100 * half}/0
            importAssignments u*100/q*{half} = {100 * half}/0
            importAssignments v*100/r*{half} = {100 * half}/0
            importAssignments v*100/q*{half - 1} = {100 * (half - 1)}/0
            99 assignUser v& q{half} = 0
            assignUser v1 q{half} = 0
            createSsdSet pay r1,temp 2 = 0
            assignUser ann r1 = 32 assignment
            assignUser u1 r1 = 10
            assignUser ann cook = 4
            assignUser u1 temp = 32 assignment
            importAssignments ann/r1 u1/r1 u1/temp zed/r1 = 0/1 1/32 3/32 4/2
            deassignUser u2 r2 = 0
            assignUser u1 temp = 24 pay
            importAssignments u1/temp ann/r1 ann/r2 u2/r2 = 1/0 1/24 3/32 4/32
            assignUser u2 r2 = 32 assignment""",
        "edges": f"""
            {above} addRole a# = 0
            {above} addRole b# = 0
            addRole clerk = 0
            addRole temp = 0
            {above} {above} addInheritance a# b@ = 0
            addUser ann = 0
            assignUser ann a1 = 0
            createSsdSet pay b1,clerk 2 = 0
            createDsdSet till b1,temp 2 = 0
            createSession ann a1 s1 = 0
            addInheritance a1 clerk = 32 edge
            addInheritance a1 temp = 32 edge
            addInheritance a1 b1 = 14
            addInheritance b1 a1 = 16
            addInheritance a1 a1 = 16
            addInheritance a1 cook = 4
            addAscendant boss clerk = 32 edge
            addAscendant clerk temp = 5
            addDescendant clerk aide = 32 edge
            addDescendant clerk temp = 5
            {roles - 2 * above - 3} addRole r# = 0
            addAscendant boss clerk = 32 edge
            addRole boss = 0
            addAscendant aide clerk = 32 role
            addDescendant clerk aide = 32 role
            deleteInheritance a{above} b{above} = 0
            addInheritance a1 clerk = 24 pay
            addInheritance a1 temp = 25 till
            addInheritance a2 clerk = 0
            addInheritance a{above} b{above} = 32 edge""",
        "sessions": f"""
            addUser ann = 0
            addUser bob = 0
            {active + 8} addRole r# = 0
            {active + 8} assignUser ann r# = 0
            {sessions} createSession ann - s# = 0
            createSession ann - t = 32 session
            createSession ann r1 t = 32 session
            createSession ann r*{active + 1} t = 32 session
            createSession ann - s1 = 27
            createSession bob r1 t = 29
            createSession ann cook t = 4
            createSession zed - t = 2
            lockUserAccount bob = 0
            createSession bob - t = 37
            createSession bob r1 t = 29
            deleteSession ann s1 = 0
            createSession ann r*{active + 1} t = 32 activeRole
            createSession ann - t = 0
            createSession ann - s1 = 32 session""",
        "activated roles": f"""
            addUser ann = 0
            {active + 8} addRole r# = 0
            {active + 7} assignUser ann r# = 0
            createDsdSet till r{active},r{active + 1} 2 = 0
            createSession ann r*{active + 1} s1 = 32 activeRole
            createSession ann r*{active + 8} s1 = 29
            createSession ann r*{active} s1 = 0
            addActiveRole ann s1 r{active + 1} = 32 activeRole
            addActiveRole ann s1 r{active + 2} = 32 activeRole
            addActiveRole ann s1 r1 = 30
            addActiveRole ann s1 r{active + 8} = 29
            createSession ann r1 s2 = 0
            addActiveRole ann s2 r{active + 2} = 0
            dropActiveRole ann s1 r1 = 0
            addActiveRole ann s1 r{active + 1} = 25 till
            addActiveRole ann s1 r{active + 2} = 0
            addActiveRole ann s1 r1 = 32 activeRole""",
        "activated roles without their juniors": f"""
            addUser ann = 0
            {active + 8} addRole r# = 0
            {active + 7} addInheritance r# r& = 0
            assignUser ann r1 = 0
            createSession ann r1 s1 = 0
            {active - 2} addActiveRole ann s1 r& = 0
            addActiveRole ann s1 r{active} = 0
            addActiveRole ann s1 r{active + 1} = 32 activeRole""",
        "static sets": f"""
            {members + 8} addRole r# = 0
            {most["ssdSet"]} createSsdSet t# r1,r2 2 = 0
            createSsdSet pay r1,r2 2 = 32 ssdSet
            createSsdSet t1 r1,r2 2 = 19
            createSsdSet pay r*{members + 1} 2 = 32 ssdSet
            deleteSsdSet t1 = 0
            createSsdSet pay r*{members + 1} 2 = 32 member
            createSsdSet pay r*{members} 2 = 0
            addSsdRoleMember pay r{members + 1} = 32 member
            createSsdSet t1 r1,r2 2 = 32 ssdSet""",
        "dynamic sets": f"""
            {members + 8} addRole r# = 0
            {most["dsdSet"]} createDsdSet t# r1,r2 2 = 0
            createDsdSet pay r1,r2 2 = 32 dsdSet
            createDsdSet t1 r1,r2 2 = 19
            createDsdSet pay r*{members + 1} 2 = 32 dsdSet
            deleteDsdSet t1 = 0
            createDsdSet pay r*{members + 1} 2 = 32 member
            createDsdSet pay r*{members} 2 = 0
            addDsdRoleMember pay r{members + 1} = 32 member
            createDsdSet t1 r1,r2 2 = 32 dsdSet""",
        "records": f"""
            addUser a = 0
            addRole b = 0
            importAssignments a/b^{records} = 1/{records - 1}
            importAssignments a/b^{records + 1} = 32 record
            importAssignments z/c^{records + 1} = 32 record""",
    }


# The scripts of version 2, which the program can be given.
SCRIPTS = scripts_of(2)

# The scripts of version 1 that differ from them, and one about locks, which it doesn't have. The program makes no office of version 1, and
# replays into none in memory: they are for the model alone.
OLD_SCRIPTS = {name: script for name, script in scripts_of(1).items() if script != SCRIPTS[name]} | {
    "locks": """
        lockUserAccount ann = 51 1
        unlockUserAccount ann = 51 1
        addUser ann = 0
        lockUserAccount ann = 51 1
        unlockUserAccount ann = 51 1
        createSession ann - s1 = 0""",
}

# The key at which a refusal has what it names.
TOLD = {24: "set", 25: "set", 32: "kind", 51: "version"}


def listed(text):
    """Returns the names of a list, with a name for each number in place of a star."""
    names = []
    for part in text.split(","):
        stem, star, count = part.partition("*")
        names += [f"{stem}{number}" for number in range(1, int(count) + 1)] if star else [part]
    return names


def imported(words):
    """The text of an import of these records."""
    records = []
    for word in words:
        pair, _, times = word.partition("^")
        users, roles = pair.split("/")
        some = [f"{user},{role}\n" for user in listed(users) for role in listed(roles)]
        records += some * int(times or 1)
    return "user,role\n" + "".join(records)


def written(key, word):
    """The value of an argument."""
    if key == "cardinality":
        return int(word)
    if key == "roles":
        return [] if word == "-" else listed(word)
    return word


def line_of(words):
    """The function of a command and its request line."""
    function, *arguments = words
    keys = COMMANDS[function][1].split()
    if function == "importAssignments":
        values = {"csv": imported(arguments)}
    else:
        values = {key: written(key, word) for key, word in zip(keys, arguments, strict=True)}
    return function, json.dumps({"fn": function, **values}).encode()


def answer_of(text):
    """The answer that a line of a script has."""
    if text == "0":
        return DONE
    first, *rest = text.split()
    if "/" in first:
        assigned, already = map(int, first.split("/"))
        refused = [dict(zip(("record", "code"), map(int, word.split("/")))) for word in rest]
        tally = {"already": already, "assigned": assigned, "refused": refused}
        return json_text({"ok": True, "value": tally}).encode()
    code = int(first)
    named = {TOLD[code]: int(rest[0]) if code == 51 else rest[0]} if rest else {}
    return json_text({"code": code, "error": ERRORS[code], **named}).encode()


def repeat(command):
    """Repeats the command as the numbers before it demand, with the numbers in place of their signs."""
    counts, command = re.fullmatch(r"((?:\d+ )*)(.*)", command).groups()
    outer, inner = (*map(int, counts.split()), 1, 1)[:2]
    for one, two in product(range(1, outer + 1), range(1, inner + 1)):
        yield command.replace("#", str(one)).replace("&", str(one + 1)).replace("@", str(two))


def expand(script):
    """The requests of a script: each a function, a line and the answer that it has."""
    for line in script.strip().splitlines():
        command, answer = (part.strip() for part in line.split("="))
        for text in repeat(command):
            yield *line_of(text.split()), answer_of(answer)
