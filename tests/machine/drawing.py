"""Random request lines: the same ones for the same seed.

Most commands are chosen so that the state so far accepts them, so that there is much in it at once; the others have names from
a few that exist, so that each refusal is met. Now and then a line is no request, or one that is written in another way.
"""

import json
import random

from .commands import COMMANDS
from .questions import QUESTIONS
from .replaying import Replay
from .requests import GREATEST
from .state import authorized_roles

# The names to choose from; some need care in an answer or in a CSV field.
POOLS = {
    "user": ["ann", "bob", "eve", 'q"u', "b\\s", "c,d", "\u00e9ve", " zed "],
    "role": ["r0", "r1", "r2", "r3", "r4", "r5", "r6", "r7", "r,8", 'r"9', "\u00fc" * 32],
    "object": ["o0", "o1", "o\\2", 'o"3', "\u00f64"],
    "operation": ["p0", "p1", "p2", 'p"3', "p,4"],
    "session": ["s0", "s1", "s2", "s3", "s4"],
    "set": ["t0", "t1", "t2", "t,3"],
}
POOLS["asc"] = POOLS["desc"] = POOLS["role"]

# For this many lines at first, few commands remove anything.
BUILDING = 120
TAKING = ("delete", "deassign", "drop", "revoke", "lock")

# How often each command is chosen, if not as often as most; a question is chosen half as often as all commands together.
USUAL = 2
OFTEN = {
    "addUser": 6,
    "addRole": 7,
    "addPermObj": 5,
    "deletePermObj": 1,
    "addPermission": 15,
    "deletePermission": 1,
    "grantPermission": 30,
    "revokePermission": 4,
    "assignUser": 14,
    "deassignUser": 4,
    "addInheritance": 20,
    "deleteInheritance": 3,
    "createSsdSet": 6,
    "addSsdRoleMember": 3,
    "setSsdSetCardinality": 3,
    "deleteSsdSet": 1,
    "createDsdSet": 4,
    "addDsdRoleMember": 3,
    "setDsdSetCardinality": 3,
    "deleteDsdSet": 1,
    "createSession": 12,
    "addActiveRole": 10,
    "dropActiveRole": 4,
    "importAssignments": 4,
}
WEIGHTS = {name: OFTEN.get(name, USUAL) for name in COMMANDS}

# Invalid names.
BAD_NAMES = ["", "n" * 65, "\u00e9" * 33, "a\tb", "\x00", "\x7f", "\x1f"]

# Values of other types, as JSON.
BAD_VALUES = {
    "text": ["7", "null", "true", '["ann"]', '{"user":"ann"}', "-0.5"],
    "roles": ["7", "null", '"r1"', '["r1",7]', '[["r1"]]', "{}", "[null]"],
    "cardinality": ["2.0", "2e0", "-0", "-2", '"2"', "null", str(GREATEST + 1), "1e99", "[2]", "9" * 30],
}

# Lines that are no request, whatever function they name.
NO_REQUESTS = [
    b"[]",
    b"{}",
    b"null",
    b"7",
    b'"addUser"',
    b"{",
    b'{"fn":7}',
    b'{"fn":["addUser"]}',
    b'{"user":"ann"}',
    b"\xff",
    b'{"fn":"addUser","user":"\xc3"}',
    b'{"fn":"addUser","user":"\\ud800"}',
    b'{"fn":"addUser","user":"a\tb"}',
    b'{"fn":"addUser","user":"ann"} x',
    b'{"fn":"addUser","user":"ann",}',
    b'{"fn":"addUser","user":"ann","x":1e999}',
    b'{"fn":"addUser","user":"ann","x":NaN}',
    b'{"fn":"addUser","user":"ann","x":01}',
    b'{"fn":"addUser","user":"ann","x":' + b"[" * 127 + b"]" * 127 + b"}",
    b"\xef\xbb\xbf" + b'{"fn":"ssdRoleSets"}',
]

# Names of no function.
NO_FUNCTIONS = ["fly", "", "AddUser", "addUser ", "adduser", "importAssignment"]

# Keys that a request may have and that are ignored.
NOT_COUNTED = [
    '"x":[1,{"y":null}]',
    '"Fn":"addUser"',
    '"":{}',
    '"fn ":-1.5e-3',
    '"x":123456789012345678901234567890',
    '"x":[1E300,0.1e-999,-0]',
    '"x":' + "[" * 126 + "]" * 126,
    '"x":"\\ud83d\\ude00\\u0000\\/"',
]

# What a byte is changed to.
BYTES = b'{}[]",:\\/u0123456789abeEfnrtx+-. \t\r\x00\x0c\x1f\x7f\x80\xc3\xa9\xff'

# CSV texts that are none of assignments, and others that need care.
ODD_ASSIGNMENTS = [
    "",
    "\n\n",
    "user;role\nann;r1\n",
    "role,user\nr1,ann\n",
    " user,role\nann,r1\n",
    "user,role,x\nann,r1,x\n",
    "user,role\nann\n",
    "user,role\nann,r1\nann,r1,r2\n",
    "user,role\nann,\n",
    "user,role\n,r1\n",
    'user,role\n"",r1\n',
    "user,role\nann,r1\nann,a\tb\n",
    'user,role\n"ann\n",r1\n',
    "\ufeff\ufeffuser,role\nann,r1\n",
    '"user"x,role\nann,r1\n',
    '"us"er,ro"le\nann,r1\n',
    '"us"er,role\n"an"n,r1\n',
    'user,role\nann,"r1',
    'user,role\nq"u,r1\n"q""u",r2\n"ann"" ",r3\n',
    '\n\r\n"user",role\r\r\nann,"r1"\r',
    "user,role",
    "user,role\n\n\nann,r1\n \n",
]


class Draws:
    """Makes random requests for an office, whose state it follows by a replay of its own."""

    def __init__(self, seed):
        self.random = random.Random(seed)
        self.replay = Replay()
        self.drawn = 0

    @property
    def state(self):
        return self.replay.state

    def chance(self, of):
        """True once in this many calls, on average."""
        return self.random.randrange(of) == 0

    def one(self, items):
        """One of these, which are in order, or None if there is none."""
        items = sorted(items)
        return self.random.choice(items) if items else None

    def some(self, items, most):
        """At most this many of these, in any order."""
        items = sorted(items)
        return self.random.sample(items, min(len(items), self.random.randrange(most + 1)))

    def draw(self):
        """A request: the function that is meant, its line, and its answer; a blank line has no answer."""
        if self.chance(80):
            return "blank", self.random.choice([b"", b" ", b"\t\r", b"\r"]), b""
        self.drawn += 1
        function, line = self.draw_line()
        return function, line, self.replay.answer(line)

    def draw_line(self):
        if self.chance(60):
            return "no request", self.random.choice(NO_REQUESTS)
        function = self.draw_function()
        values = self.draw_values(function)
        if self.chance(25):
            members = [("fn", json.dumps(function)), *values.items()]
            return "changed byte", self.change(self.write(members))
        if self.chance(100):
            members = [("fn", json.dumps(self.random.choice(NO_FUNCTIONS))), *values.items()]
            return "no function", self.write(members)
        if values and self.chance(12):
            self.spoil(values)
        return function, self.write([("fn", json.dumps(function)), *values.items()])

    def draw_function(self):
        if self.chance(3):
            return self.random.choice(list(QUESTIONS))
        function = self.random.choices(list(WEIGHTS), list(WEIGHTS.values()))[0]
        if self.drawn < BUILDING and function.startswith(TAKING) and not self.chance(4):
            return self.draw_function()
        return function

    def draw_values(self, function):
        """The arguments of a function at their keys, each as JSON."""
        keys = (COMMANDS.get(function) or QUESTIONS[function])[1].split()
        values = None if self.chance(4) else self.aimed(function)
        if values is None or any(value is None for value in values):
            values = [self.draw_value(key) for key in keys]
        return {key: self.as_json(value) for key, value in zip(keys, values)}

    def draw_value(self, key):
        """Any argument."""
        if key == "roles":
            return [self.random.choice(POOLS["role"]) for _ in range(self.random.randrange(5))]
        if key == "cardinality":
            return self.random.choice([0, 1, 2, 2, 2, 3, 3, 4, 5, GREATEST])
        if key == "csv":
            return self.draw_csv()
        return self.random.choice(POOLS[key])

    def as_json(self, value):
        return json.dumps(value, ensure_ascii=self.chance(2))

    # Arguments that are aimed at the state.

    def aimed(self, function):
        """Arguments with which the function is likely to be accepted; None if there are none."""
        if function in QUESTIONS:
            return self.aimed_question(function)
        sets = self.state.dynamic_sets if "Dsd" in function else self.state.static_sets
        if "Dsd" in function or "Ssd" in function:
            return self.aimed_set(function, sets)
        aim = getattr(self, "aim_" + function, None)
        return aim() if aim else None

    def aimed_question(self, function):
        if function == "permissionRoles":
            return self.one(self.state.permissions)
        if function == "checkAccess":
            ob, op = self.one(self.state.permissions) or (None, None)
            return self.one(self.state.sessions), op, ob
        known = {
            "user": self.state.users,
            "role": self.state.roles,
            "object": self.state.objects,
            "session": self.state.sessions,
            "set": self.state.dynamic_sets if "dsd" in function else self.state.static_sets,
        }
        return [self.one(known[key]) for key in QUESTIONS[function][1].split()]

    def aimed_set(self, function, sets):
        name = self.one(sets)
        roles, cardinality = sets.get(name, (frozenset(), 2))
        if function.startswith("create"):
            some = self.some(self.state.roles, 4)
            return self.one(set(POOLS["set"]) - set(sets)), some, self.random.choice([2, 2, 3, len(some)])
        if function.startswith("addD") or function.startswith("addS"):
            return name, self.one(self.state.roles - roles)
        if function.endswith("Member"):
            return name, self.one(roles)
        if function.startswith("set"):
            return name, self.random.choice([cardinality, cardinality + 1, 2])
        return [name]

    def aim_addUser(self):
        return [self.one(set(POOLS["user"]) - self.state.users)]

    def aim_deleteUser(self):
        """Mostly one who is locked, since the lock has to go as well."""
        locked = self.state.locked
        return [self.one(locked if locked and not self.chance(3) else self.state.users)]

    def aim_addRole(self):
        return [self.one(set(POOLS["role"]) - self.state.roles)]

    def aim_addPermObj(self):
        return [self.one(set(POOLS["object"]) - self.state.objects)]

    def aim_deleteRole(self):
        held = {role for edge in self.state.edges for role in edge}
        for roles, _ in [*self.state.static_sets.values(), *self.state.dynamic_sets.values()]:
            held |= roles
        return [self.one(self.state.roles - held)]

    def aim_deletePermObj(self):
        return [self.one(self.state.objects - {ob for ob, _ in self.state.permissions})]

    def aim_addPermission(self):
        ob = self.one(self.state.objects)
        known = {op for on, op in self.state.permissions if on == ob}
        return ob, self.one(set(POOLS["operation"]) - known)

    def aim_deletePermission(self):
        return self.one(self.state.permissions)

    def aim_grantPermission(self):
        ob, op = self.one(self.state.permissions) or (None, None)
        return ob, op, self.one(self.state.roles)

    def aim_revokePermission(self):
        return self.one(self.state.grants)

    def aim_assignUser(self):
        return self.one(self.state.users), self.one(self.state.roles)

    def aim_deassignUser(self):
        return self.one(self.state.assignments)

    def aim_addInheritance(self):
        """Mostly from a role to one after it in byte order, so that few edges would make a cycle."""
        two = self.random.sample(sorted(self.state.roles), min(len(self.state.roles), 2))
        if len(two) < 2:
            return None
        return two if self.chance(5) else sorted(two)

    def aim_deleteInheritance(self):
        return self.one(self.state.edges)

    def aim_addAscendant(self):
        return self.one(set(POOLS["role"]) - self.state.roles), self.one(self.state.roles)

    def aim_addDescendant(self):
        return self.one(self.state.roles), self.one(set(POOLS["role"]) - self.state.roles)

    def aim_createSession(self):
        user = self.one(self.state.users if self.chance(8) else {u for u, _ in self.state.assignments})
        roles = self.some(authorized_roles(self.state, user), 3)
        return user, roles, self.one(set(POOLS["session"]) - set(self.state.sessions))

    def aim_deleteSession(self):
        session = self.one(self.state.sessions)
        return self.state.sessions.get(session, (None,))[0], session

    def aim_addActiveRole(self):
        session = self.one(self.state.sessions)
        user, active = self.state.sessions.get(session, (None, frozenset()))
        return user, session, self.one(authorized_roles(self.state, user) - active)

    def aim_dropActiveRole(self):
        session = self.one(self.state.sessions)
        user, active = self.state.sessions.get(session, (None, frozenset()))
        return user, session, self.one(active)

    def aim_unlockUserAccount(self):
        return [self.one(self.state.locked)]

    # Other ways to write, and mistakes.

    def draw_csv(self):
        """A CSV text of assignments."""
        if self.chance(8):
            return self.random.choice(ODD_ASSIGNMENTS)
        end = self.random.choice(["\n", "\n", "\r\n", "\r", "\n\n"])
        mark = "\ufeff" if self.chance(6) else ""
        lines = [self.random.choice(["user,role", '"user","role"'])]
        for _ in range(self.random.randrange(9)):
            user, role = self.draw_value("user"), self.draw_value("role")
            lines.append(f"{self.write_field(user)},{self.write_field(role)}")
        return mark + end.join(lines) + (end if self.chance(2) else "")

    def write_field(self, text):
        if self.chance(4) or any(sign in text for sign in ',"'):
            return '"' + text.replace('"', '""') + '"'
        return text

    def spoil(self, values):
        """Removes an argument, or replaces it by something wrong."""
        key = self.random.choice(list(values))
        what = self.random.randrange(3)
        if what == 0:
            del values[key]
        elif what == 1 or key in ("cardinality", "csv"):
            values[key] = self.random.choice(BAD_VALUES.get(key, BAD_VALUES["text"]))
        elif key == "roles":
            names = [self.random.choice(POOLS["role"]), self.random.choice(BAD_NAMES)]
            values[key] = self.as_json(names)
        else:
            values[key] = self.as_json(self.random.choice(BAD_NAMES))

    def change(self, line):
        """The line with one byte less, more or in place of another."""
        at = self.random.randrange(len(line))
        byte = bytes([self.random.choice(BYTES)])
        return self.random.choice([
            line[:at] + line[at + 1 :],
            line[:at] + byte + line[at:],
            line[:at] + byte + line[at + 1 :],
        ])

    def write(self, members):
        """Returns the object of these members, in any order, with ignored members among them."""
        members = list(members)
        self.random.shuffle(members)
        if self.chance(10):
            more = tuple(self.random.choice(NOT_COUNTED).split(":", 1))
            members.insert(self.random.randrange(len(members) + 1), more)
        written = [f"{self.write_key(key)}{self.space()}:{self.space()}{value}" for key, value in members]
        if self.chance(20):
            key, _ = self.random.choice(members)
            written.insert(0, f'{self.write_key(key)}:"of no account"')
        text = (self.space() + "," + self.space()).join(written)
        return f"{self.space()}{{{self.space()}{text}{self.space()}}}{self.space()}".encode()

    def write_key(self, key):
        """A key in quotes, now and then with an escape in it."""
        if key.startswith('"'):
            return key
        if self.chance(30) and key:
            return f'"\\u{ord(key[0]):04x}{key[1:]}"'
        return f'"{key}"'

    def space(self):
        return self.random.choice([" ", "\t", "\r", "  "]) if self.chance(25) else ""


def draw_script(seed, count):
    """Returns this many requests: for each the function that is meant, a line, and the model's answer."""
    draws = Draws(seed)
    return [draws.draw() for _ in range(count)]
