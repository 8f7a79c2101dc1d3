"""The office over which bench/embedded.py asks: users with a session each, roles in a tree, and one permission for each object."""

from __future__ import annotations

import json
from typing import Iterator, NamedTuple

# How many questions the programs here ask, and how they choose the session and the object of each.
QUESTIONS, SESSION_STEP, OBJECT_STEP = 2048, 37, 91
# How many of the roles are assigned: the most senior ones, so that about two in five questions have the answer yes.
ASSIGNED = 7

# What SQLite and PostgreSQL are asked, with the closure of the inheritances stored.
TABLES = {
    "person": ["name"],
    "closure": ["senior", "junior"],
    "active": ["session", "role"],
    "granted": ["object", "operation", "role"],
}
QUESTION = (
    "SELECT EXISTS(SELECT 1 FROM active JOIN closure ON closure.senior = active.role JOIN granted ON granted.role = closure.junior "
    "WHERE active.session = $1 AND granted.operation = $2 AND granted.object = $3)"
)


class Policy(NamedTuple):
    """How many there are of each, and how the names of sessions begin."""

    users: int = 1_000
    roles: int = 100
    objects: int = 1_000
    prefix: str = "s"

    def role_of(self, user: int) -> int:
        """Returns the role that a user has, and that is activated in the user's session."""
        return user % ASSIGNED

    def granted_to(self, thing: int) -> int:
        """Returns the role to which the permission for an object is granted."""
        return thing * 7 % self.roles

    @staticmethod
    def seniors(role: int) -> list[int]:
        """Returns the roles that inherit from a role, itself among them. Each role inherits from two others."""
        found = [role]
        while found[-1]:
            found.append((found[-1] - 1) // 2)
        return found

    def allowed(self) -> int:
        """Returns how many of the questions have the answer yes."""
        count = 0
        for at in range(QUESTIONS):
            role = self.role_of(at * SESSION_STEP % self.users)
            count += role in self.seniors(self.granted_to(at * OBJECT_STEP % self.objects))
        return count

    def commands(self) -> Iterator[tuple[str, dict]]:
        """Yields the commands that make the office, with their arguments."""
        for role in range(self.roles):
            yield "addRole", {"role": f"r{role}"}
            if role:
                yield "addInheritance", {"asc": f"r{(role - 1) // 2}", "desc": f"r{role}"}
        for thing in range(self.objects):
            yield "addPermObj", {"object": f"o{thing}"}
            yield "addPermission", {"operation": "read", "object": f"o{thing}"}
            yield "grantPermission", {"operation": "read", "object": f"o{thing}", "role": f"r{self.granted_to(thing)}"}
        for user in range(self.users):
            assigned = f"r{self.role_of(user)}"
            yield "addUser", {"user": f"u{user}"}
            yield "assignUser", {"user": f"u{user}", "role": assigned}
            yield "createSession", {"user": f"u{user}", "roles": [assigned], "session": f"{self.prefix}{user}"}

    def lines(self) -> bytes:
        """Returns the lines that make the office."""
        return "".join(json.dumps({"fn": function, **keys}) + "\n" for function, keys in self.commands()).encode()

    def questions(self) -> bytes:
        """Returns the questions as lines."""
        lines = []
        for at in range(QUESTIONS):
            session, thing = f"{self.prefix}{at * SESSION_STEP % self.users}", f"o{at * OBJECT_STEP % self.objects}"
            lines.append(json.dumps({"fn": "checkAccess", "session": session, "operation": "read", "object": thing}) + "\n")
        return "".join(lines).encode()

    def rows(self) -> Iterator[tuple[str, list[str]]]:
        """Yields the rows for SQLite and PostgreSQL, each with its table."""
        for user in range(self.users):
            yield "person", [f"u{user}"]
            yield "active", [f"{self.prefix}{user}", f"r{self.role_of(user)}"]
        for role in range(self.roles):
            for senior in self.seniors(role):
                yield "closure", [f"r{senior}", f"r{role}"]
        for thing in range(self.objects):
            yield "granted", [f"o{thing}", "read", f"r{self.granted_to(thing)}"]

    def sql(self, end: str = "") -> str:
        """Returns the script that makes the tables. `end` follows the columns of each table."""
        script = ["BEGIN;"]
        for name, columns in TABLES.items():
            typed = ", ".join(f"{it} text NOT NULL" for it in columns)
            script.append(f"CREATE TABLE {name}({typed}, PRIMARY KEY({', '.join(columns)})){end};")
        for table, values in self.rows():
            joined = ", ".join(f"'{it}'" for it in values)
            script.append(f"INSERT INTO {table} VALUES({joined});")
        return "\n".join([*script, "COMMIT;", "ANALYZE;"])

    def casbin(self) -> bytes:
        """Returns the policy as Casbin has it."""
        lines = [f"p,r{self.granted_to(thing)},o{thing},read" for thing in range(self.objects)]
        lines += [f"g,u{user},r{self.role_of(user)}" for user in range(self.users)]
        lines += [f"g,r{(role - 1) // 2},r{role}" for role in range(1, self.roles)]
        return ("\n".join(lines) + "\n").encode()
