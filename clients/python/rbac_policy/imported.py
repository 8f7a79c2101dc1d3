"""What was read from another system: a policy, people, and a list of what can't be carried over."""

import csv
import io
import shutil
from dataclasses import dataclass, field
from pathlib import Path

from .mistakes import name_fault
from .model import State, Stop, listed, shown
from .validating import juniors_of
from .writing import write_policy

# A permission: an object and an operation.
Permission = tuple[str, str]


@dataclass
class Imported:
    """Roles, what they inherit and have, and users with their roles. `left` has what isn't carried over, and why.

    What is left out gives nobody more: so the office never allows what the source denies.
    """

    roles: set[str] = field(default_factory=set)
    edges: set[tuple[str, str]] = field(default_factory=set)
    grants: set[tuple[str, str, str]] = field(default_factory=set)
    users: dict[str, bool] = field(default_factory=dict)
    assignments: set[tuple[str, str]] = field(default_factory=set)
    left: list[str] = field(default_factory=list)

    def leave(self, what: str, why: str) -> None:
        """Notes what isn't carried over."""
        self.left.append(f"{what}: {why}")

    def deny(self, denials: dict[str, set[Permission]]) -> None:
        """Takes away each grant of a permission by which a user would have it whom the source denies it, or may deny it.

        `denials` has the permissions by the users to whom they are denied.
        """
        below = juniors_of(self.state())
        had: dict[str, set[str]] = {}
        for user, role in self.assignments:
            had.setdefault(user, set()).update(below.get(role, ()))
        for ob, op, role in sorted(self.grants):
            users = {user for user, denied in denials.items() if (ob, op) in denied and role in had.get(user, ())}
            if users:
                self.grants.discard((ob, op, role))
                self.leave(f"{shown(op)} on {shown(ob)} for the role {shown(role)}", f"the source denies it to {listed(users)}")

    def finish(self) -> None:
        """Leaves out names that no office has, and inheritances that close a cycle."""
        for sort, names in (("role", self.roles), ("user", self.users.keys())):
            for name in sorted(names):
                if fault := name_fault(name):
                    self.leave(f"the {sort} {shown(name)}", fault)
        for ob, op, role in sorted(self.grants):
            if fault := name_fault(ob) or name_fault(op):
                self.leave(f"{shown(op)} on {shown(ob)} for the role {shown(role)}", fault)
        self.roles = {role for role in self.roles if not name_fault(role)}
        self.users = {user: is_locked for user, is_locked in self.users.items() if not name_fault(user)}
        self.grants = {one for one in self.grants if one[2] in self.roles and not name_fault(one[0]) and not name_fault(one[1])}
        self.assignments = {pair for pair in self.assignments if pair[0] in self.users and pair[1] in self.roles}
        edges, self.edges = sorted(self.edges), set()
        direct: dict[str, list[str]] = {}
        for asc, desc in edges:
            if asc in self.roles and desc in self.roles:
                if _leads(direct, desc, asc):
                    self.leave(f"that {shown(asc)} inherits from {shown(desc)}", "it closes a cycle")
                else:
                    self.edges.add((asc, desc))
                    direct.setdefault(asc, []).append(desc)

    def state(self) -> State:
        """The policy without its users."""
        permissions = {(ob, op) for ob, op, _ in self.grants}
        return State(
            roles=self.roles,
            objects={ob for ob, _ in permissions},
            permissions=permissions,
            grants=self.grants,
            edges=self.edges,
            has_users=False,
        )

    def people(self) -> str:
        """The people as `rbac-people` reads them."""
        text = io.StringIO()
        rows = csv.writer(text, lineterminator="\n")
        rows.writerow(["user", "roles", "locked"])
        roles: dict[str, list[str]] = {}
        for user, role in sorted(self.assignments):
            roles.setdefault(user, []).append(role)
        for user, is_locked in sorted(self.users.items()):
            rows.writerow([user, ";".join(roles.get(user, [])), "yes" if is_locked else "no"])
        return text.getvalue()

    def write(self, folder: str) -> None:
        """Writes policy.toml, people.csv and left.txt into a new folder, or nothing."""
        odd = {role for _, role in self.assignments if ";" in role or role != role.strip()}
        odd |= {user for user in self.users if user != user.strip()}
        for name in sorted(odd):
            self.leave(f"the assignments with {shown(name)}", "a file of people can't have this name: assign it by a policy")
        self.assignments = {pair for pair in self.assignments if not odd & {*pair}}
        self.users = {user: is_locked for user, is_locked in self.users.items() if user not in odd}
        texts = {"policy.toml": write_policy(self.state()), "people.csv": self.people()}
        texts["left.txt"] = "".join(f"{line}\n" for line in self.left)
        try:
            Path(folder).mkdir()
        except OSError as error:
            raise Stop(f"{folder}: {error.strerror}") from None
        try:
            for name, text in texts.items():
                (Path(folder) / name).write_text(text, encoding="utf-8")
        except OSError as error:
            shutil.rmtree(folder, ignore_errors=True)
            raise Stop(f"{folder}: {error.strerror}") from None


def _leads(direct: dict[str, list[str]], first: str, last: str) -> bool:
    """Whether a role is another one, or inherits from it. `direct` has what roles inherit from directly."""
    reached, ahead = {first}, [first]
    while ahead and last not in reached:
        for junior in direct.get(ahead.pop(), ()):
            if junior not in reached:
                reached.add(junior)
                ahead.append(junior)
    return last in reached
