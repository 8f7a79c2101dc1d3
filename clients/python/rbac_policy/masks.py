"""What the roles, users and sessions of a state have, as bits of whole numbers, while relations are added one by one."""

from collections.abc import Iterable, Iterator

from .model import DutySet, State


def bits(mask: int) -> Iterator[int]:
    """The places of the bits that are set."""
    while mask:
        lowest = mask & -mask
        yield lowest.bit_length() - 1
        mask ^= lowest


class Numbers:
    """A number for each name, so that sets of names are whole numbers."""

    def __init__(self, names: Iterable[object]) -> None:
        self.names = sorted(set(names), key=repr)
        self._numbers = {name: number for number, name in enumerate(self.names)}

    def __len__(self) -> int:
        return len(self.names)

    def of(self, name: object) -> int:
        """The number of a name."""
        return self._numbers[name]

    def mask(self, names: Iterable[object]) -> int:
        """The set of some names."""
        mask = 0
        for name in names:
            mask |= 1 << self._numbers[name]
        return mask


class Numbering:
    """The numbers of the roles, users and permissions of some states."""

    def __init__(self, *states: State) -> None:
        self.roles = Numbers(role for state in states for role in state.roles)
        self.users = Numbers(user for state in states for user in state.users)
        self.permissions = Numbers(one for state in states for one in state.permissions)


class Masks:
    """What the roles and users of a state have. Grants, edges and assignments can be added."""

    def __init__(self, state: State, numbering: Numbering) -> None:
        self._n = numbering
        count = len(numbering.roles)
        # Of each role: itself and its juniors, itself and its seniors, permissions, assigned and authorized users.
        self.below = [1 << role for role in range(count)]
        self.above = [1 << role for role in range(count)]
        self.has = [0] * count
        self.users = [0] * count
        self.assigned: list[int] = [0] * len(numbering.users)
        for ob, op, role in state.grants:
            self.has[numbering.roles.of(role)] |= 1 << numbering.permissions.of((ob, op))
        for user, role in state.assignments:
            number, place = numbering.users.of(user), numbering.roles.of(role)
            self.assigned[number] |= 1 << place
            self.users[place] |= 1 << number
        edges = [(numbering.roles.of(asc), numbering.roles.of(desc)) for asc, desc in state.edges]
        for senior, junior in reversed(_from_the_top(edges)):
            self.below[senior] |= self.below[junior]
            self.has[senior] |= self.has[junior]
        for senior, junior in _from_the_top(edges):
            self.above[junior] |= self.above[senior]
            self.users[junior] |= self.users[senior]

    def add_grant(self, ob: str, op: str, role: str) -> None:
        permission = 1 << self._n.permissions.of((ob, op))
        for senior in bits(self.above[self._n.roles.of(role)]):
            self.has[senior] |= permission

    def add_edge(self, asc: str, desc: str) -> None:
        senior, junior = self._n.roles.of(asc), self._n.roles.of(desc)
        below, above, has, users = self.below[junior], self.above[senior], self.has[junior], self.users[senior]
        for one in bits(above):
            self.below[one] |= below
            self.has[one] |= has
        for one in bits(below):
            self.above[one] |= above
            self.users[one] |= users

    def add_assignment(self, user: str, role: str) -> None:
        number, place = self._n.users.of(user), self._n.roles.of(role)
        self.assigned[number] |= 1 << place
        for junior in bits(self.below[place]):
            self.users[junior] |= 1 << number

    def authorized(self, user: int) -> int:
        """The roles for which a user is authorized."""
        return self.closure(self.assigned[user])

    def closure(self, roles: int) -> int:
        """Some roles and their juniors."""
        found = 0
        for role in bits(roles):
            found |= self.below[role]
        return found

    def permissions(self, user: int) -> int:
        """The permissions of the roles for which a user is authorized."""
        found = 0
        for role in bits(self.assigned[user]):
            found |= self.has[role]
        return found

    def holders(self, duty: DutySet) -> int:
        """The users who are authorized for too many roles of a set."""
        return too_many([self.users[self._n.roles.of(role)] for role in duty.roles], duty.cardinality)


def _from_the_top(edges: list[tuple[int, int]]) -> list[tuple[int, int]]:
    """Edges in an order in which those to a role come before those from it."""
    juniors: dict[int, list[int]] = {}
    waits: dict[int, int] = {}
    for senior, junior in edges:
        juniors.setdefault(senior, []).append(junior)
        waits[junior] = waits.get(junior, 0) + 1
    ahead = [senior for senior in juniors if senior not in waits]
    ordered = []
    for senior in ahead:
        for junior in juniors.get(senior, ()):
            ordered.append((senior, junior))
            waits[junior] -= 1
            if not waits[junior]:
                ahead.append(junior)
    return ordered


def too_many(masks: Iterable[int], most: int) -> int:
    """The bits that are set in `most` of the masks or more."""
    counts = [0] * most
    for mask in masks:
        for place in range(most - 1, -1, -1):
            counts[place] |= mask & (counts[place - 1] if place else -1)
    return counts[-1] if most else -1
