"""Which additions of a plan can come before its removals, so that nobody is without what both policies give."""

from collections.abc import Iterable

from .masks import Masks, Numbering, bits, too_many
from .model import LIMITS, Command, DutySet, State

# How much is tried at most. What isn't tried comes after the removals.
_MOST_WORK = 20_000_000


class Early:
    """Adds to a state what the wanted one has more, as far as it is safe before anything is removed.

    It is safe if nobody gets a permission that neither state gives them, if no set of the state is violated, and if there is room.
    """

    def __init__(self, start: State, wanted: State) -> None:
        self._n = Numbering(start, wanted)
        self._masks = Masks(start, self._n)
        after = Masks(wanted, self._n)
        # What each user may have, and the users who may have the same.
        self._caps = [self._masks.permissions(user) | after.permissions(user) for user in range(len(self._n.users))]
        self._allowed: dict[int, int] = {}
        for user, allowed in enumerate(self._caps):
            self._allowed[allowed] = self._allowed.get(allowed, 0) | 1 << user
        self._may: dict[int, int] = {}
        self._counts = start.counts()
        self._sets = {sort: [self._numbered(duty) for duty in start.sets(sort).values()] for sort in ("static", "dynamic")}
        roles = self._n.roles
        self._sessions = [roles.mask(active) for _, active in start.sessions.values()]
        self._work = 0
        self._there: dict[str, set[object]] = {
            "role": set(start.roles),
            "object": set(start.objects),
            "user": set(start.users),
            "permission": set(start.permissions),
        }

    def _numbered(self, duty: DutySet) -> tuple[int, int]:
        return self._n.roles.mask(duty.roles), duty.cardinality

    def take(self, kind: str, commands: Iterable[Command]) -> tuple[list[Command], list[Command]]:
        """Those commands of a kind that can come before the removals, and the others. Names have to come before their relations."""
        early: list[Command] = []
        late: list[Command] = []
        for command in commands:
            has_room = self._counts[kind] < LIMITS[kind] and self._work < _MOST_WORK
            is_early = has_room and self._has_names(command) and self._is_safe(command)
            if is_early:
                self._counts[kind] += 1
            (early if is_early else late).append(command)
        return early, late

    def _has_names(self, command: Command) -> bool:
        """Whether what an addition needs is there before the removals."""
        there = self._there
        match command:
            case {"fn": "addPermission", "object": ob}:
                return ob in there["object"]
            case {"fn": "grantPermission", "object": ob, "operation": op, "role": role}:
                return (ob, op) in there["permission"] and role in there["role"]
            case {"fn": "assignUser", "user": user, "role": role}:
                return user in there["user"] and role in there["role"]
            case {"fn": "addInheritance", "asc": asc, "desc": desc}:
                return asc in there["role"] and desc in there["role"]
        return True

    def _is_safe(self, command: Command) -> bool:
        """Whether an addition is safe. If it is, it is made."""
        match command:
            case {"fn": "grantPermission", "object": ob, "operation": op, "role": role}:
                if not self._may_get(1 << self._n.permissions.of((ob, op)), self._masks.users[self._n.roles.of(role)]):
                    return False
                self._masks.add_grant(ob, op, role)
            case {"fn": "assignUser", "user": user, "role": role}:
                if not self._is_safe_assignment(user, role):
                    return False
                self._masks.add_assignment(user, role)
            case {"fn": "addInheritance", "asc": asc, "desc": desc}:
                if not self._is_safe_edge(self._n.roles.of(asc), self._n.roles.of(desc)):
                    return False
                self._masks.add_edge(asc, desc)
            case {"fn": "addPermission", "object": ob, "operation": op}:
                self._there["permission"].add((ob, op))
            case {"fn": "addRole", "role": name}:
                self._there["role"].add(name)
            case {"fn": "addPermObj", "object": name}:
                self._there["object"].add(name)
            case {"fn": "addUser", "user": name}:
                self._there["user"].add(name)
        return True

    def _may_get(self, permissions: int, users: int) -> bool:
        """Whether each of the users may have each of the permissions."""
        if not users:
            return True
        for permission in bits(permissions):
            if permission not in self._may:
                self._work += len(self._allowed)
                self._may[permission] = sum(mask for allowed, mask in self._allowed.items() if allowed >> permission & 1)
            if users & ~self._may[permission]:
                return False
        return True

    def _is_safe_assignment(self, user: str, role: str) -> bool:
        number, place = self._n.users.of(user), self._n.roles.of(role)
        if self._masks.has[place] & ~self._caps[number]:
            return False
        self._work += len(self._sets["static"])
        had = self._masks.authorized(number)
        return self._keeps("static", had | self._masks.below[place], had)

    def _keeps(self, sort: str, roles: int, had: int) -> bool:
        """Whether somebody with these roles violates no set that had kept those before."""
        return not any(
            (roles & members).bit_count() >= cardinality and (roles & ~had & members)
            for members, cardinality in self._sets[sort]
        )

    def _is_safe_edge(self, asc: int, desc: int) -> bool:
        masks = self._masks
        if masks.below[desc] >> asc & 1:
            return False
        new = masks.below[desc] & ~masks.below[asc]
        if not self._may_get(masks.has[desc] & ~masks.has[asc], masks.users[asc]):
            return False
        return self._keep_static(asc, new) and self._keep_dynamic(asc, new)

    def _keep_static(self, asc: int, new: int) -> bool:
        """Whether no user of a role violates a static set by some further roles."""
        users = self._masks.users[asc]
        for members, cardinality in self._sets["static"]:
            if users and members & new:
                self._work += 1000
                holders = [self._masks.users[role] | (users if new >> role & 1 else 0) for role in bits(members)]
                if too_many(holders, cardinality):
                    return False
        return True

    def _keep_dynamic(self, asc: int, new: int) -> bool:
        """Whether no session that has a role violates a dynamic set by some further roles."""
        sets = [one for one in self._sets["dynamic"] if one[0] & new]
        for active in self._sessions if sets else ():
            self._work += len(sets)
            had = self._masks.closure(active)
            if had >> asc & 1 and not self._keeps("dynamic", had | new, had):
                return False
        return True
