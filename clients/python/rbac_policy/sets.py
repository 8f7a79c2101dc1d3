"""How separation of duty sets are changed, so that what two policies both have is in force at every moment."""

from collections.abc import Callable, Iterator

from .model import LIMITS, SET_FUNCTIONS, Command, DutySet, shown

# The prefix of temporary sets. A crash may leave one; the next plan deletes it, like any set that isn't wanted.
_FREE = "rbac-policy "

# How many sets of a sort there may be.
_MOST = {"static": LIMITS["ssdSet"], "dynamic": LIMITS["dsdSet"]}


class Sets:
    """The change of all sets of a sort, from some to others, as commands.

    `is_kept` says whether those who hold roles now keep a set. `gaps` has why a set that both policies have is away for a moment:
    without a free name there is no other way.
    """

    def __init__(
        self, sort: str, found: dict[str, DutySet], wanted: dict[str, DutySet], is_kept: Callable[[DutySet], bool]
    ) -> None:
        self._sort, self._now, self._wanted, self._is_kept = sort, dict(found), wanted, is_kept
        self._create, self._add, self._remove, self._set, self._delete = SET_FUNCTIONS[sort]
        self._borrowed: set[str] = set()
        self.gaps: list[str] = []

    def commands(self, roles: set[str]) -> Iterator[Command]:
        """The commands with which the sets become the wanted ones, as far as their roles are among those that there are now.

        A set that needs another role is left for a further call: if both policies have it, it is away meanwhile.
        """
        while steps := list(self._next(roles)) or list(self._borrow(roles)):
            yield from steps
        for name in sorted(self._borrowed):
            yield self._do_delete(name)
        self._borrowed.clear()

    def have(self, role: str) -> bool:
        """Whether a set has a role now."""
        return any(role in duty.roles for duty in self._now.values())

    def _next(self, roles: set[str]) -> Iterator[Command]:
        """What can be done now without taking away what both policies have."""
        for name in self._gone():
            if self._may_go(name):
                yield self._do_delete(name)
        for name in sorted(self._wanted.keys() - self._now.keys()):
            if self._wanted[name].roles <= roles and len(self._now) < _MOST[self._sort]:
                yield self._do_create(name, self._wanted[name])
        for name in self._changed(roles):
            if self._may_go(name):
                steps = self._steps(name)
                if steps is None and len(self._now) < _MOST[self._sort]:
                    steps = self._by_free_name(name)
                if steps:
                    self._now[name] = self._wanted[name]
                    yield from steps

    def _changed(self, roles: set[str]) -> list[str]:
        both = self._now.keys() & self._wanted.keys()
        return sorted(name for name in both if self._now[name] != self._wanted[name] and self._wanted[name].roles <= roles)

    def _may_go(self, name: str) -> bool:
        """Whether what a set demands is in no wanted set, or in another one that there is now."""
        duty = self._now[name]
        return duty not in self._wanted.values() or any(other != name and one == duty for other, one in self._now.items())

    def _steps(self, name: str) -> list[Command] | None:
        """The changes of a set one by one, if those who hold roles keep each set on the way. Each demands what both demand."""
        old, new = self._now[name], self._wanted[name]
        widest = DutySet(old.roles | new.roles, min(old.cardinality, new.cardinality))
        if len(widest.roles) > LIMITS["member"] or not self._is_kept(widest):
            return None
        lower: list[Command] = [{"fn": self._set, "set": name, "cardinality": new.cardinality}]
        steps: list[Command] = [{"fn": self._add, "set": name, "role": role} for role in sorted(new.roles - old.roles)]
        if new.cardinality < old.cardinality:
            steps += lower
        steps += [{"fn": self._remove, "set": name, "role": role} for role in sorted(old.roles - new.roles)]
        if new.cardinality > old.cardinality:
            steps += lower
        return steps

    def _by_free_name(self, name: str) -> list[Command]:
        """A set is made anew, while another one under a free name demands the same."""
        new, free = self._wanted[name], self._free_name()
        return [
            self._creation(free, new),
            {"fn": self._delete, "set": name},
            self._creation(name, new),
            {"fn": self._delete, "set": free},
        ]

    def _borrow(self, roles: set[str]) -> Iterator[Command]:
        """If sets wait for one another: makes what one of them demands under a free name, or takes one away for a moment."""
        waiting = [*self._changed(roles), *self._gone()]
        if not waiting:
            return
        name = waiting[0]
        if len(self._now) < _MOST[self._sort] and not self._may_go(name):
            free = self._free_name()
            self._borrowed.add(free)
            yield self._do_create(free, self._now[name])
            return
        yield from self._with_gap(name)

    def _gone(self) -> list[str]:
        return sorted(self._now.keys() - self._wanted.keys() - self._borrowed)

    def _with_gap(self, name: str) -> Iterator[Command]:
        self.gaps.append(
            f"the {self._sort} set {shown(name)} would be away for a moment: there are {_MOST[self._sort]} {self._sort} sets, so "
            "that none can be made under a free name"
        )
        yield self._do_delete(name)
        if name in self._wanted:
            yield self._do_create(name, self._wanted[name])

    def take_away(self, roles: set[str]) -> Iterator[Command]:
        """Deletes the sets that need a role which can only be added later, and have one that goes."""
        for name in sorted(self._now.keys() & self._wanted.keys()):
            if not self._wanted[name].roles <= roles and self._now[name] != self._wanted[name]:
                self.gaps.append(
                    f"the {self._sort} set {shown(name)} would be away for a moment: it needs a role for which there is no room "
                    "before others are deleted"
                )
                yield self._do_delete(name)

    def _free_name(self) -> str:
        taken = self._now.keys() | self._wanted.keys()
        return next(name for number in range(1000) if (name := f"{_FREE}{number}") not in taken)

    def _creation(self, name: str, duty: DutySet) -> Command:
        return {"fn": self._create, "set": name, "roles": sorted(duty.roles), "cardinality": duty.cardinality}

    def _do_create(self, name: str, duty: DutySet) -> Command:
        self._now[name] = duty
        return self._creation(name, duty)

    def _do_delete(self, name: str) -> Command:
        del self._now[name]
        return {"fn": self._delete, "set": name}
