"""The command `rbac-people`."""

import argparse
import json
import sys
from bisect import bisect_right
from collections import Counter
from collections.abc import Sequence
from dataclasses import dataclass, replace
from itertools import accumulate, islice

from .applying import MOST_SHOWN, agrees, rest_of, run as run_over, show_lines, show_sessions
from .arguments import add_target, run, target_of
from .effects import ended_sessions
from .meter import Meter
from .model import KINDS, LIMITS, Command, State, Stop, sentence, shown
from .people import Changes, Group, changes_of, is_many, needs_confirmation, read_people, undone
from .program import OK, Replay, memory_office
from .target import Broken, Refusal, Target, refusal_text

_STATUSES = """The status is 0 if all is done, or nothing differs; 1 if a plan has a difference, or a command was refused; 2 if nothing could
be done. docs/howto/policy.md describes the file."""


def main(words: Sequence[str]) -> int:
    """Does what a command line says, and returns the exit status."""
    arguments = _parser().parse_args(words)
    people = read_people(arguments.people)
    for line, text in sorted(people.mistakes):
        print(f"{arguments.people}:{line}: {text}", file=sys.stderr)
    if people.mistakes:
        raise Stop("the file has mistakes: nothing was done")
    arguments.count = len(people.people)
    target, names_sessions = target_of(arguments)
    try:
        found = target.read()
        changes = changes_of(found, people.people, arguments.leavers)
        plan = _tried(arguments, found, changes, names_sessions)
        return _apply(plan, target, found) if arguments.is_apply else _show_plan(plan)
    finally:
        target.close()


def _parser() -> argparse.ArgumentParser:
    parser = argparse.ArgumentParser("rbac-people", description="The people of an office from a file in CSV.", epilog=_STATUSES)
    commands = parser.add_subparsers(required=True, metavar="COMMAND")
    for name, what in (
        ("plan", "shows what the people of a file would change"),
        ("apply", "gives an office the people of a file, with their roles and locks"),
    ):
        command = commands.add_parser(name, help=what, description=f"{name} {what}.", epilog=_STATUSES)
        command.set_defaults(is_apply=name == "apply")
        command.add_argument("people", metavar="PEOPLE", help="a file in CSV with the columns user, roles and locked")
        command.add_argument("--all", action="store_true", help="show all lines")
        words = "what becomes of users who aren't in the file (keep)"
        command.add_argument("--leavers", choices=("keep", "lock", "delete"), default="keep", help=words)
        if name == "apply":
            words = "how many users may be locked or deleted, or lose all roles, if they are above 5 of 100"
            command.add_argument("--confirm", type=int, metavar="NUMBER", help=words)
            command.add_argument("--yes", action="store_true", help="do it without a question")
        add_target(command)
    return parser


@dataclass(frozen=True)
class Plan:
    """What would be done: the groups of changes that are refused, by their places, each with the command at fault and its refusal, and the
    sessions that end, with their users."""

    arguments: argparse.Namespace
    changes: Changes
    refusals: dict[int, tuple[Command, Refusal]]
    ended: dict[str, str]
    names_sessions: bool

    @property
    def accepted(self) -> list[Group]:
        """The groups of changes that are done."""
        return [group for place, group in enumerate(self.changes.groups) if place not in self.refusals]

    @property
    def refused(self) -> int:
        """How many changes aren't done, since there is no room for them, or one of their group is refused."""
        groups = [self.changes.groups[place] for place in self.refusals] + sum(self.changes.crowded.values(), [])
        return sum(len(group.commands) for group in groups)


def _tried(arguments: argparse.Namespace, found: State, changes: Changes, names_sessions: bool) -> Plan:
    """A plan, which the program has done over a copy of the office in memory."""
    refusals: dict[int, tuple[Command, Refusal]] = {}
    ended = _tried_at_once(found, changes.commands)
    if ended is None:
        with memory_office(found) as office:
            refusals = _refusals(office, changes.groups)
    plan = Plan(arguments, changes, refusals, ended or {}, names_sessions)
    if ended is None:
        ended = _tried_at_once(found, [command for group in plan.accepted for command in group.commands])
    return replace(plan, ended=ended or {})


def _tried_at_once(found: State, commands: list[Command]) -> dict[str, str] | None:
    """The sessions that end by some commands, with their users, or None if one of the commands is refused."""
    with memory_office(found) as office:
        if not all(answer.startswith(OK) for answer in office.do(commands)):
            return None
        return ended_sessions(office, found)


def _refusals(office: Replay, groups: list[Group]) -> dict[int, tuple[Command, Refusal]]:
    """The groups of which a command is refused, by their places, with that command and its refusal. What is done of them is undone."""
    found: dict[int, tuple[Command, Refusal]] = {}
    for place, group in enumerate(groups):
        answers = list(zip(group.commands, office.do(group.commands)))
        refused = [(command, answer) for command, answer in answers if not answer.startswith(OK)]
        if refused:
            command, answer = refused[0]
            found[place] = command, json.loads(answer)
            office.do(undone(command for command, answer in answers if answer.startswith(OK)))
    return found


def _show_plan(plan: Plan) -> int:
    """Shows what would be done, and returns the exit status."""
    _print_room(plan)
    _show(plan)
    _print_refusals(plan)
    if plan.arguments.leavers == "keep" and plan.changes.absent:
        print(f"Users who are not in the file, and stay: {len(plan.changes.absent):,}")
    return 1 if plan.changes.groups or plan.changes.crowded else 0


def _show(plan: Plan) -> None:
    if not plan.changes.groups and not plan.changes.crowded:
        print("No difference.")
        return
    accepted = [command for group in plan.accepted for command in group.commands]
    kinds = Counter(command["fn"] for command in accepted)
    counts = ", ".join(f"{count:,} {function}" for function, count in sorted(kinds.items()))
    show_lines(f"Changes: {counts}", map(sentence, accepted), plan.arguments.all)
    if not accepted:
        print("Changes: none")
    show_sessions(plan.ended, plan.names_sessions, plan.arguments.all)


def _print_room(plan: Plan) -> None:
    """Says in one line for whom there is no room, and raises `Stop` if these are many."""
    changes, path = plan.changes, plan.arguments.people
    if not changes.crowded:
        return
    kinds = " and ".join(f"{LIMITS[kind]:,} {KINDS[kind]}" for kind in sorted(changes.crowded))
    lines = sorted(group.line for groups in changes.crowded.values() for group in groups)
    first = ", ".join(map(str, lines[:5])) + (", .." if len(lines) > 5 else "")
    text = f"{path}: an office has room for {kinds}: {changes.out:,} people of the file have none (lines {first})"
    if is_many(changes.out, plan.arguments.count):
        raise Stop(f"{text}: nothing was done")
    print(f"{text}, and stay as they are", file=sys.stderr)


def _print_refusals(plan: Plan) -> None:
    """Prints the refusals, but not too many of them unless all are wanted."""
    most = len(plan.refusals) if plan.arguments.all else MOST_SHOWN
    for place, (command, refusal) in islice(plan.refusals.items(), most):
        _print_refusal(plan.arguments.people, plan.changes.groups[place], command, refusal)
    if len(plan.refusals) > most:
        print(f"and {len(plan.refusals) - most:,} more lines are refused (--all shows them)", file=sys.stderr)


def _print_refusal(path: str, group: Group, command: Command, refusal: Refusal) -> None:
    line = f":{group.line}" if group.line else ""
    more = f" ({len(group.commands) - 1} more of this line not done)" if len(group.commands) > 1 else ""
    print(f"{path}{line}: refused: {refusal_text(command, refusal)}{more}", file=sys.stderr)


def _apply(plan: Plan, target: Target, found: State) -> int:
    """Does what is accepted, and says what isn't."""
    arguments, changes = plan.arguments, plan.changes
    _print_room(plan)
    count = needs_confirmation(found, changes)
    if count and arguments.confirm != count:
        ways = [f"be {arguments.leavers.removesuffix('e')}ed"] * bool(changes.leavers) + ["lose all roles"] * bool(changes.bare)
        some = ", ".join(map(shown, (changes.leavers + changes.bare)[:5]))
        what = f"{count:,} of {len(found.users):,} users would {' or '.join(ways)} ({some}, ..)"
        raise Stop(f"{what}: nothing was done. Use --confirm {count}")
    _show(plan)
    if not changes.groups and not changes.crowded:
        return 0
    _print_refusals(plan)
    if not arguments.yes and not agrees():
        print("Nothing was done.")
        return 1
    return _Doing(arguments.people, target, plan.accepted).do(plan.refused)


class _Doing:
    """Does groups of changes. If a command is refused after all, what was done of its group is undone."""

    def __init__(self, path: str, target: Target, groups: list[Group]) -> None:
        self._path, self._target, self._groups = path, target, groups
        self._all = sum(len(group.commands) for group in groups)
        self._done, self._refused, self._broken = 0, 0, None  # type: int, int, Broken | None

    def do(self, refused: int) -> int:
        """Does all, and returns the exit status. `refused` changes aren't among them, since the office would refuse them."""
        meter, groups = Meter("changes", self._all), self._groups
        while groups and self._broken is None:
            groups = self._do_some(groups, meter)
        meter.end()
        print(f"Done: {self._done:,} changes. Refused: {refused + self._refused:,}.")
        if self._broken is not None:
            left = self._all - self._done - self._refused
            print(f"{self._broken}: {left:,} changes are left. {rest_of(self._broken)}", file=sys.stderr)
        return 1 if refused or self._refused or self._broken is not None else 0

    def _do_some(self, groups: list[Group], meter: Meter) -> list[Group]:
        """Does groups until a command is refused, and returns those that are left."""
        starts = list(accumulate((len(group.commands) for group in groups), initial=0))
        count, refusal = 0, None

        def judge(command: Command, answer: Refusal | None) -> bool:
            nonlocal count, refusal
            refusal = answer
            if answer is None:
                count += 1
                meter(self._done + count)
            return answer is None

        self._broken = run_over(self._target, [command for group in groups for command in group.commands], judge, starts)
        if refusal is None:
            self._done += count
            return []
        place = bisect_right(starts, count) - 1
        group, part = groups[place], count - starts[place]
        self._done, self._refused = self._done + starts[place], self._refused + len(group.commands)
        _print_refusal(self._path, group, group.commands[part], refusal)
        self._undo(group.commands[:part])
        return groups[place + 1 :]

    def _undo(self, commands: Sequence[Command]) -> None:
        """Undoes the first commands of a group."""

        def judge(command: Command, refusal: Refusal | None) -> bool:
            if refusal is not None:
                print(f"{self._path}: this isn't undone: {refusal_text(command, refusal)}", file=sys.stderr)
            return True

        self._broken = run_over(self._target, undone(commands), judge)


def start() -> None:
    """Runs the command line of this process."""
    run(main, "rbac-people")


if __name__ == "__main__":
    start()
