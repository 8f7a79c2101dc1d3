"""The command `rbac-policy`."""

import argparse
import sys
from collections.abc import Callable, Sequence
from pathlib import Path

from .applying import agrees, check_saved, do, plan_for, saved, show
from .arguments import add_target, run, target_of
from .callers import compile_callers, read_callers
from .from_casbin import from_casbin
from .from_keycloak import from_keycloak
from .from_ldif import from_ldif
from .from_postgresql import from_postgresql
from .imported import Imported
from .model import Stop
from .reading import Policy, read_policy
from .testing import run_tests
from .validating import validate
from .writing import write_callers, write_policy

_STATUSES = """The status is 0 if all is done, valid or passed, or if nothing differs; 1 if there are mistakes, a test failed, a plan
has a difference, or a command was refused; 2 if nothing could be done. docs/howto/policy.md describes the files."""


_SYSTEMS: dict[str, Callable[..., Imported]] = {
    "casbin": from_casbin,
    "keycloak": from_keycloak,
    "ldif": from_ldif,
    "postgresql": from_postgresql,
}


def main(words: Sequence[str]) -> int:
    """Does what a command line says, and returns the exit status."""
    arguments = _parser().parse_args(words)
    status: int = arguments.does(arguments)
    return status


def _parser() -> argparse.ArgumentParser:
    parser = argparse.ArgumentParser("rbac-policy", description="Policies of an office as files in TOML.", epilog=_STATUSES)
    commands = parser.add_subparsers(required=True, metavar="COMMAND")
    for name, does, what in (
        ("validate", _validate, "lists all that an office would refuse of a policy"),
        ("test", _test, "runs the tests of a policy"),
        ("plan", _plan, "shows what applying a policy would change"),
        ("apply", _apply, "changes an office so that it is as a policy says"),
        ("pull", _pull, "writes the policy of an office"),
    ):
        command = commands.add_parser(name, help=what, description=f"{name} {what}.", epilog=_STATUSES)
        command.set_defaults(does=does)
        if name != "pull":
            command.add_argument("policy", nargs="+", metavar="POLICY", help="a file in TOML; several files make one policy")
        if name in ("plan", "apply"):
            command.add_argument("--all", action="store_true", help="show all lines of the plan")
            command.add_argument(
                "--gap", action="store_true", help="allow that a set which both policies have is away for a moment"
            )
        if name in ("plan", "apply", "pull"):
            add_target(command)
    choices = commands.choices
    choices["plan"].add_argument("--save", metavar="PLAN", help="write the plan to a file, for apply --plan")
    choices["apply"].add_argument("--plan", metavar="PLAN", help="do nothing unless this plan, which was saved, is still right")
    choices["apply"].add_argument("--yes", action="store_true", help="do it without a question")
    callers = commands.add_parser("callers", help="compiles callers to what --callers of a front reads, or the other way round")
    callers.set_defaults(does=_callers)
    callers.add_argument("policy", nargs="+", metavar="FILE", help="files in TOML; with --back a file of lines")
    callers.add_argument("--back", action="store_true", help="write the lines of a file as a policy in TOML")
    _add_importers(
        commands.add_parser("from", help="makes a policy, a file of people and a list of what is left from another system")
    )
    choices["pull"].add_argument("--users", action="store_true", help="write the users, their roles and their locks too")
    return parser


def _add_importers(parser: argparse.ArgumentParser) -> None:
    """Adds the systems from which a policy can be made."""
    systems = parser.add_subparsers(required=True, metavar="SYSTEM")
    for name, places, what in (
        ("casbin", ("MODEL", "RULES"), "a model of Casbin, and its rules in CSV"),
        ("keycloak", ("REALM",), "a realm that Keycloak has exported as JSON"),
        ("ldif", ("FILE",), "groups and users of a directory"),
        ("postgresql", ("ADDRESS",), "the roles of a database, and what is granted on its tables, by psql"),
    ):
        system = systems.add_parser(name, help=what, description=f"Reads {what}.", epilog=_STATUSES)
        system.set_defaults(does=_import, system=name)
        for place in places:
            system.add_argument("places", metavar=place, action="append")
        system.add_argument(
            "--out", metavar="FOLDER", required=True, help="a new folder for policy.toml, people.csv and left.txt"
        )


def _import(arguments: argparse.Namespace) -> int:
    found: Imported = _SYSTEMS[arguments.system](*arguments.places)
    found.finish()
    found.write(arguments.out)
    policy, is_valid = _read(argparse.Namespace(policy=[str(Path(arguments.out) / "policy.toml")]))
    counts = policy.state.counts()
    sizes = f"{counts['role']:,} roles, {counts['grant']:,} grants, {len(found.users):,} users"
    print(f"{arguments.out}: {sizes}; {len(found.left):,} lines in left.txt say what is left out, and why")
    return 0 if is_valid else 1


def _read(arguments: argparse.Namespace, is_of_callers: bool = False) -> tuple[Policy, bool]:
    """The policy, and whether it has no mistake. Mistakes are printed."""
    policy = read_policy(arguments.policy, is_of_callers)
    if all(mistake.path for mistake in policy.mistakes):
        validate(policy)
    for mistake in sorted(policy.mistakes, key=lambda one: (one.file, one.line)):
        print(mistake, file=sys.stderr)
    return policy, not policy.mistakes


def _valid(arguments: argparse.Namespace, is_of_callers: bool = False) -> Policy:
    policy, is_valid = _read(arguments, is_of_callers)
    if not is_valid:
        raise Stop("the policy has mistakes: nothing was done")
    return policy


def _validate(arguments: argparse.Namespace) -> int:
    policy, is_valid = _read(arguments)
    if is_valid:
        counts = policy.state.counts()
        print(f"valid: {counts['role']:,} roles, {counts['permission']:,} permissions, {counts['user']:,} users")
    return 0 if is_valid else 1


def _test(arguments: argparse.Namespace) -> int:
    policy = _valid(arguments)
    count, faults = run_tests(policy)
    for fault in faults:
        print(fault, file=sys.stderr)
    print(f"{count:,} tests, " + (f"{len(faults):,} faults" if faults else "all passed"))
    return 1 if faults else 0


def _plan(arguments: argparse.Namespace) -> int:
    policy = _valid(arguments)
    target, names_sessions = target_of(arguments)
    try:
        plan, effects = plan_for(policy, target)
    finally:
        target.close()
    if arguments.save is not None:
        _write(arguments.save, saved(plan, effects))
    if not plan.commands:
        print("No difference.")
        return 0
    show(plan, effects, names_sessions, arguments.all)
    return 1


def _apply(arguments: argparse.Namespace) -> int:
    policy = _valid(arguments)
    target, names_sessions = target_of(arguments)
    try:
        plan, effects = plan_for(policy, target)
        if arguments.plan is not None:
            check_saved(arguments.plan, plan)
        if not plan.commands:
            print("No difference.")
            return 0
        show(plan, effects, names_sessions, arguments.all)
        if plan.gaps and not arguments.gap:
            raise Stop("a set would be away for a moment: nothing was done. Use --gap to allow it")
        if not arguments.yes and not agrees():
            print("Nothing was done.")
            return 1
        return do(plan, target)
    finally:
        target.close()


def _pull(arguments: argparse.Namespace) -> int:
    target, _ = target_of(arguments)
    try:
        state = target.read()
    finally:
        target.close()
    print(write_policy(state.but(has_users=arguments.users)), end="")
    return 0


def _callers(arguments: argparse.Namespace) -> int:
    if not arguments.back:
        sys.stdout.write(compile_callers(_valid(arguments, is_of_callers=True)).decode())
    elif len(arguments.policy) > 1:
        raise Stop("--back reads one file")
    else:
        sys.stdout.write(write_callers(read_callers(arguments.policy[0])))
    return 0


def _write(path: str, text: str) -> None:
    try:
        Path(path).write_text(text, encoding="utf-8")
    except OSError as error:
        raise Stop(f"{path}: {error.strerror}") from None


def start() -> None:
    """Runs the command line of this process."""
    run(main, "rbac-policy")


if __name__ == "__main__":
    start()
