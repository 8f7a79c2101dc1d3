"""Plans are shown and done."""

import json
import sys
from collections.abc import Iterable, Sequence
from pathlib import Path

from rbac_client._values import session_digest

from .effects import Effects, Permission, effects_of
from .meter import Meter
from .mistakes import Mistake
from .model import SET_FUNCTIONS, Command, Stop, listed, sentence, shown
from .planning import Plan, make_plan
from .reading import Policy
from .target import Broken, Judge, Target, refusal_text
from .validating import reasons

# How many lines of a kind are shown unless all are wanted.
MOST_SHOWN = 40


def plan_for(policy: Policy, target: Target) -> tuple[Plan, Effects]:
    """A plan that turns an office into what a policy says, tried by the program. Raises `Stop` if the office would refuse it."""
    plan = make_plan(target.read(), policy.state)
    effects = effects_of(plan)
    if effects.refused:
        raise Stop("\n".join(["the office would refuse this:", *map(str, _mistakes(policy, plan, effects))]))
    return plan, effects


def _mistakes(policy: Policy, plan: Plan, effects: Effects) -> Iterable[Mistake]:
    """What the office would refuse, at the paths of the policy."""
    for command, refusal in effects.refused:
        path = next((path for step, path in policy.steps if step == command), None)
        if path is None:
            sort = next((sort for sort, functions in SET_FUNCTIONS.items() if command["fn"] in functions), None)
            path = (sort, command["set"]) if sort else ()
        state = plan.wanted.but(sessions=plan.found.sessions)
        for at, text in reasons(state, command, path, refusal):
            yield policy.at(at, text)


def show(plan: Plan, effects: Effects, names_sessions: bool, is_whole: bool) -> None:
    """Prints a plan."""
    show_lines("Changes:", map(sentence, plan.commands), is_whole)
    show_lines("Users who gain permissions:", _permissions(effects.gained), is_whole)
    show_lines("Users who lose permissions:", _permissions(effects.lost), is_whole)
    show_lines("Permissions that users have before and after, but not all the time:", _permissions(effects.away), is_whole)
    show_sessions(effects.ended, names_sessions, is_whole)
    show_lines("Sets that both have, and that are away for a moment (--gap allows it):", plan.gaps, is_whole)


def show_sessions(ended: dict[str, str], names_sessions: bool, is_whole: bool) -> None:
    """Prints sessions that end, with their users, by their digests: whoever knows a name can use the session."""
    texts = {name: session_digest(name) if names_sessions else name for name in ended}
    some = sorted(ended.items(), key=lambda one: (one[1], texts[one[0]]))
    show_lines("Sessions that end:", (f"{texts[name]} of {shown(user)}" for name, user in some), is_whole)


def show_lines(title: str, lines: Iterable[str], is_whole: bool) -> None:
    """Prints lines below a title, but not too many of them, and nothing if there are none."""
    found = list(lines)
    if not found:
        return
    most = len(found) if is_whole else MOST_SHOWN
    print(title)
    for line in found[:most]:
        print(f"  {line}")
    if len(found) > most:
        print(f"  and {len(found) - most:,} more (--all shows them)")


def _permissions(users: dict[str, set[Permission]]) -> Iterable[str]:
    """A line for each user and object."""
    for user, permissions in sorted(users.items()):
        objects: dict[str, list[str]] = {}
        for ob, op in sorted(permissions):
            objects.setdefault(ob, []).append(op)
        for ob, operations in objects.items():
            yield f"{shown(user)}: {listed(operations, 20)} on {shown(ob)}"


def saved(plan: Plan, effects: Effects) -> str:
    """What a file says of a plan: for which office and policy it is, and what it changes, but no session."""
    what = {"gained": effects.gained, "lost": effects.lost, "away": effects.away}
    commands = [sentence(command) for command in plan.commands if command["fn"] != "deleteSession"]
    changes = {
        key: [[user, *one] for user, permissions in sorted(users.items()) for one in sorted(permissions)]
        for key, users in what.items()
    }
    value: dict[str, object] = {"found": plan.found.digest(), "wanted": plan.wanted.digest(), "commands": commands, **changes}
    return json.dumps(value, indent=1, ensure_ascii=False) + "\n"


def check_saved(path: str, plan: Plan) -> None:
    """Raises `Stop` if a plan in a file is for another office or another policy than this one."""
    try:
        value = json.loads(Path(path).read_text(encoding="utf-8"))
        found, wanted = value["found"], value["wanted"]
    except OSError as error:
        raise Stop(f"{path}: {error.strerror}") from None
    except (ValueError, KeyError, TypeError, RecursionError):
        raise Stop(f"{path}: this is no plan that rbac-policy has saved") from None
    if found != plan.found.digest():
        raise Stop(f"{path}: the plan was made for another state of the office: nothing was done")
    if wanted != plan.wanted.digest():
        raise Stop(f"{path}: the plan was made for another policy: nothing was done")


def agrees() -> bool:
    """Whether the user wants what was shown."""
    if not sys.stdin.isatty():
        raise Stop("nobody can be asked here: nothing was done. Use --yes to do what plan shows")
    return input("Do this? Only yes does it: ").strip() == "yes"


def do(plan: Plan, target: Target) -> int:
    """Does a plan until a command is refused, and returns the exit status."""
    done = 0
    refused: list[str] = []
    sys.stdout.flush()
    meter = Meter("changes", len(plan.commands))

    def judge(command: Command, refusal: dict[str, object] | None) -> bool:
        nonlocal done
        if refusal is not None and not is_needless(command, refusal):
            refused.append(refusal_text(command, refusal))
            return False
        done += 1
        meter(done)
        return True

    broken = run(target, plan.commands, judge)
    meter.end()
    if broken is None and not refused:
        print(f"Done: {done:,} changes.")
        return 0
    left = len(plan.commands) - done
    if refused:
        print(f"refused: {refused[0]}", file=sys.stderr)
    if broken is not None:
        print(f"{broken}{_may_be_done(broken)}", file=sys.stderr)
    print(f"{done:,} changes are done, and {left:,} are left. {rest_of(broken)}", file=sys.stderr)
    return 1


def rest_of(broken: Broken | None) -> str:
    """What does the rest, after something has ended the changes."""
    if broken is not None and broken.is_denied:
        return "The same command line is refused again, until the front allows what it refuses."
    return "The same command line does the rest."


def run(target: Target, commands: list[Command], judge: Judge, starts: Sequence[int] = ()) -> Broken | None:
    """Does commands, and returns why the office doesn't answer any more, or None."""
    try:
        if commands:
            target.apply(commands, judge, starts)
    except Broken as broken:
        return broken
    return None


def _may_be_done(broken: Broken) -> str:
    return f": up to {broken.sent:,} more may be done" if broken.sent else ""


def is_needless(command: Command, refusal: dict[str, object]) -> bool:
    """Whether a refusal says that a session has already ended."""
    return command["fn"] == "deleteSession" and refusal["code"] == 26
