"""Callers of a front as a policy: a scope is an object, and a function an operation on it."""

import tempfile
from pathlib import Path

from .model import State, Stop, line_of
from .program import OK, Replay, run
from .reading import Policy
from .rows import read_office


def compile_callers(policy: Policy) -> bytes:
    """The lines that `--callers` of a front reads."""
    state = policy.state.but(objects={ob for ob, _, _ in policy.state.grants})
    return b"".join(map(line_of, state.commands()))


def read_callers(path: str) -> State:
    """The callers that a file of lines makes, by the program. Raises `Stop` if it refuses a line, or if a policy can't have all."""
    try:
        lines = [line + b"\n" for line in Path(path).read_bytes().splitlines() if line.strip()]
    except OSError as error:
        raise Stop(f"{path}: {error.strerror}") from None
    with tempfile.TemporaryDirectory() as folder:
        office = str(Path(folder) / "callers")
        status, said = run(["init", office])
        if status:
            raise Stop(said)
        with Replay(office) as replay:
            for number, answer in enumerate(replay.ask(lines), 1):
                if not answer.startswith(OK):
                    raise Stop(f"{path}:{number}: the program refuses this line: {answer.decode()}")
        state = read_office(office)
    if state.dynamic or any(state.users.values()):
        raise Stop(f"{path}: callers have no dynamic sets and no locks")
    granted = {(ob, op) for ob, op, _ in state.grants}
    return state.but(permissions=granted, objects={ob for ob, _ in granted}, sessions={})
