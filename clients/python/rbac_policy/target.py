"""What a plan is made for: an office behind a front, behind `rbac serve`, or in a file."""

import json
from collections.abc import Callable, Sequence
from typing import Protocol

from .model import Command, State, sentence, shown

# A refusal as the office answers it.
Refusal = dict[str, object]

# Whether to go on after a refusal, which is given with its command; it is also called for commands that are accepted, with None.
Judge = Callable[[Command, Refusal | None], bool]


class Broken(Exception):
    """Why no more commands were done. `sent` of those after the last answer may have been done or not. `is_denied` says that the same
    request would be refused again."""

    def __init__(self, text: str, sent: int = 0, is_denied: bool = False) -> None:
        super().__init__(text)
        self.sent, self.is_denied = sent, is_denied


class Target(Protocol):
    """An office that can be read and changed."""

    def read(self) -> State:
        """What is in the office. Raises `Stop` if it can't be read."""

    def apply(self, commands: Sequence[Command], judge: Judge, starts: Sequence[int] = ()) -> None:
        """Does commands in their order, if the office still is what `read` has found, or what was done since, until the judge ends it.

        Those from one of the places `starts` up to the next one are sent at once if the target can do so. Raises `Broken` if the office
        is another one by now, or doesn't answer.
        """

    def close(self) -> None:
        """Releases what it holds."""


def refusal_text(command: Command, refusal: Refusal) -> str:
    """A command and its refusal in words."""
    details = [f"{key} {shown(str(value))}" for key, value in refusal.items() if key not in ("code", "error")]
    return f"{sentence(command)}: {refusal['code']} {' '.join([str(refusal['error']), *details])}"


def refusal_of(answer: bytes) -> Refusal:
    """The refusal that an answer is."""
    found: Refusal = json.loads(answer)
    return found
