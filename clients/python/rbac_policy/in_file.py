"""An office in a file that nobody has open."""

import hashlib
import os
from collections.abc import Sequence

from .model import Command, State, Stop
from .program import OK, Replay
from .rows import read_office
from .target import Broken, Judge, refusal_of


class InFile:
    """The office in a file. It is read when no program has it open, and a child of this process changes it."""

    def __init__(self, path: str) -> None:
        """Raises `Stop` if the office has a record: the front refuses an office that another program has written."""
        if os.path.isdir(f"{path}.record"):
            raise Stop(f"{path}: this office has a record, so let its front change it (--front)")
        self._path, self._digest = path, b""

    def read(self) -> State:
        state = read_office(self._path)
        self._digest = self._now()
        return state

    def apply(self, commands: Sequence[Command], judge: Judge, starts: Sequence[int] = ()) -> None:
        self._do(commands, judge)
        self._digest = self._now()

    def _do(self, commands: Sequence[Command], judge: Judge) -> None:
        with Replay(self._path) as office:
            try:
                # After its first answer the child has the file to itself.
                office.do([{"fn": "ssdRoleSets"}])
                if self._now() != self._digest:
                    raise Broken("the office has changed meanwhile")
                for command in commands:
                    (answer,) = office.do([command])
                    if not judge(command, None if answer.startswith(OK) else refusal_of(answer)):
                        return
            except Stop as stop:
                raise Broken(str(stop), 1) from None

    def close(self) -> None:
        pass

    def _now(self) -> bytes:
        """The digest of the file."""
        with open(self._path, "rb") as file:
            return hashlib.file_digest(file, "sha256").digest()
