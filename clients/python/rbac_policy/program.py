"""The program `rbac`, as a child: offices in memory and in files."""

import os
import shutil
import subprocess
import threading
from collections.abc import Iterable, Sequence
from pathlib import Path
from types import TracebackType

from .meter import Meter
from .model import Command, State, Stop, line_of

OK = b'{"ok":true'

# After how many answers it is said how far it is.
_MANY = 1_000

# How many bytes a pipe holds at least, on Linux.
_OF_PIPE = 60_000


def program() -> str:
    """The path of the program: that of the variable RBAC_PROGRAM, else `rbac` of PATH, else that of this repository."""
    beside = Path(__file__).resolve().parents[3] / "release/rbac"
    found = os.environ.get("RBAC_PROGRAM") or shutil.which("rbac") or (str(beside) if beside.is_file() else None)
    if found is None:
        raise Stop("the program rbac is not in PATH: install the package rbac, or name it in the variable RBAC_PROGRAM")
    return found


class Replay:
    """A child that answers lines: from an office in memory, or, with a path, from the office in that file."""

    def __init__(self, path: str | None = None) -> None:
        words = [program(), "replay", path or "--memory"]
        try:
            self._child = subprocess.Popen(words, stdin=subprocess.PIPE, stdout=subprocess.PIPE, stderr=subprocess.PIPE)
        except OSError as error:
            raise Stop(f"{words[0]}: {error.strerror}") from None

    def __enter__(self) -> "Replay":
        return self

    def __exit__(self, kind: type[BaseException] | None, value: BaseException | None, trace: TracebackType | None) -> None:
        self.close()

    def ask(self, lines: Sequence[bytes]) -> list[bytes]:
        """The answers to lines, each without LF. Raises `Stop` if the child ends before it has answered all of them."""
        assert self._child.stdin is not None and self._child.stdout is not None
        # What a pipe holds is written at once. More is written while the answers are read.
        writer = threading.Thread(target=self._write, args=(lines,), daemon=True)
        if len(lines) < 100 and sum(map(len, lines)) < _OF_PIPE:
            self._write(lines)
        else:
            writer.start()
        answers = []
        meter = Meter("answers of the program", len(lines))
        for _ in lines:
            answer = self._child.stdout.readline()
            if not answer.endswith(b"\n"):
                raise Stop(f"the program ended: {self._said()}")
            answers.append(answer[:-1])
            if len(answers) % _MANY == 0:
                meter(len(answers))
        meter.end()
        if writer.ident is not None:
            writer.join()
        return answers

    def do(self, commands: Iterable[Command]) -> list[bytes]:
        """The answers to commands or questions."""
        return self.ask([line_of(command) for command in commands])

    def close(self) -> None:
        """Ends the child. A file has then been closed by it."""
        if self._child.stdin:
            try:
                self._child.stdin.close()
            except OSError:
                pass  # The child has ended before.
        self._child.wait()
        for stream in (self._child.stdout, self._child.stderr):
            if stream:
                stream.close()

    def _write(self, lines: Sequence[bytes]) -> None:
        assert self._child.stdin is not None
        try:
            for at in range(0, len(lines), 1000):
                self._child.stdin.write(b"".join(lines[at : at + 1000]))
            self._child.stdin.flush()
        except OSError:
            pass  # Whoever reads the answers finds that the child has ended.

    def _said(self) -> str:
        """What the child has said on standard error before it ended."""
        assert self._child.stderr is not None
        self._child.kill()
        return self._child.stderr.read().decode(errors="replace").strip() or "it said nothing"


def memory_office(state: State) -> Replay:
    """An office in memory with what a state has, its sessions too. Raises `Stop` if the program accepts no such office."""
    replay = Replay()
    commands = [*state.commands(), *state.session_commands()]
    for command, answer in zip(commands, replay.do(commands)):
        if not answer.startswith(OK):
            replay.close()
            raise Stop(f"the program refuses what was read of the office: {command['fn']}: {ascii(answer)[2:-1]}")
    return replay


def run(words: Sequence[str]) -> tuple[int, str]:
    """Runs the program, and returns its status and what it has printed."""
    done = subprocess.run([program(), *words], capture_output=True, check=False)
    return done.returncode, (done.stdout + done.stderr).decode(errors="replace").strip()
