"""The client of a child process that answers lines."""

import contextlib
import math
import os
import socket
import subprocess
import time
from typing import Any, Dict, Optional, Sequence

from ._answers import LONGEST_ANSWER, read_answer, written
from ._client import Office
from ._course import remaining
from ._decision import Refused, Unanswered, Unexpected, Unreachable
from ._locks import Lock

LONGEST_LINE = 65_536


class Lines(Office):
    """A child process that answers lines: `Lines(["rbac", "replay", "--memory"])`. Threads may share it, processes may not.

    After `Unanswered` or `Unexpected` the child is killed, so that no later call can take a late answer for its own.
    Every further call raises `Unreachable`: make a new `Lines`.
    """

    def __init__(self, command: Sequence[str], timeout: float = 10.0) -> None:
        """`timeout` is how many seconds a call may take. The first one waits for the program to open the office."""
        super().__init__()
        self.timeout, self._owner, self._lock, self._is_open = timeout, os.getpid(), Lock(), True
        self._connection, other = socket.socketpair()
        with other:
            self._child = subprocess.Popen(command, stdin=other.fileno(), stdout=other.fileno())

    def __enter__(self) -> "Lines":
        return self

    def __exit__(self, *_: object) -> None:
        self.close()

    def close(self) -> int:
        """Ends the input, and returns the exit status of the child. A child that does not end in time is killed."""
        self._is_open = False
        self._connection.close()
        try:
            return self._child.wait(self.timeout)
        except subprocess.TimeoutExpired:
            self._child.kill()
            return self._child.wait()

    def _limit(self) -> float:
        return time.monotonic() + self.timeout

    def _call(
        self, function: str, arguments: Dict[str, Any], again: Optional[int] = None, limit: Optional[float] = None
    ) -> Any:
        line = written({**arguments, "fn": function})
        if len(line) > LONGEST_LINE:
            raise ValueError(f"the line has more than {LONGEST_LINE} bytes")
        with self._lock:
            if not self._is_open or os.getpid() != self._owner:
                raise Unreachable("the child has ended, or is that of another process")
            try:
                return read_answer(function, None, self._answer(line + b"\n", min(limit or math.inf, self._limit())))
            except Refused:
                raise
            except (Unanswered, Unreachable) as error:
                raise type(error)(f"{error}{self._end_child()}") from error
            except BaseException:
                self._end_child()
                raise

    def _end_child(self) -> str:
        """Ends the child. If it had already ended by itself, returns a text with its status to add to an error."""
        status = None
        with contextlib.suppress(subprocess.TimeoutExpired):
            status = self._child.wait(0.1)
        self._child.kill()
        self.close()
        return "" if status is None else f": the child has ended with status {status}, and its standard error says why"

    def _answer(self, line: bytes, limit: float) -> bytes:
        """Sends a line and returns its answer. Nothing may come before the line is sent, and nothing after the answer."""
        self._connection.settimeout(0)
        try:
            raise Unexpected("an answer without a line") if self._connection.recv(1) else Unreachable("the child has ended")
        except BlockingIOError:
            answer, end, more = self._received(line, limit).partition(b"\n")
        except OSError as error:
            raise Unreachable(str(error)) from error
        if not end:
            raise Unanswered("the child ended before its answer did")
        if more:
            raise Unexpected("more than an answer")
        return answer

    def _received(self, line: bytes, limit: float) -> bytes:
        """Sends a line and returns what comes back, until a piece has an end of a line or the child closes its output."""
        received = bytearray()
        try:
            self._connection.settimeout(remaining(limit))
            self._connection.sendall(line)
            while len(received) <= LONGEST_ANSWER:
                self._connection.settimeout(remaining(limit))
                piece = self._connection.recv(65_536)
                received += piece
                if not piece or b"\n" in piece:
                    return bytes(received)
        except OSError as error:
            raise Unanswered(str(error)) from error
        raise Unexpected(f"the answer has more than {LONGEST_ANSWER} bytes")
