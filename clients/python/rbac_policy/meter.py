"""How far something is that takes long."""

import sys
import time


class Meter:
    """A line on standard error that says how far something is, if it takes over a second."""

    def __init__(self, what: str, total: int) -> None:
        self._what, self._total, self._is_terminal = what, total, sys.stderr.isatty()
        self._next, self._is_shown = time.monotonic() + 1, False

    def __call__(self, count: int) -> None:
        if time.monotonic() < self._next:
            return
        self._next, self._is_shown = time.monotonic() + 1, True
        end = "\r" if self._is_terminal else "\n"
        print(f"{self._what}: {count:,} of {self._total:,}", end=end, file=sys.stderr, flush=True)

    def end(self) -> None:
        """Ends the line."""
        if self._is_shown and self._is_terminal:
            print(file=sys.stderr)
