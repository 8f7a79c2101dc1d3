"""What the clients share: decisions with their reasons, which are counted, and logged if the office hasn't made them."""

import logging
import time
from collections import Counter
from typing import Callable, Dict, Optional

from ._decision import Decision, Error, Reason, Unsendable, decision_of
from ._locks import Lock

LOGGER = logging.getLogger("rbac_client")

# How many seconds pass between two lines of the same reason, and how many lines there are in as many seconds at most.
_INTERVAL, _MOST_LINES = 1.0, 10

# How many characters of a name a line shows.
_MOST_SHOWN = 80


class LogLines:
    """Which lines about failures are written: each change of the reason, and otherwise one a second, which counts the others."""

    def __init__(self, clock: Callable[[], float] = time.monotonic) -> None:
        self._lock, self._clock = Lock(), clock
        self._reason: Optional[Reason] = None
        self._left_out = self._written = 0
        self._last = self._start = -_INTERVAL

    def due(self, reason: Reason) -> Optional[str]:
        """What a line about this reason ends with, or None if it isn't to be written."""
        with self._lock:
            now = self._clock()
            if now - self._start >= _INTERVAL:
                self._start, self._written = now, 0
            is_due = now - self._last >= _INTERVAL if reason is self._reason else self._written < _MOST_LINES
            if not is_due:
                self._left_out += 1
                return None
            left_out, self._left_out = self._left_out, 0
            self._reason, self._last, self._written = reason, now, self._written + 1
            return f" (and {left_out} more since the last line)" if left_out else ""


class Decisions:
    """Counts decisions by their reasons, and logs those that the office hasn't made."""

    def __init__(self) -> None:
        self._lock = Lock()
        self._counts: "Counter[Reason]" = Counter()
        self._lines = LogLines()

    @property
    def counts(self) -> Dict[Reason, int]:
        """How many decisions there were, by their reasons."""
        with self._lock:
            return dict(self._counts)

    def keep(self, decision: Decision, operation: str, object: str) -> Decision:
        """Counts a decision, and logs it if the office hasn't made it. The log has no names of sessions."""
        with self._lock:
            self._counts[decision.reason] += 1
        if not decision.is_decided:
            end = self._lines.due(decision.reason)
            if end is not None:
                about = f"{shown(operation)} on {shown(object)}"
                LOGGER.warning("no decision about %s: %s: %s%s", about, decision.reason.value, decision.detail, end)
        return decision


def shown(name: object) -> str:
    """A name as a line shows it: in printable ASCII, and not more of it than a name of an office has."""
    return ascii(name[:_MOST_SHOWN] if isinstance(name, str) else type(name).__name__)


def decided(is_allowed: bool) -> Decision:
    """The decision of the office."""
    return Decision(Reason.ALLOWED if is_allowed is True else Reason.DENIED)


def undecided(error: Exception) -> Decision:
    """The decision if the question has no answer, or can't be sent. What other errors say is not shown: it may have a name."""
    if isinstance(error, Error):
        return decision_of(error)
    return Decision(Reason.INVALID_REQUEST, str(error) if isinstance(error, Unsendable) else type(error).__name__)
