"""Decisions with their reasons, and the errors of calls without a result."""

import enum
from dataclasses import dataclass
from typing import Any, Dict, Optional

from ._functions import NAMES


class Reason(str, enum.Enum):
    """Why a decision allows or denies, or why a call has no result. docs/howto/integrate.md, section 1, has what to do."""

    ALLOWED = "allowed"
    DENIED = "denied"
    ENDED_SESSION = "ended_session"
    UNKNOWN_NAME = "unknown_name"
    REFUSED = "refused"
    INVALID_REQUEST = "invalid_request"
    UNAUTHENTICATED = "unauthenticated"
    FORBIDDEN = "forbidden"
    UNAVAILABLE = "unavailable"
    UNREACHABLE = "unreachable"
    UNTRUSTED = "untrusted"
    UNANSWERED = "unanswered"
    UNEXPECTED = "unexpected"


@dataclass(frozen=True)
class Decision:
    """Whether a session may do something, and why. It is true only if it allows."""

    reason: Reason
    detail: str = ""
    code: Optional[int] = None

    @property
    def allowed(self) -> bool:
        """Whether to allow: only after the one answer that allows."""
        return self.reason is Reason.ALLOWED

    @property
    def is_decided(self) -> bool:
        """Whether the office has decided. If not, the reason is to be reported."""
        return self.reason in (Reason.ALLOWED, Reason.DENIED)

    def __bool__(self) -> bool:
        return self.allowed


class Error(Exception):
    """The call has no result. `may_be_done` is whether a command may have been done, and `reason` why there is no result.

    Its text has no name of a session, no token, and nothing of an answer but numbers.
    """

    reason = Reason.UNEXPECTED
    may_be_done = True

    def __repr__(self) -> str:
        return f"{type(self).__name__}({str(self)!r})"


class Unsendable(ValueError):
    """What can't be sent. Its text has no name and no token."""


class Refused(Error):
    """The server refused the request. `code` and `name` are those of docs/reference/api.md, `details` has the further key, if any.

    A refused command wasn't done, unless `may_be_done`: after 41 Store, 60 Unavailable and 61 Diverged, or if the answer to an
    earlier attempt of the same call was lost.
    """

    def __init__(self, code: int, name: str, details: Dict[str, Any]) -> None:
        super().__init__(code, name, details)
        self.code, self.name, self.details = code, name, details
        self.reason, self.may_be_done = REASONS.get(code, Reason.REFUSED), code in (41, 60, 61)

    def __str__(self) -> str:
        # What a server sends is no text of a log: the name is that of docs/reference/api.md, and the name of a set is only in `details`.
        more = [f"{key} {value}" for key, value in self.details.items() if type(value) is int]
        return " ".join([str(self.code), NAMES.get(self.code, "(a later refusal)"), *more])


class Unanswered(Error):
    """No complete answer came: a timeout, or a lost connection. Whether a command was done is unknown: it may have been done.

    A command that was sent stays unanswered if no server can be reached afterwards.
    """

    reason = Reason.UNANSWERED


class Unreachable(Error):
    """There is no server, or not the right one: `reason` is `unreachable` or `untrusted`. The request was never sent."""

    may_be_done = False

    def __init__(self, detail: str, reason: Reason = Reason.UNREACHABLE) -> None:
        super().__init__(detail, reason)
        self.reason = reason

    def __str__(self) -> str:
        return str(self.args[0])


class Unexpected(Error):
    """The answer isn't one that `rbac` sends. Whether a command was done is unknown: it may have been done."""

    def __init__(self, detail: str, reason: Reason = Reason.UNEXPECTED) -> None:
        super().__init__(detail, reason)
        self.reason = reason

    def __str__(self) -> str:
        return str(self.args[0])


# The reasons of the refusals that a decision can get, by their codes.
REASONS = {
    **dict.fromkeys([26], Reason.ENDED_SESSION),
    **dict.fromkeys([6, 33], Reason.UNKNOWN_NAME),
    **dict.fromkeys([1, 34, 35, 36], Reason.INVALID_REQUEST),
    **dict.fromkeys([62], Reason.UNAUTHENTICATED),
    **dict.fromkeys([63, 65, 66], Reason.FORBIDDEN),
    **dict.fromkeys([40, 41, 42, 60, 61, 64], Reason.UNAVAILABLE),
}

# Those that a decision about a user can get besides. Of a command they are refusals as others.
_OF_USERS = {2: Reason.UNKNOWN_NAME}

# The reasons of answers that aren't those of `rbac`, by their statuses: a proxy sends them.
REASONS_OF_STATUSES = {
    **dict.fromkeys([401], Reason.UNAUTHENTICATED),
    **dict.fromkeys([403], Reason.FORBIDDEN),
    **dict.fromkeys([429, 502, 503, 504], Reason.UNAVAILABLE),
}


def decision_of(error: Error) -> Decision:
    """The decision if an error came instead of an answer: it denies."""
    code = error.code if isinstance(error, Refused) else None
    # No other refusal is an answer to this question.
    reason = _OF_USERS.get(code or 0, Reason.UNEXPECTED) if error.reason is Reason.REFUSED else error.reason
    return Decision(reason, str(error), code)
