"""What a client was configured with, and the course of a call: which address is asked next, for how long, after which pause."""

import ssl
import time
from dataclasses import dataclass, field
from typing import List, Optional, Sequence, Union

from ._decision import Error, Reason, Refused, Unanswered, Unreachable
from ._answers import AGAIN, KINDS
from ._http import NO_TLS, Address, Token, judged
from ._locks import Lock

# How often a command is sent at most, and for what a question is asked at the next address.
MOST_ATTEMPTS = 4
_OF_ONE_ADDRESS = (
    Reason.UNAVAILABLE,
    Reason.UNREACHABLE,
    Reason.UNTRUSTED,
    Reason.UNANSWERED,
    Reason.UNEXPECTED,
)

# For what a question is asked again at the same addresses: a server that is restarted or too busy.
_OF_THE_MOMENT = (Reason.UNAVAILABLE, Reason.UNREACHABLE, Reason.UNANSWERED)


@dataclass
class Settings:
    """What a client was configured with, and the address that answered last."""

    addresses: List[Address]
    timeout: float
    token: Optional[Token] = field(repr=False)
    context: Optional[ssl.SSLContext]
    pause: float
    repeats: bool
    first: int = field(default=0)
    revision: int = field(default=0)
    lock: Lock = field(default_factory=Lock, repr=False)

    @classmethod
    def of(
        cls,
        addresses: Union[str, Sequence[str]],
        timeout: float,
        token: Optional[Token],
        ca: Optional[str],
        certificate: Optional[str],
        key: Optional[str],
        pause: float,
        repeats: bool,
        token_over_http: bool,
    ) -> "Settings":
        """Reads the arguments of a client."""
        read = [Address.read(one) for one in ([addresses] if isinstance(addresses, str) else addresses)]
        if not read:
            raise ValueError("there is no address")
        if token is not None and not callable(token):
            token = judged(token)
        if token is not None and not token_over_http and not all(one.hides for one in read):
            raise ValueError(f"{NO_TLS}, or token_over_http if the network encrypts by itself")
        context = None
        if any(one.is_tls for one in read):
            context = ssl.create_default_context(cafile=ca)
            context.minimum_version = ssl.TLSVersion.TLSv1_2
            # As the clients in the other languages: a name in the subject alone isn't one.
            context.hostname_checks_common_name = False
            if certificate is not None:
                context.load_cert_chain(certificate, key)
        return cls(read, timeout, token, context, pause, repeats)

    def saw(self, revision: int) -> None:
        """Notes the revision of the policy that an answer had."""
        if revision > self.revision:
            with self.lock:
                self.revision = max(self.revision, revision)

    def forget_revision(self) -> None:
        """Forgets the revision: those that come next may be smaller, since the office may have been restored."""
        with self.lock:
            self.revision = 0


class Course:
    """The course of one call. It ends with an answer, or with the error that `after` raises."""

    def __init__(self, settings: Settings, function: str, again: Optional[int] = None, limit: Optional[float] = None) -> None:
        """`again` is the code that means that the command was done, if the function alone doesn't say it.

        `limit` is when the call has to have ended, if it is a part of something that takes longer.
        """
        self._settings = settings
        began = time.monotonic()
        self.deadline = began + settings.timeout if limit is None else min(limit, began + settings.timeout)
        # The latest time at which a question is asked again at the same addresses.
        self._latest = began + (self.deadline - began) / 2
        self.is_question = KINDS[function] not in ("done", "import", "session")
        self._again = AGAIN.get(function) if again is None else again
        if not settings.repeats:
            self._again = None
        can_be_repeated = self.is_question or self._again is not None
        self._left = (len(settings.addresses) if self.is_question else MOST_ATTEMPTS) if can_be_repeated else 1
        # Addresses that can't be reached cost no attempt: nothing was sent.
        self._unreached = len(settings.addresses) - 1
        self._at, self._sent, self._lost = settings.first, 0, False

    @property
    def address(self) -> Address:
        """The address that is asked now."""
        return self._settings.addresses[self._at % len(self._settings.addresses)]

    def limit(self) -> float:
        """When the attempt has to have ended: a share of the time is left for each further attempt."""
        now = time.monotonic()
        share = (self._left if self.is_question else min(self._left, 2)) + self._unreached * (not self.is_question)
        return now + max(self.deadline - now, 0) / max(share, 1)

    def answered(self) -> None:
        """The address has answered: the next call begins with it."""
        self._settings.first = self._at % len(self._settings.addresses)

    def after(self, error: Error) -> Optional[float]:
        """What follows on an error: after how many seconds the next attempt, or None if the command was done.

        Raises what the call has to raise if there is no further attempt.
        """
        is_refused = isinstance(error, Refused) and error.reason is not Reason.UNAVAILABLE
        if is_refused:
            self.answered()
            if self._lost and self._again and isinstance(error, Refused) and error.code == self._again:
                return None
        error.may_be_done = not self.is_question and (error.may_be_done or self._lost)
        if is_refused or error.reason not in _OF_ONE_ADDRESS or time.monotonic() >= self.deadline:
            raise self._last(error)
        self._at += 1
        if self.is_question:
            return self._asked_again(error)
        if isinstance(error, Unreachable):
            return self._elsewhere(error)
        self._left -= 1
        if self._left <= 0 or error.reason is Reason.UNEXPECTED:
            raise error
        self._lost = self._lost or error.may_be_done
        return self._pause()

    def _last(self, error: Error) -> Error:
        """What the call raises at its end: a command that was sent is unanswered, though nobody could be reached after that."""
        if self._lost and isinstance(error, Unreachable):
            return Unanswered(f"the answer was lost, and then: {error}")
        return error

    def _asked_again(self, error: Error) -> float:
        """The next address at once. After the last one all of them again, after a pause, while half of the time is left."""
        self._left -= 1
        if self._left > 0:
            return 0.0
        pause = self._pause()
        if error.reason not in _OF_THE_MOMENT or time.monotonic() + pause > self._latest:
            raise error
        self._left = len(self._settings.addresses)
        return pause

    def _elsewhere(self, error: Error) -> float:
        """The next address, since nothing was sent to this one. A command whose answer was lost waits for a server."""
        if self._unreached > 0:
            self._unreached -= 1
            return 0.0
        if not self._lost:
            raise error
        return self._pause()

    def _pause(self) -> float:
        """The seconds of the next pause: each time twice as many."""
        self._sent += 1
        seconds: float = min(self._settings.pause * 2 ** (self._sent - 1), max(self.deadline - time.monotonic(), 0))
        return seconds


def remaining(limit: float) -> float:
    """The seconds until a limit. Raises `Unanswered` if there are none."""
    seconds = limit - time.monotonic()
    if seconds <= 0:
        raise Unanswered("no complete answer came in time")
    return seconds
