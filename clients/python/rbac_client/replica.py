"""A replica: a copy of an office in this process, which follows the front and decides by itself.

It needs the module `rbac_office` with the library librbac (docs/howto/embed.md), Linux, and Python 3.10 or later. The caller of its client
needs the rights `snapshot` and `watch`, so it gets the whole policy. docs/howto/integrate.md, section 7, says when to use it.
"""

import asyncio
import enum
import functools
import json
import logging
import math
import os
import random
import threading
import weakref
from collections import Counter
from dataclasses import dataclass
from typing import Any, Callable, Dict, NamedTuple, Optional, Tuple, TypeVar

import rbac_office

from ._async import AsyncOffice
from ._client import Client, Office
from ._decision import Decision, Error, Reason, Refused, Unexpected
from ._following import OUTDATED, Event, Watch, now
from ._office import LogLines, decided, undecided
from ._rows import answer_to, office_of
from ._values import session_digest

LOGGER = logging.getLogger("rbac_client")

# How many digests of sessions are kept.
_MOST_DIGESTS = 16_384

# For how many seconds a watch is followed: until then the clocks of two machines differ by less than a millisecond or so.
_LONGEST_WATCH = 600.0

# The pauses before the front is asked again, in seconds: none at first, and each is twice the one before. The last one is that after
# the front has refused to be followed: each attempt costs it a snapshot.
_PAUSE, _LONGEST_PAUSE, _REFUSED_PAUSE = 0.05, 1.0, 5.0

# The commands that the revision of the policy doesn't count.
_ABOUT_SESSIONS = (b'{"fn":"createSession"', b'{"fn":"deleteSession"', b'{"fn":"addActiveRole"', b'{"fn":"dropActiveRole"')

# For how many seconds the roles of a session that began without some may still be on their way, and how many such are kept.
_YOUNG, _MOST_YOUNG = 2.0, 4_096

# Why the front refuses to be followed at all.
_NO_RIGHT = (Reason.UNAUTHENTICATED, Reason.FORBIDDEN)


class Otherwise(enum.Enum):
    """What a replica does if its copy is too old, hasn't the wanted revision, or doesn't know the session."""

    ASK = "ask"
    """Ask the front."""
    WAIT = "wait"
    """Wait for the copy up to a limit, and deny then."""
    DENY = "deny"
    """Deny at once."""


@dataclass(frozen=True)
class ReplicaDecision(Decision):
    """A decision that also says by which state of the office it was made."""

    age: float = math.inf
    """So many seconds before the decision, at most, the copy had all that was accepted. With `number` 0: how long the front took."""
    number: int = 0
    """The number of the last command in the copy; 0 if the front was asked."""


@dataclass(frozen=True)
class Status:
    """How the copy is. `reason` is why it isn't followed at the moment, if it isn't."""

    number: int
    revision: int
    age: float
    reason: Optional[Reason]
    detail: str


class _Asked(NamedTuple):
    """A question: what the front knows as its session or user, and what the copy does."""

    is_by_user: bool
    holder: str
    name: str
    operation: str
    object: str
    at_least: int


class _Diverged(Unexpected):
    """The copy isn't that of the front any more, or may not be."""


class _Copy:
    """A copy of an office, with the numbers of the last command in it, and when the front was asked for it."""

    def __init__(self, office: rbac_office.Office, number: int, revision: int, place: int, asked: float) -> None:
        self.office, self.number, self.revision, self.place, self.asked = office, number, revision, place, asked
        # What the revision is over several machines: the number of the last command that it counts.
        self.last = revision

    def compare(self, revision: Optional[int]) -> None:
        """Compares the revision with that of the front, which has the same commands: one of them may have been left out."""
        if revision is not None and revision not in (self.revision, self.last):
            raise _Diverged(f"the policy has revision {revision}, and the copy {self.revision}")
        self.revision = self.revision if revision is None else revision


def _invalid(error: Exception) -> ReplicaDecision:
    """The decision if the question can't be asked."""
    return ReplicaDecision(Reason.INVALID_REQUEST, undecided(error).detail)


class Replica(Office):
    """Decides by its own copy of an office, and asks the front for everything else. Threads may share it.

    A process that was forked has no copy: make the replica after the fork.
    """

    def __init__(
        self,
        client: Client,
        *,
        oldest: float = 5.0,
        otherwise: Otherwise = Otherwise.ASK,
        wait: float = 2.0,
        silence: float = 5.0,
    ) -> None:
        """`client`: asks the front; its caller needs the rights `snapshot` and `watch`.

        `oldest`: how many seconds old a copy may be that decides.
        `otherwise`: what is done if the copy may not decide. `wait`: for how many seconds `Otherwise.WAIT` waits.
        `silence`: after how many seconds without a word of the front the copy counts as cut off.
        """
        super().__init__()
        self._client, self._oldest, self._otherwise, self._wait, self._silence = client, oldest, otherwise, wait, silence
        self._lock = threading.Lock()
        self._changed = threading.Condition(self._lock)
        self._copy: Optional[_Copy] = None
        # When the copy had all that was accepted, and when it got the sessions that may not have all of their roles yet.
        self._fresh = -math.inf
        self._young: Dict[str, float] = {}
        self._trouble: Optional[Error] = Unexpected("nothing was loaded yet", Reason.UNAVAILABLE)
        self._failures = 0
        self._lines, self._is_told = LogLines(), True
        # How many decisions `may` has made by itself: those that deny, and those that allow.
        self._made = [0, 0]
        self._watch: Optional[Watch] = None
        self._closing = threading.Event()
        self._digest = functools.lru_cache(_MOST_DIGESTS)(session_digest)
        self._thread = threading.Thread(target=self._run, name="rbac-replica", daemon=True)
        self._thread.start()
        _ALL.add(self)

    def __enter__(self) -> "Replica":
        return self

    def __exit__(self, *_: object) -> None:
        self.close()

    def close(self) -> None:
        """Ends the replica. It denies then. The client stays open."""
        self._closing.set()
        with self._lock:
            watch = self._watch
        if watch is not None:
            watch.close()
        self._thread.join(1.0)
        self._drop(Unexpected("the replica is closed", Reason.UNAVAILABLE))

    def ready(self, timeout: float = 10.0) -> bool:
        """Waits until the copy may decide, and returns whether it may."""
        with self._changed:
            return self._changed.wait_for(lambda: self._behind(0) is None, timeout)

    @property
    def status(self) -> Status:
        """How the copy is at the moment."""
        with self._lock:
            copy, error = self._copy, self._trouble
            number, revision = (copy.number, copy.revision) if copy else (0, 0)
            reason, detail = (error.reason, str(error)) if error else (None, "")
            return Status(number, revision, now() - self._fresh, reason, detail)

    def check(self, session: str, operation: str, object: str, at_least: int = 0) -> ReplicaDecision:
        """Whether the session may do the operation on the object, and why, by which state. It raises nothing.

        `at_least` is the revision of the policy that the copy has to have, such as `policy_revision` of a client after a command.
        """
        decision = self._decide(session, operation, object, at_least)
        self._decisions.keep(decision, operation, object)
        return decision

    def decide_by_user(self, user: str, operation: str, object: str, at_least: int = 0) -> ReplicaDecision:
        """Whether the user may do the operation on the object in some session, and why, by which state. It raises nothing."""
        decision = self._judged(_Asked(True, user, user, operation, object, at_least))
        self._decisions.keep(decision, operation, object)
        return decision

    def may(self, session: str, operation: str, object: str, at_least: int = 0) -> bool:
        """Whether to let the session do the operation on the object."""
        try:
            name = self._digest(session)
            with self._lock:
                copy = self._copy
                if copy is not None and now() - self._fresh <= self._oldest and copy.revision >= at_least:
                    is_allowed: bool = copy.office.check(name, operation, object)
                    if is_allowed or name not in self._young:
                        self._made[is_allowed] += 1
                        return is_allowed
        except Exception:  # The decision says what it is.
            pass
        return self.check(session, operation, object, at_least).allowed

    @property
    def counts(self) -> Dict[Reason, int]:
        """How many decisions there were, by their reasons."""
        counts = Counter(super().counts)
        with self._lock:
            denied, allowed = self._made
        return dict(counts + Counter({Reason.DENIED: denied, Reason.ALLOWED: allowed}))

    def _decide(
        self, session: str, operation: str, object: str, at_least: int = 0, *, limit: Optional[float] = None
    ) -> ReplicaDecision:
        try:
            asked = self._about_session(session, operation, object, at_least)
        except Exception as error:
            return _invalid(error)
        return self._judged(asked, limit)

    def _about_session(self, session: str, operation: str, object: str, at_least: int) -> _Asked:
        return _Asked(False, session, self._digest(session), operation, object, at_least)

    def _judged(self, asked: _Asked, limit: Optional[float] = None) -> ReplicaDecision:
        try:
            decision, is_final = self._decide_here(asked)
            return decision if is_final else self._decide_otherwise(asked, decision, limit)
        except Exception as error:  # Whatever it is, it doesn't allow.
            return _invalid(error)

    def _decide_otherwise(self, asked: _Asked, decision: ReplicaDecision, limit: Optional[float]) -> ReplicaDecision:
        """What is decided if the copy may not: it may take a while."""
        if self._otherwise is Otherwise.WAIT:
            return self._decide_later(asked)
        return self._decide_there(asked, limit) if self._otherwise is Otherwise.ASK else decision

    def _decide_here(self, asked: _Asked) -> Tuple[ReplicaDecision, bool]:
        """The decision of the copy, and whether nothing else is to be tried."""
        with self._lock:
            behind = self._behind(asked.at_least)
            if behind is not None:
                return behind, self._closing.is_set() or (self._trouble is not None and self._trouble.reason in _NO_RIGHT)
            copy, age = self._copy, now() - self._fresh
            assert copy is not None
            try:
                decides = copy.office.check_user if asked.is_by_user else copy.office.check
                is_allowed = decides(asked.name, asked.operation, asked.object)
            except rbac_office.Refused as error:
                found = undecided(Refused(error.code, error.name, {}))
                is_final = found.reason is not Reason.ENDED_SESSION
                return ReplicaDecision(found.reason, found.detail, found.code, age, copy.number), is_final
            number = copy.number
            # A session that has just come may get its roles only now.
            is_young = not (is_allowed or asked.is_by_user) and now() - self._young.get(asked.name, -math.inf) < _YOUNG
        return ReplicaDecision(Reason.ALLOWED if is_allowed else Reason.DENIED, "", None, age, number), not is_young

    def _behind(self, at_least: int) -> Optional[ReplicaDecision]:
        """The decision if the copy may not decide. The caller has the lock."""
        copy, age = self._copy, now() - self._fresh
        if copy is None or age > self._oldest:
            error = self._trouble
            reason = Reason.UNAVAILABLE if error is None or error.reason is Reason.REFUSED else error.reason
            detail = f"the copy is {age:.1f} seconds old" if copy else "there is no copy"
            return ReplicaDecision(reason, f"{detail}: {error}" if error else detail, None, age, copy.number if copy else 0)
        if copy.revision < at_least:
            detail = f"the copy has revision {copy.revision} and not yet {at_least}"
            return ReplicaDecision(Reason.UNAVAILABLE, detail, None, age, copy.number)
        return None

    def _decide_later(self, asked: _Asked) -> ReplicaDecision:
        """The decision as soon as the copy may make it, or when the time is over."""
        limit = now() + self._wait
        while True:
            decision, is_final = self._decide_here(asked)
            left = limit - now()
            if is_final or left <= 0:
                return decision
            with self._changed:
                if self._copy is None or self._copy.number == decision.number:
                    self._changed.wait(min(left, 0.1))

    def _decide_there(self, asked: _Asked, limit: Optional[float]) -> ReplicaDecision:
        """The decision of the front."""
        began = now()
        if asked.is_by_user:
            found = self._client._decide_by_user(asked.holder, asked.operation, asked.object)
        else:
            found = self._client._decide(asked.holder, asked.operation, asked.object, limit=limit)
        return ReplicaDecision(found.reason, found.detail, found.code, now() - began, 0)

    def _call(
        self, function: str, arguments: Dict[str, Any], again: Optional[int] = None, limit: Optional[float] = None
    ) -> Any:
        return self._client._call(function, arguments, again, limit)

    def _limit(self) -> float:
        return self._client._limit()

    # The thread that follows the front.

    def _run(self) -> None:
        place = 0
        while not self._closing.wait(self._pause()):
            try:
                if self._copy is None or self._copy.place != place:
                    self._load(place)
                self._follow(place)
            except Error as error:
                self._troubled(error)
                # The numbers of another address may be of another order: there the copy is made anew.
                if self._failures > 1:
                    place = (place + 1) % self._client.places
            except Exception as error:  # Such as a failed allocation: the copy may have done half of it.
                self._troubled(_Diverged(type(error).__name__))

    def _pause(self) -> float:
        """How long to wait before the next attempt: longer after each that failed."""
        if self._trouble is not None and self._trouble.reason in _NO_RIGHT:
            return _REFUSED_PAUSE * random.uniform(0.5, 1.0)
        longest = min(_PAUSE * 2.0 ** min(self._failures - 2, 9), _LONGEST_PAUSE)
        return 0.0 if self._failures < 2 else longest * random.uniform(0.5, 1.0)

    def _troubled(self, error: Error) -> None:
        """Notes why the front isn't followed. The copy decides until it is too old, if nothing is wrong with it."""
        if self._closing.is_set():
            return
        self._failures += 1
        end = self._lines.due(error.reason)
        if end is not None:
            self._is_told = True
            LOGGER.warning("the replica is cut off: %s: %s%s", error.reason.value, error, end)
        is_outdated = isinstance(error, Refused) and error.code == OUTDATED
        if error.reason in _NO_RIGHT or is_outdated or isinstance(error, _Diverged):
            # The office may have been restored: nobody decides by what was before, and revisions of before count for nothing.
            self._client._settings.forget_revision()
            self._drop(error)
        with self._lock:
            self._trouble = error

    def _load(self, place: int) -> None:
        """Makes the copy by a snapshot of the front. It doesn't decide before the front lets it be followed."""
        snapshot = self._client.snapshot(place)
        made = _Copy(office_of(snapshot.lines), snapshot.number, snapshot.revision, place, snapshot.asked)
        with self._changed:
            if not self._closing.is_set():
                self._copy = made
                self._client._settings.saw(snapshot.revision)
                self._young.clear()
                for line in snapshot.lines:
                    self._note_session(line)
            self._changed.notify_all()

    def _follow(self, place: int) -> None:
        """Does what the front accepts until the watch ends."""
        if self._copy is None:
            return
        watch = self._client.watch(self._copy.number, place, self._silence)
        with self._changed:
            self._watch = watch
            if self._copy is not None:
                self._fresh = max(self._fresh, self._copy.asked)
            self._changed.notify_all()
        if self._closing.is_set():
            watch.close()
        for event in watch:
            if event.line is None:
                self._newest(event, watch.asked)
            else:
                self._accepted(event, event.line)
            # A front that doesn't tell the time is asked again: what it says first is no older than the request.
            if now() - watch.asked > _LONGEST_WATCH or (now() - self._fresh > self._oldest / 2 and event.line is None):
                return

    def _newest(self, event: Event, asked: float) -> None:
        """The front has said what the newest number was."""
        with self._changed:
            if self._copy is None:
                return
            moment = asked if event.moment is None else min(event.moment, now())
            if event.number < self._copy.number:
                raise _Diverged(f"the newest number is {event.number}, and the copy has {self._copy.number}")
            self._copy.compare(event.revision)
            # All commands up to that number were sent. On several machines those that were refused have numbers too.
            self._copy.number = event.number
            self._is_fresh(moment)

    def _is_fresh(self, moment: float) -> None:
        """The copy had all that was accepted at a moment. The caller has the lock."""
        if self._is_told:
            self._is_told = False
            LOGGER.info("the replica follows the front")
        self._fresh, self._trouble, self._failures = max(self._fresh, moment), None, 0
        self._changed.notify_all()

    def _accepted(self, event: Event, line: bytes) -> None:
        """The front has accepted a command."""
        with self._changed:
            copy = self._copy
            if copy is None:
                return
            if event.number <= copy.number:
                raise _Diverged(f"the front has sent number {event.number} after {copy.number}")
            try:
                answer_to(copy.office, line)
            except Exception as error:  # Nobody may decide by what is left.
                self._copy, self._fresh = None, -math.inf
                raise _Diverged(str(error) if isinstance(error, Unexpected) else type(error).__name__) from None
            copy.number = event.number
            if not line.startswith(_ABOUT_SESSIONS):
                copy.revision, copy.last = copy.revision + 1, event.number
            self._note_session(line)
            self._changed.notify_all()

    def _note_session(self, line: bytes) -> None:
        """Notes a session that begins without roles: the front makes it so, and activates one role after the other."""
        if not line.startswith(_ABOUT_SESSIONS[0]):
            return
        value = json.loads(line)
        if not value["roles"]:
            if len(self._young) >= _MOST_YOUNG:
                self._young.clear()
            self._young[value["session"]] = now()

    def _drop(self, error: Error) -> None:
        """Forgets the copy."""
        with self._changed:
            copy, self._copy, self._fresh, self._trouble = self._copy, None, -math.inf, error
            if copy is not None:
                copy.office.close()
            self._changed.notify_all()

    def _forked(self) -> None:
        """After a fork nobody follows the front here, and the library may not be called."""
        _LEFT.append(self._copy)
        self._lock = threading.Lock()
        self._changed = threading.Condition(self._lock)
        self._copy, self._fresh, self._watch = None, -math.inf, None
        self._trouble = Unexpected("the replica was made before this process was forked", Reason.UNAVAILABLE)


Result = TypeVar("Result")


class AsyncReplica(AsyncOffice):
    """A replica for an application of asyncio, such as one behind `AsgiGuard`: the methods of `Replica`, to await.

    The copy decides at once. What has to wait, or to ask the front, is done by a thread of the loop's executor.
    """

    def __init__(self, client: Client, **settings: Any) -> None:
        """The parameters are those of `Replica`, and `client` is a `Client`: a thread asks."""
        super().__init__()
        self._replica = Replica(client, **settings)

    async def __aenter__(self) -> "AsyncReplica":
        return self

    async def __aexit__(self, *_: object) -> None:
        await self.close()

    async def close(self) -> None:
        """Ends the replica. It denies then. The client stays open."""
        await self._elsewhere(self._replica.close)

    async def ready(self, timeout: float = 10.0) -> bool:
        """Waits until the copy may decide, and returns whether it may."""
        return await self._elsewhere(self._replica.ready, timeout)

    @property
    def status(self) -> Status:
        """How the copy is at the moment."""
        return self._replica.status

    async def check(self, session: str, operation: str, object: str, at_least: int = 0) -> ReplicaDecision:
        """Whether the session may do the operation on the object, and why, by which state. It raises nothing."""
        decision = await self._decide(session, operation, object, at_least)
        self._decisions.keep(decision, operation, object)
        return decision

    async def may(self, session: str, operation: str, object: str, at_least: int = 0) -> bool:
        """Whether to let the session do the operation on the object."""
        return (await self.check(session, operation, object, at_least)).allowed

    async def decide_by_user(self, user: str, operation: str, object: str, at_least: int = 0) -> ReplicaDecision:
        """Whether the user may do the operation on the object in some session, and why, by which state. It raises nothing."""
        decision = await self._judged(_Asked(True, user, user, operation, object, at_least))
        self._decisions.keep(decision, operation, object)
        return decision

    async def _decide(
        self, session: str, operation: str, object: str, at_least: int = 0, *, limit: Optional[float] = None
    ) -> ReplicaDecision:
        try:
            asked = self._replica._about_session(session, operation, object, at_least)
        except Exception as error:
            return _invalid(error)
        return await self._judged(asked, limit)

    async def _judged(self, asked: _Asked, limit: Optional[float] = None) -> ReplicaDecision:
        replica = self._replica
        try:
            decision, is_final = replica._decide_here(asked)
            if is_final or replica._otherwise is Otherwise.DENY:
                return decision
            return await self._elsewhere(replica._decide_otherwise, asked, decision, limit)
        except Exception as error:  # Whatever it is, it doesn't allow.
            return _invalid(error)

    async def _call(
        self, function: str, arguments: Dict[str, Any], again: Optional[int] = None, limit: Optional[float] = None
    ) -> Any:
        return await self._elsewhere(self._replica._call, function, arguments, again, limit)

    def _limit(self) -> float:
        return self._replica._limit()

    async def _elsewhere(self, call: Callable[..., Result], *given: Any) -> Result:
        """What a thread returns that may wait."""
        return await asyncio.get_running_loop().run_in_executor(None, call, *given)


# The replicas of this process, and the copies that a forked process has left alone.
_ALL: "weakref.WeakSet[Replica]" = weakref.WeakSet()
_LEFT: list[Optional[_Copy]] = []


def _all_forked() -> None:
    for replica in list(_ALL):
        replica._forked()


os.register_at_fork(after_in_child=_all_forked)
