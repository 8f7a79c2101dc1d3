"""Snapshots of an office, and watches of the commands that it accepts, by the front."""

import socket
import time
from collections import deque
from dataclasses import dataclass, field
from typing import Deque, Dict, Iterator, List, Optional

from ._answers import raise_refusal
from ._course import remaining
from ._decision import Unanswered, Unexpected
from ._http import LONGEST_HEAD, Reply, number_of

LONGEST_SNAPSHOT = 256 * 1024 * 1024

# The longest line of an event: `data: `, and a command.
_LONGEST_LINE = 65_536 + 64

# What a number is refused with after which not all commands are known.
OUTDATED = 67


def now() -> float:
    """Seconds of a clock that nobody sets, and that goes on while the machine sleeps."""
    return time.clock_gettime(time.CLOCK_BOOTTIME)


@dataclass(frozen=True)
class Snapshot:
    """The lines that make an office with what was in it. Sessions have digests for names."""

    number: int
    """How many commands the office had accepted."""
    revision: int
    """How many of them aren't about one session."""
    asked: float
    """When it was asked for, by `now`: it has all that had been accepted before."""
    lines: List[bytes] = field(repr=False)


def read_snapshot(reply: Reply, asked: float) -> Snapshot:
    """Reads the answer to a request for a snapshot."""
    if reply.status != 200:
        raise_refusal("/snapshot", reply.status, reply.body)
    number, revision = number_of(reply.head, b"Office-Number"), number_of(reply.head, b"Policy-Revision")
    body = reply.body
    if number is None or revision is None or (body and not body.endswith(b"\n")):
        raise Unexpected("no snapshot: it has no number, no revision, or half of a line")
    return Snapshot(number, revision, asked, body.split(b"\n")[:-1])


@dataclass(frozen=True)
class Event:
    """An accepted command, or the newest number if there is no line."""

    number: int
    line: Optional[bytes] = None
    moment: Optional[float] = None
    """If there is no line: a time by `now` before which the number was not yet written. None if the front doesn't tell."""
    revision: Optional[int] = None
    """If there is no line: the revision of the policy at that number. None if the front doesn't tell."""


class Watch:
    """The events of a watch, one after the other. Another thread may end it by `close`.

    `asked` is when it was asked for, by `now`.
    """

    def __init__(self, connection: socket.socket, text: bytes, asked: float, silence: float) -> None:
        self._connection, self.asked, self._silence = connection, asked, silence
        self._lines: Deque[bytes] = deque()
        self._rest, self._limit = b"", time.monotonic() + silence
        try:
            connection.settimeout(remaining(self._limit))
            connection.sendall(text)
        except OSError as error:
            raise Unanswered(str(error)) from error
        self._read_head()

    def close(self) -> None:
        """Ends the watch."""
        try:
            # A socket of TLS would forget its state, which another thread may be using.
            socket.socket.shutdown(self._connection, socket.SHUT_RDWR)
        except OSError:
            pass

    def __iter__(self) -> Iterator[Event]:
        """The events until the watch ends: by `Unanswered`, or by `Unexpected` if it isn't one of the front."""
        try:
            while True:
                self._limit = time.monotonic() + self._silence
                yield self._event()
        finally:
            self._connection.close()

    def _read_head(self) -> None:
        """Reads the head of the answer. Any other answer is a refusal."""
        head = b""
        while not head.endswith(b"\r\n\r\n"):
            head += self._ended(LONGEST_HEAD) + b"\n"
            if len(head) > LONGEST_HEAD or not head.startswith(b"HTTP/1."):
                raise Unexpected("no answer of rbac to /watch")
        fields = head.lower()
        if head.startswith(b"HTTP/1.1 200 ") and b"\ncontent-type: text/event-stream\r" in fields:
            if b"\ncontent-length:" in fields or b"\ntransfer-encoding:" in fields:
                raise Unexpected("the watch has a length")
            return
        reply, piece = Reply(), head + b"".join(line + b"\n" for line in self._lines) + self._rest
        while not reply.feed(piece):
            piece = self._received()
        raise_refusal("/watch", reply.status, reply.body, (410,))

    def _event(self) -> Event:
        """The next event. Fields with other names are ignored; what isn't one event as the front writes it is no event."""
        fields: Dict[bytes, bytes] = {}
        while line := self._line(_LONGEST_LINE):
            name, colon, value = line.partition(b": ")
            if not colon or not name.isalpha() or name in fields:
                raise Unexpected("no event: a line is no field, or a field is there twice")
            fields[name] = value
        if b"event" not in fields:
            if b"data" not in fields:
                raise Unexpected("no event: it has no command")
            return Event(_number(fields.get(b"id", b"")), fields[b"data"])
        if fields[b"event"] != b"newest":
            raise Unexpected("no event: its type is unknown")
        elapsed = fields.get(b"elapsed")
        moment = None if elapsed is None else self.asked + _number(elapsed) / 1_000
        revision = None if b"revision" not in fields else _number(fields[b"revision"])
        return Event(_number(fields.get(b"data", b"")), None, moment, revision)

    def _line(self, longest: int) -> bytes:
        """The next line, without its end: LF, or CR LF."""
        line = self._ended(longest)
        return line[:-1] if line.endswith(b"\r") else line

    def _ended(self, longest: int) -> bytes:
        """The next line, without its LF."""
        while not self._lines:
            if len(self._rest) > longest:
                raise Unexpected("a line of the watch is too long")
            *lines, self._rest = (self._rest + self._received()).split(b"\n")
            self._lines.extend(lines)
        return self._lines.popleft()

    def _received(self) -> bytes:
        """The next bytes."""
        try:
            self._connection.settimeout(remaining(self._limit))
            piece = self._connection.recv(65_536)
        except (OSError, ValueError) as error:
            raise Unanswered(str(error)) from error
        if not piece:
            raise Unanswered("the watch has ended")
        return piece


def _number(text: bytes) -> int:
    if not text.isdigit() or len(text) > 18:
        raise Unexpected("no event: its number is none")
    return int(text)
