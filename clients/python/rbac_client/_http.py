"""HTTP/1.1 as far as `rbac` and its front use it: requests as bytes, and answers that are read from bytes as they arrive."""

import ipaddress
import re
from dataclasses import dataclass
from typing import Callable, Optional, Union

from ._answers import LONGEST_ANSWER
from ._decision import Unexpected, Unsendable

LONGEST_HEAD = 16_384

# The head of an answer: a status line, and fields.
_HEAD = re.compile(
    rb"HTTP/1\.([01]) (\d{3}) [\t\x20-\x7e\x80-\xff]*\r\n(?:[!#$%&'*+.^_`|~0-9A-Za-z-]+:[\t\x20-\x7e\x80-\xff]*\r\n)*"
)
_LENGTH = re.compile(rb"(?i)\ncontent-length[ \t]*:[ \t]*([^\r\n]*)\r")
_OTHERS = re.compile(rb"(?i)\n(?:(transfer-encoding)|connection:[^\r\n]*(close))")

_NUMBERS = {name: re.compile(rb"(?i)\n%s:[ \t]*([^\r\n]*)\r" % name) for name in (b"Office-Number", b"Policy-Revision")}

# Why a token isn't sent.
NO_TLS = "a token is sent over TLS alone, or to this machine: give an address that begins with https://"

# A token, or what returns the present one.
Token = Union[str, Callable[[], str]]


@dataclass(frozen=True)
class Address:
    """Where a server listens: at a host and a port, with or without TLS, or at a socket in the file system."""

    host: str
    port: int = 0
    is_tls: bool = False
    path: str = ""

    @classmethod
    def read(cls, text: str) -> "Address":
        """Reads `http://HOST:PORT`, `https://HOST:PORT` or `unix:PATH`."""
        if text.startswith("unix:") and len(text) > 5:
            return cls("localhost", path=text[5:])
        parts = re.fullmatch(r"(https?)://([^\s/:@?#\[\]]+|\[[0-9A-Fa-f:.]+\])(?::(\d{1,5}))?/?", text)
        if not parts or int(parts[3] or 0) > 65_535:
            # The text isn't shown: it may have a password.
            raise ValueError("this is no address such as https://localhost:8080 or unix:/run/rbac/office.sock")
        is_tls = parts[1] == "https"
        return cls(parts[2].strip("[]"), int(parts[3] or (443 if is_tls else 80)), is_tls)

    @property
    def hides(self) -> bool:
        """Whether nobody on the way can read what is sent: over TLS, or on this machine."""
        if self.is_tls or self.path or self.host.lower() == "localhost":
            return True
        try:
            return ipaddress.ip_address(self.host).is_loopback
        except ValueError:
            return False

    @property
    def field(self) -> str:
        """The value of the field `Host`."""
        host = f"[{self.host}]" if ":" in self.host else self.host
        return host if self.path else f"{host}:{self.port}"


def judged(token: str) -> str:
    """A token without the end of the line that it may have. Raises `ValueError` if it can't be sent."""
    found = re.fullmatch(r"([\x21-\x7e]+)(?:\r?\n)?", token) if isinstance(token, str) else None
    if found is None:
        raise Unsendable("a token is a text of visible ASCII characters without spaces")
    return found[1]


def request(address: Address, target: str, body: Optional[bytes], token: Optional[Token], keeps: bool) -> bytes:
    """The bytes of a request for a method and a path. The connection is kept after it if `keeps`."""
    shown = judged(token()) if callable(token) else token
    fields = f"{target} HTTP/1.1\r\nHost: {address.field}\r\n"
    if body is not None:
        kind = "text/csv" if target.endswith("importAssignments") else "application/json"
        fields += f"Content-Length: {len(body)}\r\nContent-Type: {kind}\r\n"
    if shown is not None:
        fields += f"Authorization: Bearer {shown}\r\n"
    return f"{fields}{'' if keeps else 'Connection: close' + chr(13) + chr(10)}\r\n".encode() + (body or b"")


def number_of(head: bytes, name: bytes) -> Optional[int]:
    """The number that a field of the head of an answer states, such as `Policy-Revision`, or None."""
    found = _NUMBERS[name].findall(head)
    return int(found[0]) if len(found) == 1 and re.fullmatch(rb"[0-9]{1,18}", found[0]) else None


class Reply:
    """An answer as it arrives. It has to state the length of its body in exactly one way."""

    def __init__(self, longest: int = LONGEST_ANSWER) -> None:
        """`longest` is how many bytes the body may have."""
        self._received, self._longest, self.head = bytearray(), longest, b""
        self._start = self._end = 0
        self.status, self.keeps, self.revision = 0, False, 0

    @property
    def body(self) -> bytes:
        """The body of a complete answer."""
        return bytes(self._received[self._start : self._end])

    def feed(self, piece: bytes) -> bool:
        """Adds bytes, and returns whether the answer is complete. Raises `Unexpected` if it isn't one of `rbac`."""
        self._received += piece
        if not self._end:
            if not self._received.startswith(b"HTTP/1."[: len(self._received)]):
                raise Unexpected("no HTTP")
            at = self._received.find(b"\r\n\r\n")
            if at < 0:
                if len(self._received) > LONGEST_HEAD:
                    raise Unexpected("the head of the answer is too long")
                return False
            self._read_head(bytes(self._received[: at + 2]), at + 4)
        if len(self._received) > self._end:
            raise Unexpected("there is more than an answer")
        return len(self._received) == self._end

    def _read_head(self, head: bytes, start: int) -> None:
        status, lengths = _HEAD.fullmatch(head), _LENGTH.findall(head)
        if not status or len(lengths) != 1 or not re.fullmatch(rb"\d{1,9}", lengths[0].strip()) or len(head) > LONGEST_HEAD:
            raise Unexpected("no answer of rbac: a wrong head")
        others = _OTHERS.findall(head)
        if any(encoding for encoding, _ in others):
            raise Unexpected("the answer states its length in two ways")
        self.status, length = int(status[2]), int(lengths[0])
        if length > self._longest:
            raise Unexpected(f"the answer has {length} bytes")
        self._start, self._end = start, start + length
        self.revision, self.head = number_of(head, b"Policy-Revision") or 0, head
        self.keeps = status[1] == b"1" and not others
