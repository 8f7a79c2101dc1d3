"""Mistakes in a file, with the path of the key, and the line if it is found in the text."""

import re
import tomllib
from dataclasses import dataclass

from .model import shown

# The keys and the places of lists that lead to a value.
Path = tuple[str | int, ...]

LONGEST_NAME = 64


@dataclass(frozen=True)
class Mistake:
    """What is wrong at a path of a file. Its line is 0 if it isn't known."""

    file: str
    line: int
    path: Path
    text: str

    def __str__(self) -> str:
        place = f"{self.file}:{self.line}" if self.line else self.file
        return f"{place}: {f'{path_text(self.path)}: ' if self.path else ''}{self.text}"


def path_text(path: Path) -> str:
    """A path as TOML writes the keys: `roles."branch manager".grants.vault[0]`."""
    text = ""
    for key in path:
        text += f"[{key}]" if isinstance(key, int) else f"{'.' if text else ''}{key_text(key)}"
    return text


def key_text(key: str) -> str:
    """A key as TOML writes it: bare if it can be, otherwise in double quotes."""
    return key if re.fullmatch(r"[A-Za-z0-9_-]+", key) else text_of(key)


def text_of(value: str) -> str:
    """A text as TOML writes it, in double quotes."""
    return '"' + "".join(map(_escaped, value)) + '"'


def _escaped(sign: str) -> str:
    """A sign as it is within double quotes: what a terminal could take for more than a sign is escaped."""
    if sign in _ESCAPES or sign.isprintable():
        return _ESCAPES.get(sign, sign)
    return f"\\u{ord(sign):04x}" if ord(sign) < 0x10000 else f"\\U{ord(sign):08x}"


_ESCAPES = {'"': '\\"', "\\": "\\\\", "\b": "\\b", "\t": "\\t", "\n": "\\n", "\f": "\\f", "\r": "\\r"}


def _is_control(sign: str) -> bool:
    return sign < " " or sign == "\x7f"


def name_fault(name: str) -> str | None:
    """Why a text is no name of an office, or None."""
    size = len(name.encode(errors="surrogatepass"))
    if not 1 <= size <= LONGEST_NAME:
        return f"a name has 1 to {LONGEST_NAME} bytes, and this one has {size}"
    if any(map(_is_control, name)):
        return f"a name has no control characters, and {shown(name)} has one"
    if any("\ud800" <= sign <= "\udfff" for sign in name):
        return "a name is UTF-8"
    return None


class Lines:
    """Where the keys of a text in TOML are. A key in a text of several lines may be found at the wrong one."""

    def __init__(self, text: str) -> None:
        self._lines: dict[Path, int] = {}
        table: Path = ()
        counts: dict[Path, int] = {}
        for number, line in enumerate(text.splitlines(), 1):
            if header := re.match(r"\s*(\[\[?.*\]\]?)\s*(?:#.*)?$", line):
                found = _keys(header[1])
                if found is None:
                    continue
                if header[1].startswith("[["):
                    counts[found] = counts.get(found, -1) + 1
                    found += (counts[found],)
                table = found
                self._note(table, number)
            elif (equals := re.match(r"""\s*((?:[^"'=#]|"(?:[^"\\]|\\.)*"|'[^']*')+?)\s*=""", line)) is not None:
                found = _keys(f"{equals[1]} = 0")
                self._note(table + (found or ()), number)

    def _note(self, path: Path, number: int) -> None:
        for end in range(1, len(path) + 1):
            self._lines.setdefault(path[:end], number)

    def of(self, path: Path) -> int:
        """The line of a path, or of the longest part of it that is found; 0 if none is."""
        while path:
            if path in self._lines:
                return self._lines[path]
            path = path[:-1]
        return 0


def _keys(text: str) -> Path | None:
    """The keys that a line of TOML leads to."""
    try:
        value = tomllib.loads(text)
    except tomllib.TOMLDecodeError:
        return None
    path: Path = ()
    while True:
        if isinstance(value, list):
            value = value[0]
        if not isinstance(value, dict) or not value:
            return path
        ((key, value),) = value.items()
        path += (key,)
