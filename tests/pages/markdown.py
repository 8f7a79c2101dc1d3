"""A page in Markdown: the text below a heading, tables and fenced blocks."""

import re
from dataclasses import dataclass

from program.bench import TESTS

DOCS = TESTS.parent / "docs"


@dataclass(frozen=True)
class Part:
    """The part of a page about a function: what it is, what refuses it, and lines with their answers."""

    text: str
    refused: str
    lines: list


def page(name):
    """The text of a page."""
    return (DOCS / name).read_text(encoding="utf-8")


def in_one_line(text):
    """A text with one space between its words."""
    return " ".join(text.split())


def section(text, heading):
    """The text below a heading, up to the next one of the same or a higher level."""
    level = len(heading.split()[0])
    pattern = rf"^{re.escape(heading)}\n(.*?)(?=^#{{1,{level}}} |\Z)"
    match = re.search(pattern, text, re.M | re.S)
    if not match:
        raise ValueError(f"there is no {heading}")
    return match[1]


def blocks(text, language):
    """The lines of each fenced block of a language."""
    found = re.findall(rf"^```{language}\n(.*?)^```$", text, re.M | re.S)
    if not found:
        raise ValueError(f"there is no block of {language}")
    return [block.splitlines() for block in found]


def tables(text):
    """The rows of each table, without its heading, as lists of cells."""
    found = re.findall(r"^\|.*\n\|[-|]+\n((?:\|.*\n)+)", text, re.M)
    return [[[cell.strip() for cell in row[1:-1].split("|")] for row in table.splitlines()] for table in found]


def pairs(lines):
    """Request lines with the answer lines below them."""
    return list(zip(lines[::2], lines[1::2], strict=True))


def parts(text):
    """Returns the part about each function that has a heading in a section."""
    pattern = r"^### (\w+)\n(.*?)\n- Refused: (.*?)\.\n```json\n(.*?)\n```$"
    found = {}
    for piece in re.split(r"(?=^### )", text, flags=re.M)[1:]:
        match = re.match(pattern, piece, re.M | re.S)
        if not match:
            raise ValueError(f"this is no part: {piece}")
        name, says, refused, lines = match.groups()
        found[name] = Part(in_one_line(says), in_one_line(refused), pairs(lines.splitlines()))
    return found
