"""Random lines and texts: random bytes, random parts of JSON, deep JSON."""

import json

from machine.commands import COMMANDS
from machine.questions import QUESTIONS
from machine.requests import LONGEST_LINE

# The parts of random lines that look like JSON.
PARTS = [
    *(json.dumps(name) for name in ["fn", "user", "role", "roles", "cardinality", "ann", "clerk", "", "\\", "\u20ac"]),
    *(json.dumps(name) for name in [*COMMANDS, *QUESTIONS]),
    *"{}[]:,{}[]:,{}[]:,{}[]:,",
    *["null", "true", "false", "0", "-1", "2.5e3", "1e999", "01", '"', "\\", "\\u", " ", "\t", "\r", "\x00", "\x7f"],
]

# How deep JSON nests in the lines that are tried.
DEPTHS = [1, 2, 64, 125, 126, 127, 128, 129, 1_000, 10_000, 30_000]


def random_bytes(draws, length):
    """This many bytes without LF."""
    return draws.randbytes(length).replace(b"\n", b"\x0b")


def random_parts(draws, count):
    """This many parts of JSON, one after the other."""
    return "".join(draws.choices(PARTS, k=count)).encode()


def random_line(draws):
    """A line without LF: random bytes, some of one kind, parts of JSON; now and then as long as it may be."""
    length = draws.choice([0, 1, 2, 10, 100, draws.randrange(1_000), draws.randrange(LONGEST_LINE), LONGEST_LINE])
    sort = draws.randrange(5)
    if sort == 0:
        return random_bytes(draws, length)
    if sort == 1:
        return bytes([draws.choice(b'{["\\0 -\xff\xc3\x00')]) * length
    if sort == 2:
        request = b'{"fn":"addUser","user":"ann"}'
        at = draws.randrange(len(request) + 1)
        return request[:at] + random_bytes(draws, draws.randrange(3)) + request[at:]
    return random_parts(draws, min(length, draws.randrange(200)))[:LONGEST_LINE]


def deep_values(depth):
    """Returns JSON texts that are nested to this depth, and ones that end before they are complete."""
    yield "[" * depth + "]" * depth
    yield "[" * depth
    yield '{"a":' * depth + "1" + "}" * depth
    yield '{"a":' * depth
    yield '[{"a":' * (depth // 2) + "[]" * (depth % 2) + "1" * (1 - depth % 2) + "}]" * (depth // 2)
    yield "[" * depth + "]" * (depth - 1) + "}"


def deep_lines(depth):
    """Returns lines with values nested to this depth: alone, at a key that is ignored, at one that isn't, after a request."""
    for value in deep_values(depth):
        yield value.encode()
        yield f'{{"fn":"addUser","user":"ann","x":{value}}}'.encode()
        yield f'{{"x":{value},"fn":"addUser","user":"ann"}}'.encode()
        yield f'{{"fn":"createSession","user":"ann","session":"s1","roles":{value}}}'.encode()
        yield f'{{"fn":"addUser","user":"ann"}}{value}'.encode()
