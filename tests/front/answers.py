"""The front gives the same answers as `rbac serve`: for all rows, and for random requests, many of them with odd JSON."""

import json
import random

import pytest

from cluster.heads import HEADS
from lines.rows import OF_PROGRAM, name_of
from machine.commands import COMMANDS
from machine.drawing import draw_script
from machine.questions import QUESTIONS
from program.heads import REFUSED
from program.web import Server

from .program import Front

FUNCTIONS = sorted({*COMMANDS, *QUESTIONS})

# How many scripts of random lines there are, and lines in each.
SCRIPTS, SCRIPTS_OF_GATE, LINES = 3, 6, 1_000

# Texts that JSON readers understand differently, and values of other types.
ODD = [
    r'"\ud83d\ude00"', r'"\ud800"', r'"\udc00x"', r'"\uD800\u0041"', r'"\ufffd"', '"\ufffd"', '"' + "x" * 64 + '"',
    '"' + "x" * 65 + '"', '"' + "é" * 32 + '"', '"' + "é" * 33 + '"', '""', r'"\u0000"', r'"\u001f"', r'"\u007f"', '"\x7f"',
    r'"\/"', r'"\""', r'"\\"', r'"\b"', '"<a>&"', '"\u2028"', r'"\u2028"', '"a:b"', r'"\x"', '"\t"', '"\ufeff"', "1", "0",
    "-0", "2.0", "2e0", "01", "4294967295", "4294967296", "9" * 400, "1e999", "-1e999", "1e-999", "true", "false", "null",
    "{}", "[]", "[[]]", '[{"a":1}]', "[1]", "2", "+1", ".5", "1.", "[" * 126 + "]" * 126, "[" * 127 + "]" * 127,
    '{"a":' * 126 + "1" + "}" * 126, '["clerk","clerk"]', '"clerk"', '"ann"',
]  # fmt: skip
KEYS = ["user", "role", "object", "operation", "session", "asc", "desc", "set", "roles", "cardinality", "csv", "fn", "USER",
        "Role", r"us\u0065r", "x", ""]  # fmt: skip


def odd_body(draws, line):
    """A body that is made of a line by adding keys, or by spoiling it."""
    pairs = [f"{json.dumps(key)}:{json.dumps(value)}" for key, value in json.loads(line).items()]
    for _ in range(draws.choice([1, 1, 2, 3])):
        pairs.insert(draws.randrange(len(pairs) + 1), f'"{draws.choice(KEYS)}":{draws.choice(ODD)}')
    space = draws.choice(["", "", " ", "\t", "\n", "\r\n"])
    text = "{" + f",{space}".join(pairs) + "}" + space
    spoiled = draws.random()
    if spoiled < 0.04:
        text = draws.choice(
            [text[:-1], text + "x", text + "{}", text + ",", text + "\x0b", "\ufeff" + text, "[]", "7", "null", "{"]
        )
    body = text.encode()
    if spoiled > 0.97:
        at = draws.randrange(len(body))
        body = body[:at] + bytes([draws.choice([0xFF, 0x80, 0xC0, 0xED])]) + body[at + 1 :]
    return body


def request_of(line):
    """The function and the body by which a line is asked over HTTP, or None if there is none."""
    try:
        value = json.loads(line)
        function = value["fn"]
    except (ValueError, KeyError, TypeError):
        return None
    if function not in FUNCTIONS:
        return None
    if function == "importAssignments":
        csv = value.get("csv")
        return (function, csv.encode()) if isinstance(csv, str) and is_text(csv) else None
    # A key fn in a body is ignored.
    return function, line


def is_text(text):
    try:
        text.encode()
        return True
    except UnicodeEncodeError:
        return False


def request(function, body):
    """A request that both answer."""
    lines = [f"POST /v1/{function} HTTP/1.1", "Host: localhost", f"Content-Length: {len(body)}", "Connection: close", "", ""]
    return "\r\n".join(lines).encode() + body


def both(server, front, kept, function, body):
    """The answers of both to the same request, and over a kept connection of the front."""
    head, _, text = server.ask(request(function, body)).partition(b"\r\n\r\n")
    return (int(head.split()[1]), text.decode()), front.ask(function, body, kept)


def compare(bench, what, requests):
    """Sends requests to a new `rbac serve` and to a new front, and counts whether all answers are the same."""
    path = bench.path("served")
    bench.run(["init", path])
    accepted, different = 0, []
    with Server(bench, path, len(requests)) as server, Front(bench) as front:
        kept = front.connection()
        for function, body in requests:
            wanted, given = both(server, front, kept, function, body)
            accepted += wanted[0] == 200
            if wanted != given:
                different.append(f"{function} {body[:200]!r}: {given} and not {wanted}")
        kept.close()
        bench.same("the front ends in order", front.end(), 0)
    bench.judge(what, different[:5])
    return {f"{what}: requests": len(requests), f"{what}: accepted": accepted}


def requests_of(row):
    """What can be asked over HTTP of a row."""
    return [found for line in row.read_bytes().splitlines() if (found := request_of(line)) and len(found[1]) <= 65_000]


@pytest.mark.parametrize("row", [row for row in OF_PROGRAM if requests_of(row) and row.stem != "many-grants"], ids=name_of)
def check_rows(bench, row):
    """A row gets the answers of `rbac serve`, whatever can be asked over HTTP."""
    return compare(bench, "rows", requests_of(row))


def check_random(bench):
    """Random requests, a third of them with odd JSON, get the answers of `rbac serve`."""
    seed = random.randrange(1 << 30)
    print(f"the seed of the random requests is {seed}", flush=True)
    draws = random.Random(seed)
    requests = []
    for script in range(SCRIPTS_OF_GATE if bench.is_gate or bench.is_long else SCRIPTS):
        for _, line, _ in draw_script(seed + script, LINES):
            if not (found := request_of(line)):
                continue
            function, body = found
            if function != "importAssignments" and draws.random() < 0.33:
                try:
                    body = odd_body(draws, line)
                except ValueError:
                    pass
            requests.append((function, body))
    return compare(bench, "random requests", requests)


def check_heads(bench):
    """Heads that `rbac serve` refuses get the same status, but for those of the table of callers.md, and do nothing."""
    expected = {
        "a body that is far too long": 400,
        "a head without an end": 400,
        "an empty length": 411,
        "another version of HTTP": 505,
    }
    with Front(bench) as front:
        for name, (text, status, _) in REFUSED.items():
            text = text.replace(b"Host: a\r\n", b"Host: localhost\r\n")
            given = front.raw(text)
            bench.same(f"request with {name}", int(given.split()[1]), expected.get(name, status))
        for name, (_, status, texts) in HEADS.items():
            for text in texts:
                given = front.raw(text.replace(b"Host: a\r\n", b"Host: localhost\r\n"))
                bench.same(f"a head with {name}", int(given.split()[1]) if given else None, status)
        bench.same("nothing was done", front.ask("assignedRoles", {"user": "ann"})[0], 409)
