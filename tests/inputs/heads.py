"""Heads of requests over HTTP: of random bytes, of each possible length, split at each byte."""

import json
import random
import socket
import time

import pytest

from machine.texts import json_text
from program.cases import shares
from program.heads import CURL
from program.offices import Office
from program.web import BAD_REQUEST, NO_FUNCTION, Server, connect, post, read_all, reply

# The longest head.
MOST = 8_192

# How many requests of random bytes are sent, and with `--long`, and how many by each check; one in EVERY lengths is the length of
# a truncated head.
RANDOM, MORE_RANDOM, EACH = 1_200, 99_900, 300
EVERY, EVERY_LONG = 37, 1

# How many checks share the lengths of whole heads.
STEP = 4

# The least seconds between the two parts of a request that is split.
PAUSE = 0.002

DONE = b'{"ok":true}'

# Removes the user whom one of these requests added.
REMOVE = post("deleteUser", b'{"user":"ann"}')

# Each reply that refuses a request for its head or its body.
REFUSED = [reply(status, BAD_REQUEST) for status in (400, 405, 411, 413, 431, 501)] + [reply(404, NO_FUNCTION)]

# What bytes of a head are changed to.
BYTES = b'\x00\t\n\r !"%/0123456789:;?ABPQTZaz\x7f\x80\xff'


def body_of(user):
    """The body that adds a user."""
    return json.dumps({"user": user}).encode()


def head_of(length, body):
    """A head of this length that asks for the body of a user, if it can be that long; it ends as a head does."""
    start = f"POST /v1/addUser HTTP/1.1\r\nContent-Length: {len(body)}\r\n".encode()
    rest = length - len(start) - 2
    if rest == 0:
        return start + b"\r\n"
    return start + b"X:".ljust(rest - 2, b"y") + b"\r\n\r\n" if rest >= 4 else None


@pytest.mark.parametrize("first", range(50, 50 + STEP))
def check_ask_whole_heads(bench, first):
    """A head of each length from the least to the most is accepted, and one of a byte more isn't; one in STEP of them here."""
    office, body = Office(bench), body_of("ann")
    lengths = [length for length in range(first, MOST + 1, STEP) if head_of(length, body)]
    with Server(bench, office.path, 2 * len(lengths) + 1) as server:
        for length in lengths:
            for what, request in ((f"a head of {length} bytes", head_of(length, body) + body), ("its end", REMOVE)):
                bench.same(what, server.ask(request), reply(200, DONE))
        too_long = head_of(MOST + 1, body) + body
        bench.same("a head that is too long", server.ask(too_long), reply(431, BAD_REQUEST))
        server.ends()
    office.compare_with_model()
    return {"whole heads": len(lengths)}


def check_ask_cut_heads(bench):
    """A head that ends at any length is a bad request, one without an end is too long from 8,192 bytes on."""
    office = Office(bench)
    endless = head_of(2 * MOST, body_of("ann"))
    lengths = [*range(0, MOST, EVERY_LONG if bench.is_long else EVERY), *range(MOST - 3, MOST + 3)]
    with Server(bench, office.path, len(lengths)) as server:
        for length in lengths:
            answer = server.ask(endless[:length], cut=True)
            wanted = reply(400 if length < MOST else 431, BAD_REQUEST)
            bench.same(f"a head that is truncated after {length} bytes", answer, wanted)
        server.ends()
    office.compare_with_model()
    return {"heads that are cut": len(lengths)}


def random_request(draws):
    """Returns bytes that no client would send as a request: of any kind, of lines, and heads with some bytes changed."""
    length = draws.choice([draws.randrange(200), draws.randrange(MOST + 20), MOST, MOST + 1])
    sort = draws.randrange(3)
    if sort == 0:
        return draws.randbytes(length)
    if sort == 1:
        return bytes(draws.choices(BYTES, k=length))
    changed = bytearray(CURL)
    for _ in range(1 + draws.randrange(3)):
        changed[draws.randrange(len(CURL) - 14)] = draws.choice(BYTES)
    return bytes(changed)


@pytest.mark.parametrize("first", shares(40_000, EACH, RANDOM, MORE_RANDOM))
def check_ask_random(bench, first):
    """Requests of random bytes are refused; a head that was changed may still be accepted.

    The reply is whole even if a request continues after the part that is refused.
    """
    office, draws, added = Office(bench), random.Random(first), 0
    exists = reply(409, json_text({"code": 3, "error": "UserExists"}).encode())
    with Server(bench, office.path, EACH + 1) as server:
        for number in range(EACH):
            request = random_request(draws)
            answer = server.ask(request, cut=True)
            is_taken = answer == (exists if added else reply(200, DONE)) and request.endswith(b'{"user":"ann"}')
            if is_taken:
                added += 1
            elif answer in REFUSED:
                bench.passed += 1
            else:
                bench.same(f"request {number} from seed {first}", answer, "a refusal")
        bench.same("the server keeps running", server.ask(post("ssdRoleSets", b"")), reply(200, b'{"ok":true,"value":[]}'))
        server.ends()
    if added:
        office.model.answer(b'{"fn":"addUser","user":"ann"}')
    office.compare_with_model()
    return {"requests of random bytes": EACH, "changed heads that were accepted": added}


@pytest.mark.parametrize("first", shares(50_000, EACH, EACH, MORE_RANDOM // 4))
def check_random_bodies(bench, first):
    """Bodies of random bytes are bad requests, and nothing is done."""
    office, draws = Office(bench), random.Random(first)
    with Server(bench, office.path, EACH) as server:
        for number in range(EACH):
            body = b"\xff" + draws.randbytes(draws.choice([0, 10, draws.randrange(65_536), 65_535]))
            answer = server.ask(post(draws.choice(["addUser", "sessionRoles", "ssdRoleSets"]), body))
            bench.same(f"random body {number}", answer, reply(400, BAD_REQUEST))
        server.ends()
    office.compare_with_model()
    return {"bodies of random bytes": EACH}


def check_split_requests(bench):
    """A request that arrives in two parts, split at any byte, is done as any other; so is one byte by byte."""
    office = Office(bench)
    parts = [(CURL[:at], CURL[at:]) for at in range(1, len(CURL))]
    parts.append(tuple(bytes([byte]) for byte in CURL))
    with Server(bench, office.path, 2 * len(parts)) as server:
        for pieces in parts:
            what = f"a request in {len(pieces)} pieces, the first of {len(pieces[0])} bytes"
            bench.same(what, ask_in_pieces(server, pieces), reply(200, DONE))
            bench.same("the user exists", server.ask(REMOVE), reply(200, DONE))
        server.ends()
    office.compare_with_model()
    return {"requests that were split": len(parts)}


def ask_in_pieces(server, pieces):
    """The reply to a request whose pieces are sent one by one."""
    with connect(server.port) as client:
        client.setsockopt(socket.IPPROTO_TCP, socket.TCP_NODELAY, 1)
        for piece in pieces:
            client.sendall(piece)
            time.sleep(PAUSE)
        return read_all(client)
