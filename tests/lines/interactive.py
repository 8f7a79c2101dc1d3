"""Each answer is written before the next line is judged, and in one piece.

A line is sent only once the answer to the line before has arrived. The socket for the answers keeps each write apart, however
long it is, so that each read of it has to return one whole answer.
"""

import select
import socket
import subprocess

import pytest

from machine.replaying import Replay
from program.bench import PROGRAM, TESTS

SECONDS = 20
ROWS = ["first-run", "assign-and-deassign", "bad-requests", "longest-line"]

# Users with names of 64 bytes: the answer that names all of them is longer than a page of memory.
USERS = [b"%064d" % number for number in range(100)]


class Wrong(Exception):
    """What the program did wrong."""


def read_piece(output):
    """Returns what one read of the socket gets, as soon as there is something to read."""
    ready, _, _ = select.select([output], [], [], SECONDS)
    if not ready:
        raise Wrong(f"no answer within {SECONDS} seconds")
    return output.recv(1 << 20)


def converse(process, output, lines, answers):
    """Sends the lines one by one, and reads each answer from `output` before the next line is sent."""
    answers = iter(answers)
    for line in lines:
        process.stdin.write(line)
        process.stdin.flush()
        if not line.strip(b" \t\r\n"):
            continue
        wanted = next(answers)
        piece = read_piece(output)
        if piece != wanted:
            raise Wrong(f"{line[:80]!r} is answered by {piece[:80]!r} and not by {wanted!r}")
    process.stdin.close()
    piece = read_piece(output)
    if piece:
        raise Wrong(f"{piece[:80]!r} follows the last answer")
    if process.wait(SECONDS):
        raise Wrong(f"the status is {process.returncode}")


def lines_of(name):
    """Returns the lines of a file of a row, each with its line feed."""
    with open(f"{TESTS}/rows/{name}", "rb") as file:
        return [line.removesuffix(b"\n") + b"\n" for line in file]


def rows():
    """Returns the lines and the answers of each row, and of a question with a long answer."""
    for name in ROWS:
        yield name, lines_of(f"{name}.jsonl"), lines_of(f"{name}.answers")
    lines = [b'{"fn":"addRole","role":"clerk"}\n']
    for user in USERS:
        lines += [b'{"fn":"addUser","user":"%s"}\n' % user, b'{"fn":"assignUser","role":"clerk","user":"%s"}\n' % user]
    lines.append(b'{"fn":"assignedUsers","role":"clerk"}\n')
    model = Replay()
    yield "an answer with many users", lines, [model.answer(line[:-1]) + b"\n" for line in lines]


@pytest.mark.parametrize("row, lines, answers", rows(), ids=[name for name, _, _ in rows()])
def check_pieces(bench, row, lines, answers):
    """The row's lines are answered one at a time, each in one piece."""
    output, sink = socket.socketpair(socket.AF_UNIX, socket.SOCK_SEQPACKET)
    with sink, subprocess.Popen([PROGRAM, "replay", "--memory"], stdin=subprocess.PIPE, stdout=sink) as process:
        sink.close()
        try:
            converse(process, output, lines, answers)
            bench.same(row, process.returncode, 0)
        finally:
            process.kill()
            output.close()
