"""Replays of lines of random bytes and of deep JSON, and inputs of 100 MB."""

import random

import pytest

from machine.requests import LONGEST_LINE
from machine.replaying import Replay
from program.bench import Done
from program.cases import shares
from program.offices import Office, small_office

from .measured import SMALL, Meter, is_within
from .texts import DEPTHS, deep_lines, random_line

# How many inputs there are, and with `--long`, and how many each check has; how many random lines are in one.
INPUTS, MORE_INPUTS, EACH = 24, 2_000, 6
LINES = 120

# The bytes of a long input, the bytes of its pieces, and the most seconds that it may take.
LENGTH = 100_000_000
PIECE = 1_000_000
PATIENCE = 60


def replays_as_the_model(bench, what, given):
    """Counts whether the program answers an input as the model does, in memory and over a file."""
    model = Replay()
    wanted = b"".join(model.answers(given)), model.message(), 1 if model.stop else 0
    done = bench.run(["replay", "--memory"], given)
    bench.same(f"{what}, in memory", (done.out, done.err, done.status), wanted)
    office = Office(bench, what)
    office.replay([given])
    bench.ends(["check", office.path], b"good\n", keeps=True)


@pytest.mark.parametrize("first", shares(20_000, EACH, INPUTS, MORE_INPUTS))
def check_replay_random(bench, first):
    """Inputs of random lines; the last line of some is too long."""
    for seed in range(first, first + EACH):
        draws = random.Random(seed)
        lines = [random_line(draws) for _ in range(LINES)]
        if seed % 4 == 0:
            lines.append(bytes(draws.choices(b' {"\x80', k=LONGEST_LINE + 1)))
        replays_as_the_model(bench, f"random lines {seed}", b"\n".join(lines) + b"\n" * (seed % 2))
    return {"inputs of random lines": EACH}


@pytest.mark.parametrize("first", shares(30_000, EACH, INPUTS, MORE_INPUTS))
def check_replay_bytes(bench, first):
    """Inputs of random bytes, in which a line ends by chance alone."""
    for seed in range(first, first + EACH):
        draws = random.Random(seed)
        given = draws.randbytes(draws.choice([1, 1_000, 100_000]))
        replays_as_the_model(bench, f"random bytes {seed}", given)
    return {"inputs of random bytes": EACH}


@pytest.mark.parametrize("depth", DEPTHS)
def check_replay_deep(bench, depth):
    """Replays lines whose JSON is nested to this depth."""
    lines = [line for line in deep_lines(depth) if len(line) <= LONGEST_LINE]
    replays_as_the_model(bench, f"depth {depth}", b"\n".join(lines))
    return {"lines of deep JSON": len(lines)}


def repeated(piece):
    """Returns a long input that repeats this piece."""
    whole = piece * max(PIECE // len(piece), 1)
    return [whole] * (LENGTH // len(whole))


def stop_at(line, answered):
    """The end of a replay that is stopped by a line that is too long."""
    return b"rbac: stop Line %d after %d\n" % (line, answered), 1


LONG = {
    "no LF": (repeated(b"x"), b"", *stop_at(1, 0)),
    "no LF after a line": ([b'{"fn":"ssdRoleSets"}\n', *repeated(b"[")], b'{"ok":true,"value":[]}\n', *stop_at(2, 1)),
    "spaces without LF": (repeated(b" "), b"", *stop_at(1, 0)),
    "zeros": (repeated(b"\x00"), b"", *stop_at(1, 0)),
    "LF alone": (repeated(b"\n"), b"", b"", 0),
    "lines of spaces": (repeated(b" " * LONGEST_LINE + b"\n"), b"", b"", 0),
}


@pytest.mark.parametrize("name", LONG)
def check_replay_long(bench, name):
    """An input of 100 MB: it is answered, or stopped by the first line that is too long, in little memory."""
    pieces, out, err, status = LONG[name]
    meter, office = Meter(bench), Office(bench)
    for words in (["replay", "--memory"], ["replay", office.path]):
        found = meter.run(words, pieces)
        what = f"{words[1] if words[1].startswith('-') else 'a file'}, 100 MB of {name}"
        bench.same(what, found.done, Done(out, err, status))
        bench.same(f"{what}: {found.seconds:.1f} s", found.seconds < PATIENCE, True)
        is_within(bench, f"{what}: {found.text()}", found.kilobytes, SMALL)


def check_answer_long(bench):
    """Lines of 65,536 bytes, 100 MB of them, that are no requests: each is answered, in little memory."""
    line, answer = b'{"' + b"\xff" * (LONGEST_LINE - 2) + b"\n", b'{"code":34,"error":"BadRequest"}\n'
    count = LENGTH // len(line)
    found = Meter(bench).run(["replay", "--memory"], [line] * count)
    bench.same("100 MB of long lines", found.done, Done(answer * count, b"", 0))
    is_within(bench, f"100 MB of long lines: {found.text()}", found.kilobytes, SMALL)


def check_import_long(bench):
    """A CSV file of 100 MB, and one without an end, are refused for their length, in little memory."""
    meter, office = Meter(bench), small_office(bench)
    path = bench.path("records.csv")
    with open(path, "wb") as file:
        for piece in repeated(b"ann,clerk\n"):
            file.write(piece)
    for name in (path, "/dev/zero", "/dev/urandom"):
        found = meter.run(["import", office.path, name])
        line = b'rbac: {"code":32,"error":"TooMany","kind":"byte"}\n'
        bench.same(f"import of {name}", found.done, Done(b"", line, 1))
        is_within(bench, f"import of {name}: {found.text()}", found.kilobytes, SMALL)
    office.compare_with_model()
