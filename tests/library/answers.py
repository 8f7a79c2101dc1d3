"""The answers and decisions of each language are those of the plain model and of the program."""

import json
import pickle
import random
import subprocess

import pytest

from machine import limits
from machine.commands import COMMANDS
from machine.drawing import draw_script
from machine.questions import check_user
from machine.replaying import Replay
from machine.requests import read_request
from machine.state import Refused
from machine.texts import rows
from program.bench import PROGRAM

from .building import LANGUAGES, command_of, run_language

LINES = 500
# The scripts of random lines, by the seed of the first of some, and how many there are.
SEEDS = [(0, 8), (8, 8), (16, 8), *(pytest.param(first, 100, marks=pytest.mark.long) for first in range(24, 2_024, 100))]

# A program may know other lines than the library.
PROGRAMS = [*LANGUAGES, "program"]


def decision_of(answer):
    """Returns what rbac_check returns if this is the answer to the same question."""
    parsed = json.loads(answer)
    return str(int(parsed["value"]) if parsed.get("ok") else -parsed["code"]).encode()


def asks_access(line, answer):
    """Returns the decision that asks what a line asks, or None if it doesn't ask for one."""
    try:
        request = json.loads(line)
        if not isinstance(request, dict) or request.get("fn") != "checkAccess":
            return None
        names = [request[it] for it in ("session", "operation", "object")]
        text = "\t".join(names).encode()
    except (ValueError, KeyError, TypeError):
        return None
    # Tabs and line feeds are what separates the names and the lines here.
    plain = all("\t" not in it and "\n" not in it for it in names)
    return b"?" + text if plain and json.loads(answer).get("code") != 34 else None


def decision_about(state, names):
    """Returns what rbac_check_user returns for a user, an operation and an object."""
    if not all(0 < len(name.encode()) <= 64 for name in names):
        return b"-1"
    try:
        return str(int(check_user(state, *names))).encode()
    except Refused as refused:
        return str(-refused.code).encode()


def is_command(line):
    """Returns whether a line asks for a command."""
    try:
        return read_request(line)[0] in COMMANDS
    except Refused:
        return False


class Script:
    """Lines with the answers that each language has to give, and those of them that the program can answer too."""

    def __init__(self):
        self.lines, self.wanted, self.requests, self.answers = [], [], [], []
        self.accepted = 0

    def add(self, line, wanted):
        self.lines.append(line)
        self.wanted.append(wanted)

    def ask(self, line, answer):
        """Adds a request, with a decision if it asks for access."""
        self.add(line, answer)
        self.requests.append(line)
        self.answers.append(answer)
        self.accepted += answer.startswith(b'{"ok":true') and is_command(line)
        decision = asks_access(line, answer)
        if decision is not None:
            self.add(decision, decision_of(answer))

    def ask_for_user(self, state, draws):
        """Adds a decision about a user, of whom, of whose object or of whose operation the state may know nothing."""
        objects, operations = state.objects, {operation for _, operation in state.permissions}
        names = [draws.choice([*sorted(known), "unknown"]) for known in (state.users, operations, objects)]
        if draws.random() < 0.02:
            names[draws.randrange(3)] = draws.choice(["", "x" * 65])
        self.add(b"!" + "\t".join(names).encode(), decision_about(state, names))

    def save(self, state):
        """Adds that the office is saved and loaded, and its revision."""
        self.add(b"=", str(rows_of(state)).encode())
        self.add(b"#", str(self.accepted).encode())


def rows_of(state):
    """Returns how many rows a state has in the tables of the library, which has no row for the version."""
    return sum(len(part) for table, part in rows(state).items() if table != "meta_row")


def random_script(seed):
    """Returns random lines, between which the office is saved and loaded now and then."""
    script, replay, draws = Script(), Replay(), random.Random(seed)
    for _, line, answer in draw_script(seed, LINES):
        if not answer:
            continue
        given = replay.answer(line)
        assert given == answer, (line, given, answer)
        script.ask(line, answer)
        script.ask_for_user(replay.state, draws)
        if draws.random() < 0.01:
            script.save(replay.state)
    script.save(replay.state)
    return script


def compare(bench, language, command, script):
    """Counts whether a language answers a script as it should."""
    given, said, status = run_language(command, b"\n".join(script.lines) + b"\n")
    faults = [f"status {status}: {said[-300:]!r}"] if status or said else []
    if len(given) != len(script.wanted):
        faults.append(f"{len(given)} answers and not {len(script.wanted)}")
    for line, got, wanted in zip(script.lines, given, script.wanted):
        if got != wanted:
            faults.append(f"{line[:200]!r} is answered by {got[:200]!r} and not {wanted[:200]!r}")
            break
    bench.judge(language, faults)


def replayed(lines):
    """Returns the lines that the program answers."""
    done = subprocess.run([PROGRAM, "replay", "--memory"], input=b"\n".join(lines) + b"\n", capture_output=True, check=False)
    return done.stdout.split(b"\n")[:-1]


@pytest.fixture
def scripts(built, first, count):
    """The scripts of some random lines, each with its seed. The model answers them once for all languages."""
    seeds = range(first, first + count)

    def make(folder):
        (folder / "scripts").write_bytes(pickle.dumps([random_script(seed) for seed in seeds]))

    path = built(f"lines {first}", make) / "scripts"
    return list(zip(seeds, pickle.loads(path.read_bytes())))


@pytest.mark.parametrize("first, count", SEEDS)
@pytest.mark.parametrize("language", PROGRAMS)
def check_random_lines(bench, language, scripts):
    """Random lines, decisions, saving and loading; the program has only the lines."""
    counted = 0
    for seed, script in scripts:
        counted += len(script.lines)
        if language == "program":
            bench.same(f"the program, seed {seed}", replayed(script.requests), script.answers)
        else:
            compare(bench, f"{language}, seed {seed}", command_of(language), script)
    return {f"random lines, {language}": counted}


def limited():
    """The languages: all reach their limits in the same library, so that Go and Rust are for the gate."""
    for one in LANGUAGES:
        yield pytest.param(*one.values, marks=[*one.marks, pytest.mark.gate] if one.values[0] in ("Go", "Rust") else one.marks)


@pytest.mark.parametrize("language", limited())
def check_limits(bench, language):
    """Lines that reach each limit, with the longest answers."""
    for name, lines in limits.SCRIPTS.items():
        script = Script()
        for _, line, answer in limits.expand(lines):
            if answer:
                script.ask(line, answer)
        compare(bench, f"{language}, {name}", command_of(language), script)


BAD = b'{"code":34,"error":"BadRequest"}'
USER = b'{"fn":"addUser","user":"u%d"}'


@pytest.mark.parametrize("language", LANGUAGES)
def check_blank_and_long_lines(bench, language):
    """A line of blanks alone is refused, and so is one of more than 65,536 bytes: a replay skips the one, and ends at the other."""
    blank = [b"", b" ", b"\t", b"\r", b" \t \r"]
    lines = [(line, BAD) for line in blank]
    lines += [((USER % size).ljust(size), b'{"ok":true}') for size in (65_535, 65_536)]
    lines += [((USER % size).ljust(size), BAD) for size in (65_537, 1_000_000)]
    lines += [(b" \t" + USER % 1 + b"\r", b'{"ok":true}')]
    given, said, status = run_language(command_of(language), b"\n".join(line for line, _ in lines) + b"\n")
    bench.same(language, (given, said, status), ([answer for _, answer in lines], b"", 0))
    bench.same("a replay", replayed([line for line, _ in lines]), [b'{"ok":true}'] * 2)
