"""Sends random lines to the program, and compares its answers with those of the plain model in machine/.

There are scripts of 500 random lines, scripts of random commands that are evenly spread, and scripts
that reach each limit, whose answers are written beside them as well. A random script makes hierarchies with several paths from
one role to another, separation of duty sets of both kinds, sessions with several roles, locks, and imports with refused records.
About one line in ten is no request, has an error or a byte changed; others have escapes, further and repeated keys, spaces or
blank lines between them. At the end a table shows how often each function was accepted and met each of its refusals; one that
can be met and wasn't is a failure.
"""

import json
import subprocess
from collections import Counter

import pytest

from machine import limits
from machine.commands import COMMANDS
from machine.drawing import draw_script
from machine.even import draw_even_script
from machine.questions import QUESTIONS
from machine.replaying import Replay
from program.bench import PROGRAM

LINES = 500
SEEDS, EACH = 400, 20
SECONDS = 120

# What no line meets in an office of version 2: the program replays into no other in memory. In version 1 the
# locks are refused by 51, and users, roles and edges have other limits; the model alone is tested there.
OUT_OF_REACH = {"51"}

# The limits that take the model longest, since thousands of lines lead there: they are for the gate, and so is what they alone meet.
LARGE = {
    "users": [("addUser", "32:user")],
    "permissions and grants": [("addPermission", "32:permission"), ("grantPermission", "32:grant")],
    "assignments": [("assignUser", "32:assignment"), ("importAssignments", "record 32")],
}

# How such scripts are counted.
SCRIPTS_OF_LARGE = "scripts of large limits"

# How an import's own refusals are counted: those of reading it, and those of its records.
OF_IMPORTS = ["36", "record 2", "record 4", "record 24", "record 32"]


def word_of(answer):
    """How an answer is counted: `ok`, the number of a refusal, or that with its kind."""
    parsed = json.loads(answer)
    if "ok" in parsed:
        return "ok"
    return f"{parsed['code']}:{parsed['kind']}" if "kind" in parsed else str(parsed["code"])


def count_answer(counts, function, answer):
    """Counts an answer, and the refusals of the records of an import."""
    counts[function, word_of(answer)] += 1
    if function == "importAssignments" and b'"refused"' in answer:
        for record in json.loads(answer)["value"]["refused"]:
            counts[function, f"record {record['code']}"] += 1


def written_script(name):
    """Returns a script of the limits, and the differences between the model's answers and those written there."""
    replay, script, faults = Replay(), [], []
    for function, line, answer in limits.expand(limits.SCRIPTS[name]):
        script.append((function, line, answer))
        given = replay.answer(line)
        if given != answer:
            faults.append(f"the model answers {line[:200]!r} by {given[:200]!r} and not {answer[:200]!r}")
    return script, faults


def old_faults():
    """Returns the differences between the model's answers in version 1 and those written beside the limits there."""
    faults = []
    for name, script in limits.OLD_SCRIPTS.items():
        replay = Replay(1)
        for _, line, answer in limits.expand(script):
            given = replay.answer(line)
            if given != answer:
                faults.append(f"version 1, {name}: {line[:200]!r} is answered by {given!r} and not {answer!r}")
    return faults


def run(script):
    """What the program answers to the lines of a script, and the failures of the run itself."""
    text = b"".join(line + b"\n" for _, line, _ in script)
    try:
        done = subprocess.run(
            [PROGRAM, "replay", "--memory"], input=text, capture_output=True, timeout=SECONDS, check=False
        )
    except (OSError, subprocess.TimeoutExpired) as error:
        return [], [str(error)]
    faults = []
    if done.returncode or done.stderr:
        faults.append(f"the status is {done.returncode}, and standard error is {done.stderr[:200]!r}")
    return done.stdout.splitlines(keepends=True), faults


def compare(script, faults):
    """Counts the answers of a script, and compares them with those of the program."""
    counts = Counter()
    asked = [request for request in script if request[2]]
    given, more = run(script)
    faults = faults + more
    if len(given) != len(asked):
        faults.append(f"{len(given)} answers and not {len(asked)}")
    for number, ((function, line, answer), got) in enumerate(zip(asked, given), 1):
        if got != answer + b"\n":
            faults.append(f"{number}: {line[:300]!r} is answered by {got[:300]!r} and not {answer[:300]!r}")
    for function, _, answer in asked:
        count_answer(counts, function, answer)
    return counts, faults


def scripts():
    """The scripts: those of the limits, evenly spread ones, and random ones, each 20 of them one check, most of them for the gate."""
    for name in limits.SCRIPTS:
        yield pytest.param("limit", [name], id=f"limit {name}", marks=[pytest.mark.gate] if name in LARGE else [])
    yield from (pytest.param("even", [start], id=f"even {start}") for start in (1, 2, 3))
    for first in range(0, SEEDS, EACH):
        yield pytest.param("seed", range(first, first + EACH), id=f"seed {first}", marks=[pytest.mark.gate] if first >= SEEDS // 4 else [])


@pytest.mark.parametrize("sort, which", scripts())
def check_answers(bench, sort, which):
    """The program answers the scripts as the model does."""
    total = Counter()
    for one in which:
        if sort == "limit":
            counts, faults = compare(*written_script(one))
        else:
            counts, faults = compare(draw_even_script(one, 2_000) if sort == "even" else draw_script(one, LINES), [])
        bench.judge(f"{sort} {one}", faults[:3])
        total += counts
    met = {f"{function}\t{word}": count for (function, word), count in total.items()}
    return met | ({SCRIPTS_OF_LARGE: 1} if sort == "limit" and LARGE.keys() & set(which) else {})


def check_version_1(bench):
    """The model answers in version 1 as is written beside the limits."""
    bench.same("differences", old_faults(), [])


def wanted(function):
    """What has to be met of a function, in the order in which it is judged."""
    if function in ("no request", "no function"):
        return ["34"] if function == "no request" else ["35"]
    _, keys, refusals = COMMANDS.get(function) or QUESTIONS[function]
    reading = ["34", "1"] if keys else []
    if function == "importAssignments":
        reading += OF_IMPORTS
    return ["ok", *reading, *(word for word in refusals.split() if word not in OUT_OF_REACH)]


def show_table(counts, has_large):
    """Prints how often each outcome was met, and returns what was never met. `has_large` says whether scripts of large limits were run."""
    missing, unmet = [], set() if has_large else {one for some in LARGE.values() for one in some}
    changed = sum(count for (function, _), count in counts.items() if function == "changed byte")
    print(f"{'changed byte':<24} {changed:,}")
    for function in ["no request", "no function", *COMMANDS, *QUESTIONS]:
        words = wanted(function)
        others = sorted({word for of, word in counts if of == function} - set(words))
        cells = [f"{word.replace(':', ' ')} {counts[function, word]:,}" for word in [*words, *others]]
        print(f"{function:<24} " + "; ".join(cells))
        missing += [f"{function} never meets {word}" for word in words if not counts[function, word] and (function, word) not in unmet]
        missing += [f"{function} meets {word}, which it cannot" for word in others]
    return missing


