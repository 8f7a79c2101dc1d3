"""Policies that are written are read again as the same, whatever the names; sets change without a moment without them."""

import subprocess
import sys
from pathlib import Path

import pytest

if sys.version_info < (3, 11):
    pytest.skip("rbac_policy needs Python 3.11", allow_module_level=True)

from rbac_policy.meter import Meter
from rbac_policy.mistakes import Lines, path_text
from rbac_policy.model import LIMITS, DutySet, State, shown
from rbac_policy.reading import read_policy
from rbac_policy.sets import Sets
from rbac_policy.writing import write_policy

ODD = [
    "a b",
    "a.b",
    '"',
    "\\",
    "'",
    "#",
    "[x]",
    "=",
    "é\U0001f600",
    "\u0085",
    "\u2028",
    "\ufeff",
    "true",
    "1",
    "n" * 64,
    " x ",
    "${x}",
]


def odd_state():
    """A state whose names mean something in TOML."""
    roles = {f"r{name}"[:64] for name in ODD}
    some = frozenset(sorted(roles)[:3])
    return State(
        users={name: number % 2 == 0 for number, name in enumerate(ODD)},
        roles=roles,
        objects=set(ODD),
        permissions={(ob, op) for ob in ODD[:5] for op in ODD},
        grants={(ob, op, role) for ob in ODD[:5] for op in ODD[:4] for role in roles},
        edges={(min(roles), max(roles))},
        assignments={(user, role) for user in ODD for role in sorted(roles)[:2]},
        static={name: DutySet(some, 3) for name in ODD},
        dynamic={name: DutySet(some, 2) for name in ODD},
    )


def test_odd_names(tmp_path):
    path = tmp_path / "policy.toml"
    path.write_text(write_policy(odd_state()), encoding="utf-8")
    policy = read_policy([str(path)])
    assert policy.mistakes == []
    assert policy.state == odd_state()
    assert write_policy(policy.state) == path.read_text(encoding="utf-8")


def test_meter(capsys, monkeypatch):
    """What takes over a second says how far it is, once a second."""
    moments = iter([0.0, 0.5, 1.2, 1.2, 1.9, 2.5, 2.5])
    monkeypatch.setattr("time.monotonic", lambda: next(moments))
    meter = Meter("changes", 4000)
    for count in (1000, 2000, 3000, 3500):
        meter(count)
    assert capsys.readouterr().err == "changes: 2,000 of 4,000\nchanges: 3,500 of 4,000\n"


def test_escaped():
    """No key of a message has a sign that a terminal could obey."""
    assert path_text(("roles", "a\x1b[31m\u009b\u202e\U000e0001é")) == 'roles."a\\u001b[31m\\u009b\\u202e\\U000e0001é"'


def test_lines():
    lines = Lines('[roles."a b"] # one\n\n[roles.c.grants]\n"x y" = [\n  "open",\n]\n[[tests]]\n[[tests]]\nmay = {}\n')
    wanted = {
        ("roles", "a b"): 1,
        ("roles", "c"): 3,
        ("roles", "c", "grants", "x y", 0): 4,
        ("tests", 1): 8,
        ("tests", 1, "may"): 9,
    }
    assert {path: lines.of(path) for path in wanted} == wanted
    assert lines.of(("static",)) == 0
    assert path_text(("roles", "a b", "grants", "x", 0)) == 'roles."a b".grants.x[0]'


@pytest.mark.parametrize("name, text", [("ann", "ann"), ("a b", '"a b"'), ("a\u202eb", '"a\\u202eb"'), ("", '""'), ("é", "é")])
def test_shown(name, text):
    assert shown(name) == text


AB, CD, ABC = DutySet(frozenset("ab"), 2), DutySet(frozenset("cd"), 2), DutySet(frozenset("abc"), 2)
FULL = {f"s{number}": DutySet(frozenset([f"r{number}", "r"]), 2) for number in range(LIMITS["ssdSet"] - 2)}
ROLES = {role for duty in [AB, CD, ABC, *FULL.values()] for role in duty.roles}


def planned(found, wanted, is_kept=lambda duty: True):
    """The commands in short, and the gaps."""
    sets = Sets("static", found, wanted, is_kept)
    commands = [
        " ".join(str(value) for key, value in one.items() if key in ("fn", "set", "role")) for one in sets.commands(ROLES)
    ]
    return commands, len(sets.gaps)


def test_set_step_by_step():
    assert planned({"x": AB}, {"x": ABC}) == (["addSsdRoleMember x c"], 0)
    steps = ["addSsdRoleMember x c", "addSsdRoleMember x d", "deleteSsdRoleMember x a", "deleteSsdRoleMember x b"]
    assert planned({"x": AB}, {"x": CD}) == (steps, 0)


def test_set_by_free_name():
    free = "rbac-policy 0"
    steps = [f"createSsdSet {free}", "deleteSsdSet x", "createSsdSet x", f"deleteSsdSet {free}"]
    assert planned({"x": AB}, {"x": CD}, lambda duty: len(duty.roles) < 3) == (steps, 0)


def test_exchanged_sets():
    """What both demand under exchanged names is demanded all the time."""
    commands, gaps = planned({"x": AB, "y": CD}, {"x": CD, "y": AB})
    assert gaps == 0
    assert commands[0] == "createSsdSet rbac-policy 0" and commands[-1] == "deleteSsdSet rbac-policy 0"


def test_renamed_set():
    assert planned({"x": AB}, {"y": AB}) == (["createSsdSet y", "deleteSsdSet x"], 0)


def test_full():
    """With as many sets as there may be a set that can't be changed step by step is away for a moment, and so are two of exchanged names."""
    steps = (["deleteSsdSet x", "createSsdSet x"], 1)
    assert planned({**FULL, "x": AB, "z": ABC}, {**FULL, "x": CD, "z": ABC}, lambda duty: len(duty.roles) < 3) == steps
    assert planned({**FULL, "x": AB, "y": CD}, {**FULL, "x": CD, "y": AB})[1] == 1


def test_older_python():
    """An older Python is refused by a line, and not by the first module that it lacks."""
    lines = "import sys; sys.version_info = (3, 9, 0, 'final', 0); import rbac_policy"
    done = subprocess.run(
        [sys.executable, "-c", lines], cwd=Path(__file__).resolve().parent.parent, capture_output=True, text=True, check=False
    )
    assert done.returncode == 1
    assert done.stderr.splitlines()[-1] == "ImportError: rbac_policy needs Python 3.11 or later"
