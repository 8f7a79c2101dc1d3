"""Callers of a front as a policy, compiled to the lines that the front reads, and back."""

import json
import os
import subprocess

import pytest

from front.running import PROGRAM as FRONT
from machine.commands import COMMANDS
from machine.questions import QUESTIONS
from program.bench import PROGRAM, TESTS

from .commands import ends, policy
from .conftest import OF_FRONT

EXAMPLE = TESTS.parent / "examples/callers/callers.jsonl"


@pytest.mark.needs(*OF_FRONT)
def check_both_ways(bench):
    """The example's callers, as a policy and compiled again, may do the same by what the front says of them."""
    done = policy(bench, "callers", "--back", EXAMPLE)
    bench.write("callers.toml", done.out)
    # The page has these numbers.
    bench.same("how short it is", (len(EXAMPLE.read_bytes().splitlines()), len(done.out.splitlines())), (182, 26))
    compiled = policy(bench, "callers", "callers.toml")
    path = bench.write("callers.jsonl", compiled.out)
    bench.same("nothing else is said", (done.status, done.err, compiled.status, compiled.err), (0, b"", 0, b""))
    given, wanted = (rights(file) for file in (path, EXAMPLE))
    bench.same("the rights", given, wanted)
    bench.same("back again", policy(bench, "callers", "--back", "callers.jsonl").out, done.out)


def check_groups(bench):
    """A group has all functions of its kind, and is written for all of them and no fewer; a function beside its group is a mistake."""
    from rbac_policy.groups import GROUPS, grouped, members

    bench.same("the groups", GROUPS, {"all commands": set(COMMANDS), "all questions": set(QUESTIONS)})
    for name, group in GROUPS.items():
        bench.same(f"{name} beside more", grouped([*group, "lists"]), [name, "lists"])
        bench.same(f"{name} but for one", grouped(group - {min(group)}), sorted(group - {min(group)}))
        bench.same(f"what {name} means", members(name), sorted(group))
    text = """
[roles]
boss.grants.office = ["lists", "all commands"]
clerk.grants.office = ["addUser", "all commands"]
[users]
ann = ["boss"]
"""
    bench.write("p.toml", text.encode())
    for pair in ('"addUser", "all commands"', '"all commands", "addUser"'):
        bench.write("p.toml", text.replace('"addUser", "all commands"', pair).encode())
        said = 'p.toml:4: roles.clerk.grants.office[1]: addUser is one of "all commands", which this list has\n'
        ends(bench, pair, policy(bench, "callers", "p.toml"), 2, err=said)
    bench.write("p.toml", text.replace('"addUser", ', "").encode())
    compiled = policy(bench, "callers", "p.toml").out
    lines = [json.loads(line) for line in compiled.splitlines()]
    granted = {(one["role"], one["operation"]) for one in lines if one["fn"] == "grantPermission"}
    bench.same(
        "what is granted", granted, {("boss", "lists"), *((role, one) for role in ("boss", "clerk") for one in COMMANDS)}
    )
    bench.write("p.jsonl", compiled)
    wanted = """[roles]
boss.grants.office = ["all commands", "lists"]
clerk.grants.office = ["all commands"]

[users]
ann = ["boss"]
"""
    bench.same("back", policy(bench, "callers", "--back", "p.jsonl").out.decode(), wanted)


def rights(path):
    """What the front prints of a file of callers."""
    words = [os.environ[FRONT], "callers", "--program", PROGRAM, path]
    return subprocess.run(words, capture_output=True, check=True).stdout


def check_refused(bench):
    """What callers can't have is refused: a section of another kind, a lock, a line that the program refuses."""
    for text, said in (
        (b"[objects]\noffice = []\n", "p.toml:1: objects: unknown key; allowed here: roles, static, users, tests"),
        (b"[users]\nann = { roles = [], locked = true }\n", "p.toml:2: users.ann: this has to be a list of names"),
    ):
        bench.write("p.toml", text)
        ends(bench, said, policy(bench, "callers", "p.toml"), 2, err=said)
    bench.write("p.jsonl", b'{"fn":"addRole","role":"a"}\n{"fn":"addRole","role":"a"}\n')
    done = policy(bench, "callers", "--back", "p.jsonl")
    ends(
        bench,
        "a line that is refused",
        done,
        2,
        err='p.jsonl:2: the program refuses this line: {"code":5,"error":"RoleExists"}',
    )
    bench.write("p.jsonl", b'{"fn":"addUser","user":"a"}\n{"fn":"lockUserAccount","user":"a"}\n')
    ends(bench, "a lock", policy(bench, "callers", "--back", "p.jsonl"), 2, err="callers have no dynamic sets and no locks")
