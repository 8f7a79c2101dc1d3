#!/usr/bin/env python3
"""Measures the library beside what else decides about access, and prints tables as docs/howto/embed.md has them.

    bench/embedded.py

Decisions and commands are timed three times in turn, and the medians count. The office has 1,000 users with a session each, 100
roles and 1,000 objects; C also times smaller ones, and names that agree in their first eight bytes. All answers are compared.
Then an office of 5,000 users and one at the limits are made once, saved and loaded. What isn't installed is left out, and a line says so.
"""

from __future__ import annotations

import json
import os
import re
import subprocess
import sys
import tempfile
from functools import partial
from pathlib import Path
from typing import Callable

from embedded import others, sets, users
from embedded.policy import Policy

TOP = Path(__file__).resolve().parent.parent
sys.path.insert(0, str(TOP / "tests"))

from library import building  # noqa: E402

HERE = TOP / "bench/embedded"
SHAPES = [Policy(10, 10, 10), Policy(100, 30, 100), Policy(), Policy(prefix="session_")]
RUNS = 3
# The arguments of the commands that bench/state_lines.py prints, in its order; the last one of some is a list.
KEYS = {
    "addUser": ["user"],
    "addRole": ["role"],
    "addPermObj": ["object"],
    "addPermission": ["object", "operation"],
    "assignUser": ["user", "role"],
    "addInheritance": ["asc", "desc"],
    "grantPermission": ["object", "operation", "role"],
    "createSession": ["user", "session", "roles"],
    "createSsdSet": ["set", "cardinality", "roles"],
    "createDsdSet": ["set", "cardinality", "roles"],
}

Measure = Callable[[], others.Measured]


def of_language(command: list, policy: Policy) -> others.Measured:
    """Times a program of a language, which gets the lines of the office."""
    given, said, status = building.run_language(command, policy.lines())
    if status:
        sys.exit(f"{command[0]}: {said.decode()}")
    return others.numbers(given[0])


def languages() -> dict[str, tuple[Policy, Measure]]:
    """Builds the program of each language that is installed, and returns what times it, by its name."""
    building.build_all()
    command = ["cc", "-std=c99", "-O2", f"-I{TOP}/library", HERE / "quick.c", building.built() / "librbac.a"]
    building.run([*command, "-o", building.built() / "quick_c"])
    found: dict[str, tuple[Policy, list]] = {}
    for it in SHAPES:
        users = f"{it.users:,} users" if it.prefix == "s" else f"{it.users:,} users, the worst names"
        found[f"C, {users}"] = it, [building.built() / "quick_c", it.users, it.objects, it.prefix]
    if building.is_there("Rust"):
        found["Rust"] = Policy(), [building.rust_program(HERE / "quick.rs", "quick_rust")]
    if building.is_there("Go"):
        found["Go"] = Policy(), [building.go_program((HERE / "quick.go").read_text(encoding="utf-8"), "quick_go")]
    if building.is_there("Python"):
        found["Python"] = Policy(), [sys.executable, HERE / "quick.py"]
    return {name: (policy, partial(of_language, command, policy)) for name, (policy, command) in found.items()}


def all_measures(folder: Path) -> dict[str, tuple[Policy, Measure]]:
    """Returns everything that is timed, by its name, with its policy."""
    policy = Policy()
    return {
        **languages(),
        "Casbin, its cached enforcer, asked again": (policy, partial(others.casbin, "cached", folder, policy)),
        "a line of `rbac replay --memory`": (policy, partial(others.replay, folder, policy)),
        "SQLite in process, in memory, a prepared statement": (policy, partial(others.sqlite, folder, policy)),
        "`rbac serve`, a connection for each request": (policy, partial(others.served, folder, policy)),
        "PostgreSQL over loopback, a prepared statement": (policy, partial(others.postgres, folder, policy)),
        "Casbin, its plain enforcer": (policy, partial(others.casbin, "plain", folder, policy)),
    }


def shown(nanoseconds: float) -> str:
    """Returns a time as the tables have it, in microseconds."""
    return f"{nanoseconds / 1000:,.2f}" if nanoseconds < 100_000 else f"{nanoseconds / 1000:,.0f}"


def print_times(folder: Path) -> None:
    """Prints the table of decisions and commands."""
    took: dict[str, list] = {}
    measures = all_measures(folder)
    for _ in range(RUNS):
        for name, (policy, measure) in measures.items():
            made = measure()
            if not isinstance(made, str) and made[2] != policy.allowed():
                sys.exit(f"{name} granted {made[2]} questions and not {policy.allowed()}")
            took.setdefault(name, []).append(made)
    print("| From | A decision, microseconds | A command, microseconds |\n|---|---|---|")
    for name, runs in took.items():
        if isinstance(runs[0], str):
            print(f"| {name} | left out: {runs[0]} | |")
            continue
        decision, command = (sorted(it)[RUNS // 2] for it in zip(*[it[:2] for it in runs]))
        print(f"| {name} | {shown(decision)} | {shown(command)} |", flush=True)


def lines_at_limits() -> bytes:
    """Returns the lines that make an office at the limits, from those of bench/state_lines.py."""
    text = subprocess.run(
        [sys.executable, TOP / "bench/state_lines.py", "full"], capture_output=True, text=True, check=True
    ).stdout
    lines = []
    for line in text.splitlines():
        sign, function, *words = line.split()
        if sign != "-" or function not in KEYS:
            break
        keys = KEYS[function]
        values: dict = dict(zip(keys, words))
        if keys[-1] == "roles":
            values["roles"] = sorted(set(words[2:]))
        if "cardinality" in values:
            values["cardinality"] = int(values["cardinality"])
        lines.append(json.dumps({"fn": function, **values}).encode() + b"\n")
    return b"".join(lines)


def print_sizes() -> None:
    """Prints the table of what an office needs, and how long it takes to make it."""
    command = ["cc", "-std=gnu99", "-O2", f"-I{TOP}/library", HERE / "sizes.c", building.built() / "librbac.a"]
    building.run([*command, "-o", building.built() / "sizes"])
    setup = subprocess.run([sys.executable, TOP / "bench/lines.py", "setup", "0"], capture_output=True, check=True).stdout
    print("\nSeconds of a processor:\n")
    print("| Office | Lines | Rows | Memory, MB | Answer the lines | Read the rows | Add and load them |")
    print("|---|---|---|---|---|---|---|")
    for name, lines in ("5,000 users", setup), ("the limits", lines_at_limits()):
        rows, answered, saved, loaded, memory = (float(it) for it in others.run([building.built() / "sizes"], lines).split())
        times = " | ".join(f"{it / 1000:.3f}" for it in (answered, saved, loaded))
        print(f"| {name} | {lines.count(10):,} | {rows:,.0f} | {memory * 1024 / 1e6:,.1f} | {times} |", flush=True)


def program_in_c(name: str) -> Path:
    """Builds a program of bench/embedded over the library, and returns it."""
    command = ["cc", "-std=gnu99", "-O2", f"-I{TOP}/library", HERE / f"{name}.c", building.built() / "librbac.a", "-pthread"]
    building.run([*command, "-o", building.built() / name])
    return building.built() / name


def print_threads() -> None:
    """Prints the table of decisions that threads make at once."""
    policy = Policy()
    said = others.run([program_in_c("threads"), policy.users, policy.objects], policy.lines()).decode()
    print("\nMillions of decisions in a second, from C:\n")
    print("| Threads | A mutex | A read-write lock | The same, held for 64 of them | The same, about users |\n|---|---|---|---|---|")
    for line in said.splitlines():
        print(f"| {' | '.join(line.split())} |", flush=True)


def print_users() -> None:
    """Prints the table of what a decision about a user takes."""
    program = program_in_c("user")
    print("\n| Office | A decision about a user, microseconds |\n|---|---|")
    for name, (commands, names, wanted) in users.OFFICES.items():
        took, decision = others.run([program, *names], users.lines_of(commands())).decode().split()
        if int(decision) != wanted:
            sys.exit(f"{name}: the decision is {decision} and not {wanted}")
        print(f"| {name} | {shown(float(took))} |", flush=True)


def print_changes() -> None:
    """Prints the table of what commands on dynamic sets and inheritances take."""
    program = program_in_c("changes")
    print("\n| Two commands | Microseconds |\n|---|---|")
    for name, (commands, pair) in sets.CHANGES.items():
        took = others.run([program, *map(sets.line, pair)], users.lines_of(commands())).decode().split()
        print(f"| {name} | {', '.join(shown(float(it)) for it in took)} |", flush=True)


def machine() -> str:
    """Returns what the figures depend on."""
    (processor,) = set(re.findall(r"^model name\s*: (.*)$", Path("/proc/cpuinfo").read_text(encoding="ascii"), re.M))
    where = ["findmnt", "-n", "-o", "FSTYPE", "-T", tempfile.gettempdir()]
    *_, disk = subprocess.run(where, capture_output=True, check=True, text=True).stdout.split()
    load = ", ".join(f"{it:.1f}" for it in os.getloadavg())
    return f"{os.cpu_count()} cores of {processor}; files on {disk}; load averages at the end {load}"


def main() -> int:
    """Measures everything."""
    with tempfile.TemporaryDirectory() as folder:
        os.environ["RBAC_BUILT"] = folder
        print_times(Path(folder))
        print_threads()
        print_users()
        print_changes()
        print_sizes()
    print(f"\n{machine()}")
    return 0


if __name__ == "__main__":
    sys.exit(main())
