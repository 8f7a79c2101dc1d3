"""The page for a sceptic: its clauses are those of the source, its definitions are there, and its commands print what it shows."""

import os
import re
import shutil
import subprocess
import sys

import pytest

from . import markdown, sources, specs

PAGE = markdown.page("explanation/trust.md")
ROOT = sources.ROOT

# What a goal that stays open begins with, in what bin/prove --edit prints.
OPEN = "The prover refuses"


def clauses(text):
    """The clauses of a text, each as one line."""
    found = re.findall(r"^ *(ensures \w+ \{.*?\})$(?=\s*(?:ensures|//|```|\Z))", text, re.M | re.S)
    return [markdown.in_one_line(one) for one in found]


def contract():
    """The contract of the program, as the source has it."""
    text = (ROOT / "crates/role_cli/src/program.rt").read_text(encoding="utf-8")
    return text.partition("\npub fn run<")[2].partition("\n{\n")[0]


def check_clauses(bench):
    """The page has each clause of the program, word for word, and no other one."""
    shown = clauses(markdown.section(PAGE, "## The contract of the program"))
    wanted = clauses(contract())
    bench.same("the clauses", sorted(shown), sorted(wanted))
    bench.same("each is found", len(wanted), contract().count("    ensures "))
    bench.same("each once, in an order of its own", len(set(shown)), len(shown))


def check_definitions(bench):
    """The seven definitions are in their files, with as many lines as the page says."""
    rows = markdown.tables(markdown.section(PAGE, "## Ten minutes without knowing the language"))[0]
    bench.same("how many", len(rows), 7)
    for name, path, lines, _ in rows:
        found = specs.definitions(specs.plain(ROOT / "crates" / path, "--"))
        bench.same(f"the lines of {name}", len(found.get(name.strip("`"), "").splitlines()), int(lines))
    edits = len(list((ROOT / "tests/edits").rglob("*.edit")))
    bench.same("how many wrong bodies there are", re.findall(r"tests/edits has ([\d,]+) wrong bodies", PAGE), [f"{edits:,}"])


def planted(**settings):
    """What the command of the page prints and its status, and what the page shows."""
    (lines,) = [block for block in markdown.blocks(PAGE, "console") if "--edit" in block[0]]
    done = subprocess.run(lines[0].removeprefix("$ ").split(), cwd=ROOT, capture_output=True, text=True, check=False, **settings)
    return done.stdout.splitlines(), done.returncode, lines[1:]


def check_planted_without_the_kit(bench):
    """Without the kit the planted bug is shown with its contract, as on the page."""
    for name, path in (("bash", shutil.which("bash")), ("dirname", shutil.which("dirname")), ("python3", sys.executable)):
        (bench.folder / name).symlink_to(path)
    said, status, shown = planted(env={"PATH": f"{bench.folder}"})
    at = next(number for number, line in enumerate(shown) if line.startswith(OPEN))
    bench.same("the edit and the contract", (said, status), (shown[:at], 2))


@pytest.mark.gate
@pytest.mark.needs("rt")
def check_planted(bench):
    """With the kit the goal that stays open is shown too."""
    said, status, shown = planted()
    bench.same("what it prints", (said, status), (shown, 0))


def check_commands(bench):
    """The commands of the page end with status 0."""
    lines = re.findall(r"^    ((?:bin|tests)/\S.*)$", PAGE, re.M)
    bench.same("there are three", len(lines), 3)
    for name in ("bin", "tests", "examples", "release", "crates", "crates.txt", "docs"):
        (bench.folder / name).symlink_to(ROOT / name)
    script = "\n".join(lines)
    done = subprocess.run(
        ["bash", "-euo", "pipefail", "-c", script], cwd=bench.folder, capture_output=True, text=True, env={**os.environ, "PAGER": "cat"}, check=False
    )
    bench.same("their status", (done.returncode, done.stderr), (0, ""))
