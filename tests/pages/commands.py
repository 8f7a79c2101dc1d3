"""The tables of commands: those that scripts write are up to date, and each file that names all commands but a few is found."""

import re
import subprocess

from . import markdown, sources

ROOT = sources.ROOT
PAGE = markdown.section((ROOT / "CONTRIBUTING.md").read_text(encoding="utf-8"), "## How to add a command")

# Files outside crates/ that are written by hand, and files in it: `bin/commands` finds both if they lack a command. The random
# lines have some commands by a part of their names.
FOUND = ["crates/admin_mgr/specs/Verdict.antt", "crates/role_json/src/calls.rt", "docs/reference/api.md", "tests/machine/commands.py"]
FOUND += ["tests/machine/drawing.py"]

# What writes each of these files.
WRITTEN = {
    "docs/openapi.json": "bin/openapi",
    "clients/python/rbac_client/_functions.py": "bin/clients",
    "clients/javascript/types/functions.d.ts": "tsc -p clients/javascript",
    "server/internal/api/table.go": "bin/commands",
    "tests/office/requests/keys.rt.test": "bin/commands",
}


def listed(*words):
    """What bin/commands prints, and its status."""
    ended = subprocess.run([str(ROOT / "bin/commands"), *words], capture_output=True, text=True, check=False)
    return ended.stdout + ended.stderr, ended.returncode


def check_tables(bench):
    """No table of commands is stale, and no file lacks a few of the commands."""
    bench.same("bin/commands --check", listed("--check"), ("", 0))


def check_missing(bench):
    """The files of a command that doesn't exist are those of all others, and none of them is a benchmark or a row."""
    if not (ROOT / ".git").exists():
        print("commands: this is no working copy of git: the files of a command are not looked for")
        return
    said, status = listed("fly")
    found = dict(re.findall(r"^(\S+) lacks fly(?: \((.*) writes it\))?$", said, re.M))
    bench.same("each line is a file that lacks the command", (len(found), status), (len(said.splitlines()), 0))
    bench.same("what writes them", {path: found.get(path) for path in WRITTEN}, WRITTEN)
    bench.same("files that are not found", sorted(set(FOUND) - set(found)), [])
    bench.same("benchmarks and rows", [path for path in found if path.startswith(("bench/", "tests/rows/"))], [])


def check_page(bench):
    """Each file and each script that the page names exists."""
    paths = [path for path in re.findall(r"(?<![\w/.-])(?:bin|deploy|docs|tests|tools)/[\w./-]*\w", PAGE) if "NAME" not in path]
    bench.same("paths of CONTRIBUTING.md to nothing", [path for path in paths if not (ROOT / path).exists()], [])
    listed = subprocess.run([ROOT / "bin/files", "--list"], capture_output=True, text=True, check=True).stdout
    named = re.findall(r"\b([A-Z]\w+(?:Laws|Plans|Turns)|Refusing|Commanded)\b", PAGE)
    bench.same("lemma files that do not exist", [name for name in named if f"/{name}.antt: " not in listed], [])
