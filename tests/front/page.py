"""The commands of the tutorial of the front and of the page of callers print what they show, each page from its top to its end."""

import os
import re
import subprocess

import pytest

from pages import markdown
from pages.shell import Shell
from program.bench import PROGRAM as RBAC
from program.bench import SECONDS, TESTS

from .running import PROGRAM

PAGE, CALLERS = markdown.page("tutorial/secured-front.md"), markdown.page("howto/callers.md")
FRONT = markdown.page("reference/front.md")

# The most bytes that each page may have.
MOST_BYTES = 20_000

# How long Go may take on a machine that is busy.
BUILDING_SECONDS = 600

# The files that the reader saves, by the language of the block that has each.
FILES = {"callers.jsonl": "json", "ask.py": "python"}


@pytest.mark.needs("curl", "openssl")
def check_commands(bench):
    """The commands of the page print what is shown below them."""
    with Shell(bench) as reader:
        clone(bench)
        for name, language in FILES.items():
            (lines,) = markdown.blocks(PAGE, language)
            bench.write(name, reader.here("".join(f"{line}\n" for line in lines)).encode())
            bench.same(f"the page names {name}", f"as `{name}`" in markdown.in_one_line(PAGE), True)
        type_all(bench, reader, PAGE)


def type_all(bench, reader, page):
    """Types the commands of a page."""
    for block in markdown.blocks(page, "console"):
        for command, shown in runs(block):
            # What is started in the background prints nothing here.
            wanted = reader.here(shown)
            seconds = BUILDING_SECONDS if command.startswith("bin/node") else SECONDS
            bench.same(f"what {command} prints", reader.type(command, seconds=seconds), wanted)


@pytest.mark.needs("curl")
def check_callers(bench):
    """The commands of the page of callers print what is shown below them."""
    with Shell(bench) as reader:
        (bench.folder / "examples").symlink_to(TESTS.parent / "examples")
        (bench.folder / "bin/rbac-node").symlink_to(os.environ[PROGRAM])
        type_all(bench, reader, CALLERS)


def clone(bench):
    """Gives the folder of a check what the commands use of a clone. bin/rbac is there already."""
    for name in ("deploy", "examples", "bin/node"):
        (bench.folder / name).symlink_to(TESTS.parent / name)
    (bench.folder / "release").mkdir()
    (bench.folder / "release/rbac").symlink_to(RBAC)


def runs(lines):
    """The commands of a block, each with the lines that it prints."""
    text = "".join(f"{line}\n" for line in lines)
    return [run.partition("\n")[::2] for run in re.split(r"^\$ ", text, flags=re.M)[1:]]


def check_form(bench):
    """The pages are short, their lines are too, and each block is of a language that is run or compared."""
    for name, page in (("the tutorial", PAGE), ("FRONT", FRONT), ("CALLERS", CALLERS)):
        bench.same(f"{name} is short", len(page.encode()) <= MOST_BYTES, True)
        bench.same(f"long lines of {name}", [line for line in page.splitlines() if len(line) > 130 and not line.startswith("|")], [])
    bench.same("the languages of CALLERS", set(re.findall(r"^```(\w+)$", CALLERS, re.M)), {"console"})
    bench.same("the languages", set(re.findall(r"^```(\w+)$", PAGE, re.M)), {"console", *FILES.values()})
    bench.same("the languages of FRONT", re.findall(r"^```(\w+)$", FRONT, re.M), [])


@pytest.mark.needs("systemd-analyze")
def check_unit(bench):
    """systemd-analyze finds no fault in the unit, and calls its exposure low."""
    unit = (TESTS.parent / "deploy/rbac-node@.service").read_text(encoding="utf-8")
    bench.same("what the unit starts", "ExecStart=/usr/bin/rbac-node serve" in unit, True)
    path = bench.write("rbac-node@x.service", unit.replace("/usr/bin/rbac-node", os.environ[PROGRAM]).encode())
    done = subprocess.run(["systemd-analyze", "verify", path], capture_output=True, text=True, check=False)
    bench.same("what verify prints", (done.stdout + done.stderr, done.returncode), ("", 0))
    words = ["systemd-analyze", "security", "--offline=true", "--no-pager", "--threshold=20", path]
    done = subprocess.run(words, capture_output=True, text=True, check=False)
    bench.judge("its exposure is low", [] if done.returncode == 0 else [(done.stdout + done.stderr)[-300:]])
