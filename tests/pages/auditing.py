"""The page of auditing: its commands print what it shows, and it names each tool and each view."""

import re

import pytest

from machine.state import MOST

from . import markdown, sources
from .shell import Shell, runs

PAGE = markdown.page("howto/audit.md")
TOOLS = sources.ROOT / "tools"

# The most lines that the page may have.
MOST_LINES, MOST_BYTES = 380, 20_000

# From here on the page needs a front: tests/front/auditing.py runs its commands.
OF_A_FRONT = "## 9. Who did what: the record of a front"


@pytest.mark.needs("dot")
def check_commands(bench):
    """The commands of the page, from its top to its end, print what is shown below them."""
    for name in ("tools", "examples"):
        (bench.folder / name).symlink_to(sources.ROOT / name)
    with Shell(bench) as reader:
        # The page names the program by its place in the repository.
        (bench.folder / "release").symlink_to(bench.folder / "bin")
        reader.type("unset RBAC_PROGRAM")
        for command, shown in runs(
            [line for block in markdown.blocks(PAGE.partition(OF_A_FRONT)[0], "console") for line in block]
        ):
            reader.shows(command, shown)


def check_length(bench):
    """The page is short."""
    bench.same("the page is short", (len(PAGE.splitlines()) <= MOST_LINES, len(PAGE.encode()) <= MOST_BYTES), (True, True))
    bench.same("it has a part about the record", OF_A_FRONT in PAGE, True)


def check_lengths(bench):
    """The longest reports that the page names follow from the limits: a line for each assignment and each of what it can give."""
    text = markdown.in_one_line(PAGE)
    given = f"each of {MOST['assignment']:,} assignments can give {MOST['grant']:,} grants"
    permissions = f"up to {MOST['assignment'] * MOST['grant'] // 1_000_000} million lines, since {given}"
    near = MOST["assignment"] * (MOST["ssdSet"] + MOST["dsdSet"]) * MOST["member"]
    for words in (permissions, f"near.csv up to {near // 10_000_000 * 10} million"):
        bench.same(f"the page states: {words}", words in text, True)


def check_tools(bench):
    """The page names each tool and no other, and the views that it names are those of tools/rows.sql."""
    named = set(re.findall(r"tools/(\w+\.\w+)", PAGE))
    bench.same("the tools", sorted(named), sorted(path.name for path in TOOLS.iterdir() if path.is_file()))
    own = markdown.section(PAGE, "## 4. Your own questions").split("```")[0]
    made = re.findall(r"^CREATE TEMP (?:VIEW|TABLE) (\w+)", (TOOLS / "rows.sql").read_text(encoding="utf-8"), re.M)
    views = set(re.findall(r"`(\w+)`", own))
    bench.same("views that do not exist", sorted(views - set(made)), [])
    bench.same("views are named", bool(views), True)
