"""The commands of the pages about requests and lists print what they show; the lines for nginx are those that are tried."""

import os
import re

from needs import skip_without
from pages import markdown
from pages.shell import Shell
from program.bench import TESTS

from . import gateways
from .page import runs
from .running import PROGRAM

PAGE = markdown.page("reference/requests.md")
LISTS = markdown.page("reference/lists.md")

# The most lines that a page may have.
MOST_LINES = 420


def check_commands(bench):
    """The commands of requests.md print what is shown below them."""
    type_all(bench, markdown.blocks(PAGE, "console"))


def check_lists(bench):
    """So do those of lists.md, after the first ones of requests.md, which start a front, and before its last ones."""
    start, *_, end = markdown.blocks(PAGE, "console")
    type_all(bench, [start, *markdown.blocks(LISTS, "console"), end])


def type_all(bench, blocks):
    """Types the commands of these blocks, and compares what they print."""
    skip_without("curl")
    with Shell(bench) as reader:
        (bench.folder / "examples").symlink_to(TESTS.parent / "examples")
        (bench.folder / "bin/rbac-node").symlink_to(os.environ[PROGRAM])
        for block in blocks:
            for command, shown in joined(runs(block)):
                bench.same(f"what {command} prints", reader.type(command), reader.here(shown))


def joined(shown):
    """The commands, with the lines behind them that begin with `> `."""
    for command, lines in shown:
        while lines.startswith("> "):
            more, _, lines = lines.partition("\n")
            command += "\n" + more[2:]
        yield command, lines


def check_form(bench):
    """The pages are not too long, their lines are short, and each block is of a language that is run or compared."""
    for page, languages in ((PAGE, {"console", "nginx"}), (LISTS, {"console"})):
        bench.same("the page is short", len(page.splitlines()) <= MOST_LINES, True)
        bench.same("long lines", [line for line in page.splitlines() if len(line) > 130 and not line.startswith("|")], [])
        bench.same("the languages", set(re.findall(r"^```(\w+)$", page, re.M)), languages)


def check_nginx(bench):
    """The lines for nginx on the page are those that the real nginx is tried with."""
    tried = [line.strip().replace("{{", "{").replace("}}", "}") for line in gateways.ASKING.splitlines()]
    (lines,) = markdown.blocks(PAGE, "nginx")
    places = {
        "http://127.0.0.1:8000": "http://{host}:{site}",
        "http://127.0.0.1:8080": "http://{host}:{front}",
        "TOKEN": "{token}",
    }
    for line in lines:
        for shown, used in places.items():
            line = line.replace(shown, used)
        bench.same(f"{line.strip()} is tried", line.strip() in tried, True)
