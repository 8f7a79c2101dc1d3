"""The commands of docs/howto/policy.md print what it shows, and what it lists is what the commands have."""

import os
import re

import pytest

from front.running import PROGRAM as FRONT
from pages import markdown
from pages.shell import Shell, runs
from program.bench import TESTS

from .commands import command_here, ends
from .conftest import OF_FRONT

PAGE = markdown.page("howto/policy.md")

# The most bytes that the page may have.
MOST_BYTES = 16_000


@pytest.mark.needs("curl", *OF_FRONT)
def check_commands(bench):
    """The commands of the page print what is shown below them."""
    with Shell(bench) as reader:
        for name, path in (
            ("bin/rbac-policy", TESTS.parent / "bin/rbac-policy"),
            ("bin/rbac-people", TESTS.parent / "bin/rbac-people"),
            ("bin/rbac-node", os.environ[FRONT]),
        ):
            (bench.folder / name).symlink_to(path)
        texts = [*markdown.blocks(PAGE, "toml"), *markdown.blocks(PAGE, "ini")]
        for name, text in zip(("policy.toml", "callers.toml", "model.conf"), texts, strict=True):
            bench.write(name, "".join(f"{line}\n" for line in text).encode())
            bench.same(f"the page names {name}", f"as `{name}`" in markdown.in_one_line(PAGE), True)
        for line, shown in runs([line for block in markdown.blocks(PAGE, "console") for line in block]):
            reader.shows(line, shown)


def check_form(bench):
    """The page is short, and so are its lines."""
    bench.same("the page is short", len(PAGE.encode()) <= MOST_BYTES, True)
    bench.same("long lines", [line for line in PAGE.splitlines() if len(line) > 140 and not line.startswith("|")], [])


@pytest.mark.parametrize("name", ["rbac-policy", "rbac-people"])
def check_options(bench, name):
    """The page names each command and each option, and no other; so does the manual page."""
    done = command_here(name, "--help", folder=bench.folder)
    ends(bench, "the help", done, 0)
    found = set(re.findall(r"^    (\w+)  ", done.out.decode(), re.M))
    texts = {one: command_here(name, one, "--help", folder=bench.folder).out.decode() for one in found}
    options = {option for text in texts.values() for option in re.findall(r"(--[a-z-]+)", text)} - {"--help"}
    manual = markdown.page(f"{name}.1").replace("\\-", "-")
    bench.same("commands and options are found", (len(found) > 1, len(options) > 10), (True, True))
    for place, text in (("docs/howto/policy.md", PAGE), (f"docs/{name}.1", manual)):
        bench.same(f"options that {place} lacks", sorted(option for option in options if option not in text), [])
        bench.same(f"commands that {place} lacks", sorted(one for one in found if not re.search(rf"\b{one}\b", text)), [])
