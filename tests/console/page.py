"""The commands of docs/howto/console.md print what it shows, and each of its pictures is there and small."""

import os
import re
import shutil

from front.page import runs
from front.running import PROGRAM
from pages import markdown
from pages.shell import Shell
from program.bench import TESTS

PAGE = markdown.page("howto/console.md")
MOST_BYTES, MOST_BYTES_OF_PICTURES, MOST_BYTES_OF_FIRST = 20_000, 850_000, 100_000


def check_commands(bench):
    """The commands of the page print what is shown below them."""
    if not shutil.which("curl"):
        print("left out: the commands of docs/howto/console.md, since curl is not installed")
        return
    with Shell(bench) as reader:
        (bench.folder / "examples").symlink_to(TESTS.parent / "examples")
        (bench.folder / "bin/rbac-node").symlink_to(os.environ[PROGRAM])
        for block in markdown.blocks(PAGE, "console"):
            for command, shown in runs(block):
                bench.same(f"what {command} prints", reader.type(command), reader.here(shown))


def check_form(bench):
    """The page is short, and its pictures are all that docs/ has of the console."""
    bench.same("the page is short", len(PAGE.encode()) <= MOST_BYTES, True)
    bench.same("long lines", [line for line in PAGE.splitlines() if len(line) > 130 and not line.startswith("|")], [])
    shown = sorted(re.findall(r"\(\.\./(console-\w+\.png)\)", PAGE))
    found = sorted(path.name for path in (TESTS.parent / "docs").glob("console-*.png"))
    bench.same("the pictures", shown, found)
    size = sum((TESTS.parent / "docs" / name).stat().st_size for name in found)
    bench.judge("their size", [f"{size} bytes"] if size > MOST_BYTES_OF_PICTURES else [])
    readme = (TESTS.parent / "README.md").read_text(encoding="utf-8")
    (one,) = re.findall(r"\(docs/(console-\w+\.png)\)", readme)
    bench.same("the one of the first page is small", (TESTS.parent / "docs" / one).stat().st_size < MOST_BYTES_OF_FIRST, True)
