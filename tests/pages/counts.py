"""Numbers that pages and scripts name: how many functions, commands and questions there are, and how long checks take."""

import re
import subprocess

from . import markdown, sources

# The files in which numbers are looked for. A file that is no text is skipped.
LOOKED = ["*.md", "docs/rbac.1", "bench", "bin", "clients", "deploy", "tools", "tests", "crates/*/src", ":!tests/rows"]

# What is counted: a number of two digits before one of these words, unless it is a rate.
COUNTED = r"(?<![\d.,/=-])(\d\d)\s+(commands|questions|review functions|functions)\b(?!\s+(?:a|per|each|at)\b)"


def files():
    """The texts of the repository in which numbers are looked for, by their paths."""
    words = ["git", "-C", str(sources.ROOT), "ls-files", "-z", *LOOKED]
    listed = subprocess.run(words, capture_output=True, text=True, check=True).stdout.split("\0")[:-1]
    for path in listed:
        try:
            yield path, (sources.ROOT / path).read_text(encoding="utf-8")
        except (UnicodeDecodeError, FileNotFoundError):
            continue


def wanted():
    """How many there are of each that is counted."""
    questions = len(sources.question_keys())
    return {
        "functions": len(sources.functions()),
        "commands": len(sources.command_keys()),
        "questions": questions,
        # All questions but checkAccess.
        "review functions": questions - 1,
    }


def check_counts(bench):
    """Each number of functions, commands or questions is the right one."""
    if not (sources.ROOT / ".git").exists():
        print("counts: this is no working copy of git: the numbers are not compared")
        return
    known, found = wanted(), 0
    bench.same("commands and questions are all functions", known["commands"] + known["questions"], known["functions"])
    for path, text in files():
        for number, word in re.findall(COUNTED, text):
            found += 1
            bench.same(f"the number of {word} in {path}", int(number), known[word])
    bench.same("numbers are found", found > 5, True)
