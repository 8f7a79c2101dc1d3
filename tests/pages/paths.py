"""The pages for engineers: each path of the repository and each link on them leads somewhere, and the pages stay short."""

import re

from . import sources

ROOT = sources.ROOT
PAGES = ["CONTRIBUTING.md", "docs/DECISIONS.md", "docs/reference/tables.md"]
PAGES += [f"docs/explanation/{name}.md" for name in "architecture model proofs rules trust".split()]
PAGES += [f"{folder}/README.md" for folder in ("bench", "examples", "tests")]

# The most words that a page may have.
MOST_WORDS = {"tests/README.md": 2_800, "bench/README.md": 3_000, "docs/reference/contracts.md": 5_600}

# A path of the repository: below one of its folders.
PATH = r"(?<![\w/.-])(?:bench|bin|crates|deploy|docs|examples|release|tests|tools|\.ci)/[\w./-]*"

# Words in capitals are placeholders in paths; what a build makes need not exist.
VARIABLE = r"\b(?:[A-Z]{2,}|out)\b"


def check_paths(bench):
    """Each path and each link of a page leads somewhere."""
    for name in PAGES:
        text = (ROOT / name).read_text(encoding="utf-8")
        links = [(ROOT / name).parent / link for link in re.findall(r"\]\(([^):#]+)\)", text)]
        bench.same(f"links of {name} to nothing", [str(link) for link in links if not link.exists()], [])
        found = {path.rstrip(".-") for path in re.findall(PATH, text)}
        paths = sorted(path for path in found if not re.search(VARIABLE, path.replace("README", "")))
        bench.same(f"paths of {name} to nothing", [path for path in paths if not (ROOT / path).exists()], [])


def check_words(bench):
    """No page has more words than it may have."""
    for name, most in MOST_WORDS.items():
        count = len((ROOT / name).read_text(encoding="utf-8").split())
        bench.same(f"{name} has at most {most:,} words, and not {count:,}", count <= most, True)
