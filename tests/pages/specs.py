"""The definitions that an auditor has to read: those of private contracts alone are apart, and docs/explanation/proofs.md has the lines.

Those of specs/private/ have exactly the definitions that no public contract reaches (bin/definitions.py).
"""

import re
import sys

from . import markdown, sources

sys.path.insert(0, str(sources.ROOT / "bin"))
import book as books  # noqa: E402
from definitions import CRATES, definitions, files, named_by, named_by_contracts, named_by_definitions, plain, reached  # noqa: E402


def defined_in(path):
    """The names that a module defines. Laws, which it proves, are left out."""
    text = plain(path, "--")
    return [name for name, body in definitions(text).items() if re.match(r" *(abbrev|unfoldable|pub record|pub data|record|data)\b", body)]


def check_private(bench):
    """Exactly the definitions that no public contract reaches are in the folders specs/private."""
    public = reached(named_by_contracts())
    inside, outside = [], []
    for module, path in files().items():
        places = {(*module, name) for name in defined_in(path)}
        if path.parent.name == "private":
            inside += places & public
        else:
            outside += places - public
    bench.same("definitions in specs/private that a public contract reaches", sorted(inside), [])
    bench.same("definitions outside specs/private that no public contract reaches", sorted(outside), [])


def tables():
    """The tables of the page: the lines of each crate, and the books."""
    return markdown.tables(markdown.section(markdown.page("explanation/proofs.md"), "## What an auditor has to believe"))


def lines_of(crate):
    """The lines of a crate's definitions: all of them, those in specs/private, and the others."""
    counts = {path: len(path.read_text(encoding="utf-8").splitlines()) for module, path in files().items() if module[0] == crate}
    apart = sum(count for path, count in counts.items() if path.parent.name == "private")
    return sum(counts.values()), apart, sum(counts.values()) - apart


def check_lines(bench):
    """The table of the page has the lines of each crate with definitions, and their sums."""
    table = tables()[0]
    counts = {f"`{crate}`": lines_of(crate) for crate in sorted({crate for crate, _ in files()})}
    counts["all"] = tuple(map(sum, zip(*counts.values())))
    listed = {row[0]: row[1:4] for row in table}
    bench.same("the crates with definitions", sorted(listed), sorted(counts))
    for name, numbers in counts.items():
        bench.same(f"the lines of definitions of {name}", listed.get(name), [f"{number:,}" for number in numbers])


def check_books(bench):
    """The page has how much is in each book. A book has all that its contracts reach, each definition once and after what it names."""
    rows = tables()[1]
    bench.same("the books", [row[0] for row in rows], ["`run_with`", "`laws`", "`rbac_c`", "`explanations`", "`everything`"])
    named = named_by_definitions()
    for name, _, definitions_, lines in rows:
        text = "\n".join(books.book(name.strip("`")))
        bench.same(
            f"what {name} begins with", text.partition(" with")[0], f"-- {name.strip('`')}: {definitions_} definitions, {lines} lines"
        )
        places = {place for item in books.begun_with(name.strip("`")) for place in named_by(item)}
        ordered = books.in_order(places, named)
        bench.same(f"what {name} reaches", (len(set(ordered)), set(ordered)), (len(ordered), reached(places)))
        at = {place: number for number, place in enumerate(ordered)}
        late = [
            place
            for place in ordered
            if any(at.get(below, -1) > at[place] and place not in reached([below], named) for below in named[place])
        ]
        bench.same(f"definitions of {name} before what they name", late, [])
        body = text.partition("; then the contracts.")[2]
        bench.same(f"definitions that {name} lacks", [place for place in sorted(set(ordered)) if place[2] not in body], [])


def check_unknown_book(bench):
    """A book of a name that no public contract has is refused."""
    try:
        list(books.book("nothing of this name"))
    except SystemExit as error:
        bench.same("the reason", "no public function" in str(error), True)
    else:
        bench.judge("it is refused", ["it was written"])
