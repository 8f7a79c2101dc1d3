"""The first page: its commands print what it shows, and its figures are those of the benchmarks.

With it the table of docs/explanation/architecture.md that has the contracts of each crate to read first.
"""

import re

from . import markdown, sources
from .shell import Shell

ROOT = sources.ROOT
PAGE = (ROOT / "README.md").read_text(encoding="utf-8")
CONTRACTS, ARCHITECTURE = markdown.page("reference/contracts.md"), markdown.page("explanation/architecture.md")
BENCHMARKS, OTHERS = ((ROOT / f"bench/{name}.md").read_text(encoding="utf-8") for name in ("README", "others"))

# The most bytes and lines that the page may have, and the most lines of its first text.
MOST_BYTES, MOST_LINES = 11_500, 120
MOST_FIRST = 5

# The pages that the first page has to lead to.
PAGES = "CHANGELOG.md SECURITY.md docs/README.md docs/tutorial/secured-front.md " + " ".join(
    [f"docs/howto/{name}.md" for name in ("install", "container", "integrate", "embed", "cluster")]
    + [f"docs/explanation/{name}.md" for name in ("trust", "model", "rules")]
    + [f"docs/reference/{name}.md" for name in ("api", "tables")]
)

# What the library of the toolchain consists of. A crate names such a part if its proofs do.
PARTS_OF_STD = {"core", "libc", "std_alloc"}

# The pages of which each path and each link has to lead somewhere.
LINKED = ["README.md", "CHANGELOG.md", "CONTRIBUTING.md", "SECURITY.md"]
LINKED += [f"docs/{name}.md" for name in ("reference/api", "reference/contracts")]
LINKED += [f"docs/howto/{name}.md" for name in ("audit", "integrate", "install", "operate")]

# The folders of the repository that pages name.
FOLDERS = "bench bin clients crates deploy docs examples tests tools".split()

# Crates that prove nothing by themselves.
UNPROVED = {"rbac", "refused_tests"}


def crates():
    """Returns the crates that each crate depends on, by its name."""
    lines = (ROOT / "crates.txt").read_text(encoding="utf-8").splitlines()
    return {name.split()[0]: words.split() for name, words in (line.split(":") for line in lines if line)}


def check_length(bench):
    """The page is short, and first says in a few lines what it is for."""
    bench.same("the page is short", (len(PAGE.encode()) <= MOST_BYTES, len(PAGE.splitlines()) <= MOST_LINES), (True, True))
    title, first, _ = PAGE.split("\n\n", 2)
    bench.same("the title is one line", (title[:2], title.count("\n")), ("# ", 0))
    bench.same("the first text is short", len(first.splitlines()) <= MOST_FIRST, True)


def check_links(bench):
    """The page leads to each page that a reader wants first, and has the version of the sources."""
    links = re.findall(r"\]\(([^)#]+)", PAGE)
    bench.same("pages without a link", [page for page in PAGES.split() if page not in links], [])
    index = [path.removesuffix("#") for path in re.findall(r"\]\(([^)#]+)", markdown.page("README.md"))]
    there = {str(path.relative_to(markdown.DOCS)) for path in markdown.DOCS.rglob("*.md")} - {"README.md"}
    bench.same("pages that the index of docs/ doesn't list", sorted(there - set(index)), [])
    bench.same("the version", re.findall(r"This is version ([\d.]+)", PAGE), [(ROOT / "VERSION").read_text(encoding="ascii").strip()])
    bench.same("no formula", re.findall("[λ∀∃≡×]", PAGE), [])


def check_two_commands(bench):
    """Of the two commands the first prints what is written down beside its input, and the gate begins with the second."""
    first, second = re.findall(r"^    (bin/.*)$", markdown.section(PAGE, "## Two commands"), re.M)
    (bench.folder / "examples").symlink_to(ROOT / "examples")
    (path,) = re.findall(r"< (\S+)\.jsonl$", first)
    bench.same("the page names the answers", f"{path}.answers" in PAGE, True)
    with Shell(bench) as reader:
        reader.shows(first, (ROOT / f"{path}.answers").read_text(encoding="utf-8"))
    gate = (ROOT / ".ci/run").read_text(encoding="utf-8")
    bench.same("the gate runs the second command, then the proofs", f"\n{second} --gate && bin/prove || exit 1\n" in gate, True)
    bench.same("the page names the proofs", "`bin/prove`" in PAGE, True)
    setup = (ROOT / "bin/setup").read_text(encoding="utf-8")
    said = "As root, or as a user with `sudo` and no password" in markdown.in_one_line(PAGE)
    bench.same("who can install what is missing", ("neither root nor sudo" in setup, said), (True, True))


def check_kit(bench):
    """The page names the kit that built the committed program."""
    (kit,) = re.findall(r"^kit (.*)$", (ROOT / "release/manifest").read_text(encoding="utf-8"), re.M)
    bench.same("the kit", re.findall(r"`rt version` prints `([^`]*)`", PAGE), [kit])


def check_first_minutes(bench):
    """The commands of the five minutes print what the page shows."""
    text = markdown.section(PAGE, "## Five minutes to a checked decision")
    serving, asking, refused = ["\n".join(block) for block in markdown.blocks(text, "sh")]
    outside = re.sub(r"```.*?```", "", text, flags=re.S)
    listening, first, second, refusal, ending, checking, good = re.findall(r"`([^`]*)`", outside)[:7]
    for name in ("clients", "examples"):
        (bench.folder / name).symlink_to(ROOT / name)
    with Shell(bench) as reader:
        reader.shows(serving, f"{listening}\n")
        reader.shows(asking, f"{first}\n{second}\n")
        reader.shows(refused, refusal)
        reader.shows(f"{ending}; wait $! 2> /dev/null", "")
        reader.shows(checking, f"{good}\n")


def cell(section, row, column, page=OTHERS):
    """The number in a cell of a table: by the text of its first cell, and the place of its column, which may have others behind it."""
    tables = markdown.tables(markdown.section(page, f"## {section}"))
    (found,) = [cells for rows in tables for cells in rows if cells[0].replace("`", "") == row]
    return float(re.match(r"[\d.,]*", found[column])[0].replace(",", ""))


def range_of(section, row, column):
    """The two numbers of a cell that has a range."""
    (found,) = [cells for rows in markdown.tables(markdown.section(OTHERS, f"## {section}")) for cells in rows if cells[0] == row]
    return [float(number) for number in found[column].split(" to ")]


def figures():
    """The numbers of each row of the table of speed, as the benchmarks have them, in the units of the row."""
    in_process = ["librbac from C", "two hash maps of bits in C++", "the same in Rust", "SQLite from C, prepared, on a stored closure"]
    casbin = [cell("access", name, 1, BENCHMARKS) / 1000 for name in ("Casbin, Enforce", "Casbin, cached, asked again")]
    yield [*(cell("Decisions", name, 2) / 1000 for name in in_process), *casbin]
    front = ["front without callers, checkAccess", "TLS: front with a token, checkAccess", "front, a batch of 100, each question"]
    yield [cell("Decisions", name, 2) for name in (*front, "Go's server, a constant", "TLS: Go, a token in a map", "nginx, a file", "TLS: nginx")]
    commands = [cell("Commands and starts", name, 1) for name in ("front with a record", "front without a record", "C SQLite, the same row and sync")]
    yield [*commands, *range_of("Commands and starts", "PostgreSQL 15", 1)]
    (chains,) = re.findall(r"^\| joining two chains of 512 roles; parting them \| ([\d.]+); ([\d.]+) \|", OTHERS, re.M)
    yield [float(chains[1]), float(chains[0]), cell("Commands and starts", "the same rows by C SQLite", 1)]
    starts = ["front without a record, until it is ready", "front with a record, until it is ready", "rbac serve, until it listens"]
    yield [*(cell("Commands and starts", name, 2) for name in starts), *range_of("Commands and starts", "C SQLite: reading all rows, and its integrity check", 1)]


def check_speed(bench):
    """The numbers of the table of speed are those of bench/others.md and bench/README.md, rounded to two digits."""
    (table,) = markdown.tables(markdown.section(PAGE, "## Speed"))
    for row, wanted in zip(table, figures(), strict=True):
        said = [float(number.replace(",", "")) for number in re.findall(r"\d[\d,]*(?:\.\d+)?", " ".join(row[2:]))]
        bench.same(f"the figures of {row[0]}", said, [float(f"{number:.2g}") for number in wanted])


def check_crates(bench):
    """The table of contracts to read first has each crate, with contracts that are in the files that it names."""
    rows = {row[0].strip("`"): row[1:] for row in proved()}
    bench.same("the crates", sorted(rows), sorted(crates()))
    for crate, (contracts, files) in rows.items():
        named = re.findall(r"`(?:\w+::)?(\w+)`", contracts)
        paths = [ROOT / "crates" / crate / "src" / f"{name}.rt" for name in files.split(", ") if name]
        text = "".join(path.read_text(encoding="utf-8") for path in paths)
        missing = [name for name in named if not re.search(rf"^ *pub (?:unsafe )?(?:extern \"C\" )?fn {name}\b", text, re.M)]
        bench.same(f"contracts of {crate} that do not exist", missing, [])
        bench.same(f"whether {crate} has contracts", bool(named), crate not in UNPROVED)


def proved():
    """The rows of the table of the contracts to read first."""
    (table,) = markdown.tables(markdown.section(ARCHITECTURE, "## Which contracts to read first"))
    return table


def check_contracts(bench):
    """The page of the contracts has a part for each crate that proves something, in the order of that table."""
    wanted = [row[0].strip("`") for row in proved()]
    parts = re.findall(r"^\*\*(\w+)\*\*", markdown.section(CONTRACTS, "## What is proved, by which contract"), re.M)
    bench.same("the parts of the contracts", parts, [name for name in wanted if name not in UNPROVED])


def check_trusted(bench):
    """The libraries whose contracts are trusted are those that the crates depend on, here and on the page of contracts."""
    own = crates()
    libraries = {name.partition("_")[0] if name.startswith("sqlite_") else name for words in own.values() for name in words}
    (here,) = re.findall(r"^\*\*Trusted\*\*: (.*?)\n\n", PAGE, re.M | re.S)
    for name, text in (("README.md", here), ("contracts.md", markdown.section(CONTRACTS, "## What is trusted"))):
        bench.same(f"what {name} trusts", sorted(set(re.findall(r"`(\w+)`", text))), sorted(libraries - set(own) - PARTS_OF_STD))


def check_places(bench):
    """Each path of the repository and each link on these pages leads somewhere."""
    for name in LINKED:
        text = (ROOT / name).read_text(encoding="utf-8")
        folder = (ROOT / name).parent
        links = re.findall(r"\]\(([^):#]+)\)", text)
        bench.same(f"links of {name} to nothing", [link for link in links if not (folder / link).exists()], [])
        paths = re.findall(rf"(?<![\w/.])(?:{'|'.join(FOLDERS)}|\.ci)/[\w./-]*", text)
        # What a command of a page builds is no file of the repository.
        paths = [path.rstrip(".") for path in paths if "NAME" not in path and not path.endswith(".so")]
        bench.same(f"paths of {name} to nothing", [path for path in paths if not (ROOT / path).exists()], [])
