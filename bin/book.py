"""The book of a contract, for bin/files --book: the definitions that it reaches, each before its use, with what the model says of it."""

import re
import sys
from pathlib import Path

import definitions as found

sys.setrecursionlimit(10_000)

MODEL = Path(__file__).resolve().parent.parent / "docs/explanation/model.md"

# What the book of the whole is of: the program, the library in C, why decisions are as they are, and the laws about these.
WHOLE = "everything"
PROGRAM, LIBRARY, EXPLANATIONS, LAWS = "run_with", "rbac_c", "explanations", "laws"

# What begins a block of parameters, and what no definition is.
BLOCK, OTHER = re.compile(r"module _ (.*) where"), re.compile(r"\s*(use |pub use |unfoldable pub use |infix)")


def is_in(item, name):
    """Whether the contract of an item is one of those with a name: of a function, a crate, the laws, or all of them."""
    if item.first["sort"] != "fn":
        return False
    crate, is_law = item.path.relative_to(found.CRATES).parts[0], item.path.stem == LAWS
    if name == WHOLE:
        return any(is_in(item, one) for one in (PROGRAM, LIBRARY, EXPLANATIONS, LAWS))
    if name == LAWS:
        return is_law and bool(item.first["pub"])
    if crate == LIBRARY and name == LIBRARY:
        return 'extern "C"' in item.first[0]
    return bool(item.first["pub"]) and name in (item.first["name"], crate)


def begun_with(name):
    """The items whose contracts a book is about, and the traits that their signatures name."""
    known = [item for path in sorted(found.CRATES.glob("*/src/lib.rt")) for item in found.items(path.parent)]
    chosen = [item for item in known if is_in(item, name)]
    words = {word for item in chosen for word in re.findall(r"\w+", "\n".join(found.contracts(item)).partition("ensures")[0])}
    return chosen + [item for item in known if item.first["sort"] == "trait" and item.is_seen and item.first["name"] in words]


def written(path):
    """The definitions of a file as they are written there, by their names: what comes before each, with the block that it is in."""
    texts, comments, block, name, depth = {}, [], "", None, 0
    for line in path.read_text(encoding="utf-8").splitlines():
        begins, indent = found.BEGINS.match(line), len(line) - len(line.lstrip())
        if not line.strip() or OTHER.match(line):
            name, comments = (name if not line.strip() else None), [] if not line.strip() else comments
        elif line.lstrip().startswith("--"):
            comments.append(line)
        elif BLOCK.match(line):
            block, name, comments = f"-- for {BLOCK.match(line)[1]}\n", None, []
        elif begins and (name is None or indent <= depth):
            name, depth = begins[2] or begins[3], indent
            block = block if indent else ""
            texts.setdefault(name, block + "".join(f"{one}\n" for one in comments))
        if name and line.strip() and not line.lstrip().startswith("--"):
            texts[name] += f"{line}\n"
            comments = []
    return texts


def sentences():
    """What the model says of each definition that it names, by that name."""
    told = {}
    for part in re.split(r"\n\n|\n(?=- )|\|", MODEL.read_text(encoding="utf-8")):
        for sentence in re.split(r"(?<=[.:]) ", " ".join(part.split())):
            for name in re.findall(r"`(\w+)`|\*\*(\w+)\*\*", sentence):
                told.setdefault(name[0] or name[1], []).append(sentence.removeprefix("- "))
    return told


def in_order(places, named):
    """The definitions that places reach, each after those that it names, except if two name each other."""
    ordered, seen = [], set()

    def visit(place):
        if place in named and place not in seen:
            seen.add(place)
            for below in sorted(named[place]):
                visit(below)
            ordered.append(place)

    for place in sorted(places):
        visit(place)
    return ordered


def book(name):
    """The lines of a book."""
    chosen = begun_with(name)
    if not chosen:
        raise SystemExit(f"bin/files: no public function, crate or group of contracts has the name {name}")
    named, told = found.named_by_definitions(), sentences()
    texts = {module: written(path) for module, path in found.files().items()}
    ordered = in_order({place for item in chosen for place in found.named_by(item)}, named)
    parts = [(place, texts[place[:2]][place[2]]) for place in ordered if place[2] in texts.get(place[:2], {})]
    lines = sum(len(text.splitlines()) for _, text in parts)
    yield f"-- {name}: {len(parts):,} definitions, {lines:,} lines with their comments, each before its use; then the contracts."
    above = None
    for (crate, module, word), text in parts:
        path = f"{crate}/specs/{module.replace('.', '/')}.antt"
        yield "" if path == above else f"\n-- ==== {path}"
        above = path
        yield from (f"-- model: {sentence}" for sentence in told.get(word, []))
        yield text.rstrip("\n")
    for item in chosen:
        yield f"\n-- ==== {item.path.relative_to(found.CRATES)}"
        yield "\n".join(line for line in found.contracts(item) if line.strip())
