"""The definitions of specs/ that contracts reach, for bin/files --book and the checks of the pages.

A contract reaches the definitions that it names, and what these name in turn. A module of definitions is a file of specs/.
"""

import re
from collections import namedtuple
from pathlib import Path

CRATES = Path(__file__).resolve().parent.parent / "crates"

# The files that only list modules.
LISTS = {"Lib", "private"}

# How a definition begins. In a block of parameters it is indented.
BEGINS = re.compile(r"( {0,2})(?:abbrev |unfoldable )?(?:pub (?:record |data )?([^\s:(]+)|([^\s:(]+)(?= : ))")

# A field of a record, or a case of a type.
MEMBER = re.compile(r"^ +(?:pub )?([^\s(:]+) : ", re.M)

# What a text uses of a module of definitions: some names, or an alias for the module.
USES = re.compile(r"\buse Rattle\.(\w+)\.specs\.([\w.]+?)(?:\.\{([^}]*)\}| as (\w+))")

# How an item of a source begins, and a function in it.
SORTS = r"(?P<sort>fn|trait|impl|struct|enum)\b(?:<.*?>+)? (?P<name>\w*)"
ITEM = re.compile(r"(?P<pub>pub )?(?:pub\(\w+\) )?(?:ghost |const |unsafe |extern \"C\" )*" + SORTS)
FUNCTION = re.compile(r" *(?P<pub>pub )?(?:pub\(\w+\) )?(?:ghost |const |unsafe |extern \"C\" )*fn \w")

# What an item has for itself: its imports, and the invariant of a type.
INSIDE = re.compile(r"^ *ghost (?:use|invariant)\b.*?;\n", re.M | re.S)

# What a source exports to other crates: modules, and names out of modules.
OPENS = re.compile(r"^pub mod (\w+);", re.M)
GIVES = re.compile(r"^pub use [\w:]+::(\{[^}]*\}|\w+);", re.M)

# An item of a source: the match of its first line, all its lines, the text and the path of the source, and whether other crates see it.
Item = namedtuple("Item", "first lines text path is_seen")


def plain(path, mark):
    """The text of a file without its comments."""
    return re.sub(rf"(^|\s){mark}.*$", r"\1", path.read_text(encoding="utf-8"), flags=re.M)


def uses_of(text):
    """What a text uses of other modules: the places of definitions by their names, and modules by their aliases."""
    used, aliases = {}, {}
    for crate, module, names, alias in USES.findall(text):
        if alias:
            aliases[alias] = (crate, module)
        for name in filter(None, map(str.strip, names.split(","))):
            first, _, other = name.partition(" as ")
            used[other or first] = (crate, module, first)
    return used, aliases


def words_of(text):
    """The names in a text. The name of an operator has its places, and `do` counts as one."""
    words = set(re.findall(r"[^\s(){}\[\],;.λ|]+", text))
    return words | {f"◌{word}◌" for word in words} | ({"◌>>=◌"} if "do" in words else set())


def places_in(text, used, aliases):
    """The places of the definitions that a text names."""
    yield from (used[word] for word in words_of(text) & set(used))
    for alias, module in aliases.items():
        yield from ((*module, name) for name in re.findall(rf"\b{alias}\.([^\s(){{}}\[\],;.]+)", text))


def files():
    """The file of each module of definitions, by its crate and its name."""
    paths = [path for path in sorted(CRATES.glob("*/specs/**/*.antt")) if path.stem not in LISTS]
    parts = [path.relative_to(CRATES).with_suffix("").parts for path in paths]
    return {(crate, ".".join(names)): path for (crate, _, *names), path in zip(parts, paths)}


def definitions(text):
    """The text of each definition of a module, by its name."""
    found, name, depth = {}, None, 0
    for line in filter(str.strip, text.splitlines()):
        begins, indent = BEGINS.match(line), len(line) - len(line.lstrip())
        if line.lstrip().startswith(("use ", "pub use ", "unfoldable pub use ", "module ", "infix")):
            name = None
        elif begins and (name is None or indent <= depth):
            name, depth = begins[2] or begins[3], indent
        if name:
            found[name] = found.get(name, "") + line + "\n"
    return found


def named_by_definitions():
    """The places that each place names: a definition what is in its text, a field or a case its type."""
    found = {}
    for module, path in files().items():
        text = plain(path, "--")
        texts = definitions(text)
        for name, body in texts.items():
            own = {(*module, word) for word in words_of(body) & set(texts)}
            found[*module, name] = own | set(places_in(body, *uses_of(text)))
            for member in MEMBER.findall(body):
                found.setdefault((*module, member), {(*module, name)})
        # What a module re-exports.
        for name, place in uses_of("\n".join(re.findall(r"^(?:unfoldable )?pub (use .*)", text, re.M)))[0].items():
            found[*module, name] = {place}
    return found


def is_visible(path, folder):
    """Whether other crates see a source: it is a public module, of one that they see."""
    parts = path.relative_to(folder).with_suffix("").parts
    above = [folder / "lib.rt", *(folder.joinpath(*parts[:count]).with_suffix(".rt") for count in range(1, len(parts)))]
    return path.name != "lib.rt" and all(part in OPENS.findall(plain(file, "//")) for part, file in zip(parts, above))


def items(folder):
    """The items of the sources of a crate."""
    texts = {path: plain(path, "//") for path in folder.rglob("*.rt")}
    given = set(re.findall(r"\w+", " ".join(names for text in texts.values() for names in GIVES.findall(text))))
    for path, text in texts.items():
        seen, found = is_visible(path, folder), []
        for line in text.splitlines():
            first = ITEM.match(line)
            if first:
                is_seen = bool(first["pub"]) and (seen or first["name"] in given)
                found.append(Item(first, [], text, path, is_seen))
            if found:
                found[-1].lines.append(line)
        yield from found


def contracts(item):
    """The lines of the public contracts in an item. Of a trait, and of a block for one, those of all functions are public."""
    whole = item.first["sort"] == "trait" or (item.first["sort"] == "impl" and " for " in item.lines[0])
    reading, clauses, inside = whole, False, False
    for line in item.lines:
        begins = FUNCTION.match(line)
        if begins:
            reading, clauses, inside = whole or bool(begins["pub"]), False, True
        clauses = clauses or line.lstrip().startswith(("requires ", "ensures "))
        is_body = line.strip() == "{" or (not clauses and line.endswith("{"))
        reading = reading and not (inside and is_body)
        if reading:
            yield line


def named_by_contracts():
    """The places that public contracts name. The view of a type is part of them, even if the type is private."""
    for path in CRATES.glob("*/src/lib.rt"):
        found = list(items(path.parent))
        hidden = {item.first["name"] for item in found if item.first["sort"] in ("struct", "enum", "trait") and not item.is_seen}
        for item in found:
            words = set(re.findall(r"\w+", item.lines[0].partition("{")[0]))
            if item.is_seen or (item.first["sort"] == "impl" and ("Model" in words or not words & hidden)):
                yield from named_by(item)


def named_by(item):
    """The places that the public contracts in an item name, without invariants: a wrong one can't weaken a contract, since each
    function that makes a value has to meet it."""
    return places_in(INSIDE.sub("", "\n".join([*contracts(item), ""])), *uses_of(item.text))


def reached(places, named=None):
    """The definitions that some places reach, by what each names, as `named_by_definitions` has it."""
    named, left, done = named or named_by_definitions(), set(places), set()
    while left:
        place = left.pop()
        if place in named and place not in done:
            done.add(place)
            left |= named[place]
    return done
