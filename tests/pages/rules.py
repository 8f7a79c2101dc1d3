"""The rules and the laws of their page and of tests/places.txt: each with the places of its definition, its function and its tests.

A place is a name, or `FILE: NAME` if several files have the name: FILE is the end of a path without its ending. The name of a test
may be that of a file: a row of tests/rows, with the number of a line behind a colon, or a must-fail edit.
"""

import functools
import json
import re
from dataclasses import dataclass

from . import markdown, sources

ROOT = sources.ROOT
PAGE = markdown.page("explanation/rules.md") + (ROOT / "tests/places.txt").read_text(encoding="utf-8")

# The table of the laws, and what the column of definitions has for a rule that no definition is of.
OF_LAWS, ONLY_TESTED = "Laws", "only tested"

# How a definition, a function or a test begins, by the ending of the file, with its name as a group. A definition by cases has two
# names: `refusals AddUser` is the case of this command.
BEGINS = {
    ".antt": [r"^ *(?:unfoldable |abbrev )?pub (?:record |data )?(\w+)", r"^(\w+) S \(?(\w+)\b"],
    ".rt": [r"\bfn (\w+)"],
    ".rt.test": [r"\bfn (\w+)"],
    ".py": [r"^ *def (\w+)"],
    ".sh": [r"^(\w+)\(\)"],
}

# Where the places of a column are: the patterns of their files.
FOLDERS = {
    "definition": ["crates/*/specs/**/*.antt"],
    "function": ["crates/*/src/**/*.rt"],
    "test": ["tests/*/**/*.rt.test", "tests/**/*.py", "tests/*.sh"],
}
FILES = ["tests/rows/**/*.jsonl", "tests/edits/**/*.edit"]

# The clauses, functions and tests of a command and of a question. A row may name other functions, and further tests.
BY_NAME = {
    "Commands": {
        "definition": ["refusals {pascal}", "changed {pascal}"],
        "function": ["judge_{snake}", "plan_{snake}"],
        "test": [],
    },
    "Questions": {
        "definition": ["refusals {pascal}", "value {pascal}"],
        "function": ["{snake}"],
        "test": ["each-question-is-answered", "what-is-missing-is-refused"],
    },
}

# The function that plans each command that only puts or takes one row. The others have a plan of their own name.
ONE_ROW = "planning: make"

# A command on dynamic sets has the tests of its twin, under these words.
STATIC, DYNAMIC = ("Ssd", "-static"), ("Dsd", "-dynamic")

# The files of a crate of tests that hold no tests, and the modules of this folder.
NO_TESTS = ("tests/pages/", "tests/machine/")


@dataclass(frozen=True)
class Place:
    """A file, a name in it unless the whole file is meant, and the number of the line at which the place begins."""

    path: str
    name: str
    line: int


@dataclass(frozen=True)
class Rule:
    """A rule, with its table and the places to which it leads."""

    table: str
    text: str
    definitions: list
    functions: list
    tests: list
    # What is wrong with its places.
    faults: list

    def words(self):
        """The text by which the rule is found first."""
        return f"{self.table} {self.text} {standard_name(self.text)}".lower()

    def further_words(self):
        """The text by which the rule is found if no rule is found by its own: names of places, and what api.md says."""
        names = " ".join(place.name or place.path for place in [*self.definitions, *self.functions, *self.tests])
        return f"{self.words()} {names} {described(self.text)}".lower()


def ending_of(path):
    """The ending of a path, `.rt.test` as one."""
    return ".rt.test" if path.endswith(".rt.test") else path[path.rindex(".") :]


@functools.lru_cache(maxsize=None)
def text_of(path):
    """The text of a file of the repository."""
    return (ROOT / path).read_text(encoding="utf-8", errors="replace")


@functools.lru_cache(maxsize=None)
def paths_in(column):
    """The files in which the names of a column are looked for."""
    found = [path for pattern in FOLDERS[column] for path in ROOT.glob(pattern)]
    return sorted(path for path in {str(one.relative_to(ROOT)) for one in found} if not path.startswith(NO_TESTS))


@functools.lru_cache(maxsize=None)
def files():
    """The files that are tests as a whole, by their names without endings; edits have theirs."""
    found = {}
    for pattern in FILES:
        for path in sorted(ROOT.glob(pattern)):
            name = path.name if path.suffix == ".edit" else path.stem
            found.setdefault(name, []).append(str(path.relative_to(ROOT)))
    return found


@functools.lru_cache(maxsize=None)
def lines_of(path):
    """The lines at which the names of a file begin, for each name the first."""
    found, text = {}, text_of(path)
    for pattern in BEGINS[ending_of(path)]:
        for match in re.finditer(pattern, text, re.M):
            found.setdefault(" ".join(match.groups()), text[: match.start()].count("\n") + 1)
    return found


@functools.lru_cache(maxsize=None)
def names_in(column):
    """The places of each name that the files of a column have."""
    found = {}
    for path in paths_in(column):
        for name, line in lines_of(path).items():
            found.setdefault(name, []).append(Place(path, name, line))
    return found


def is_end_of(end, path):
    """Whether a text is the end of a path without its ending."""
    return f"/{path.removesuffix(ending_of(path))}".endswith(f"/{end}")


def named(column, text):
    """The places that a text may name: with a file before a colon, or in any file."""
    file, _, name = text.rpartition(": ")
    return [place for place in names_in(column).get(name, []) if not file or is_end_of(file, place.path)]


def whole_files(text):
    """The rows and edits that a text may name, with the number of a line behind a colon."""
    name, _, line = text.partition(":")
    for path in files().get(name.rpartition("/")[2], []):
        end = path if path.endswith(".edit") else path.removesuffix(".jsonl")
        if f"/{end}".endswith(f"/{name}"):
            yield Place(path, "", int(line or 1))


def place_of(column, text):
    """The one place that a text names."""
    is_name = re.match(r"[\w/. -]+: \S", text) or re.fullmatch(r"[\w ]+", text)
    found = named(column, text) if is_name else []
    found = found or (list(whole_files(text)) if column == "test" else [])
    if len(found) != 1:
        raise ValueError(f"{text} is the name of {len(found)} places: {', '.join(place.path for place in found) or 'none'}")
    (place,) = found
    if place.line > text_of(place.path).count("\n") + 1:
        raise ValueError(f"{place.path} has no line {place.line}")
    return place


def snake(name):
    """A name with underscores."""
    return re.sub("([A-Z])", r"_\1", name).lower()


def quoted(cell):
    """The places that a cell names."""
    return re.findall(r"`([^`]+)`", cell)


def of_function(table, row):
    """The places of a command or a question, by columns. A row of two has their tests under the words for the second."""
    for name in row[0].split(", "):
        forms = {"pascal": name[0].upper() + name[1:], "snake": snake(name)}
        named_so = {column: [one.format(**forms) for one in texts] for column, texts in BY_NAME[table].items()}
        tests = row[2]
        if STATIC[0] in row[0] and DYNAMIC[0] in name:
            tests = tests.replace(STATIC[1], DYNAMIC[1])
        functions = [one if names_in("function").get(one) or not one.startswith("plan_") else ONE_ROW for one in named_so["function"]]
        # Some questions name nothing that could be missing.
        shared = [test for test in named_so["test"] if f'"{name}"' in text_of(files()[test][0])]
        yield name, {**named_so, "function": quoted(row[1]) or functions, "test": [*shared, *quoted(tests)]}


def of_law(row):
    """The places of a law. Its function has its name, in a file of laws."""
    (name, *_) = quoted(row[0])
    return {"definition": quoted(row[1]), "function": [f"laws: {name}"], "test": quoted(row[2])}


@functools.lru_cache(maxsize=None)
def rules():
    """All rules and laws of the page and of tests/places.txt."""
    found = []
    for part in re.split(r"^## ", PAGE, flags=re.M)[1:]:
        table, _, text = part.partition("\n")
        for row in [row for rows in markdown.tables(text) for row in rows]:
            if table == OF_LAWS:
                found.append(rule_of(OF_LAWS, row[0].replace("`", ""), of_law(row)))
            elif table in BY_NAME:
                found += [rule_of(table, name, texts) for name, texts in of_function(table, row)]
            else:
                cells = {"definition": quoted(row[1]), "function": quoted(row[2]), "test": quoted(row[3])}
                found.append(rule_of(table, row[0], cells, is_tested=row[1] == ONLY_TESTED))
    return found


def of_call(place, name, table):
    """A place; of a row of a command or a question, the line of the first request for it."""
    if table not in BY_NAME or not place.path.endswith(".jsonl"):
        return place
    called = [number for number, line in enumerate(text_of(place.path).split("\n"), 1) if f'"{name}"' in line]
    if not called:
        raise ValueError(f"{place.path} has no request for {name}")
    return Place(place.path, "", called[0])


def rule_of(table, text, cells, is_tested=False):
    """A rule with the places that its cells name, and with what is wrong with them."""
    places, faults = {}, []
    for column, texts in cells.items():
        places[column] = []
        for one in texts:
            try:
                places[column].append(of_call(place_of(column, one), text, table))
            except ValueError as fault:
                faults.append(f"{column}: {fault}")
        if not texts and not (is_tested and column == "definition"):
            faults.append(f"there is no {column}")
    return Rule(table, text, places["definition"], places["function"], places["test"], faults)


def rows_of(table):
    """The rules of a table, by the text of their first column before a colon."""
    return {rule.text.partition(":")[0]: rule for rule in rules() if rule.table == table}


@functools.lru_cache(maxsize=None)
def descriptions():
    """What docs/reference/api.md says of each function, and its name in the standard, which the description begins with."""
    paths = json.loads((ROOT / "docs/openapi.json").read_text(encoding="utf-8"))["paths"]
    posts = [methods["post"] for methods in paths.values() if "post" in methods]
    return {
        post.get("operationId"): f"{post.get('description', '')} {post['responses'].get('409', {}).get('description', '')}"
        for post in posts
    }


def described(name):
    """What docs/reference/api.md says of a function, nothing of any other rule."""
    return descriptions().get(name, "")


def standard_name(name):
    """The name of a function in the standard, if it has one."""
    found = re.match(r"(\w+): ", described(name))
    return found[1] if found else ""
