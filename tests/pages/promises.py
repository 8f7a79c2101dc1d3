"""The promises of the front in tests/promises.txt: each with the places of its functions in Go and of its tests."""

import functools
import re
import subprocess

from . import markdown, rules

PAGE = (rules.ROOT / "tests/promises.txt").read_text(encoding="utf-8")
INTERNAL = rules.ROOT / "server/internal"


def place_of(name):
    """The one place with a name: `PACKAGE: NAME` or `PACKAGE: TYPE.NAME` is a function or a test in Go, `FOLDER/FILE: NAME` a check."""
    where, _, short = name.partition(": ")
    type_of, _, function = short.rpartition(".")
    if "/" in where:
        paths, begins = [rules.ROOT / f"tests/{where}.py"], rf"^def {short}\("
    else:
        is_test = short.startswith("Test")
        paths = [path for path in sorted((INTERNAL / where).glob("*.go")) if path.name.endswith("_test.go") == is_test]
        begins = rf"^func (?:\(\w+ \*?{type_of or '[^)]*'}\) )?{function}\("
    texts = {path: path.read_text(encoding="utf-8") for path in paths if path.is_file()}
    found = [(path, text.count("\n", 0, one.start()) + 1) for path, text in texts.items() for one in re.finditer(begins, text, re.M)]
    if len(found) != 1:
        raise ValueError(f"{name} is the name of {len(found)} places")
    ((path, line),) = found
    return rules.Place(str(path.relative_to(rules.ROOT)), short, line)


def promise_of(table, row):
    """A promise as a rule without definitions, with what is wrong with its places."""
    text, *cells = row
    places, faults = [], []
    for cell in cells:
        places.append([])
        for name in rules.quoted(cell):
            try:
                places[-1].append(place_of(name))
            except ValueError as fault:
                faults.append(str(fault))
        if not places[-1]:
            faults.append(f"a cell of {text} names nothing")
    return rules.Rule(table, text, [], *places, faults)


@functools.lru_cache(maxsize=None)
def promises():
    """All promises."""
    parts = [part.partition("\n") for part in re.split(r"^## ", PAGE, flags=re.M)[1:]]
    return [promise_of(heading, row) for heading, _, text in parts for table in markdown.tables(text) for row in table]


def check_places(bench):
    """Each promise leads to functions and to tests that are there."""
    for promise in promises():
        bench.same(f"faults of: {promise.text}", promise.faults, [])
    bench.same("promises are read", len(promises()) > 50, True)


def check_steps(bench):
    """Each step of a request on the page of the architecture is a function that is there."""
    steps = markdown.section(markdown.page("explanation/architecture.md"), "## A request through the front")
    names = re.findall(r"`([a-z]+: [\w.]+)`", steps)
    faults = []
    for name in names:
        try:
            place_of(name)
        except ValueError as fault:
            faults.append(str(fault))
    bench.same("steps that aren't there", faults, [])
    bench.same("steps are read", len(names) > 10, True)


def check_pages(bench):
    """Each page about the front has a table, and each table names pages that are there."""
    named = re.findall(r"docs/[\w/-]+\.md", " ".join(re.findall(r"^## .*", PAGE, re.M)))
    bench.same("pages that aren't there", [page for page in named if not (rules.ROOT / page).is_file()], [])
    of_front = {"front", "requests", "lists", "callers", "record", "heads", "cluster"}
    bench.same("pages without a table", sorted(of_front - {page.split("/")[-1][:-3] for page in named}), [])


def check_shown(bench):
    """`tests/rules` shows a promise by its words, each an argument or all of them in one, with the paths and the lines of its places."""
    for words in (["full", "disk", "alarm"], ["watch", "resumes"], ["see", "the", "record"], ["idle session"]):
        shown = subprocess.run([rules.ROOT / "tests/rules", *words], capture_output=True, text=True, check=False)
        (promise,) = [one for one in promises() if all(word in one.words() for word in " ".join(words).split())]
        lines = [f"{place.path}:{place.line}  {place.name}" for place in (*promise.functions, *promise.tests)]
        bench.same(f"tests/rules {' '.join(words)}: places that aren't shown", [line for line in lines if line not in shown.stdout], [])
