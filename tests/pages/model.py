"""The page of the model: its refusals are those of the sources.

Each rule of docs/explanation/rules.md leads to a definition, a function and tests that exist.
"""

import json
import re
import subprocess

from . import markdown, sources, verdicts
from .rules import BY_NAME, OF_LAWS, rows_of, rules, text_of

PAGE = markdown.page("explanation/model.md")
CRATES = sources.ROOT / "crates"

# The pages that name refusals beside their codes.
REFUSING = [f"explanation/{name}.md" for name in "model rules proofs architecture".split()]
REFUSING += ["DECISIONS.md", *(f"reference/{name}.md" for name in ("api", "contracts", "tables"))]

# The tests that meet each limit of the commands.
LIMITS = "office/commands/limits.rt.test"

# The rules whose definition the contract of the function writes out.
UNFOLDED = {"names are ordered byte by byte"}

# What refuses an import is judged as its text is read: tests of the texts meet it.
OF_TEXTS = {"1", "36", "32:byte"}


def check_places(bench):
    """Each rule has a definition, a function and a test, and each of their names is that of one place."""
    for rule in rules():
        bench.judge(rule.text, rule.faults)


def check_folders(bench):
    """Definitions are in the folders specs, functions in the folders src."""
    for rule in rules():
        folders = {place.path.split("/")[2] for place in rule.definitions}
        bench.same(f"the folders of definitions of {rule.text}", folders <= {"specs"}, True)
        bench.same(f"the folders of functions of {rule.text}", {place.path.split("/")[2] for place in rule.functions}, {"src"})


def contract_of(place):
    """The text of a function from its name to its body."""
    lines = text_of(place.path).split("\n")[place.line - 1 :]
    if lines[0].endswith("{"):
        return lines[0]
    return "\n".join(lines[: [line.strip() for line in lines].index("{")])


def check_contracts(bench):
    """The contract of a function of each rule has one of the definitions of the rule, so that no step on the way is left out."""
    found = 0
    for rule in rules():
        names = {place.name.split()[0] for place in rule.definitions}
        if rule.table in (*BY_NAME, OF_LAWS) or rule.text in UNFOLDED or not names:
            continue
        found += 1
        contracts = "".join(contract_of(place) for place in rule.functions)
        cited = [name for name in names if re.search(rf"\b{name}\b", contracts)]
        bench.same(f"a contract for {rule.text} has one of {sorted(names)}", bool(cited), True)
    bench.same("contracts are read", found > 70, True)


def check_lines(bench):
    """The line of a row that a rule names is a request with an answer, unless the rule is about lines without one."""
    found = 0
    for rule in rules():
        for place in [place for place in rule.tests if place.path.endswith(".jsonl") and place.line > 1]:
            found += 1
            lines = text_of(place.path).split("\n")
            is_call = '"fn"' in lines[place.line - 1]
            bench.same(f"line {place.line} of {place.path} is a call", is_call or "line" in rule.text, True)
    bench.same("lines are named", found > 30, True)


def check_words(bench):
    """A rule is found by the standard's name of its function, in any case; what no rule has is reported."""
    for words, wanted in (["addinheritance"], "Commands: addInheritance"), (["BLANK"], "blank lines are skipped"):
        shown = subprocess.run([sources.ROOT / "tests/rules", *words], capture_output=True, text=True, check=False)
        bench.same(f"tests/rules {words} shows {wanted}", (wanted in shown.stdout, shown.returncode), (True, 0))
    shown = subprocess.run([sources.ROOT / "tests/rules", "no such rule"], capture_output=True, text=True, check=False)
    said = "none of" in shown.stderr and all(rule.table in shown.stderr for rule in rules())
    bench.same("tests/rules says what there is", (said, shown.stdout, shown.returncode), (True, "", 1))


def check_functions(bench):
    """Each command and each question has its row."""
    commands, questions = sources.command_keys(), sources.question_keys()
    bench.same("the commands", sorted(rows_of("Commands")), sorted(commands))
    bench.same("the questions", sorted(rows_of("Questions")), sorted(questions))


def check_laws(bench):
    """Each law has its row, which leads to the law itself."""
    found = {name: path for path in CRATES.glob("*/src/laws.rt") for name in laws_in(path)}
    listed = rows_of("Laws")
    bench.same("the laws", sorted(listed), sorted(found))
    for name, rule in listed.items():
        where = [(place.path, place.name) for place in rule.functions]
        bench.same(f"the function of {name}", where, [(str(found[name].relative_to(sources.ROOT)), name)])
        bench.same(f"definitions that {name} does not have", definitions_beside(found[name], name, rule), [])


def laws_in(path):
    """The names of the laws of a crate."""
    return re.findall(r"^pub fn (\w+)", path.read_text(encoding="utf-8"), re.M)


def definitions_beside(path, name, rule):
    """The definitions of a row that the contract of a law does not have."""
    text = path.read_text(encoding="utf-8")
    contract = re.search(rf"^pub fn {name}\b.*?^\{{", text, re.M | re.S)[0]
    return [place.name for place in rule.definitions if not re.search(rf"\b{place.name}\b", contract)]


def check_openings(bench):
    """Each refusal of an opening has its row, and each check."""
    path = CRATES / "role_tables/specs/OpeningChecks.antt"
    names = re.findall(r"^is_opening_refusal \(?(\w+).*= true", path.read_text(encoding="utf-8"), re.M)
    codes = {name: str(code) for code, (name, _) in sources.refusals().items()}
    wanted = {codes[name] for name in names} - {codes["Damaged"]}
    wanted |= {f"{codes['Damaged']} check {check}" for check in sources.checks()}
    bench.same("what refuses an opening", set(rows_of("Checks of an opening")), wanted)


def check_statuses(bench):
    """Each status of HTTP, each exit status and each cause has its row."""
    bench.same("the statuses of HTTP", {int(row) for row in rows_of("HTTP statuses")}, sources.statuses())
    bench.same("the exit statuses", {int(row) for row in rows_of("Exit statuses")}, sources.exits())
    bench.same("the causes", set(rows_of("Causes that stop a replay")), sources.causes())


def check_rows(bench):
    """The tests of each command and question have it accepted, and refused by each of its refusals."""
    refusals = verdicts.refusals()
    for function, rule in {**rows_of("Commands"), **rows_of("Questions")}.items():
        met = set().union(*(met_in(place, function) for place in rule.tests))
        wanted = {"ok", *refusals[function]} - (OF_TEXTS if function == "importAssignments" else set())
        bench.same(f"what the tests of {function} do not meet", sorted(wanted - met), [])


def met_in(place, function):
    """Returns the answers that a function gets in a test: `ok`, and refusals."""
    path = sources.ROOT / place.path
    if path.suffix == ".jsonl":
        return set(answers(path, function))
    if place.path != f"tests/{LIMITS}":
        return set()
    body = re.search(rf"\bfn {place.name}\b.*?^\}}", path.read_text(encoding="utf-8"), re.M | re.S)[0]
    return {f"32:{kind}" for name, kind in re.findall(r"\b(\w+) [^\n;]*?= 32 (\w+)", body) if name == function}


def answers(path, function):
    """Returns the answers that a function gets in a row of tests/rows."""
    asked = [line for line in path.read_bytes().split(b"\n") if line.strip(b" \t\r")]
    given = path.with_suffix(".answers").read_text(encoding="utf-8").splitlines()
    for line, answer in zip(asked, given):
        if f'"{function}"'.encode() in line:
            answer = json.loads(answer)
            yield "ok" if "ok" in answer else ":".join([str(answer["code"]), *([answer["kind"]] if "kind" in answer else [])])


def check_closed(bench):
    """The closed office has its row, by the code of its refusal."""
    (code,) = [code for code, (name, _) in sources.refusals().items() if name == "Closed"]
    rows = [text for text in rows_of("The office in its tables") if text.startswith(f"a closed office answers {code} ")]
    bench.same("the rows of the closed office", len(rows), 1)


def check_names(bench):
    """Each refusal that a page names beside its code has this name."""
    names = {code: name for code, (name, _) in sources.refusals().items()}
    for page in REFUSING:
        named = re.findall(rf"\b(\d+) ({'|'.join(names.values())})\b", markdown.page(page))
        for code, name in named:
            bench.same(f"the refusal {code} in {page}", name, names.get(int(code)))


def codes_of(cell):
    """The numbers in a cell; `2 to 33` are all from the one to the other."""
    found = re.findall(r"\b(\d+)(?: to (\d+))?", cell)
    return {number for first, last in found for number in range(int(first), int(last or first) + 1)}


def check_checks(bench):
    """The tables of rows and of an opening have each check by which an office is damaged."""
    text = markdown.page("reference/tables.md")
    cells = [row[0] for table in markdown.tables(text) for row in table]
    named = [checks for cell in cells for checks in re.findall(r"52 with check (\d+(?: (?:to|or) \d+)?)", cell)]
    listed = set().union(*(codes_of(checks) for checks in named))
    bench.same("the checks", sorted(listed), sources.checks())
