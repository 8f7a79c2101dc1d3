"""The page of integrating: its commands print what it shows, and its tables and numbers are those of the sources."""

import json
import os
import re

from . import markdown, openapi, sources, verdicts
from .shell import Shell

PAGE = markdown.page("howto/integrate.md")
MOST_LINES, MOST_BYTES = 360, 20_480

# The languages of the blocks that tests/clients runs, and that of those that are run here.
ELSEWHERE, HERE = {"python", "sh", "go", "java", "javascript"}, {"console"}

# Statuses of proxies in front of a server that they can't reach.
OF_PROXIES = {502, 504}


def check_length(bench):
    """The page is short."""
    bench.same("the page is short", (len(PAGE.splitlines()) <= MOST_LINES, len(PAGE.encode()) <= MOST_BYTES), (True, True))


def check_path(bench):
    """The folder that a reader adds to PATH has `rbac`, and no command that hides one of the reader's own, such as node."""
    (folder,) = re.findall(r"after `export PATH=\$PATH:\$PWD/(\w+)`", PAGE)
    bench.same("the programs", [path.name for path in (sources.ROOT / folder).iterdir() if os.access(path, os.X_OK)], ["rbac"])


def check_commands(bench):
    """The commands of the page, from its top to its end, print what is shown below them."""
    (bench.folder / "examples").symlink_to(sources.ROOT / "examples")
    with Shell(bench) as reader:
        for block in markdown.blocks(PAGE, "console"):
            reader.console(block)


def check_languages(bench):
    """Each block of the page is of a language that is run."""
    bench.same("the languages", set(re.findall(r"^```(\w+)$", PAGE, re.M)), ELSEWHERE | HERE)
    bench.same("blocks without a language", PAGE.count("```"), 2 * len(re.findall(r"^```\w+$", PAGE, re.M)))


def check_names(bench):
    """Each refusal that the page names by its code has the name of the sources."""
    names = {code: name for code, (name, _) in sources.refusals().items()}
    found = re.findall(r"\b(\d+) ([A-Z][a-z]+[A-Z]\w+|Store)\b", PAGE)
    bench.same("refusals are named", len(found) > 30, True)
    for code, name in found:
        bench.same(f"the name of {code}", name, names[int(code)])


def check_repeated(bench):
    """The table of repeated commands has each command, with a refusal that can refuse it, or with nothing."""
    (table,) = markdown.tables(markdown.section(PAGE, "## 3. After a timeout"))
    cells = [cell for row in table for cell in (row[:2], row[2:])]
    listed = [(function, refused) for functions, refused in cells for function in functions.split(", ")]
    bench.same("the commands", sorted(function for function, _ in listed), sorted(sources.command_keys()))
    for function, refused in listed:
        can = refused == "nothing" or refused.split()[0] in verdicts.refusals()[function]
        bench.same(f"{function} can be refused by {refused}", can, True)


# Commands that remove something, with a name of something else that exists in the bank, or of nothing.
MISTAKEN = [
    ("deleteUser", {"user": "an"}),
    ("deleteRole", {"role": "taler"}),
    ("deletePermObj", {"object": "volt"}),
    ("deletePermission", {"object": "vault", "operation": "post"}),
    ("revokePermission", {"object": "vault", "operation": "open", "role": "cashier"}),
    ("deassignUser", {"user": "ann", "role": "cashier"}),
    ("deleteInheritance", {"asc": "branch manager", "desc": "cashier"}),
    ("deleteSsdSet", {"set": "cash"}),
    ("deleteDsdSet", {"set": "audit"}),
    ("deleteSsdRoleMember", {"set": "audit", "role": "cashier"}),
    ("deleteDsdRoleMember", {"set": "cash", "role": "teller"}),
    ("deleteSession", {"user": "ann", "session": "ann 2"}),
    ("dropActiveRole", {"user": "ann", "session": "ann 1", "role": "cashier"}),
]


def check_reasons(bench):
    """The list below that table has each of its codes once, and a command with a wrong name gets the code of one that was done."""
    text = markdown.section(PAGE, "## 3. After a timeout")
    (table,) = markdown.tables(text)
    cells = [cell for row in table for cell in (row[:2], row[2:])]
    refused = {function: cell[1].split()[0] for cell in cells for function in cell[0].split(", ")}
    listed = [code for codes in re.findall(r"^- \*\*([\d, and]+)\*\*:", text, re.M) for code in re.findall(r"\d+", codes)]
    bench.same("the codes below the table", sorted(listed), sorted(set(refused.values()) - {"nothing"}))
    removing = [function for function in refused if re.match("delete|revoke|deassign|drop", function)]
    bench.same("commands with wrong names", sorted(function for function, _ in MISTAKEN), sorted(removing))
    bank = (sources.ROOT / "examples/bank.jsonl").read_bytes()
    lines = "".join(json.dumps({"fn": function, **names}) + "\n" for function, names in MISTAKEN)
    done = bench.run(["replay", "--memory"], bank + lines.encode())
    answers = [json.loads(line) for line in done.out.splitlines()][-len(MISTAKEN) :]
    for (function, names), answer in zip(MISTAKEN, answers, strict=True):
        bench.same(f"{function} of {names}", str(answer.get("code")), refused[function])


def check_decisions(bench):
    """The table of decisions has each refusal of checkAccess, and each status that its request can get, and allows once."""
    (table,) = markdown.tables(markdown.section(PAGE, "## 1. Allow or deny"))
    text = " ".join(row[0] for row in table)
    codes = re.findall(r"\b(\d+) [A-Z]", text)
    bench.same("the refusals of checkAccess", sorted(codes), sorted(verdicts.refusals()["checkAccess"]))
    statuses = {int(status) for status in re.findall(r"\b\d{3}\b", text)}
    known = sources.statuses() | set(openapi.codes_of_front()) | OF_PROXIES
    bench.same("statuses that neither server nor proxy has", statuses - known, set())
    bench.same("how often it allows", [row[1] for row in table].count("allow"), 1)
    bench.same("what it allows", table[0][:2], ['200 and exactly `{"ok":true,"value":true}`', "allow"])


def check_numbers(bench):
    """The numbers that the page names are those of the sources."""
    bench.same("the seconds of a wait", f"can hold it for {sources.patience()} seconds" in markdown.in_one_line(PAGE), True)
    bench.same("the number of functions", f"the {len(sources.functions())} functions" in PAGE, True)
