"""Compares the examples with the program and the plain model: answers, an import, and what their page shows.
"""

import json
import os
import re
import shutil
import subprocess

import pytest

from machine.assignments import MARK, export, read_assignments
from machine.replaying import Replay
from machine.state import ERRORS
from pages import markdown
from program.bench import PROGRAM, SECONDS, TESTS, beside
from program.offices import Office

EXAMPLES = TESTS.parent / "examples"
NAMES = sorted(path.stem for path in EXAMPLES.glob("*.jsonl"))
CSV = EXAMPLES / "bank.csv"

# A record of two fields in quotes.
QUOTED = re.compile(rb'"([^"]|"")+","([^"]|"")+"')


def lines_of(name):
    """The lines of an example, each with its end."""
    return (EXAMPLES / f"{name}.jsonl").read_bytes().splitlines(keepends=True)


def answers_of(name):
    """All bytes of the answers that are written down beside an example."""
    return (EXAMPLES / f"{name}.answers").read_bytes()


def page():
    """The text of the page of the examples."""
    return (EXAMPLES / "README.md").read_text(encoding="utf-8")


def commands():
    """The commands that the page shows, each with the lines that it prints."""
    lines = [line for block in markdown.blocks(page(), "console") for line in block]
    runs = re.split(r"^\$ ", "".join(f"{line}\n" for line in lines), flags=re.M)[1:]
    return [run.partition("\n")[::2] for run in runs]


def refused_rows(heading):
    """The rows of the tables below a heading that have a refusal: its number, its subject, and the refusal."""
    rows = [row for table in markdown.tables(markdown.section(page(), heading)) for row in table]
    return [(int(row[0]), row[1], row[2]) for row in rows if len(row) == 4]


@pytest.mark.parametrize("name", NAMES)
def check_answers_example(bench, name):
    """The program and the model answer an example as is written down beside it, in memory and in a file."""
    lines, wanted = lines_of(name), answers_of(name)
    bench.same("the model's answers", b"".join(Replay().answers(b"".join(lines))), wanted)
    bench.ends(["replay", "--memory"], wanted, given=b"".join(lines))
    office = Office(bench)
    bench.ends(["replay", office.path], wanted, given=b"".join(lines))
    for line in lines:
        office.model.answer(line)
    office.compare_with_model()


def same_rows(bench, what, given, wanted):
    """Counts whether the page has these rows and no others; each that differs is shown alone."""
    bench.same(f"the number of {what}s", len(given), len(wanted))
    for row, wanted_row in zip(given, wanted):
        bench.same(f"the {what} {wanted_row[0]}", row, wanted_row)


def refusal_of(answer):
    """A refusal as the page writes it: its code and its name, and the set that it names."""
    words = f"{answer['code']} {answer['error']}"
    return f"{words} `{answer['set']}`" if "set" in answer else words


@pytest.mark.parametrize("name", NAMES)
def check_names_refusals(bench, name):
    """The page has each refused line of an example, by its number, its function and the refusal, and no other."""
    answers = [json.loads(answer) for answer in answers_of(name).splitlines()]
    functions = [json.loads(line)["fn"] for line in lines_of(name)]
    both = enumerate(zip(functions, answers, strict=True), 1)
    wanted = [(number, fn, refusal_of(answer)) for number, (fn, answer) in both if "code" in answer]
    rows = refused_rows(f"## {name.title()}")
    given = [(number, subject.split()[0].rstrip(":"), word) for number, subject, word in rows]
    same_rows(bench, "refused line", given, wanted)


def check_is_of_spreadsheet(bench):
    """The assignments have a byte order mark, CR LF at the end of each record, and each field in quotes."""
    text = CSV.read_bytes()
    bench.same("the byte order mark", text[: len(MARK)], MARK)
    records = text.removeprefix(MARK).split(b"\r\n")
    bench.same("the last end of a record", records.pop(), b"")
    for record in records:
        bench.same(f"{record!r} is quoted", bool(QUOTED.fullmatch(record)), True)


def import_line(text):
    """The line that imports a text."""
    return json.dumps({"fn": "importAssignments", "csv": text.decode()}).encode()


def check_imports_assignments(bench):
    """The assignments are imported into the bank and exported as by the model; a second import changes nothing."""
    office = Office(bench)
    office.replay(lines_of("bank"))
    for text in (CSV.read_bytes(), CSV.read_bytes(), None):
        text = export(office.model.state) if text is None else text
        path = bench.write("records.csv", text)
        bench.ends(["import", office.path, path], office.model.answer(import_line(text)) + b"\n")
        office.compare_with_model()


def check_names_refused_records(bench):
    """The page has each record that the import of the bank refuses, and no other."""
    model, text = Replay(), CSV.read_bytes()
    for line in lines_of("bank"):
        model.answer(line)
    refused = json.loads(model.answer(import_line(text)))["value"]["refused"]
    pairs = read_assignments(text)
    wanted = [
        (one["record"], " to ".join(pairs[one["record"] - 1]), f"{one['code']} {ERRORS[one['code']]}")
        for one in refused
    ]
    rows = refused_rows("## Bank, imported")
    given = [(number, pair, " ".join(word.split()[:2])) for number, pair, word in rows]
    same_rows(bench, "refused record", given, wanted)


# Names that are tried in a file of assignments.
NAMES_TRIED = ["bob", "a,b", 'a"b', "\u00e9" * 32, "", "\u00e9" * 32 + "x", "x" * 65, "a\tb", "\x7f", "\x01"]


def check_finds_names(bench):
    """names.py prints a name of a file exactly if the program refuses the file with 1 BadName, for both ends of lines."""
    office = Office(bench)
    for number, name in enumerate(NAMES_TRIED):
        quoted = '"' + name.replace('"', '""') + '"'
        for field in {quoted, name} if set(name).isdisjoint(',"') else {quoted}:
            for end in ("\n", "\r\n"):
                text = end.join(["user,role", "", "ann,clerk", f"bob,{field}", ""])
                path = bench.write(f"names{number}.csv", text.encode())
                imported = bench.run(["import", office.path, path])
                done = subprocess.run([EXAMPLES / "names.py", path], capture_output=True, timeout=SECONDS, check=False)
                wanted = f"{path}: record 2: {name!r}\n" if b'"code":1,' in imported.err else ""
                what = f"what names.py prints of {field!r} before {end!r}"
                bench.same(what, (done.stdout.decode(), done.stderr, done.returncode), (wanted, b"", 0))
    office.compare_with_model()


def check_runs_commands(bench):
    """Each command of the page prints the lines below it, and ends with status 0."""
    for path in EXAMPLES.iterdir():
        if path.is_file():
            shutil.copy(path, bench.folder)
    words = beside(bench, "words")
    os.mkdir(words)
    os.symlink(PROGRAM, os.path.join(words, "rbac"))
    setting = {**os.environ, "PATH": f"{words}:{os.environ['PATH']}"}
    for command, shown in commands():
        shell = ["sh", "-c", command]
        options = {"cwd": bench.folder, "env": setting, "capture_output": True, "timeout": SECONDS}
        done = subprocess.run(shell, **options, check=False)
        bench.same(command, (done.stdout, done.stderr, done.returncode), (shown.encode(), b"", 0))
