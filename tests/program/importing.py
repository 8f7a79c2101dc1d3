"""Assignments from CSV files, the export and the role report."""

import json
import os
import shutil
import subprocess
import time
from threading import Thread

from machine.assignments import MOST_BYTES, MOST_RECORDS, export
from machine.drawing import ODD_ASSIGNMENTS, Draws
from machine.texts import report

from .bench import PROGRAM, SECONDS
from .offices import STORE, Office, small_office

# The number of a user who owns nothing.
NOBODY = 65534

# Two users and two roles that nobody may have both, of which ann has one.
SEPARATED = b"""\
{"fn":"addUser","user":"ann"}
{"fn":"addUser","user":"bob"}
{"fn":"addRole","role":"approver"}
{"fn":"addRole","role":"clerk"}
{"fn":"createSsdSet","cardinality":2,"roles":["approver","clerk"],"set":"pay"}
{"fn":"assignUser","role":"clerk","user":"ann"}
"""
RECORDS = b"\xef\xbb\xbfuser,role\r\nbob,clerk\r\nann,clerk\r\nann,approver\r\n"

# Texts that are refused as a whole, and how.
REFUSED = {
    "no bytes": (b"", b'{"code":36,"error":"BadCsv","record":0}'),
    "a semicolon in the header": (b"user;role\n", b'{"code":36,"error":"BadCsv","record":0}'),
    "a record of one field": (b"user,role\na,b\nc\n", b'{"code":36,"error":"BadCsv","record":2}'),
    "a field that is not UTF-8": (b"user,role\nann,\xc3\n", b'{"code":36,"error":"BadCsv","record":1}'),
    "a header that is not UTF-8": (b"user,rol\xe9\n", b'{"code":36,"error":"BadCsv","record":0}'),
    "a user that is no name": (b"user,role\nann,clerk\n,clerk\n", b'{"code":1,"error":"BadName"}'),
    "a role that is no name": (b"user,role\nann," + b"r" * 65 + b"\n", b'{"code":1,"error":"BadName"}'),
    "a zero byte": (b"user,role\nann,a\x00b\n", b'{"code":1,"error":"BadName"}'),
    "a database": (b"SQLite format 3\x00" * 64, b'{"code":36,"error":"BadCsv","record":0}'),
    "a record too many": (
        b"user,role\n" + b"ann,clerk\n" * (MOST_RECORDS + 1),
        b'{"code":32,"error":"TooMany","kind":"record"}',
    ),
    "a byte too many": (
        b"user,role\nann,clerk\n".ljust(MOST_BYTES + 1, b"\n"),
        b'{"code":32,"error":"TooMany","kind":"byte"}',
    ),
    "a record and a byte too many": (
        (b"user,role\n" + b"ann,clerk\n" * (MOST_RECORDS + 1)).ljust(MOST_BYTES + 1, b"\n"),
        b'{"code":32,"error":"TooMany","kind":"byte"}',
    ),
    "far too many bytes": (b"x" * (2 * MOST_BYTES), b'{"code":32,"error":"TooMany","kind":"byte"}'),
}


def imports(office, text, name="records.csv"):
    """Imports a text, and compares what is printed with what the model answers."""
    bench = office.bench
    path = bench.write(name, text)
    line = json.dumps({"fn": "importAssignments", "csv": text.decode()}).encode()
    answer = office.model.answer(line)
    words = ["import", office.path, path]
    if b'"ok"' in answer:
        bench.ends(words, answer + b"\n", what=f"import of {text[:60]!r}")
    else:
        bench.refuses(words, answer, what=f"import of {text[:60]!r}")


def check_forbidden(bench):
    """A CSV file that may not be read is no empty one: the import stops, and nothing is imported. Root may read any file."""
    office = small_office(bench)
    path = bench.write("records.csv", b"user,role\n")
    os.chmod(path, 0)
    words = ["import", office.path, path]
    if os.geteuid() == 0:
        program = shutil.copy(PROGRAM, bench.folder / "rbac")
        bench.folder.parent.chmod(0o755)
        for each in (bench.folder, *bench.folder.iterdir()):
            os.chown(each, NOBODY, NOBODY)
        command = ["setpriv", f"--reuid={NOBODY}", f"--regid={NOBODY}", "--clear-groups", program, *words]
    else:
        command = [PROGRAM, *words]
    done = subprocess.run(command, stdin=subprocess.DEVNULL, capture_output=True, timeout=SECONDS, check=False)
    bench.same("a file of mode 000", (done.returncode, done.stdout, done.stderr), (1, b"", b"rbac: stop Read after 0\n"))


def check_import(bench):
    """An import reports what it assigned, what was assigned already and what was refused, also the second time."""
    office = Office(bench)
    office.replay([SEPARATED])
    office.model.answer(b'{"fn":"assignUser","role":"clerk","user":"bob"}')
    words = ["import", office.path, bench.write("records.csv", RECORDS)]
    report = b'{"ok":true,"value":{"already":%d,"assigned":%d,"refused":[{"code":24,"record":3}]}}\n'
    bench.ends(words, report % (1, 1))
    office.compare_with_model()
    bench.ends(words, report % (2, 0), keeps=True)
    office.compare_with_model()


def check_refused_texts(bench):
    """A text that is refused is named on standard error, and nothing is assigned."""
    office = small_office(bench)
    for name, (text, line) in REFUSED.items():
        path = bench.write("records.csv", text)
        bench.refuses(["import", office.path, path], line, what=f"import of {name}")
    office.compare_with_model()


def check_odd_texts(bench):
    """Texts that need care are read, or refused, as by the model."""
    office = small_office(bench)
    for text in ODD_ASSIGNMENTS:
        imports(office, text.encode())
    office.compare_with_model()


def check_drawn_texts(bench):
    """Random texts are imported as by the model."""
    draws = Draws(77)
    office = Office(bench)
    office.replay([draws.draw()[1] + b"\n" for _ in range(200)])
    for _ in range(25):
        imports(office, draws.draw_csv().encode())
    office.compare_with_model()


def check_most(bench):
    """As many records and bytes as are allowed are imported."""
    office = small_office(bench)
    records = b"user,role\n" + b"ann,clerk\n" * MOST_RECORDS
    path = bench.write("records.csv", records.ljust(MOST_BYTES, b"\n"))
    report = b'{"ok":true,"value":{"already":%d,"assigned":1,"refused":[]}}\n' % (MOST_RECORDS - 1)
    bench.ends(["import", office.path, path], report)
    office.model.answer(b'{"fn":"assignUser","role":"clerk","user":"ann"}')
    office.compare_with_model()


def text_of_length(length):
    """Returns a text of `length` bytes, with blank lines before its only record, which ends without a line feed."""
    record = b"ann,clerk"
    return b"user,role\n".ljust(length - len(record), b"\n") + record


def check_longest(bench):
    """A text of as many bytes as are allowed is imported with the record in its last ones, and none of a byte more."""
    office = small_office(bench)
    path = bench.write("records.csv", text_of_length(MOST_BYTES + 1))
    bench.refuses(["import", office.path, path], b'{"code":32,"error":"TooMany","kind":"byte"}')
    office.compare_with_model()
    path = bench.write("records.csv", text_of_length(MOST_BYTES))
    bench.ends(["import", office.path, path], b'{"ok":true,"value":{"already":0,"assigned":1,"refused":[]}}\n')
    office.model.answer(b'{"fn":"assignUser","role":"clerk","user":"ann"}')
    office.compare_with_model()


def check_unreadable(bench):
    """A CSV file that can't be read stops the import before it begins; the office is opened earlier."""
    office = small_office(bench)
    away, folder = bench.path("away.csv"), str(bench.folder)
    stop = b"stop Read after 0"
    bench.refuses(["import", office.path, away], stop)
    bench.refuses(["import", office.path, folder], stop)
    bench.refuses(["import", office.path, ""], stop)
    bench.refuses(["import", bench.path("away"), away], STORE)
    bench.refuses(["import", office.path, "/dev/null"], b'{"code":36,"error":"BadCsv","record":0}')


def check_pipe(bench):
    """The records that another program writes to a pipe, one after the other, are imported up to the last."""
    office, pipe = small_office(bench), bench.path("records")
    os.mkfifo(pipe)
    pieces = [b"user,role\nann,cl", b"erk\n", b"bob,clerk\n"]
    writer = Thread(target=write_slowly, args=[pipe, pieces], daemon=True)
    writer.start()
    bench.ends(["import", office.path, pipe], b'{"ok":true,"value":{"already":1,"assigned":1,"refused":[]}}\n')
    writer.join(SECONDS)
    office.model.answer(b'{"fn":"assignUser","role":"clerk","user":"ann"}')
    office.compare_with_model()


def write_slowly(path, pieces):
    """Writes pieces to a pipe, so that each read of it gets one of them; a reader that has left ends it."""
    try:
        with open(path, "wb", buffering=0) as pipe:
            for piece in pieces:
                pipe.write(piece)
                time.sleep(0.1)
    except BrokenPipeError:
        pass


def check_small_export(bench):
    """The export and the report of the small office, and of an empty one, are as they are written here."""
    office = small_office(bench)
    bench.ends(["export", office.path], b"user,role\nann,boss\nbob,clerk\n", keeps=True)
    heading = b"    assigned  authorized     granted   permitted     juniors     seniors  role\n"
    lines = [
        b"           1           1           1           2           1           0  boss\n",
        b"           1           2           1           1           0           1  clerk\n",
        b"           0           0           0           0           0           0  temp\n",
    ]
    bench.ends(["report", office.path], heading + b"".join(lines), keeps=True)
    empty = Office(bench, "empty")
    bench.ends(["export", empty.path], b"user,role\n", keeps=True)
    bench.ends(["report", empty.path], heading, keeps=True)


def check_export_again(bench):
    """Another office with the same users and roles imports what an office exports, and exports the same."""
    draws = Draws(78)
    office = Office(bench)
    office.replay([draws.draw()[1] + b"\n" for _ in range(300)])
    state = office.model.state
    other = Office(bench, "other")
    names = [{"fn": "addUser", "user": user} for user in sorted(state.users)]
    names += [{"fn": "addRole", "role": role} for role in sorted(state.roles)]
    other.replay([json.dumps(line).encode() + b"\n" for line in names])
    imports(other, bench.run(["export", office.path]).out)
    bench.ends(["export", other.path], export(state))
    bench.same("the same assignments", other.model.state.assignments, state.assignments)


def check_long_report(bench):
    """The report of an office with many roles, each a junior of the one before, is that of the model."""
    office = Office(bench)
    lines = [{"fn": "addRole", "role": "r100"}]
    lines += [{"fn": "addDescendant", "asc": f"r{one}", "desc": f"r{one + 1}"} for one in range(100, 160)]
    lines += [{"fn": "addUser", "user": "ann"}, {"fn": "assignUser", "user": "ann", "role": "r130"}]
    office.replay([json.dumps(line).encode() + b"\n" for line in lines])
    bench.ends(["report", office.path], report(office.model.state), keeps=True)
    office.compare_with_model()
