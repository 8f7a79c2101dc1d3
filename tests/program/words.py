"""The command line: which arguments are accepted, and what is printed for the others."""

from .offices import Office

# Arguments that are refused, except those of a replay without an office or with two.
REFUSED = [
    "",
    "fly",
    "Check FILE",
    "check",
    "check FILE more",
    "check --memory FILE",
    "check --fly FILE",
    "init",
    "init FILE more",
    "migrate",
    "migrate FILE more",
    "export",
    "export FILE more",
    "report",
    "report FILE more",
    "import",
    "import FILE",
    "import FILE records.csv more",
    "replay FILE more",
    "replay FILE more --memory",
    "replay --memory --memory",
    "replay --memory=yes",
    "replay --memor",
    "--memory replay",
    "FILE check",
    "serve",
    "serve FILE",
    "serve FILE --port 8080",
    "serve FILE --limit 3",
    "serve --port 8080 --limit 3",
    "serve FILE more --port 8080 --limit 3",
    "serve FILE --port --limit 3",
    "serve FILE --port 8080 --limit",
    "serve FILE --port 8080 --port 8081 --limit 3",
    "serve FILE --port 8080 --limit 3 --limit 4",
    "serve FILE --port 0 --limit 3",
    "serve FILE --port 65536 --limit 3",
    "serve FILE --port 4294975376 --limit 3",
    "serve FILE --port -1 --limit 3",
    "serve FILE --port http --limit 3",
    "serve FILE --port 80.0 --limit 3",
    "serve FILE --port 0x50 --limit 3",
    "serve FILE --port 8080 --limit 0",
    "serve FILE --port 8080 --limit 1000001",
    "serve FILE --port 8080 --limit 4294967297",
    "serve FILE --port 8080 --limit -1",
    "serve FILE --port 8080 --limit many",
    "serve --version",
    "check FILE --version",
]

# Whole command lines, and how many further arguments are tried after each of them.
WHOLE = [
    "init FILE",
    "replay FILE",
    "replay --memory",
    "serve FILE --port 8080 --limit 3",
    "import FILE records.csv",
    "export FILE",
    "report FILE",
    "check FILE",
    "migrate FILE",
]
MOST_MORE = 3

HELPS = ["--help", "-h", "help", "check --help", "serve --help", "serve -h", "help serve", "help replay"]

# Arguments by which a replay has no office, or two.
EITHER = ["replay", "replay FILE --memory", "replay --memory FILE"]


def words_of(text, path):
    """The arguments in a text, with the path of the office for FILE."""
    return [path if word == "FILE" else word for word in text.split()]


def check_refused(bench):
    """Wrong arguments are refused with status 2 and a text on standard error alone."""
    path = Office(bench).path
    for text in REFUSED:
        before = bench.contents()
        done = bench.run(words_of(text, path), b'{"fn":"addUser","user":"ann"}\n')
        bench.same(f"words '{text}'", (done.out, bool(done.err), done.status), (b"", True, 2))
        bench.same(f"the files after words '{text}'", bench.contents(), before)
    done = bench.run([""])
    bench.same("an empty word", (done.out, bool(done.err), done.status), (b"", True, 2))


def check_more_words(bench):
    """Further arguments after a whole command line are refused, one as well as several, and nothing is done."""
    path = Office(bench).path
    for text in WHOLE:
        for count in range(1, MOST_MORE + 1):
            before = bench.contents()
            done = bench.run([*words_of(text, path), *["more"] * count], b'{"fn":"addUser","user":"ann"}\n')
            what = f"'{text}' and {count} arguments more"
            bench.same(what, (done.out, bool(done.err), done.status), (b"", True, 2))
            bench.same(f"the files after {what}", bench.contents(), before)


def check_no_text(bench):
    """An argument that is no UTF-8 is refused with status 2, whichever it is."""
    path, line = Office(bench).path, b"rbac: an argument is not UTF-8\n"
    for words in ([b"\xff"], ["check", b"\xff"], ["check", path, b"\xc3"], [b"check\xe9", path]):
        bench.ends(words, err=line, status=2, keeps=True, what=f"words {words}")


def check_statuses(bench):
    """The status is 0 if all is done, 1 if it is refused or stops, and 2 if the arguments are no command line."""
    path = Office(bench).path
    records = bench.write("records.csv", b"user,role\n")
    statuses = {
        "migrate FILE": 1,
        "init FILE": 1,
        "check FILE": 0,
        "replay FILE": 0,
        "replay --memory": 0,
        "import FILE CSV": 0,
        "import FILE FILE": 1,
        "export FILE": 0,
        "report FILE": 0,
        "check CSV": 1,
        "replay CSV": 1,
        "serve CSV --port 8080 --limit 1": 1,
        "import CSV CSV": 1,
        "export CSV": 1,
        "report CSV": 1,
        "help": 0,
        "replay": 2,
        "check": 2,
        "fly": 2,
    }
    for text, status in statuses.items():
        words = [records if word == "CSV" else word for word in words_of(text, path)]
        bench.same(f"the status of '{text}'", bench.run(words).status, status)
    bench.same("the status of a stop", bench.run(["replay", "--memory"], b" " * 65_537).status, 1)


def check_either(bench):
    """A replay has exactly one office: in a file or in memory."""
    path = Office(bench).path
    for text in EITHER:
        line = b"rbac: give FILE or --memory\n"
        bench.ends(words_of(text, path), err=line, status=2, given=b"{}\n", keeps=True)


def check_help(bench):
    """Help is a text on standard output, with status 0, whatever stands before it; what is at a path stays as it is."""
    path = Office(bench).path
    for text in WHOLE:
        before = bench.contents()
        done = bench.run(words_of(f"{text} --help", path), b'{"fn":"addUser","user":"ann"}\n')
        bench.same(f"'{text} --help'", (bool(done.out), done.err, done.status), (True, b"", 0))
        bench.same(f"the files after '{text} --help'", bench.contents(), before)
    for text in HELPS:
        done = bench.run(text.split())
        bench.same(f"words '{text}'", (bool(done.out), done.err, done.status), (True, b"", 0))
    for word in (b"init", b"replay", b"serve", b"import", b"export", b"report", b"check", b"migrate"):
        bench.same(f"help names {word}", word in bench.run(["--help"]).out, True)


def check_order(bench):
    """Options may be before the file and have their value after `=`."""
    path = bench.path("away")
    line = b'rbac: {"code":41,"error":"Store"}\n'
    for text in [
        "serve FILE --port 8080 --limit 3",
        "serve FILE --limit 3 --port 8080",
        "serve --port 65535 FILE --limit 1000000",
        "serve --port=1 --limit=1 FILE",
    ]:
        bench.ends(words_of(text, path), err=line, status=1)
    bench.ends(["replay", "--memory"], b'{"ok":true}\n', given=b'{"fn":"addUser","user":"ann"}')
