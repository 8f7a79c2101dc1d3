"""The manual page: it is rendered without a warning, has each command with its arguments, and its examples print what it shows."""

import os
import re
import shutil
import signal
import subprocess

import pytest

from program.web import Server, post, reply

from . import command_line, markdown, sources
from .shell import Shell

PATH = markdown.DOCS / "rbac.1"
SOURCE = PATH.read_text(encoding="ascii")

# The programs that render a page and report its faults. Each one that is installed is used.
RENDERING = [
    ["man", "--warnings", "--local-file", str(PATH)],
    ["groff", "-man", "-ww", "-z", str(PATH)],
    ["mandoc", "-T", "lint", "-W", "warning", str(PATH)],
]

# The sections, in the order of man-pages(7), with COMMANDS before OPTIONS and SIGNALS after FILES.
SECTIONS = ["NAME", "SYNOPSIS", "DESCRIPTION", "COMMANDS", "OPTIONS", "EXIT STATUS", "FILES", "SIGNALS", "VERSION"]
SECTIONS += ["STANDARDS", "BUGS", "EXAMPLES", "SEE ALSO"]

# The macros that the page may use, and those that join their words without a space.
MACROS = {"TH", "SH", "TP", "PP", "SY", "YS", "EX", "EE", "RS", "RE", "B", "I", "BR", "BI", "IB", "IR"}
JOINING = {"BR", "BI", "IB", "IR"}

# The texts of some escapes.
ESCAPES = {r"\~": " ", r"\-": "-", r"\(aq": "'", r"\e": "\\"}


def plain(text):
    """A text of the page without its escapes."""
    return re.sub(r"\\(?:\(aq|[-~e])", lambda found: ESCAPES[found[0]], text)


def words_of(line):
    """The text that a line shows, whether it is a macro's or a text alone."""
    macro, _, rest = line.removeprefix(".").partition(" ") if line.startswith(".") else ("", "", line)
    words = re.findall(r'"([^"]*)"|(\S+)', rest)
    text = [quoted or word for quoted, word in words]
    return plain(("" if macro in JOINING else " ").join(text)) if macro else plain(line)


def section(name):
    """The lines of a section."""
    (found,) = re.findall(rf"^\.SH {name}\n(.*?)(?=^\.SH |\Z)", SOURCE, re.M | re.S)
    return found.splitlines()


def forms(lines):
    """The forms of a command line that tagged paragraphs begin with."""
    return [words_of(line) for before, line in zip(lines, lines[1:]) if before == ".TP"]


def synopsis():
    """The forms of the section that lists them."""
    found = re.findall(r"^\.SY rbac\n(.*?)\n\.YS", "\n".join(section("SYNOPSIS")), re.M | re.S)
    return [" ".join(words_of(line) for line in form.splitlines()) for form in found]


@pytest.mark.parametrize("words", [pytest.param(words, id=words[0], marks=pytest.mark.needs(words[0])) for words in RENDERING])
def check_rendered(bench, words):
    """The page is rendered without a warning by each program that renders pages."""
    settings = {**os.environ, "LC_ALL": "C.UTF-8", "MANWIDTH": "80"}
    done = subprocess.run(words, capture_output=True, env=settings, stdin=subprocess.DEVNULL, check=False)
    said = done.stderr if words[0] == "man" else done.stdout + done.stderr
    bench.same(f"what {words[0]} warns of", (done.returncode, said), (0, b""))
    if words[0] == "man":
        for title in SECTIONS:
            bench.same(f"{title} is rendered", title.encode() in done.stdout, True)


@pytest.mark.needs("mandb", "apropos")
def check_name(bench):
    """apropos finds the page, in a list of pages that mandb makes of it."""
    (line,) = section("NAME")
    name, says = line.split(r" \- ")
    bench.same("the name", name, "rbac")
    for word in ("role", "access"):
        bench.same(f"{word} is in the line", bool(re.search(rf"\b{word}\b", says)), True)
    pages = bench.folder / "pages"
    (pages / "man1").mkdir(parents=True)
    shutil.copy(PATH, pages / "man1")
    run(["mandb", "--create", "--quiet", str(pages)])
    for word in ("role", "access", name):
        found = run(["apropos", "--long", "--manpath", str(pages), word])
        bench.same(f"what apropos finds for {word}", re.sub(" +", " ", found), f"{name} (1) - {says}\n")
    bench.same("what apropos finds for another word", run(["apropos", "--manpath", str(pages), "zebra"]), "")


def run(words):
    """What a command prints."""
    return subprocess.run(words, capture_output=True, text=True, stdin=subprocess.DEVNULL, check=False).stdout


def check_macros(bench):
    """Each line is a text or a macro that is known, and what a macro opens is closed."""
    lines = SOURCE.splitlines()
    version = (sources.ROOT / "VERSION").read_text(encoding="ascii").strip()
    first = rf'\.TH RBAC 1 \d{{4}}-\d\d-\d\d "Bitzolanu {re.escape(version)}" "User commands"'
    bench.same("the first line", bool(re.fullmatch(first, lines[0])), True)
    bench.same("the version", f"This page describes version {version}." in section("VERSION"), True)
    bench.same("the version that the program prints", command_line.version(), version)
    used = [line[1:].split(" ")[0] for line in lines if line.startswith(".")]
    bench.same("unknown macros", set(used) - MACROS, set())
    bench.same("lines that begin with a quote, or are empty", [line for line in lines if not line or line[0] == "'"], [])
    for first, last in (("SY", "YS"), ("EX", "EE"), ("RS", "RE")):
        wanted = [first, last] * used.count(first)
        bench.same(f"each {first} is closed", [word for word in used if word in (first, last)], wanted)
    bench.same("the sections", re.findall(r"^\.SH (.*)$", SOURCE, re.M), SECTIONS)


def check_commands(bench):
    """The commands and their arguments are those that the program lists, in their order, and so are the options."""
    bench.same("the forms of the synopsis", synopsis(), command_line.forms())
    bench.same("the forms of the commands", forms(section("COMMANDS")), [*command_line.forms(), "help"])
    wanted = {*command_line.options(), "-h, --help", "--"}
    bench.same("the options", sorted(forms(section("OPTIONS"))), sorted(wanted))


def check_statuses(bench):
    """The exit statuses, the constant lines of standard error and the causes of a stop are those of the sources."""
    lines = section("EXIT STATUS")
    statuses = {form for form in forms(lines) if form.isdigit()}
    bench.same("the exit statuses", set(map(int, statuses)), sources.exits())
    wanted = {*sources.error_lines(), "rbac: REFUSAL", "rbac: stop CAUSE after K"}
    bench.same("the lines of standard error", set(forms(lines)) - statuses, wanted)
    text = " ".join(words_of(line) for line in lines)
    causes = set(re.findall(r"\b[A-Z][a-z]+\b", text.partition("CAUSE is ")[2].partition(" rbac: ")[0]))
    bench.same("the causes", causes, sources.causes())


def check_signals(bench):
    """A signal that the page names ends a server, and what was answered is kept. A server ignores SIGPIPE."""
    ending = set(re.findall(r"SIG[A-Z]+", " ".join(section("SIGNALS")))) - {"SIGPIPE"}
    bench.same("signals are named", bool(ending), True)
    path = bench.path("office")
    bench.ends(["init", path], makes=["office"])
    for place, name in enumerate(["SIGPIPE", *sorted(ending)]):
        number = getattr(signal, name)
        # A shell may have made this process ignore it, which the program would inherit.
        if name != "SIGPIPE":
            signal.signal(number, signal.SIG_DFL)
        with Server(bench, path, 2) as server:
            said = server.ask(post("addUser", b'{"user":"ann%d"}' % place))
            bench.same(f"the answer before {name}", said, reply(200, b'{"ok":true}'))
            server.process.send_signal(number)
            if name == "SIGPIPE":
                said = server.ask(post("deleteUser", b'{"user":"ann%d"}' % place))
                bench.same("the answer after SIGPIPE", said, reply(200, b'{"ok":true}'))
                server.ends()
            else:
                server.ends(status=-number)
                ask = b'{"fn":"deleteUser","user":"ann%d"}' % place
                done = bench.run(["replay", path], ask)
                bench.same(f"what is kept after {name}", done.out, b'{"ok":true}\n')


def check_numbers(bench):
    """The port and the number of connections are those that the program accepts, the number of functions is that of the sources."""
    text = " ".join(words_of(line) for line in SOURCE.splitlines())
    for name, (least, most) in command_line.ranges().items():
        said = rf"\b{command_line.LETTERS[name]} (?:is )?from {least} to {most:,}"
        bench.same(f"the range of {name}", bool(re.search(said, text)), True)
    bench.same("the number of functions", f" {len(sources.functions())} functions " in text, True)


def check_examples(bench):
    """The commands of the examples print what is shown below them."""
    blocks = re.findall(r"^\.EX\n(.*?)^\.EE$", SOURCE, re.M | re.S)
    bench.same("examples exist", bool(blocks), True)
    with Shell(bench) as reader:
        for block in blocks:
            reader.console([plain(line) for line in block.splitlines()])
