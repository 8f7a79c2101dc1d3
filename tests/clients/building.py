"""The clients as packages: what bin/clients writes, their form, what compilers and checkers find, and how they are installed."""

import json
import os
import re
import shutil
import subprocess
from pathlib import Path

from program.bench import TESTS
from program.offices import small_office
from program.web import HOST, Server

import pytest

from .driving import DRIVERS, ROOT, SHORT, go_environment

# Programs are built and run on the disk: a file system in memory may forbid running them.
ON_DISK = True

PYTHON = ROOT / "clients/python"
GO = ROOT / "clients/go/rbacclient"
NODE = ROOT / "clients/javascript"
JAVA = ROOT / "clients/java"

# Where Debian keeps the libraries and plugins of Maven.
MAVEN = Path("/usr/share/maven-repo")

# The longest lines of sources in Python, and of those in JavaScript.
WIDTH, MOST_COLUMNS = "128", 140

# Programs that print what a decision is: of a session that may, and of one that doesn't exist.
ASKING = {
    "python": """import os
import rbac_client
from rbac_client.middleware import needs

office = rbac_client.Client(os.environ["RBAC"])
decisions: list[rbac_client.Decision] = [office.check(session, "open", "safe") for session in ("s1", "s2")]


@needs(office, lambda: "s1", "open", "safe")
def page(number: int) -> str:
    return str(number)


def wrong() -> None:
    page("one")  # type: ignore[arg-type]


print(*(decision.reason.value for decision in decisions), *office.authorized_roles("ann"), *[page(1), wrong][2:])
""",
    "go": """package main

import (
	"context"
	"fmt"
	"log"
	"os"

	"rbac/clients/go/rbacclient"
)

func main() {
	office, err := rbacclient.New(rbacclient.Config{Addresses: []string{os.Getenv("RBAC")}})
	if err != nil {
		log.Fatal(err)
	}
	ctx := context.Background()
	roles, err := office.AuthorizedRoles(ctx, "ann")
	first, second := office.Check(ctx, "s1", "open", "safe"), office.Check(ctx, "s2", "open", "safe")
	fmt.Println(first.Reason, second.Reason, roles[0], roles[1])
}
""",
}
ASKING[
    "typescript"
] = """import { Client, Decision, guard, type ImportReport, type Permission } from "rbac-client";

declare const process: { env: Record<string, string> };
declare const console: { log(...words: unknown[]): void };

const office = new Client({ addresses: process.env.RBAC ?? "", timeout: 20_000 });
const decisions: Decision[] = await Promise.all(["s1", "s2"].map((name) => office.check(name, "open", "safe")));
const roles: string[] = await office.authorizedRoles("ann");
const permissions: Permission[] = await office.sessionPermissions("s1");
const object: string = permissions[0]![0];
const report: ImportReport = await office.importAssignments("user,role\\n");
const passes = guard(office, (request: { url: string }) => [request.url, object], () => undefined);
// @ts-expect-error: a name is no list of names
const wrong = () => office.createSession("ann", "boss", "s3");
console.log(...decisions.map((one) => one.reason), ...roles.slice(0, report.assigned + 2), ...[passes, wrong].slice(2));
"""
ASKING[
    "java"
] = """import rbac.client.Client;

class Asking {
    public static void main(String[] arguments) {
        var office = Client.of(System.getenv("RBAC")).build();
        var decisions = office.check("s1", "open", "safe").reason() + " " + office.check("s2", "open", "safe").reason();
        System.out.println(decisions + " " + String.join(" ", office.authorizedRoles("ann")));
    }
}
"""
PRINTED = "allowed ended_session boss clerk\n"


def run(*words, cwd=None, env=None, seconds=600):
    """The status of a command and what it prints."""
    done = subprocess.run(
        [str(word) for word in words],
        cwd=cwd,
        env=env,
        stdin=subprocess.DEVNULL,
        stdout=subprocess.PIPE,
        stderr=subprocess.STDOUT,
        text=True,
        timeout=seconds,
        check=False,
    )
    return done.returncode, done.stdout


def check_written(bench):
    """bin/clients would change nothing, and the versions of the packages are that of the program."""
    bench.same("bin/clients --check", run(ROOT / "bin/clients", "--check"), (0, ""))
    bench.same("bin/clients with another argument", run(ROOT / "bin/clients", "--all")[0], 2)
    version = (ROOT / "VERSION").read_text(encoding="utf-8").strip()
    for name, pattern in VERSIONS.items():
        found = re.findall(pattern, (ROOT / name).read_text(encoding="utf-8"), re.M)
        bench.same(f"the version in {name}", found, [version])
    for folder in PACKAGES:
        bench.same(f"the licence of {folder}", (ROOT / folder / "LICENSE").read_bytes(), (ROOT / "LICENSE").read_bytes())
        bench.same(f"the page of {folder}", (ROOT / folder / "README.md").is_file(), True)


# The folders that are packages of their own, with a licence and a page.
PACKAGES = ["clients/python", "clients/javascript", "clients/java", "clients/go/rbacclient", "clients/rust/rbac_office"]

VERSIONS = {
    "clients/python/pyproject.toml": r'^version = "(.*)"$',
    "clients/python/rbac_client/__init__.py": r'^__version__ = "(.*)"$',
    "clients/rust/rbac_office/Cargo.toml": r'^version = "(.*)"$',
    "clients/javascript/package.json": r'^  "version": "(.*)",$',
    "clients/java/pom.xml": r"^  <version>(.*)</version>$",
}


@pytest.mark.gate
@pytest.mark.needs("mypy", "black")
def check_python_form(bench):
    """mypy finds nothing with --strict, and black changes nothing."""
    for words in (["rbac_client"], [ROOT / "bin/clients"], ["--python-version", "3.11", "rbac_policy"]):
        found = run("mypy", "--strict", "--cache-dir", bench.path("types"), *words, cwd=PYTHON)
        bench.same("what mypy finds", (found[0], found[1].partition(":")[0]), (0, "Success"))
    sources = [
        PYTHON / "rbac_client",
        PYTHON / "rbac_policy",
        TESTS / "policy",
        PYTHON / "tests",
        ROOT / "bin/clients",
        TESTS / "clients",
        ROOT / "examples/web/app.py",
    ]
    bench.same("what black would change", run("black", "-q", "--check", "-l", WIDTH, *sources), (0, ""))


@pytest.mark.gate
@pytest.mark.needs("go")
def check_go_form(bench):
    """gofmt changes nothing, and `go vet` finds nothing in the client, its driver and its example."""
    for folder in (GO, DRIVERS / "go", ROOT / "examples/web/go", ROOT / "bench/clients/go"):
        bench.same(f"what gofmt would change in {folder.name}", run("gofmt", "-l", ".", cwd=folder), (0, ""))
        bench.same(f"what go vet finds in {folder.name}", run("go", "vet", "./...", cwd=folder, env=go_environment()), (0, ""))
    found = run("go", "list", "-deps", ".", cwd=GO, env=go_environment(CGO_ENABLED="0"))[1].split()
    foreign = [name for name in found if "." in name.split("/")[0]]
    bench.same("packages that the client in Go needs besides", foreign, [])


def asked(bench, what, *command, **more):
    """Counts whether a program of ASKING prints what it should for a server of the small office."""
    with Server(bench, small_office(bench).path, 100) as server:
        environment = {**more.pop("env", os.environ), "RBAC": f"http://{HOST}:{server.port}"}
        status, said = run(*command, env=environment, **more)
        bench.same(what, (status, said.splitlines(keepends=True)[-1:]), (0, [PRINTED]))


@pytest.mark.gate
@pytest.mark.needs("mypy", "pip")
def check_python_installed(bench):
    """pip installs the client into a new environment, without a network, and its types come with it."""
    python = "/usr/bin/python3"
    folder = bench.folder.parent
    shutil.copytree(PYTHON, folder / "source", ignore=shutil.ignore_patterns("build", "*.egg-info", "__pycache__"))
    done = run(python, "-m", "venv", "--system-site-packages", "new", cwd=folder)
    bench.same("the environment", done[0], 0)
    own = folder / "new/bin/python"
    words = ["--no-index", "--no-deps", "--no-build-isolation", "--disable-pip-version-check", "-q"]
    bench.same("pip install", run(own, "-m", "pip", "install", *words, folder / "source"), (0, ""))
    (folder / "asking.py").write_text(ASKING["python"], encoding="utf-8")
    clean = {name: value for name, value in os.environ.items() if name != "PYTHONPATH"}
    asked(bench, "the installed client in Python", own, "asking.py", cwd=folder, env=clean)
    for name in ("rbac-policy", "rbac-people"):
        bench.same(f"the first word of {name}", run(folder / "new/bin" / name, "--help", env=clean)[1][:6], "usage:")
    found = run("mypy", "--strict", "--python-executable", own, "--cache-dir", "types", "asking.py", cwd=folder, env=clean)
    bench.same("what mypy finds in a program that uses it", (found[0], found[1].partition(":")[0]), (0, "Success"))


@pytest.mark.gate
@pytest.mark.needs("go")
def check_go_installed(bench):
    """A new module gets the client by a replace, without a network. It calls no C."""
    folder = bench.folder.parent / "app"
    folder.mkdir()
    (folder / "main.go").write_text(ASKING["go"], encoding="utf-8")
    name = "rbac/clients/go/rbacclient"
    for words in (
        ["mod", "init", "app"],
        ["mod", "edit", "-require", f"{name}@v0.0.0", "-replace", f"{name}={GO}"],
        ["mod", "tidy"],
        ["build", "-o", "asking", "."],
    ):
        status, said = run("go", *words, cwd=folder, env=go_environment(CGO_ENABLED="0"))
        bench.judge(f"go {' '.join(words)}", [] if status == 0 else [said])
    asked(bench, "the installed client in Go", folder / "asking")


@pytest.mark.needs("tsc")
def check_typescript_form(bench):
    """tsc finds nothing with --strict, and would write the declarations that are there: those that index.d.ts leads to."""
    bench.same("what tsc finds", run("tsc", "-p", NODE, "--outDir", bench.path("types")), (0, ""))
    written = {path.name: path.read_text(encoding="utf-8") for path in (bench.folder / "types").iterdir()}
    present = {path.name: path.read_text(encoding="utf-8") for path in (NODE / "types").iterdir()}
    reached, ahead = set(), ["index.d.ts"]
    while ahead:
        name = ahead.pop()
        if name not in reached:
            reached.add(name)
            ahead += [f"{one}.d.ts" for one in re.findall(r'"\./(\w+)\.js"', written[name])]
    bench.same("the declarations", present, {name: written[name] for name in reached})


def check_javascript_form(bench):
    """The sources in JavaScript have the form that the rest has, since Debian has no formatter that reads them."""
    sources = [
        *(NODE / "src").glob("*.js"),
        *(NODE / "test").glob("*.js"),
        *(NODE / "testing").glob("*.js"),
        ROOT / "examples/web/app.mjs",
        DRIVERS / "driver.mjs",
        ROOT / "bench/clients/decide.mjs",
    ]
    faults = []
    for source in sources:
        text = source.read_text(encoding="utf-8")
        faults += [f"{source.name}:{number}: {fault}" for number, fault in faults_of_form(text)]
    bench.judge("the form of the sources in JavaScript", faults[:5])


def faults_of_form(text):
    """What is wrong with the form of a text, by its lines: indents by two, short lines, double quotes, semicolons, no blanks at ends."""
    if not text.endswith("\n") or text.endswith("\n\n") or "\n\n\n" in text:
        yield 0, "empty lines, or no end of a line"
    before, lines = 0, text.splitlines()
    for number, line in enumerate(lines, 1):
        goes_on = "".join(lines[number : number + 1]).lstrip().startswith(("?", ".", "|", "&"))
        indent = len(line) - len(line.lstrip(" "))
        is_comment = line.lstrip().startswith(("*", "//", "/*"))
        if len(line) > MOST_COLUMNS or line != line.rstrip() or "\t" in line or "\r" in line:
            yield number, "a long line, or a tab or a blank at its end"
        if line and (indent % 2 != line.lstrip().startswith("*") or indent > before + 2 + is_comment):
            yield number, f"an indent of {indent} after {before}"
        if not is_comment and re.search(r"^[^\"`/]*'[^\"']*'", line):
            yield number, "single quotes"
        if not goes_on and re.search(
            r"^\s*(const|let|return|throw|import|break|continue)\b.*[\w)\]\"`]$", line.partition(" // ")[0]
        ):
            yield number, "no semicolon"
        if re.search(r"(?<!\.)\b(if|for|while|switch|catch)\(|\)\{|\belse\{|\bvar ", line) and not is_comment:
            yield number, "no blank before a parenthesis or a brace, or `var`"
        if line:
            before = indent


@pytest.mark.needs("clang-format")
def check_java_form(bench):
    """clang-format changes nothing in the sources in Java that were written by hand."""
    sources = [*(JAVA / "src").rglob("*.java"), ROOT / "examples/web/App.java"]
    sources += [DRIVERS / "Driver.java", ROOT / "bench/clients/Decide.java"]
    sources = [source for source in sources if source.name != "Functions.java"]
    style = f"--style=file:{JAVA}/.clang-format"
    found = run("clang-format", style, "--dry-run", "--Werror", *sources)
    bench.same("what clang-format would change", (found[0], found[1][:500]), (0, ""))


# What npm puts into a package besides the files that package.json names.
ALWAYS = ("package.json", "README.md", "LICENSE")


@pytest.mark.gate
@pytest.mark.needs("node", "tsc")
def check_node_installed(bench):
    """The files that package.json names are enough, in a folder as npm installs them. TypeScript finds the types there."""
    folder = bench.folder.parent / "app"
    own = folder / "node_modules/rbac-client"
    own.mkdir(parents=True)
    about = json.loads((NODE / "package.json").read_text(encoding="utf-8"))
    for name in (*ALWAYS, *about["files"]):
        source = NODE / name
        (shutil.copytree if source.is_dir() else shutil.copy)(source, own / name)
    bench.same("what it depends on", [key for key in about if key.lower().endswith("dependencies")], [])
    (folder / "package.json").write_text('{"name": "app", "private": true, "type": "module"}', encoding="utf-8")
    (folder / "asking.ts").write_text(ASKING["typescript"], encoding="utf-8")
    words = ["--strict", "--module", "node16", "--moduleResolution", "node16", "--target", "es2022", "--lib", "es2022"]
    bench.same("what tsc finds in a program that uses it", run("tsc", *words, "asking.ts", cwd=folder), (0, ""))
    asked(bench, "the installed client for Node", "node", "asking.js", cwd=folder)


def maven(folder, *words):
    """Runs Maven in a folder beside a repository that has what Debian has, without a network."""
    if not (folder.parent / "repository").exists():
        shutil.copytree(MAVEN, folder.parent / "repository", symlinks=False, copy_function=os.symlink)
        settings = f"<settings><localRepository>{folder.parent}/repository</localRepository><offline>true</offline></settings>"
        (folder.parent / "settings.xml").write_text(settings, encoding="utf-8")
    short = " ".join(SHORT)
    given = ["-o", "-q", "-B", "-s", "../settings.xml", f"-DargLine={short}"]
    return run("mvn", *given, *words, cwd=folder, env={**os.environ, "MAVEN_OPTS": short})


@pytest.mark.gate
@pytest.mark.needs("mvn", "javac", "junit")
def check_java_installed(bench):
    """Maven builds and installs the client from Debian's repository, and javac finds it there. Its tests are run by tests/native."""
    folder = bench.folder.parent
    shutil.copytree(JAVA, folder / "source", ignore=shutil.ignore_patterns("target"))
    status, said = maven(folder / "source", "-Dmaven.test.skip=true", "install")
    bench.judge("mvn install", [] if status == 0 else [said[-2000:]])
    version = (ROOT / "VERSION").read_text(encoding="utf-8").strip()
    own = folder / f"repository/rbac/rbac-client/{version}/rbac-client-{version}.jar"
    (folder / "Asking.java").write_text(ASKING["java"], encoding="utf-8")
    words = ["javac", "-Xlint:all", "-Werror", "--release", "11", "-cp", own, "Asking.java"]
    bench.same("what javac finds in a program that uses it", run(*words, cwd=folder), (0, ""))
    asked(bench, "the installed client in Java", "java", "-cp", f"{own}:.", "Asking", cwd=folder)
