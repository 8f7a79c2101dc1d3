"""The examples of docs/howto/integrate.md, section 7: built as the page says in a clean folder, and run over a front."""

import os
import shutil
import subprocess
import sys

import pytest

from front.program import Front
from front.running import FORM
from library.building import TOP, environment
from pages import markdown
from program.bench import TESTS
from program.offices import Office

from .driving import LANGUAGES

# Programs are built and run on the disk: a file system in memory may forbid running them.
ON_DISK = True

SECTION = markdown.section(markdown.page("howto/integrate.md"), "## 7. A replica in the process")
BANK = (TESTS.parent / "examples/bank.jsonl").read_bytes().splitlines(keepends=True)
GO = """package main

import (
	"context"
	"fmt"
	"log"
	"os"
	"time"

	"rbac/clients/go/rbacclient"
	"rbac/clients/go/rbacreplica"
)

%s
func main() {
	ctx := context.Background()
	office, err := rbacclient.New(rbacclient.Config{Addresses: []string{os.Args[1]}})
	if err != nil {
		log.Fatal(err)
	}
	session, err := office.OpenSession(ctx, rbacclient.SessionConfig{User: "ann"})
	if err != nil {
		log.Fatal(err)
	}
	decision, err := decide(ctx, office, session.Name())
	if err != nil {
		log.Fatal(err)
	}
	fmt.Println(decision.Reason, decision.Age <= 3*time.Second)
}
"""
PRINTED = {"python": "allowed True\n", "go": "allowed true\n"}


def block(language, number=0):
    return "".join(f"{line}\n" for line in markdown.blocks(SECTION, language)[number])


def sh(text, folder, **environ):
    done = subprocess.run(
        ["bash", "-eu", "-c", text],
        cwd=folder,
        env={**os.environ, **environ},
        stdin=subprocess.DEVNULL,
        capture_output=True,
        text=True,
        timeout=600,
        check=False,
    )
    return done.returncode, done.stdout, done.stderr


def clean_repository(bench):
    """A folder that has what the repository has, with nothing built in it."""
    folder = bench.folder.parent / "repository"
    folder.mkdir()
    for name in ("clients", "library"):
        ignored = shutil.ignore_patterns("_library*.so", "__pycache__", "target", "build")
        shutil.copytree(TOP / name, folder / name, ignore=ignored)
    for name in ("bin", "release", "VERSION"):
        (folder / name).symlink_to(TOP / name)
    return folder


@pytest.mark.parametrize("language", LANGUAGES)
def check_the_page(bench, language):
    """The commands and the program of the page for a language, over a front with the policy of the bank."""
    repository = clean_repository(bench)
    Office(bench).replay(BANK)
    with Front(bench) as front:
        program = block(language).replace("8080", str(front.port))
        if language == "python":
            (repository / "app.py").write_text(program, encoding="utf-8")
            text = f'python3() {{ {sys.executable} "$@"; }}\npython3-config() {{ {sys.executable}-config "$@"; }}\n'
            text = text if shutil.which(f"{sys.executable}-config") else ""
            status, said, error = sh(f"{text}{block('sh')}{sys.executable} app.py", repository, PYTHONPATH="")
        else:
            app = bench.folder.parent / "app"
            app.mkdir()
            (app / "main.go").write_text(GO % program, encoding="utf-8")
            status, said, error = sh("bin/library lib", repository)
            bench.same("bin/library", (status, error), (0, ""))
            go = {name: value for name, value in environment().items() if not name.startswith(("CGO_", "LD_"))}
            text = f"go mod init app 2> made\n{block('sh', 1)}./app http://127.0.0.1:{front.port}"
            status, said, error = sh(
                text, app, RBAC=str(repository), GOPROXY=go["GOPROXY"], GOFLAGS=" ".join(FORM), LD_LIBRARY_PATH=""
            )
        bench.same(f"what the example prints: {error[-2000:]}", (status, said), (0, PRINTED[language]))
