"""Builds the library, and a program in each language that answers lines. The folder is that of the variable RBAC_BUILT."""

import os
import shutil
import subprocess
import sys
import sysconfig
from pathlib import Path

import pytest

from needs import lacking

TESTS = Path(__file__).resolve().parent.parent
TOP = TESTS.parent
HERE = TESTS / "library"
ARCHIVE = os.path.abspath(os.environ.get("RBAC_ARCHIVE", TOP / "release/librbac_c.a"))
STRICT = ["-Wall", "-Wextra", "-Werror", "-pedantic"]

# What each language needs besides a compiler of C, and all of them as parameters.
NEEDED = {"C": [], "Python": ["python-headers"], "Go": ["go"], "Rust": ["rustc"]}
LANGUAGES = [pytest.param(language, marks=pytest.mark.needs(*names)) for language, names in NEEDED.items()]


def built():
    """Returns the folder in which everything is built."""
    return Path(os.environ["RBAC_BUILT"])


def run(command, **how):
    """Runs a command, and raises an error with its output if it fails."""
    done = subprocess.run([str(it) for it in command], capture_output=True, text=True, check=False, timeout=600, **how)
    if done.returncode:
        raise RuntimeError(f"{command[0]} ended with status {done.returncode}: {done.stdout[-1000:]} {done.stderr[-3000:]}")
    return done.stdout


def compile_c(source, name, *words, parts=()):
    """Compiles a program in C over the static library, or over the proved archive if `parts` names files of library/."""
    libraries = [*(TOP / "library" / it for it in parts), ARCHIVE] if parts else [built() / "librbac.a"]
    command = ["cc", "-std=gnu99", "-O1", *STRICT, f"-I{TOP}/library", *words, HERE / source, *libraries, "-pthread"]
    run([*command, "-o", built() / name])
    return built() / name


def is_there(language):
    """Returns whether programs in a language can be built."""
    return not lacking(NEEDED[language])


def build_python():
    """Builds the module, in a copy of its folder."""
    shutil.copytree(TOP / "clients/python/rbac_office", built() / "python/rbac_office")
    module = built() / f"python/rbac_office/_library{sysconfig.get_config_var('EXT_SUFFIX')}"
    include = f"-I{sysconfig.get_paths()['include']}"
    source = TOP / "clients/python/rbac_office/_library.c"
    run(["cc", "-shared", "-fPIC", "-O2", "-Wall", "-Wextra", include, f"-I{TOP}/library", source, built() / "librbac.a", "-pthread", "-o", module])


def environment():
    """Returns the variables with which programs in Go are built and run."""
    flags = {"CGO_CFLAGS": f"-I{TOP}/library", "CGO_LDFLAGS": f"-L{built()}", "LD_LIBRARY_PATH": str(built())}
    return {**os.environ, **flags, "GOFLAGS": "-mod=mod", "GOPROXY": "off", "GO111MODULE": "on", "CGO_ENABLED": "1"}


def go_program(text, name):
    """Builds a program in Go that uses the package of clients/go."""
    folder = built() / f"go-{name}"
    folder.mkdir()
    shutil.copytree(TOP / "clients/go", folder / "client")
    (folder / "main.go").write_text(text, encoding="utf-8")
    needs = "require rbac/clients/go v0.0.0\n\nreplace rbac/clients/go => ./client\n"
    (folder / "go.mod").write_text(f"module {name}\n\ngo 1.19\n\n{needs}", encoding="utf-8")
    run(["go", "build", "-o", built() / name, "."], cwd=folder, env=environment())
    return built() / name


def rust_program(source, name):
    """Builds a program in Rust that uses the crate of clients/rust."""
    crate = built() / "librbac_office.rlib"
    words = ["rustc", "--edition", "2021", "-O", "-D", "warnings"]
    if not crate.exists():
        run([*words, "--crate-type", "rlib", "--crate-name", "rbac_office", TOP / "clients/rust/rbac_office/src/lib.rs", "-o", crate])
    run([*words, source, "--extern", f"rbac_office={crate}", "-L", f"native={built()}", "-o", built() / name])
    return built() / name


def build_all():
    """Builds the library, and the programs in the languages that are there."""
    run([TOP / "bin/library", built()], env={**os.environ, "RBAC_ARCHIVE": ARCHIVE})
    compile_c("lines.c", "lines_c")
    if is_there("Python"):
        build_python()
    if is_there("Go"):
        go_program((HERE / "lines.go").read_text(encoding="utf-8"), "lines_go")
    if is_there("Rust"):
        rust_program(HERE / "lines.rs", "lines_rust")


def command_of(language):
    """Returns the command that answers lines in a language."""
    return {
        "C": [built() / "lines_c"],
        "Python": [sys.executable, HERE / "lines.py"],
        "Go": [built() / "lines_go"],
        "Rust": [built() / "lines_rust"],
    }[language]


def run_language(command, text, seconds=600):
    """Returns the lines that a language answers, and what it wrote to standard error."""
    where = {**os.environ, "LD_LIBRARY_PATH": str(built()), "PYTHONPATH": str(built() / "python")}
    done = subprocess.run([str(it) for it in command], input=text, capture_output=True, timeout=seconds, check=False, env=where)
    return done.stdout.split(b"\n")[:-1], done.stderr, done.returncode
