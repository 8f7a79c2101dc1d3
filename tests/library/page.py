"""The examples of docs/howto/embed.md: each is built as the page says, and prints what the page shows."""

import os
import subprocess
import sys

import pytest

from pages import markdown

from .building import LANGUAGES, TOP, built, go_program, run, rust_program

PAGE = markdown.page("howto/embed.md")

# The commands of the page: to install the library, to build a program then, and to do both without installing anything.
INSTALLS, BUILDS, IN_A_FOLDER = ("\n".join(lines) for lines in markdown.blocks(markdown.section(PAGE, "## 2. Building it"), "sh"))

# A system whose /usr/local is empty, and that ldconfig may change. These mounts are those of the commands alone.
EMPTY = """
mount -t tmpfs tmpfs {work}
mkdir {work}/upper {work}/work
mount -t overlay overlay -o lowerdir=/etc,upperdir={work}/upper,workdir={work}/work /etc
mount -t tmpfs tmpfs /var/cache/ldconfig
mount -t tmpfs tmpfs /usr/local
"""

PLAIN = {"PATH": "/usr/sbin:/usr/bin:/sbin:/bin", "HOME": "/root"}


def example(language):
    """Returns the first example in a language."""
    return "".join(f"{line}\n" for line in markdown.blocks(PAGE, language.lower())[0])


def c_program(bench):
    source = bench.write("example.c", example("c").encode())
    run(["cc", "-Wall", "-Wextra", "-Werror", f"-I{TOP}/library", source, built() / "librbac.a", "-o", bench.path("example")])
    return [bench.path("example")]


# What builds the example in each language: its command.
PROGRAMS = {
    "C": c_program,
    "Python": lambda bench: [sys.executable, bench.write("example.py", example("python").encode())],
    "Go": lambda _: [go_program(example("go"), "example_go")],
    "Rust": lambda bench: [rust_program(bench.write("example.rs", example("rust").encode()), "example_rust")],
}


@pytest.mark.parametrize("language", LANGUAGES)
def check_example(bench, language):
    """The example in a language."""
    command = PROGRAMS[language](bench)
    where = {**os.environ, "LD_LIBRARY_PATH": str(built()), "PYTHONPATH": str(built() / "python")}
    done = subprocess.run([str(it) for it in command], capture_output=True, text=True, check=False, env=where, timeout=60)
    bench.same(language, (done.stdout, done.stderr, done.returncode), ("granted\n", "", 0))


def shell(bench, what, commands, wanted, folder, *before):
    """Counts whether commands of the page print what they should."""
    words = [*before, "sh", "-eu", "-c", commands]
    done = subprocess.run(words, cwd=folder, env=PLAIN, capture_output=True, text=True, timeout=300, check=False)
    bench.same(what, (done.returncode, done.stdout, done.stderr), (0, wanted, ""))


@pytest.mark.needs("pkg-config", "mounts", "root")
def check_installed(bench):
    """The library is installed by the commands of the page, and a program is built and run where the repository isn't there any more."""
    (bench.folder / "app").mkdir()
    (bench.folder / "app/app.c").write_text(example("c"), encoding="utf-8")
    (bench.folder / "work").mkdir()
    empty = EMPTY.format(work=bench.path("work"))
    hidden = f"mount -t tmpfs tmpfs '{TOP}'\n[ ! -e '{TOP}/library' ]\ncd '{bench.path('app')}'\n"
    shell(bench, "a program over the installed library", f"{empty}{INSTALLS}\n{hidden}{BUILDS}\n", "granted\n", TOP, "unshare", "-m")
    shell(bench, "without ldconfig", f"{empty}{INSTALLS.replace('ldconfig', ':')}\n{hidden}{BUILDS} 2>/dev/null || echo missing", "missing\n", TOP, "unshare", "-m")


@pytest.mark.needs("pkg-config")
def check_in_a_folder(bench):
    """The commands of the page for somebody who may not install anything, in a folder that has what the repository has."""
    for name in ("bin", "library", "release", "VERSION"):
        (bench.folder / name).symlink_to(TOP / name)
    (bench.folder / "app.c").write_text(example("c"), encoding="utf-8")
    shell(bench, "both programs", f"{IN_A_FOLDER}\n./app\ncd /\n'{bench.folder}/app'\n", "granted\n" * 2, bench.folder)
    shell(bench, "the one with the library in itself", "rm -r lib\n./app-alone\n./app 2>/dev/null || echo missing\n", "granted\nmissing\n", bench.folder)
