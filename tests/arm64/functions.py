"""The functions in C that the program for arm64 is linked with do what their comments say. They are built for this machine too,
since nothing in them depends on the processor."""

import subprocess
from pathlib import Path

import pytest

from . import CROSS, QEMU

HERE = Path(__file__).resolve().parent
TOP = HERE.parent.parent
WORDS = ["-std=gnu99", "-O2", "-Wall", "-Wextra", "-Werror", "-pedantic"]
PARTS = ["arm64/os.c", "library/heap.c"]


@pytest.mark.parametrize(
    "compiler, runner",
    [
        ("cc", []),
        pytest.param(f"{CROSS}-gcc", QEMU, marks=pytest.mark.needs(f"{CROSS}-gcc", "libc-of-arm64", "qemu-aarch64-static")),
    ],
    ids=["here", "arm64"],
)
def check_functions(bench, compiler, runner):
    """Each function with what it accepts and refuses, at its limits."""
    made, file = bench.path("functions"), bench.write("file", b"")
    sources = [str(TOP / it) for it in PARTS] + [str(HERE / "functions.c")]
    subprocess.run([compiler, *WORDS, *sources, "-o", made], check=True, timeout=120)
    done = subprocess.run([*runner, made, file, "", "b", "cc"], capture_output=True, text=True, check=False, timeout=120)
    bench.same(compiler, (done.stdout, done.stderr, done.returncode), ("", "", 0))
