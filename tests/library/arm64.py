"""The library for arm64, linked by Debian's compiler for it and run by QEMU. The archive is the one that RBAC_ARCHIVE_ARM64 names."""

import os
import subprocess

import pytest

from arm64 import CROSS, QEMU

from .answers import random_script
from .building import HERE, TOP, built, run, run_language

ARCHIVE = os.environ.get("RBAC_ARCHIVE_ARM64", "")


def program(source):
    """Builds a program for arm64 over the static library."""
    folder = built() / "arm64"
    if not folder.exists():
        tools = {"CC": f"{CROSS}-gcc", "OBJCOPY": f"{CROSS}-objcopy", "AR": f"{CROSS}-ar", "RBAC_ARCHIVE": ARCHIVE}
        run([TOP / "bin/library", folder], env={**os.environ, **tools})
    made = folder / source.removesuffix(".c")
    run([f"{CROSS}-gcc", "-std=gnu99", "-O1", f"-I{TOP}/library", HERE / source, folder / "librbac.a", "-o", made])
    return made


@pytest.mark.needs("library for arm64", f"{CROSS}-gcc", "libc-of-arm64", "qemu-aarch64-static")
def check_arm64(bench):
    """Codes, and the answers to random lines."""
    done = subprocess.run([*QEMU, program("interface.c")], capture_output=True, text=True, check=False, timeout=120)
    bench.same("codes", (done.stdout, done.stderr, done.returncode), ("", "", 0))
    command = [*QEMU, program("lines.c")]
    for seed in (4, 5, 6):
        script = random_script(seed)
        given, said, status = run_language(command, b"\n".join(script.lines) + b"\n")
        bench.same(f"seed {seed}", (given, said, status), (script.wanted, b"", 0))
