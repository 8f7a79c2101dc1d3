"""rbac.h: which symbols the libraries export, and which codes the functions return."""

import os
import re
import shlex
import shutil
import subprocess

import pytest

from .building import STRICT, TOP, built, compile_c, run

HEADER = TOP / "library/rbac.h"


def functions():
    """Returns the names of the functions that the header declares."""
    text = re.sub(r"/\*.*?\*/", "", HEADER.read_text(encoding="utf-8"), flags=re.DOTALL)
    return sorted(re.findall(r"^(?:uint32_t|int32_t|void) (rbac_\w+)\(", text, flags=re.MULTILINE))


def check_symbols(bench):
    """The libraries export the functions of the header and nothing else, and need the C library alone."""
    shared = run(["nm", "-D", "--defined-only", built() / "librbac.so"]).split("\n")
    names = [it.split()[-1].partition("@")[0] for it in shared if it]
    bench.same("the shared library", sorted(set(names) - {"RBAC_1"}), functions())
    static = run(["nm", "-g", "--defined-only", built() / "librbac.a"]).split("\n")
    bench.same("the static library", sorted(it.split()[-1] for it in static if " T " in it or " D " in it), functions())
    about = run(["readelf", "-d", built() / "librbac.so"])
    bench.same("its soname", re.findall(r"soname: \[(.*)\]", about), ["librbac.so.1"])
    bench.same("what it needs", re.findall(r"NEEDED.*\[(.*)\]", about), ["libc.so.6"])


def check_header(bench):
    """The header alone is C99 and C++."""
    for compiler, standard, name in (("cc", "-std=c99", "alone.c"), ("c++", "-std=c++11", "alone.cc")):
        source = bench.write(name, b'#include "rbac.h"\nint use(void) { return RBAC_TABLES; }\n')
        run([compiler, standard, *STRICT, f"-I{TOP}/library", "-c", source, "-o", bench.path(f"{name}.o")])
        bench.judge(name, [])


def check_codes(bench):
    """Null pointers, closed offices, short buffers, names and rows get the codes that the header says."""
    done = subprocess.run([compile_c("interface.c", "interface")], capture_output=True, text=True, check=False, timeout=60)
    bench.same("codes", (done.stdout, done.stderr, done.returncode), ("", "", 0))


@pytest.mark.needs("gcc", "pkg-config")
def check_package_file(bench):
    """pkg-config reads rbac.pc, wherever its folder is, and a program that is built by its words runs."""
    folder = bench.folder / "a folder"
    shutil.copytree(built(), folder, ignore=lambda _, names: [name for name in names if "rbac." not in name], symlinks=True)
    where = {**os.environ, "PKG_CONFIG_PATH": str(folder), "LD_LIBRARY_PATH": str(folder)}
    bench.same("the version", run(["pkg-config", "--modversion", "rbac"], env=where).strip(), (TOP / "VERSION").read_text().strip())
    words = shlex.split(run(["pkg-config", "--cflags", "--libs", "rbac"], env=where))
    bench.same("the words", words, [f"-I{folder}", f"-L{folder}", "-lrbac"])
    source = bench.write("alone.c", b'#include <rbac.h>\nint main(void) { rbac_office o = RBAC_OFFICE_NONE; return rbac_open(&o); }\n')
    run(["cc", source, *words, "-o", bench.path("alone")])
    run([bench.path("alone")], env=where)
    bench.judge("a program over the shared library", [])
