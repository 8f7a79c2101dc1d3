"""What is in the packages, and that they are made of the same bytes each time."""

import os
import re
import subprocess
from pathlib import Path

import pytest

from .running import MADE, RELEASE, ROOT, made, make


def output(*words):
    """What a command prints."""
    return subprocess.run(list(map(str, words)), capture_output=True, text=True, check=True).stdout


@pytest.mark.gate
def check_same_bytes(bench):
    """Made again with another time, mask, language and folder, and nothing compiled before, both packages have the same bytes."""
    again = bench.folder / "again"
    settings = {"TZ": "Asia/Tokyo", "LC_ALL": "C.UTF-8", "TMPDIR": bench.path(""), "GOCACHE": bench.path("compiled")}
    before = os.umask(0o077)
    try:
        make(again, os.environ[RELEASE], **settings)
    finally:
        os.umask(before)
    for package in made():
        bench.same(f"whether {package.name} is the same", (again / package.name).read_bytes() == package.read_bytes(), True)
    bench.same("what is made", sorted(os.listdir(again)), sorted(package.name for package in made()))


@pytest.mark.needs("lintian")
def check_lint(bench):
    """lintian finds no error, and warns of nothing."""
    allow = ["--allow-root"] if os.geteuid() == 0 else []
    done = subprocess.run(["lintian", *allow, *map(str, made())], capture_output=True, text=True, check=False)
    bench.same("what lintian finds", (done.returncode, done.stdout), (0, ""))


@pytest.mark.needs("readelf")
def check_node(bench):
    """The front is for any address and any number of machines, needs SQLite and the C library alone, and the program of its version."""
    rbac, node = made()
    root, other = bench.folder / "root", bench.folder / "other"
    output("dpkg-deb", "-x", node, root)
    output("dpkg-deb", "-x", rbac, other)
    files = {str(path.relative_to(root)) for path in root.rglob("*") if path.is_file()}
    wanted = {"usr/bin/rbac-node", "lib/systemd/system/rbac-node@.service", "usr/share/man/man8/rbac-node.8.gz"}
    bench.same("files that are missing", wanted - files, set())
    needed = output("readelf", "-d", root / "usr/bin/rbac-node")
    libraries = {line.split("[")[1].rstrip("]") for line in needed.splitlines() if "(NEEDED)" in line}
    bench.same("the libraries", libraries, {"libsqlite3.so.0", "libc.so.6"})
    bench.same("whether it is position independent", ("PIE" in needed, "BIND_NOW" in needed or "NOW" in needed), (True, True))
    depends = output("dpkg-deb", "-f", node, "Depends").strip().split(", ")
    version = output("dpkg-deb", "-f", node, "Version").strip()
    bench.same("what it depends on", {one.split()[0] for one in depends}, {"rbac", "libc6", "libsqlite3-0"})
    bench.same("the program that it needs", f"rbac (= {version})" in depends, True)
    text = (Path(root) / "usr/bin/rbac-node").read_bytes()
    done = subprocess.run([root / "usr/bin/rbac-node", "serve", "--help"], capture_output=True, text=True, check=False)
    bench.same("whether it serves several machines", bool(re.search(r"^ +--?etcd ", done.stdout + done.stderr, re.M)), True)
    unit = (other / "usr/share/rbac/deploy/rbac-node.service").read_text(encoding="utf-8")
    started = re.findall(r"^ExecStart=(\S+) serve .* --program (\S+) ", unit, re.M)
    bench.same("the programs of the unit for several machines", started, [("/usr/bin/rbac-node", "/usr/bin/rbac")])
    here = [path for path in (ROOT, os.environ[MADE], bench.folder) if str(path).encode() in text]
    bench.same("paths of this machine in it", here, [])
