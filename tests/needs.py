"""What tests use besides Python: whether it is there, and the Debian packages that bring it, all of which tests/packages lists.

A check says what it needs by a mark, `@pytest.mark.needs("go", "root")`, or amid its work by `skip`. A program that is missing
when a check runs it is such a need too. A right has no package: nothing installs it. As a command it prints the rights that this
user lacks.
"""

import os
import shutil
import subprocess
import sys
import sysconfig
from collections.abc import Callable
from functools import lru_cache
from importlib.util import find_spec
from pathlib import Path
from typing import NamedTuple, NoReturn

TOP = Path(__file__).resolve().parent.parent
GOCODE = Path("/usr/share/gocode/src")

# What bin/arm64 builds, if somebody runs it.
PROGRAM_FOR_ARM64 = os.path.abspath(os.environ.get("RBAC_PROGRAM_ARM64", TOP / "out/arm64/rbac"))


class Need(NamedTuple):
    """How to see whether it is there, and the packages that bring it."""

    is_there: Callable[[], bool]
    packages: str = ""


def program(name: str) -> Callable[[], bool]:
    return lambda: shutil.which(name) is not None


def library_of_go(path: str) -> Callable[[], bool]:
    return (GOCODE / path).is_dir


def modules(*names: str) -> Callable[[], bool]:
    return lambda: all(find_spec(name) is not None for name in names)


def module_of_perl(path: str) -> Callable[[], bool]:
    return lambda: can_run("perl", "-e", 'exit !grep { -e "$_/$ARGV[0]" } @INC', path)


def is_root() -> bool:
    return os.geteuid() == 0


def can_run(*words: str) -> bool:
    return shutil.which(words[0]) is not None and subprocess.run(words, capture_output=True, check=False).returncode == 0


@lru_cache
def can_mount() -> bool:
    """Whether this process may mount a file system that nobody else sees."""
    return can_run("unshare", "--mount", "mount", "-t", "tmpfs", "tmpfs", "/mnt")


# What go.mod of the server requires directly, as Debian's packages have it.
LIBRARIES = (
    "github.com/coreos/go-systemd/daemon", "github.com/mattn/go-sqlite3", "github.com/prometheus/client_golang/prometheus",
    "go.etcd.io/etcd/clientv3", "go.uber.org/zap",
    "golang.org/x/crypto/sha3", "golang.org/x/sync/errgroup", "google.golang.org/grpc", "gopkg.in/square/go-jose.v2/jwt",
)  # fmt: skip

# The programs, by the package that brings each.
PROGRAMS = {
    "golang-go": "go", "gcc": "gcc cc", "g++": "g++ c++", "sqlite3": "sqlite3", "curl": "curl", "git": "git", "graphviz": "dot",
    "etcd-server": "etcd", "etcd-client": "etcdctl",
    "nodejs": "node", "node-typescript": "tsc", "default-jdk-headless": "javac", "maven": "mvn", "cargo": "cargo", "rustc": "rustc",
    "pkgconf": "pkg-config", "black": "black", "mypy": "mypy", "clang-format": "clang-format", "valgrind": "valgrind",
    "gcc-aarch64-linux-gnu": "aarch64-linux-gnu-gcc", "qemu-user-static": "qemu-aarch64-static",
    "chromium": "chromium", "chromium-driver": "chromedriver", "poppler-utils": "pdftotext",
    "openssl": "openssl", "openssh-client": "ssh-keygen", "strace": "strace", "psmisc": "fuser", "mount": "mount",
    "util-linux": "setpriv unshare findmnt", "iproute2": "ip",
    "nginx-light": "nginx", "haproxy": "haproxy", "logrotate": "logrotate", "rsync": "rsync", "restic": "restic",
    "slapd": "slapd slapadd slapcat", "ldap-utils": "ldapsearch ldapwhoami",
    "minisign": "minisign", "btrfs-progs": "mkfs.btrfs", "e2fsprogs": "mkfs.ext4 chattr", "procps": "pgrep", "man-db": "man mandb apropos",
    "groff": "groff", "mandoc": "mandoc", "systemd": "systemd-analyze", "systemd-container": "systemd-nspawn",
    "dpkg-dev": "dpkg-buildpackage", "debhelper": "dh dh_installsysusers", "lintian": "lintian", "fish": "fish", "zsh": "zsh",
    "prometheus": "promtool prometheus", "binutils": "readelf strip", "buildah": "buildah", "podman": "podman", "bubblewrap": "bwrap",
}  # fmt: skip

NEEDS = {name: Need(program(name), package) for package, names in PROGRAMS.items() for name in names.split()} | {
    "libraries of the server": Need(
        lambda: all((GOCODE / path).is_dir() for path in LIBRARIES),
        "golang-github-mattn-go-sqlite3-dev golang-golang-x-crypto-dev golang-gopkg-square-go-jose.v2-dev golang-etcd-server-dev "
        "golang-go.uber-zap-dev golang-golang-x-sync-dev golang-github-coreos-go-systemd-dev "
        "golang-github-prometheus-client-golang-dev libc6-dev",
    ),
    "casbin-go": Need(library_of_go("github.com/casbin/casbin"), "golang-github-casbin-casbin-dev"),
    "postgresql": Need(lambda: any(Path("/usr/lib/postgresql").glob("*/bin/initdb")), "postgresql"),
    "junit": Need(Path("/usr/share/java/junit-jupiter-api.jar").exists, "junit5"),
    "python-headers": Need(lambda: Path(sysconfig.get_paths()["include"], "Python.h").is_file(), "python3-dev"),
    "pip": Need(
        modules("setuptools", "ensurepip", "pip", "venv", "wheel"), "python3-pip python3-venv python3-setuptools python3-wheel"
    ),
    "libc-of-arm64": Need(Path("/usr/aarch64-linux-gnu/include/stdio.h").exists, "libc6-dev-arm64-cross"),
    "jsonschema": Need(modules("jsonschema"), "python3-jsonschema"),
    "openapi-specification": Need(Path("/usr/share/openapi-specification").is_dir, "openapi-specification python3-jsonschema"),
    "OpenAPI::Client": Need(module_of_perl("OpenAPI/Client.pm"), "libopenapi-client-perl"),
    "selenium": Need(modules("selenium"), "python3-selenium"),
    # Rights, and what no package brings.
    "root": Need(is_root),
    "mounts": Need(can_mount),
    "layers": Need(can_mount),
    "boots": Need(can_mount),
    "containers": Need(lambda: True),
    # Files of an image belong to other users.
    "users of images": Need(lambda: is_root() or can_run("buildah", "unshare", "true")),
    "unchangeable files": Need(lambda: True),
    "units of etcd": Need(Path("/usr/lib/systemd/system/etcd.service").exists, "etcd-server"),
    "history": Need(lambda: True),
    "program for arm64": Need(Path(PROGRAM_FOR_ARM64).is_file),
    "rt": Need(program("rt")),
    "library for arm64": Need(lambda: os.path.isfile(os.environ.get("RBAC_ARCHIVE_ARM64", ""))),
}  # fmt: skip

# Those that root has and another user lacks.
RIGHTS = ("root", "mounts", "layers", "boots", "users of images")

# What begins the reason of a skip that names a need.
REASON = "needs "


@lru_cache
def is_there(name: str) -> bool:
    if name not in NEEDS:
        raise ValueError(f"tests/needs.py doesn't know {name}")
    return NEEDS[name].is_there()


def lacking(names) -> list[str]:
    """Those that are not there."""
    return [name for name in names if not is_there(name)]


def reason_of(names, why: str = "") -> str:
    """The reason of a skip for want of these."""
    return REASON + ", ".join(names) + (f": {why}" if why else "")


def named_in(reason: str) -> list[str]:
    """The needs that the reason of a skip names."""
    return reason.removeprefix(REASON).partition(":")[0].split(", ") if reason.startswith(REASON) else []


def avoidable(reason: str) -> str:
    """How a skip for this reason can be avoided; nothing if it is for want of a right."""
    names = named_in(reason)
    if not names or not NEEDS.keys() >= set(names):
        return "tests/needs.py knows no such reason"
    packages = sorted({package for name in names for package in NEEDS[name].packages.split()})
    return f"apt-get install {' '.join(packages)}" if packages else ""


def skip(need: str, why: str = "") -> NoReturn:
    """Skips the check that runs, for want of something."""
    import pytest

    if need not in NEEDS:
        raise ValueError(f"tests/needs.py doesn't know {need}")
    pytest.skip(reason_of([need], why))


def skip_without(*names: str) -> None:
    """Skips the check that runs unless all of these are there."""
    for name in lacking(names):
        skip(name)


if __name__ == "__main__":
    print(",".join(lacking(RIGHTS)))
